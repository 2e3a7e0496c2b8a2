// The part of `selftest` about tables: counts and totals against the answer sets by the definition.

use crate::book::Book;
use crate::claim::{certain, clear};
use crate::meaning::{answer_sets, holds};
use crate::numbers::Atom;
use crate::random::Random;
use crate::shapes::{random_book, SHAPES};
use crate::table::{count, Totals};

const TABLES: usize = 3_000;

/// Gives the number of tables.
pub fn tables(random: &mut Random) -> usize {
    for number in 0..TABLES {
        let mut told = Totals::default();
        let mut meant = Totals::default();
        for _ in 0..random.from_to(0, 6) {
            let atoms = random.from_to(0, 5);
            let rules = random.from_to(0, 8);
            let book = random_book(random, atoms, rules, SHAPES[number % SHAPES.len()]);
            add_told(&book, &mut told);
            add_meant(&book, &mut meant);
        }
        assert_eq!(told, meant);
        assert_eq!(told.certain + told.some + told.none, told.atoms);
    }
    TABLES
}

/// By the whole walk, with just the tries that it needs; with one less it is stopped.
fn add_told(book: &Book, totals: &mut Totals) {
    let (_, tries) = count(book, 1_000_000);
    assert!(count(book, tries - 1).0.is_none());
    let counted = count(book, tries).0.expect("the tries that it needs");
    let sets = answer_sets(book);
    assert_eq!(counted.sets, sets.len() as u64);
    for (atom, standing) in counted.standing.iter().enumerate() {
        let holding = sets.iter().filter(|set| set.has(Atom(atom as u8))).count();
        assert_eq!(*standing, holding as u64);
    }
    totals.add(&counted);
}

fn add_meant(book: &Book, totals: &mut Totals) {
    let sets = answer_sets(book);
    if sets.is_empty() {
        return;
    }
    for atom in 0..book.atoms as u8 {
        let held = sets.iter().any(|set| set.has(Atom(atom)));
        let lacked = sets.iter().any(|set| !set.has(Atom(atom)));
        totals.atoms += 1;
        totals.certain += holds(&sets, certain(atom)) as u64;
        totals.none += holds(&sets, clear(atom)) as u64;
        totals.some += (held && lacked) as u64;
    }
}
