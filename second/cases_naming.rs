// Cases of `name`: every atom of random books with tight limits and rooms, the deepest naming, and
// papers of 60,000 and 60,001 bytes.

use crate::book::{Book, Rule};
use crate::cases::Cases;
use crate::claim::{certain, Claim};
use crate::closing::Support;
use crate::desk::{fewer, MOST_NUMBER};
use crate::paper::{write_paper, Written, LONGEST_PAPER};
use crate::random::Random;
use crate::shapes::{
    deep_book, deep_certain_book, long_paper_book, random_book, Length, Shape, LONGEST, SHAPES,
};
use crate::walk::{all_readings, find_set, Finding};

pub fn add(cases: &mut Cases, random: &mut Random) {
    for count in 0..150 {
        let book = short_book(random, count);
        for atom in 0..book.atoms as u8 {
            tight(cases, &book, certain(atom));
        }
        let beyond = random.from_to(book.atoms, 255) as u8;
        let room = random.below(100);
        assert_eq!(cases.name(beyond, (count % 2) as u64, room, &book.write()), "refused 13");
    }
    for count in 0..30 {
        let (book, claim) = larger_book(random, count, certain);
        tight(cases, &book, claim);
    }
    ends(cases, certain);
    deepest(cases);
    longest(cases);
}

/// A random book of middling size and a claim whose paper has splits inside splits.
pub fn larger_book(random: &mut Random, count: usize, kind: fn(u8) -> Claim) -> (Book, Claim) {
    loop {
        let atoms = random.from_to(5, 30);
        let rules = random.from_to(atoms, 3 * atoms);
        let shape = Shape { pairs: random.from_to(1, 5), ..SHAPES[count % SHAPES.len()] };
        let book = random_book(random, atoms, rules, shape);
        for claim in (0..atoms as u8).map(kind) {
            match write_paper(&book, claim, 500, LONGEST_PAPER).0 {
                Written::Paper { tries, .. } if tries >= 7 => return (book, claim),
                _ => continue,
            }
        }
    }
}

/// A random book whose whole walk is short.
pub fn short_book(random: &mut Random, count: usize) -> Book {
    loop {
        let atoms = random.from_to(1, 6);
        let rules = random.from_to(1, 9);
        let book = random_book(random, atoms, rules, SHAPES[count % SHAPES.len()]);
        if all_readings(&book, 40, Support::Kept).is_some() {
            return book;
        }
    }
}

/// One claim with the limit that both walks need and one less, the room exact and one less.
pub fn tight(cases: &mut Cases, book: &Book, claim: Claim) {
    let bytes = book.write();
    let (written, spent) = write_paper(book, claim, 1_000, LONGEST_PAPER);
    let first = match find_set(book, 1, 1_000) {
        Finding::Set(found) => found.tries,
        _ => spent,
    };
    let need = first.max(spent - first);
    let fails = format!("limit {}", need - 1);
    match written {
        Written::Paper { bytes: paper, .. } => {
            assert!(cases.paper(claim, need, paper.len(), &bytes).starts_with("paper "));
            assert_eq!(cases.paper(claim, need, paper.len() - 1, &bytes), "refused 14");
            assert_eq!(cases.paper(claim, need - 1, paper.len(), &bytes), fails);
            cases.paper(claim, MOST_NUMBER, 65_536, &bytes);
        }
        Written::NoReading { tries, clash } => {
            assert_eq!(cases.paper(claim, need, 0, &bytes), fewer(tries, 0, clash));
            assert_eq!(cases.paper(claim, need - 1, 60_000, &bytes), fails);
        }
        _ => {
            let refuted = format!("refused {}", claim.refuted());
            assert_eq!(cases.paper(claim, need, 0, &bytes), refuted);
            assert_eq!(cases.paper(claim, need - 1, 60_000, &bytes), fails);
        }
    }
}

/// ATOM, L and ROOM at their ends, alone and together.
pub fn ends(cases: &mut Cases, kind: fn(u8) -> Claim) {
    let books = [
        Book { atoms: 0, rules: Vec::new() },
        Book { atoms: 1, rules: vec![Rule::new(0, &[], &[])] },
        Book { atoms: 1, rules: vec![Rule::new(0, &[], &[0])] },
        deep_book(1),
        Book { atoms: 255, rules: vec![Rule::new(254, &[], &[]); 255] },
    ];
    for book in &books {
        for atom in [0, 1, 254, 255] {
            for limit in [0, 1, MOST_NUMBER] {
                for room in [0, 65_536] {
                    cases.paper(kind(atom), limit, room, &book.write());
                }
            }
        }
    }
}

fn deepest(cases: &mut Cases) {
    let book = deep_certain_book().write();
    assert!(cases.name(2, 1_000, 60_000, &book).starts_with("paper "));
    assert_eq!(cases.name(0, 1_000, 60_000, &book), "refused 12");
    let book = deep_book(254).write();
    assert_eq!(cases.name(0, 509, 60_000, &book), "refused 12");
    assert_eq!(cases.name(0, 508, 60_000, &book), "limit 508");
    let mut none = deep_book(253);
    none.rules.push(Rule::new(1, &[0], &[1]));
    cases.name(0, 1_000, 60_000, &none.write());
}

/// The engine's paper has 60,000 bytes, then 60,001: the second is refused whatever the room.
fn longest(cases: &mut Cases) {
    let book = long_paper_book(&LONGEST).write();
    assert!(cases.name(0, 511, 60_000, &book).starts_with("paper 511 60000 "));
    assert_eq!(cases.name(0, 511, 59_999, &book), "refused 14");
    assert_eq!(cases.name(0, 510, 65_536, &book), "limit 510");
    let longer = long_paper_book(&Length { starved: LONGEST.starved + 1, ..LONGEST }).write();
    assert_eq!(cases.name(0, 511, 60_001, &longer), "refused 14");
    assert_eq!(cases.name(0, 511, 65_536, &longer), "refused 14");
}
