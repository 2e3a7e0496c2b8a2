// Cases of request 3: readings that differ in a shown atom, with tight limits and rooms, and lists
// that are none.

use crate::book::{Book, Rule};
use crate::cases::Cases;
use crate::cases_bad::{self, Word};
use crate::cases_damage::one_of_each;
use crate::closing::Support;
use crate::desk::{MOST_BOOK, MOST_NUMBER, MOST_ROOM, MOST_SHOWN};
use crate::numbers::{Atom, AtomSet};
use crate::random::Random;
use crate::shapes::{deep_book, random_book, Shape, SHAPES};
use crate::walk::all_readings;
use crate::worked_requests::shown_lines;

const SEED: u64 = 303;

pub fn add(cases: &mut Cases) {
    cases.worked(&shown_lines());
    let mut random = Random::new(SEED);
    let random = &mut random;
    for count in 0..60 {
        let book = several(random, count);
        for _ in 0..2 {
            let list = some_atoms(random, book.atoms);
            tight(cases, &book, &list);
        }
    }
    for pairs in [5, 6, 7] {
        let book = pairs_book(pairs);
        for _ in 0..4 {
            let list = some_atoms(random, book.atoms);
            tight(cases, &book, &list);
        }
        let last = [2 * pairs as u8 - 1];
        tight(cases, &book, &last);
    }
    refusals(cases);
    cases_bad::add(
        cases,
        "shown 1 1000 2 00 000001010100010000000400020208005242",
        &[
            Word::Number(MOST_NUMBER),
            Word::Number(MOST_NUMBER),
            Word::Number(MOST_ROOM),
            Word::Bytes(MOST_SHOWN),
            Word::Bytes(MOST_BOOK),
        ],
    );
}

/// A random book with at least three readings and a short walk.
fn several(random: &mut Random, count: usize) -> Book {
    loop {
        let atoms = random.from_to(3, 8);
        let rules = random.from_to(5, 12);
        let shape = Shape { pairs: random.from_to(2, 4), ..SHAPES[count % SHAPES.len()] };
        let book = random_book(random, atoms, rules, shape);
        match all_readings(&book, 60, Support::Kept) {
            Some((sets, _)) if sets.len() >= 3 => return book,
            _ => continue,
        }
    }
}

fn some_atoms(random: &mut Random, atoms: usize) -> Vec<u8> {
    let once_in = random.from_to(1, 4);
    (0..atoms as u8).filter(|_| random.once_in(once_in)).collect()
}

/// Free pairs: as many readings as two to the power of their number.
fn pairs_book(pairs: usize) -> Book {
    let rule = |a: u8| Rule::new(a, &[], &[a ^ 1]);
    Book { atoms: 2 * pairs, rules: (0..2 * pairs as u8).map(rule).collect() }
}

/// Each reading on these atoms with the tries it takes and one fewer, and that there are no more.
fn tight(cases: &mut Cases, book: &Book, list: &[u8]) {
    let (sets, tries) = all_readings(book, 1_000, Support::Kept).expect("a short walk");
    let shown = list.iter().fold(AtomSet::none(), |set, atom| set.with(Atom(*atom)));
    let bytes = book.write();
    let mut k = 0;
    for (place, (set, at)) in sets.iter().enumerate() {
        let part = set.meet(&shown);
        if sets[..place].iter().any(|(other, _)| other.meet(&shown) == part) {
            continue;
        }
        k += 1;
        if k > 4 && place + 1 < sets.len() {
            continue;
        }
        let expected = format!("set {} ", at);
        assert!(cases.shown(k, *at, book.atoms, list, &bytes).starts_with(&expected));
        let limit = format!("limit {}", at - 1);
        assert_eq!(cases.shown(k, at - 1, book.atoms, list, &bytes), limit);
    }
    let fewer = format!("fewer {} {} ", tries, k);
    assert!(cases.shown(k + 1, tries, book.atoms, list, &bytes).starts_with(&fewer));
    assert_eq!(cases.shown(k + 1, tries, book.atoms - 1, list, &bytes), "refused 8");
}

/// 1 to 7 before 15, that before 16, that before 8; lists that are none, of any length.
fn refusals(cases: &mut Cases) {
    for (number, place, book) in one_of_each() {
        let expected = format!("refused {} {}", number, place);
        assert_eq!(cases.shown(0, 0, 0, &[9, 9], &book), expected);
    }
    let book = deep_book(3).write();
    let lists: [&[u8]; 8] =
        [&[2], &[0, 2], &[0, 0], &[1, 0], &[0, 1, 1], &[255], &[0, 1, 0], &[1, 2, 0]];
    for list in lists {
        assert_eq!(cases.shown(0, 0, 0, list, &book), "refused 15");
        assert_eq!(cases.shown(1, 0, 0, list, &book), "refused 16");
        assert_eq!(cases.shown(MOST_NUMBER, MOST_NUMBER, 65_536, list, &book), "refused 16");
    }
    for list in [vec![0; 255], vec![0; MOST_SHOWN], (0..=255).collect(), (0..255).rev().collect()] {
        assert_eq!(cases.shown(1, 9, 2, &list, &book), "refused 16");
    }
    let all: Vec<u8> = (0..255).collect();
    let wide = Book { atoms: 255, rules: vec![Rule::new(254, &[], &[253])] }.write();
    assert_eq!(cases.shown(1, 1, 255, &all, &wide), "set 1 254");
    assert_eq!(cases.shown(1, 1, 254, &all, &wide), "refused 8");
    assert_eq!(cases.shown(2, 1, 255, &all, &wide), "fewer 1 1 255");
    let empty = Book { atoms: 0, rules: Vec::new() }.write();
    assert_eq!(cases.shown(1, 1, 0, &[], &empty), "set 1");
    assert_eq!(cases.shown(1, 0, 0, &[], &empty), "limit 0");
    assert_eq!(cases.shown(1, 1, 0, &[0], &empty), "refused 16");
    let deep = deep_book(254).write();
    assert_eq!(cases.shown(2, 509, 2, &[], &deep), "fewer 509 1 0");
    assert_eq!(cases.shown(2, 509, 2, &[1], &deep), "set 509 1");
}
