// Cases of request 6: the noMoRe way with tight limits and rooms, on books where it needs more and
// where it needs fewer tries than the old walk.

use crate::book::{Book, Rule};
use crate::cases::Cases;
use crate::cases_bad::{self, Word};
use crate::cases_damage::one_of_each;
use crate::desk::{MOST_BOOK, MOST_NUMBER, MOST_ROOM};
use crate::nomore::nomore_readings;
use crate::random::Random;
use crate::shapes::{chain_book, deep_book, random_book, wide_book, Shape, SHAPES};
use crate::worked_requests::nomore_lines;

const SEED: u64 = 6;

pub fn add(cases: &mut Cases) {
    cases.worked(&nomore_lines());
    let mut random = Random::new(SEED);
    let random = &mut random;
    for count in 0..100 {
        let atoms = random.from_to(1, 7);
        let rules = random.from_to(1, 9);
        tight(cases, &random_book(random, atoms, rules, SHAPES[count % SHAPES.len()]));
    }
    for count in 0..40 {
        middling(cases, random, SHAPES[count % SHAPES.len()]);
    }
    derived_first(cases);
    largest(cases);
    for (number, place, book) in one_of_each() {
        let expected = format!("refused {} {}", number, place);
        assert_eq!(cases.nomore(0, 0, 0, &book), expected);
    }
    let most = Word::Number(MOST_NUMBER);
    cases_bad::add(
        cases,
        "nomore 2 1000 2 000001010100010000000400020208005242",
        &[most, most, Word::Number(MOST_ROOM), Word::Bytes(MOST_BOOK)],
    );
}

/// Each reading of a small book with the tries it takes and one fewer, and that there are no more.
fn tight(cases: &mut Cases, book: &Book) {
    let (found, tries) = match nomore_readings(book, 60) {
        Some(all) => all,
        None => return,
    };
    let bytes = book.write();
    for (number, one) in found.iter().enumerate() {
        let (k, at) = (number as u64 + 1, one.tries);
        let text = format!("set {}", at);
        assert!(cases.nomore(k, at, book.atoms, &bytes).starts_with(&text));
        assert_eq!(cases.nomore(k, at - 1, book.atoms, &bytes), format!("limit {}", at - 1));
    }
    let k = found.len() as u64 + 1;
    let fewer = format!("fewer {} {} ", tries, found.len());
    assert!(cases.nomore(k, tries, book.atoms, &bytes).starts_with(&fewer));
    assert_eq!(cases.nomore(k, tries - 1, book.atoms, &bytes), format!("limit {}", tries - 1));
    assert_eq!(cases.nomore(1, tries, book.atoms - 1, &bytes), "refused 8");
}

fn middling(cases: &mut Cases, random: &mut Random, shape: Shape) {
    loop {
        let atoms = random.from_to(8, 40);
        let rules = random.from_to(atoms, 3 * atoms);
        let shape = Shape { pairs: random.from_to(2, 8), ..shape };
        let book = random_book(random, atoms, rules, shape);
        match nomore_readings(&book, 400) {
            Some((found, tries)) if tries >= 20 => {
                let k = random.from_to(1, found.len() + 1) as u64;
                cases.nomore(k, tries, atoms, &book.write());
                cases.nomore(k, random.from_to(1, tries as usize) as u64, atoms, &book.write());
                return;
            }
            _ => continue,
        }
    }
}

/// Four pairs last, what follows from either side of each first, one rule for all of them: the old
/// walk chooses what has no support yet.
fn derived_first(cases: &mut Cases) {
    let (a, b, c, all) = (|i: u8| 2 * i, |i: u8| 2 * i + 1, |i: u8| 8 + i, 12);
    let mut rules = Vec::new();
    for i in 0..4 {
        rules.push(Rule::new(c(i), &[a(i)], &[]));
        rules.push(Rule::new(c(i), &[b(i)], &[]));
    }
    rules.push(Rule::new(all, &[c(0), c(1), c(2), c(3)], &[]));
    for i in 0..4 {
        rules.push(Rule::new(a(i), &[], &[b(i)]));
        rules.push(Rule::new(b(i), &[], &[a(i)]));
    }
    let mut book = Book { atoms: 13, rules };
    assert_eq!(cases.find(17, 2_000, 13, &book.write()), "fewer 1471 16 1");
    assert_eq!(cases.nomore(17, 2_000, 13, &book.write()), "fewer 47 16 255");
    assert_eq!(cases.nomore(17, 46, 13, &book.write()), "limit 46");
    book.rules.rotate_left(9);
    assert_eq!(cases.find(17, 2_000, 13, &book.write()), "fewer 31 16 255");
    assert_eq!(cases.nomore(17, 2_000, 13, &book.write()), "fewer 47 16 255");
}

/// The deepest walk, long chains and circles, the largest book; K, L and ROOM at their ends.
fn largest(cases: &mut Cases) {
    let deep = deep_book(254).write();
    for (k, limit) in [(1, 2), (1, 3), (2, 509), (2, 510), (3, 600)] {
        cases.nomore(k, limit, 2, &deep);
    }
    for length in [2, 16, 255] {
        let mut book = chain_book(length);
        assert!(cases.nomore(1, 2, length, &book.write()).starts_with("set 2 "));
        let last = book.rules.len() - 1;
        book.rules[last] = Rule::new(0, &[length as u8 - 1], &[]);
        assert_eq!(cases.nomore(1, 2, length, &book.write()), "set 2");
        book.rules[last] = Rule::new(0, &[], &[length as u8 - 1]);
        cases.nomore(1, 1_000, length, &book.write());
    }
    cases.nomore(1, 2, 255, &wide_book(255, 16, 16, 255).write());
    cases.nomore(2, 2, 255, &Book { atoms: 255, rules: Vec::new() }.write());
    let book = deep_book(3).write();
    for k in [0, 1, MOST_NUMBER] {
        for limit in [0, 1, MOST_NUMBER] {
            for room in [0, 2, 65_536] {
                cases.nomore(k, limit, room, &book);
            }
        }
    }
}
