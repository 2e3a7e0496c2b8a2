// Cases on damaged books: every refusal 1 to 7 at every place it can have in some books, asked by
// all commands in turn.

use crate::book::{Book, Refusal, Rule};
use crate::cases::Cases;
use std::collections::BTreeSet;

const PAPER: [u8; 7] = [0x45, 0, 0, 1, 0, 0x50, 0x46];

pub fn add(cases: &mut Cases) {
    let small = Book { atoms: 3, rules: vec![Rule::new(0, &[], &[]), Rule::new(2, &[0, 1], &[1])] };
    let larger = Book {
        atoms: 6,
        rules: vec![
            Rule::new(0, &[1, 2, 4], &[3]),
            Rule::new(5, &[], &[0, 2, 4]),
            Rule::new(1, &[], &[]),
            Rule::new(2, &[0, 3], &[2, 4]),
        ],
    };
    for book in [&small, &larger] {
        let mut seen = BTreeSet::new();
        let good = book.write();
        for damaged in damages(&good) {
            if let Err(Refusal { number, place: Some(place) }) = Book::read(&damaged) {
                ask_in_turn(cases, seen.len() + place, number, &damaged);
                seen.insert((number, place));
            }
        }
        assert_every_place(book, &good, &seen);
    }
    sizes(cases);
    order(cases);
}

/// A damaged book for each refusal 1 to 7, with its number and place.
pub fn one_of_each() -> Vec<(u8, usize, Vec<u8>)> {
    let good = Book { atoms: 3, rules: vec![Rule::new(0, &[0, 1], &[1, 2])] }.write();
    let mut seen = BTreeSet::new();
    let mut list = Vec::new();
    for damaged in damages(&good) {
        if let Err(Refusal { number, place: Some(place) }) = Book::read(&damaged) {
            if seen.insert(number) {
                list.push((number, place, damaged));
            }
        }
    }
    assert_eq!(list.len(), 7);
    list
}

/// Each byte changed to several values; each length cut or one byte longer.
fn damages(good: &[u8]) -> Vec<Vec<u8>> {
    let mut list = Vec::new();
    for place in 0..good.len() {
        let was = good[place];
        let mut values = vec![was.wrapping_add(1), was.wrapping_sub(1), 255, 17];
        if place > 0 {
            values.push(good[place - 1]);
        }
        for value in values {
            let mut damaged = good.to_vec();
            damaged[place] = value;
            list.push(damaged);
        }
    }
    for length in 0..good.len() {
        list.push(good[..length].to_vec());
        list.push(good[good.len() - length..].to_vec());
    }
    list.push([good, &[0][..]].concat());
    list.push([&[0][..], good].concat());
    list
}

/// The same damage is asked by one command after the other, with K and ROOM good or not: the book
/// comes first.
fn ask_in_turn(cases: &mut Cases, turn: usize, number: u8, book: &[u8]) {
    let answer = match turn % 4 {
        0 => cases.find((turn % 3) as u64, 9, turn % 7, book),
        1 => cases.readings(book),
        2 => cases.name(turn as u8, (turn % 2) as u64, turn, book),
        _ => cases.check(book, &PAPER[turn % 3..]),
    };
    assert!(answer.starts_with(&format!("refused {} ", number)));
}

/// Each number was given at each place that it can have in this book.
fn assert_every_place(book: &Book, good: &[u8], seen: &BTreeSet<(u8, usize)>) {
    let index = good.len() - 6 - 2 * book.rules.len();
    let mut expected = vec![(1, 0), (2, good.len() - 2), (3, good.len() - 4), (4, index)];
    let mut place = 0;
    for (r, rule) in book.rules.iter().enumerate() {
        expected.push((4, index + 2 * r));
        expected.push((5, place));
        expected.push((6, place));
        let (p, n) = (rule.positive.count(), rule.negative.count());
        for offset in 0..p + n {
            expected.push((6, place + 3 + offset));
            if offset != 0 && offset != p {
                expected.push((7, place + 3 + offset));
            }
        }
        place += 3 + p + n;
    }
    for pair in expected {
        assert!(seen.contains(&pair), "no damage gives {} at {}", pair.0, pair.1);
    }
}

/// Lengths on both sides of every bound, with nothing or nonsense inside.
fn sizes(cases: &mut Cases) {
    for length in [0, 1, 2, 5, 6, 7, 100, 9_441, 9_442] {
        for byte in [0u8, 0x52, 0xff] {
            cases.readings(&vec![byte; length]);
            cases.find(1, 1, 1, &vec![byte; length]);
        }
        let mut marked = vec![0; length];
        if length >= 2 {
            marked[length - 2..].copy_from_slice(&[0x52, 0x42]);
        }
        cases.readings(&marked);
        cases.check(&marked, &PAPER);
    }
}

/// Two damages at once: the earlier in document 01's order is the one given.
fn order(cases: &mut Cases) {
    let records: [(&[u8], u8, &str); 11] = [
        (&[0, 3, 0, 2, 1, 9], 3, "refused 7 4|"),
        (&[0, 3, 0, 1, 9, 1], 3, "refused 6 4|"),
        (&[0, 2, 1, 2, 2, 9], 3, "refused 7 4|"),
        (&[9, 2, 1, 2, 2, 9], 3, "refused 6 0|"),
        (&[9, 2, 0, 2, 2, 9], 3, "refused 6 0|"),
        (&[0, 2, 0, 1, 2, 9], 3, "refused 4 6|"),
        (&[9, 17, 0, 1, 2, 9], 3, "refused 5 0|"),
        (&[0, 0, 17, 1, 2, 9], 3, "refused 5 0|"),
        (&[0, 2, 2, 1, 2, 0], 3, "refused 5 0|"),
        (&[0, 1, 2, 2, 0, 2], 3, "1:"),
        (&[0, 1, 2, 2, 2, 0], 3, "refused 7 5|"),
    ];
    for (record, atoms, expected) in records {
        let book = [record, &[0, 0, atoms, 1, record.len() as u8, 0, 0x52, 0x42][..]].concat();
        assert!(cases.readings(&book).contains(expected), "{:?}", record);
        cases.find(0, 0, 0, &book);
    }
    for (book, expected) in [
        (&[0u8, 0, 0, 3, 0, 1, 1, 3, 0, 0x52, 0x42][..], "refused 4 3|"),
        (&[3, 0, 1, 1, 0, 0, 0x52, 0x42], "refused 4 0|"),
        (&[0, 0, 1, 1, 0, 0, 0x52, 0x42], "refused 5 0|"),
        (&[0, 0, 0, 0, 1, 1, 2, 0, 0x52, 0x42], "refused 5 0|"),
        (&[0, 1, 0, 1, 0, 0x52, 0x42], "refused 4 1|"),
        (&[0, 0, 0, 0, 0, 0, 1, 3, 0, 0x52, 0x42], "refused 6 0|"),
        (&[1, 0, 0, 0, 0x52, 0x41], "refused 2 4|"),
        (&[1, 0, 1, 0, 0x42, 0x52], "refused 2 4|"),
        (&[1, 0, 1, 0, 0x52, 0x42], "refused 3 2|"),
        (&[1, 1, 0, 0, 0x52, 0x42], "refused 3 2|"),
        (&[1, 0, 0, 1, 0x52, 0x42], "refused 3 2|"),
        (&[1, 255, 255, 255, 0x52, 0x42], "refused 3 2|"),
    ] {
        assert_eq!(cases.readings(book), expected, "{:?}", book);
        cases.find(0, 0, 0, book);
    }
}
