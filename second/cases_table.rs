// Cases of request 13: tables of no book, of one, of many, of refused books and of names that can't
// be opened, 64 and 65 of them, and lines that are none.

use crate::book::Book;
use crate::cases::Cases;
use crate::cases_damage::one_of_each;
use crate::cases_naming::short_book;
use crate::desk::{hex, MOST_BOOK, MOST_LINE};
use crate::random::Random;
use crate::shapes::{chain_book, deep_book, wide_book};
use crate::worked_requests::table_lines;

const SEED: u64 = 13;

pub fn add(cases: &mut Cases) {
    cases.worked(&table_lines());
    let mut random = Random::new(SEED);
    let random = &mut random;
    for count in 0..60 {
        cases.table(&[&short_book(random, count).write()]);
    }
    for count in 0..60 {
        let books = random.from_to(2, 8);
        mixed(cases, random, books, count);
    }
    for books in [63, 64] {
        mixed(cases, random, books, 0);
    }
    for books in [65, 66, 200] {
        assert_eq!(cases.ask(&format!("table{}", " ?".repeat(books))), "refused 36|");
    }
    let closed = cases.ask(&format!("table{}", " ?".repeat(64)));
    assert!(closed.ends_with("|64 refused 37|without|certain 0 some 0 none 0 of 0|"));
    let damaged = one_of_each();
    let books: Vec<&[u8]> = damaged.iter().map(|(_, _, book)| book.as_slice()).collect();
    cases.table(&books);
    largest(cases);
    lines(cases);
}

/// A table of random books, some of them damaged and some names that can't be opened.
fn mixed(cases: &mut Cases, random: &mut Random, books: usize, count: usize) {
    let damaged = one_of_each();
    let mut line = "table".to_string();
    for place in 0..books {
        let word = match random.below(8) {
            0 => "?".to_string(),
            1 => hex(&random.pick(&damaged).2),
            _ => hex(&short_book(random, count + place).write()),
        };
        line = format!("{} {}", line, word);
    }
    cases.ask(&line);
}

fn largest(cases: &mut Cases) {
    let deep = deep_book(254).write();
    assert!(cases.table(&[&deep]).starts_with("1 sets 2 atoms 1 1|"));
    let (chain, wide) = (chain_book(255).write(), wide_book(255, 16, 16, 255).write());
    let atoms = Book { atoms: 255, rules: Vec::new() }.write();
    cases.table(&[&chain, &wide, &atoms, &deep]);
}

/// Words that are none, before 36 too; the longest line, and one byte more.
fn lines(cases: &mut Cases) {
    let many = " ?".repeat(65);
    for (kind, line) in [
        ("space after", "table ".to_string()),
        ("two spaces", "table  ?".to_string()),
        ("space before", " table".to_string()),
        ("command in capitals", "TABLE".to_string()),
        ("unknown command", "tables".to_string()),
        ("tab", "table\t?".to_string()),
        ("carriage return", "table\r".to_string()),
        ("no hexadecimal digit", "table ??".to_string()),
        ("no hexadecimal digit", "table ? 0g".to_string()),
        ("no hexadecimal digit", "table 0?".to_string()),
        ("odd number of digits", "table 000000005242 0".to_string()),
        ("dash with digits", "table --".to_string()),
        ("no hexadecimal digit", format!("table{} zz", many)),
        ("space after", format!("table{} ", many)),
    ] {
        cases.bad(kind, line.as_bytes());
    }
    let longest = "00".repeat(MOST_BOOK);
    let full = format!("table {} {} {} {}", longest, longest, longest, longest);
    let line = format!("{} 00 {}", full, "0".repeat(MOST_LINE - full.len() - 4));
    assert_eq!(line.len(), MOST_LINE);
    assert!(cases.ask(&line).ends_with("|6 refused 1|without|certain 0 some 0 none 0 of 0|"));
    let longer = format!("{} {}", full, "0".repeat(MOST_LINE - full.len()));
    assert_eq!(longer.len(), MOST_LINE + 1);
    let kind = "too long for the buffers";
    cases.bad(kind, longer.as_bytes());
    cases.bad(kind, format!("table {}00", longest).as_bytes());
}
