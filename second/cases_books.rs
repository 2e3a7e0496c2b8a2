// Cases of `find` and `readings` on books that are good: every size, tight limits and rooms, both
// ends of K and L, the deepest walk, the widest rules, the longest book.

use crate::book::{Book, Rule};
use crate::cases::Cases;
use crate::clash::last_clash;
use crate::closing::{Colouring, Support};
use crate::desk::{fewer, MOST_NUMBER};
use crate::random::Random;
use crate::shapes::{
    chain_book, deep_book, layered_book, random_book, wide_book, Shape, MIXED, SHAPES,
};
use crate::walk::all_readings;

pub fn add(cases: &mut Cases, random: &mut Random) {
    no_rules(cases);
    every_size(cases, random);
    for count in 0..220 {
        let atoms = random.from_to(1, 7);
        let rules = random.from_to(1, 9);
        let book = random_book(random, atoms, rules, SHAPES[count % SHAPES.len()]);
        tight(cases, &book);
    }
    for count in 0..40 {
        long_walk(cases, random, SHAPES[count % SHAPES.len()]);
    }
    deepest(cases);
    widest(cases);
    ends(cases);
    chains(cases);
}

/// Every A with no rule; the room is A, and one less.
fn no_rules(cases: &mut Cases) {
    for atoms in 0..=255 {
        let book = Book { atoms, rules: Vec::new() }.write();
        cases.find(1, 1, atoms, &book);
        if atoms > 0 {
            assert_eq!(cases.find(1, 1, atoms - 1, &book), "refused 8");
        }
        if atoms % 5 == 0 {
            cases.readings(&book);
        }
    }
}

/// Every R, each with another A, few enough choices that the walk is short.
fn every_size(cases: &mut Cases, random: &mut Random) {
    for rules in 1..=255 {
        let atoms = 1 + (rules * 97 + 13) % 255;
        let (book, tries, sets) = loop {
            let choices = random.below(4);
            let book = if random.once_in(3) {
                random_book(random, atoms, rules, MIXED)
            } else {
                layered_book(random, atoms, rules, choices)
            };
            if let Some((sets, tries)) = all_readings(&book, 60, Support::Kept) {
                break (book.write(), tries, sets.len() as u64);
            }
        };
        if rules % 3 == 0 {
            cases.readings(&book);
        }
        let k = random.from_to(1, sets as usize + 1) as u64;
        let room = random.from_to(atoms, 65_536);
        cases.find(k, tries, room, &book);
    }
}

/// Each reading of a small book with the tries it takes and one fewer, and that there are no more.
fn tight(cases: &mut Cases, book: &Book) {
    let (sets, tries) = match all_readings(book, 40, Support::Kept) {
        Some(all) => all,
        None => return,
    };
    let bytes = book.write();
    cases.readings(&bytes);
    for (number, (_, at)) in sets.iter().enumerate() {
        let k = number as u64 + 1;
        assert!(cases.find(k, *at, book.atoms, &bytes).starts_with(&format!("set {}", at)));
        assert_eq!(cases.find(k, at - 1, book.atoms, &bytes), format!("limit {}", at - 1));
    }
    let none = sets.len() as u64 + 1;
    let clash = last_clash(book, &Colouring::empty());
    let fewer = fewer(tries, sets.len() as u64, clash);
    assert_eq!(cases.find(none, tries, book.atoms, &bytes), fewer);
    assert_eq!(cases.find(none, tries - 1, book.atoms, &bytes), format!("limit {}", tries - 1));
}

/// A book of middling size with a walk of 100 to 1,000 tries: one reading, and all of them.
fn long_walk(cases: &mut Cases, random: &mut Random, shape: Shape) {
    loop {
        let atoms = random.from_to(8, 40);
        let rules = random.from_to(atoms, 3 * atoms);
        let shape = Shape { pairs: random.from_to(2, 8), ..shape };
        let book = random_book(random, atoms, rules, shape);
        match all_readings(&book, 1_000, Support::Kept) {
            Some((sets, tries)) if tries >= 100 => {
                let k = random.from_to(1, sets.len() + 1) as u64;
                cases.find(k, tries, atoms, &book.write());
                cases.find(k, random.from_to(1, tries as usize) as u64, atoms, &book.write());
                cases.readings(&book.write());
                return;
            }
            _ => continue,
        }
    }
}

/// The deepest walk: 255 rules and 509 tries.
fn deepest(cases: &mut Cases) {
    let book = deep_book(254).write();
    assert_eq!(cases.find(1, 2, 2, &book), "set 2 0");
    assert_eq!(cases.find(2, 509, 2, &book), "set 509 1");
    assert_eq!(cases.find(2, 508, 2, &book), "limit 508");
    assert_eq!(cases.find(3, 509, 2, &book), "fewer 509 2 0");
    assert_eq!(cases.readings(&book), "rules 255 atoms 2|1: 0|2: 1|end 2 tries 509|");
    let mut turned = deep_book(254);
    turned.rules.rotate_right(1);
    cases.readings(&turned.write());
}

/// Parts of 16 and of 17 in each place of a book, and books of 9,441 bytes.
fn widest(cases: &mut Cases) {
    for (p, n) in [(16, 0), (0, 16), (16, 16), (17, 0), (0, 17), (17, 16), (16, 17), (17, 17)] {
        for rules in [1, 3] {
            let book = wide_book(rules, p, n, 40).write();
            let good = p <= 16 && n <= 16;
            assert_eq!(cases.readings(&book) == "refused 5 0|", !good);
            cases.find(1, 10, 40, &book);
        }
    }
    let mut late = wide_book(3, 16, 16, 40);
    late.rules.push(wide_book(1, 17, 2, 40).rules[0]);
    assert_eq!(cases.readings(&late.write()), "refused 5 105|");
    for atoms in [32, 255] {
        let longest = wide_book(255, 16, 16, atoms).write();
        assert_eq!(longest.len(), 9_441);
        cases.find(1, 1, atoms, &longest);
        cases.readings(&longest);
        let mut longer = longest.clone();
        longer.insert(0, 0);
        assert_eq!(cases.find(1, 1, atoms, &longer), "refused 1 0");
        assert_eq!(cases.readings(&longer), "refused 1 0|");
    }
}

/// K, L and ROOM at their ends, alone and together.
fn ends(cases: &mut Cases) {
    let books = [
        Book { atoms: 0, rules: Vec::new() },
        Book { atoms: 1, rules: vec![Rule::new(0, &[], &[])] },
        Book { atoms: 1, rules: vec![Rule::new(0, &[], &[0])] },
        deep_book(1),
        deep_book(3),
        Book { atoms: 255, rules: vec![Rule::new(254, &[], &[])] },
    ];
    for book in &books {
        let bytes = book.write();
        for k in [0, 1, 2, MOST_NUMBER - 1, MOST_NUMBER] {
            for limit in [0, 1, MOST_NUMBER - 1, MOST_NUMBER] {
                for room in [0, book.atoms, 65_536] {
                    cases.find(k, limit, room, &bytes);
                }
            }
        }
    }
}

/// Chains that one closing follows to their end, and circles that only support puts off.
fn chains(cases: &mut Cases) {
    for length in [2, 16, 100, 255] {
        let mut book = chain_book(length);
        cases.readings(&book.write());
        cases.find(1, 1, length, &book.write());
        let last = book.rules.len() - 1;
        book.rules[last] = Rule::new(0, &[length as u8 - 1], &[]);
        assert!(cases.readings(&book.write()).ends_with("|1:|end 1 tries 1|"));
        book.rules[last] = Rule::new(0, &[], &[length as u8 - 1]);
        cases.readings(&book.write());
    }
}

/// Nine independent pairs in a book of 254 atoms, the last pair at the end of the row: of its 512
/// readings a page of 65,280 bytes has room for 257, so that the listing goes on behind a row.
pub fn add_two_pages(cases: &mut Cases) {
    let mut book = Book { atoms: 254, rules: Vec::new() };
    for one in [0, 2, 4, 6, 8, 10, 12, 14, 252] {
        book.rules.push(Rule::new(one, &[], &[one + 1]));
        book.rules.push(Rule::new(one + 1, &[], &[one]));
    }
    assert!(cases.readings(&book.write()).ends_with("|end 512 tries 1023|"));
}
