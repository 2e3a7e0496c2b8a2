// Cases of request 8: what the first closing settles, and the levels of readings with tight limits
// and rooms, from no choice to the deepest walk.

use crate::book::{Book, Rule};
use crate::cases::Cases;
use crate::cases_bad::{self, Word};
use crate::cases_damage::one_of_each;
use crate::closing::Support;
use crate::desk::{MOST_BOOK, MOST_NUMBER, MOST_ROOM};
use crate::random::Random;
use crate::shapes::{
    chain_book, deep_book, layered_book, random_book, wide_book, Shape, MIXED, SHAPES,
};
use crate::walk::all_readings;
use crate::worked_requests::level_lines;

const SEED: u64 = 8;

pub fn add(cases: &mut Cases) {
    cases.worked(&level_lines());
    let mut random = Random::new(SEED);
    let random = &mut random;
    for count in 0..60 {
        let atoms = random.from_to(1, 7);
        let rules = random.from_to(1, 9);
        tight(cases, &random_book(random, atoms, rules, SHAPES[count % SHAPES.len()]));
    }
    for count in 0..60 {
        let book = middling(random, count);
        cases.levels(&book.write());
        let k = random.from_to(1, 3) as u64;
        cases.levelsk(k, 1_000, book.rules.len(), &book.write());
    }
    refusals(cases);
    deepest(cases);
    let book = "000001010100010000000400020208005242";
    let most = Word::Number(MOST_NUMBER);
    cases_bad::add(cases, &format!("levels {}", book), &[Word::Bytes(MOST_BOOK)]);
    cases_bad::add(
        cases,
        &format!("levelsk 2 1000 2 {}", book),
        &[most, most, Word::Number(MOST_ROOM), Word::Bytes(MOST_BOOK)],
    );
}

/// A book of up to 255 rules with some choices, whose walk is short.
fn middling(random: &mut Random, count: usize) -> Book {
    loop {
        let atoms = random.from_to(8, 60);
        let rules = random.from_to(atoms, 2 * atoms);
        let choices = random.from_to(1, 5);
        let book = match count % 3 {
            0 => layered_book(random, atoms, rules, choices),
            1 => random_book(random, atoms, rules, Shape { pairs: choices, ..MIXED }),
            _ => random_book(random, atoms, rules, Shape { pairs: choices, ..SHAPES[1] }),
        };
        if all_readings(&book, 300, Support::Kept).map_or(false, |(sets, _)| !sets.is_empty()) {
            return book;
        }
    }
}

/// The first closing; each reading with the tries and the room it needs and one less; no more.
fn tight(cases: &mut Cases, book: &Book) {
    let (sets, tries) = match all_readings(book, 40, Support::Kept) {
        Some(all) => all,
        None => return,
    };
    let bytes = book.write();
    let room = book.rules.len();
    cases.levels(&bytes);
    for (number, (_, at)) in sets.iter().enumerate() {
        let k = number as u64 + 1;
        assert!(cases.levelsk(k, *at, room, &bytes).starts_with(&format!("levels {} ", at)));
        assert_eq!(cases.levelsk(k, at - 1, room, &bytes), format!("limit {}", at - 1));
    }
    let none = sets.len() as u64 + 1;
    assert!(cases.levelsk(none, tries, room, &bytes).starts_with("fewer "));
    assert_eq!(cases.levelsk(1, tries, room - 1, &bytes), "refused 8");
}

/// 1 to 7 by both commands, before 15 and 8; 15 before 8; the room is for rules and not for atoms.
fn refusals(cases: &mut Cases) {
    for (number, place, book) in one_of_each() {
        let expected = format!("refused {} {}", number, place);
        assert_eq!(cases.levels(&book), expected);
        assert_eq!(cases.levelsk(0, 0, 0, &book), expected);
    }
    let few_rules = Book { atoms: 9, rules: vec![Rule::new(8, &[], &[])] }.write();
    assert_eq!(cases.levelsk(1, 1, 1, &few_rules), "levels 1 0");
    assert_eq!(cases.levelsk(1, 1, 0, &few_rules), "refused 8");
    assert_eq!(cases.levelsk(0, 1, 0, &few_rules), "refused 15");
    let few_atoms = Book { atoms: 1, rules: vec![Rule::new(0, &[], &[]); 9] }.write();
    assert_eq!(cases.levelsk(1, 1, 9, &few_atoms), "levels 1 0 0 0 0 0 0 0 0 0");
    assert_eq!(cases.levelsk(1, 1, 8, &few_atoms), "refused 8");
    for k in [0, 1, MOST_NUMBER] {
        for limit in [0, MOST_NUMBER] {
            for room in [0, 65_536] {
                cases.levelsk(k, limit, room, &few_rules);
            }
        }
    }
}

/// Levels up to 254, and first closings of long chains and of the largest book.
fn deepest(cases: &mut Cases) {
    let book = deep_book(254).write();
    assert_eq!(cases.levelsk(2, 508, 255, &book), "limit 508");
    assert!(cases.levelsk(2, 509, 255, &book).ends_with(" 252 253 254 254"));
    cases.levelsk(1, 2, 255, &book);
    cases.levels(&book);
    cases.levels(&chain_book(255).write());
    cases.levels(&wide_book(255, 16, 16, 255).write());
    cases.levels(&Book { atoms: 255, rules: Vec::new() }.write());
    let mut circle = chain_book(255);
    circle.rules[254] = Rule::new(0, &[254], &[]);
    cases.levels(&circle.write());
    circle.rules[254] = Rule::new(0, &[], &[254]);
    cases.levels(&circle.write());
}
