// Cases of request 9: books joined and logged, with the room, the sizes and the limits exact and
// one off, and every refusal of either book.

use crate::book::{Book, Rule};
use crate::cases::Cases;
use crate::cases_bad::{self, Word};
use crate::cases_damage::one_of_each;
use crate::cases_naming::short_book;
use crate::crews::joined;
use crate::desk::{MOST_BOOK, MOST_NUMBER, MOST_ROOM};
use crate::random::Random;
use crate::shapes::{deep_book, random_book, wide_book, MIXED};
use crate::walk::{find_set, Finding};
use crate::worked_requests::crew_lines;

const SEED: u64 = 9;

pub fn add(cases: &mut Cases) {
    cases.worked(&crew_lines());
    let mut random = Random::new(SEED);
    let random = &mut random;
    for count in 0..70 {
        let first = short_book(random, count);
        let second = short_book(random, count / 5);
        tight(cases, &first, &second);
    }
    for _ in 0..12 {
        let (atoms, rules) = (random.from_to(1, 254), random.from_to(1, 254));
        let first = random_book(random, atoms, rules, MIXED);
        let second = random_book(random, 255 - atoms, 255 - rules, MIXED);
        cases.join(65_536, &first.write(), &second.write());
    }
    sizes(cases);
    damaged(cases);
    let (room, book) = (Word::Number(MOST_ROOM), Word::Bytes(MOST_BOOK));
    let (limit, fact) = (Word::Number(MOST_NUMBER), "0000000000010103005242");
    cases_bad::add(cases, &format!("join 100 {} {}", fact, fact), &[room, book, book]);
    let line = format!("log 10 10 100 {} {}", fact, fact);
    cases_bad::add(cases, &line, &[limit, limit, room, book, book]);
}

fn need(book: &Book) -> u64 {
    match find_set(book, 1, 1_000) {
        Finding::Set(found) => found.tries,
        Finding::Fewer { tries, .. } => tries,
        Finding::Limit => panic!("a short walk"),
    }
}

/// The room exact and one less; the limits exact, each one less, and both.
fn tight(cases: &mut Cases, first: &Book, second: &Book) {
    let (one, two) = (need(first), need(second));
    let whole = joined(first, second).write();
    let (first, second) = (first.write(), second.write());
    assert!(cases.join(whole.len(), &first, &second).starts_with("book "));
    assert_eq!(cases.join(whole.len() - 1, &first, &second), "refused 19");
    cases.log([one, two], whole.len(), &first, &second);
    assert_eq!(cases.log([one, two], whole.len() - 1, &first, &second), "refused 19");
    let low = [one - 1, two - 1];
    for (limits, told) in [([low[0], two], low[0]), ([one, low[1]], low[1]), (low, low[0])] {
        let expected = format!("limit {}", told);
        assert_eq!(cases.log(limits, whole.len(), &first, &second), expected);
    }
}

/// 255 and 256 atoms or rules together, before the room and the limits; the longest and deepest.
fn sizes(cases: &mut Cases) {
    let atoms = |atoms: usize| Book { atoms, rules: Vec::new() }.write();
    let rules =
        |count: usize| Book { atoms: 1, rules: vec![Rule::new(0, &[], &[]); count] }.write();
    for (first, second) in [(127, 128), (255, 0), (0, 255), (254, 1)] {
        assert!(cases.join(6, &atoms(first), &atoms(second)).starts_with("book ff"));
        assert!(cases.log([1, 1], 2_000, &rules(first), &rules(second)).starts_with("both "));
    }
    for (first, second) in [(128, 128), (255, 1), (1, 255), (255, 255)] {
        assert_eq!(cases.join(0, &atoms(first), &atoms(second)), "refused 17");
        assert_eq!(cases.join(65_536, &rules(first), &rules(second)), "refused 17");
        assert_eq!(cases.log([0, 0], 0, &rules(first), &rules(second)), "refused 17");
    }
    let (wide, rest) = (wide_book(200, 16, 16, 200), wide_book(55, 16, 16, 55));
    assert!(cases.join(9_441, &wide.write(), &rest.write()).starts_with("book "));
    assert_eq!(cases.join(9_440, &wide.write(), &rest.write()), "refused 19");
    let (deep, odd) = (deep_book(200), Book { atoms: 1, rules: vec![Rule::new(0, &[], &[0])] });
    assert!(cases.log([2, 3], 9_441, &deep.write(), &odd.write()).starts_with("none-in-second "));
    assert!(cases.log([3, 2], 9_441, &odd.write(), &deep.write()).starts_with("none-in-first "));
    assert_eq!(cases.log([3, 1], 9_441, &odd.write(), &deep.write()), "limit 1");
}

/// 1 to 7 of either book, of both, and before 17 and 19.
fn damaged(cases: &mut Cases) {
    let good = Book { atoms: 255, rules: Vec::new() }.write();
    for (number, place, book) in one_of_each() {
        let first = format!("book1 refused {} {}", number, place);
        let second = format!("book2 refused {} {}", number, place);
        assert_eq!(cases.join(0, &book, &good), first);
        assert_eq!(cases.join(0, &good, &book), second);
        assert_eq!(cases.join(0, &book, &[0x52]), first);
        assert_eq!(cases.log([0, 0], 0, &book, &good), first);
        assert_eq!(cases.log([0, 0], 0, &good, &book), second);
    }
}
