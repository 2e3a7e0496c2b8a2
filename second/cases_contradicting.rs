// Cases of papers that a book has no answer set: `contradict` with tight limits and rooms, and such
// papers under `check`: in other orders, changed byte by byte, step by step, and under every mark.

use crate::altered::{alter, Parts, KINDS};
use crate::book::{Book, Rule};
use crate::cases::Cases;
use crate::cases_bad::{self, Word};
use crate::cases_damage::one_of_each;
use crate::cases_naming::{short_book, tight};
use crate::cases_papers::{engine_paper, every_byte, every_step, trailers};
use crate::claim::Claim;
use crate::desk::{MOST_BOOK, MOST_NUMBER, MOST_ROOM};
use crate::legal::{LegalWriter, CUT};
use crate::numbers::{AtomSet, RuleSet};
use crate::paper::{assemble, write_paper, Written, END, GO_ON};
use crate::random::Random;
use crate::shapes::{deep_book, long_paper_book, random_book, Length, Shape, SHAPES};
use crate::worked_contradicting::contradicting_lines;

const SEED: u64 = 38;
const NONE: Claim = Claim::NoReading;

pub fn add(cases: &mut Cases) {
    cases.worked(&contradicting_lines());
    let mut random = Random::new(SEED);
    let random = &mut random;
    for count in 0..120 {
        let book = short_book(random, count);
        tight(cases, &book, NONE);
        papers_of(cases, &book, random);
    }
    for count in 0..20 {
        let book = larger_book(random, count);
        tight(cases, &book, NONE);
        papers_of(cases, &book, random);
    }
    for book in shown_books() {
        let paper = engine_paper(&book, NONE).expect("a book without a reading");
        every_byte(cases, &book, &paper);
        every_step(cases, &book, &paper);
        every_witness(cases, &book, &paper);
        trailers(cases, &book, &paper);
    }
    ends(cases);
    for (number, place, book) in one_of_each() {
        assert_eq!(cases.paper(NONE, 0, 0, &book), format!("refused {} {}", number, place));
    }
    deepest(cases);
    longest(cases);
    let good = "contradict 1000 100 000001000000010104005242";
    let (most, room, book) = (Word::Number(MOST_NUMBER), Word::Number(MOST_ROOM), MOST_BOOK);
    cases_bad::add(cases, good, &[most, room, Word::Bytes(book)]);
}

/// A paper in another order, the engine's own, changed ones; a forged one for a book with a reading.
fn papers_of(cases: &mut Cases, book: &Book, random: &mut Random) {
    let bytes = book.write();
    let split_once_in = 4 * book.rules.len();
    let mut writer = LegalWriter { book, claim: NONE, random, idle_below: 60, split_once_in };
    let drawn = writer.write(&RuleSet::none());
    let own = match engine_paper(book, NONE) {
        Some(paper) => paper,
        None => return drop(cases.check(&bytes, &drawn)),
    };
    for paper in [&drawn, &own] {
        if paper.len() < CUT {
            assert_eq!(cases.check(&bytes, paper), "none");
            other_marks(cases, book, paper);
        }
        let kinds = random.below(KINDS.len());
        for turn in 0..3 {
            let kind = (kinds + turn) % KINDS.len();
            cases.check(&bytes, &alter(paper, kind, book.rules.len(), random));
        }
    }
}

/// Right steps under the marks that want a witness, and under one that is none.
fn other_marks(cases: &mut Cases, book: &Book, paper: &[u8]) {
    let last = paper.len() - 1;
    let mut other = paper.to_vec();
    for claim in NONE.others() {
        other[last] = claim.mark()[1];
        assert!(cases.check(&book.write(), &other).starts_with("refused 27 "));
    }
    other[last] = 0x4f;
    assert_eq!(cases.check(&book.write(), &other), format!("refused 21 {}", last - 1));
}

/// A random book of middling size without a reading, whose paper has splits inside splits.
fn larger_book(random: &mut Random, count: usize) -> Book {
    loop {
        let atoms = random.from_to(5, 30);
        let rules = random.from_to(atoms, 3 * atoms);
        let shape = Shape { pairs: random.from_to(1, 5), ..SHAPES[count % SHAPES.len()] };
        let book = random_book(random, atoms, rules, shape);
        let splits = |paper: Vec<u8>| Parts::of(&paper).steps.iter().filter(|s| s[0] == END).count();
        match engine_paper(&book, NONE).map(splits) {
            Some(ends) if ends >= 4 => return book,
            _ => continue,
        }
    }
}

/// Books without a reading whose papers hold every kind of step: a rule against itself behind a
/// fact and a circle, and three rules in a ring behind a choice.
fn shown_books() -> [Book; 2] {
    let itself = vec![
        Rule::new(0, &[], &[]),
        Rule::new(1, &[2], &[]),
        Rule::new(2, &[1], &[]),
        Rule::new(3, &[0], &[1, 3]),
    ];
    let ring = vec![
        Rule::new(0, &[], &[1]),
        Rule::new(1, &[], &[0]),
        Rule::new(2, &[0], &[3]),
        Rule::new(2, &[1], &[3]),
        Rule::new(3, &[], &[4]),
        Rule::new(4, &[5], &[2]),
        Rule::new(5, &[], &[]),
    ];
    [Book { atoms: 4, rules: itself }, Book { atoms: 6, rules: ring }]
}

/// Any witness is wrong, at its first byte, whatever its rules.
fn every_witness(cases: &mut Cases, book: &Book, paper: &[u8]) {
    let good = Parts::of(paper);
    let rules = book.rules.len() as u8;
    let lists = (0..=rules).map(|r| vec![r]).chain([vec![255], (0..rules).collect(), vec![0; 255]]);
    for witness in lists {
        let wrong = Parts { witness, ..good.clone() };
        let expected = format!("refused 27 {}", paper.len() - 6);
        assert_eq!(cases.check(&book.write(), &wrong.paper()), expected);
    }
}

/// L and ROOM at their ends, alone and together.
fn ends(cases: &mut Cases) {
    let books = [
        Book { atoms: 0, rules: Vec::new() },
        Book { atoms: 255, rules: Vec::new() },
        Book { atoms: 1, rules: vec![Rule::new(0, &[], &[])] },
        Book { atoms: 1, rules: vec![Rule::new(0, &[], &[0])] },
        deep_book(1),
        Book { atoms: 255, rules: vec![Rule::new(254, &[], &[254]); 255] },
    ];
    for book in &books {
        for limit in [0, 1, 2, 3, MOST_NUMBER] {
            for room in [0, 13, 14, 65_536] {
                cases.paper(NONE, limit, room, &book.write());
            }
        }
    }
}

/// Splits as deep as a book has rules: 252 copies of "0 if not 1", "1 if not 0", and 2 against itself
/// from either side. And a deep book with a reading, which is found at its end.
fn deepest(cases: &mut Cases) {
    let mut book = deep_book(252);
    book.atoms = 3;
    book.rules.extend([Rule::new(2, &[0], &[2]), Rule::new(2, &[1], &[2])]);
    let bytes = book.write();
    assert!(cases.paper(NONE, 1_000, 60_000, &bytes).starts_with("paper "));
    let paper = engine_paper(&book, NONE).expect("2 is against itself from either side");
    assert_eq!(cases.check(&bytes, &paper), "none");
    let book = deep_book(254).write();
    cases.paper(NONE, 1_000, 0, &book);
    let steps = [GO_ON, 0].repeat(29_996);
    let fact = Book { atoms: 1, rules: vec![Rule::new(0, &[], &[])] };
    let idle = assemble(&[&steps[..], &[END]].concat(), &[], NONE);
    assert_eq!(cases.check(&fact.write(), &idle), "refused 25 59992");
}

/// A book like that of the longest naming, with 0 against itself at its end: its paper has 60,000
/// bytes, and with one more rule that starves 60,001.
fn longest(cases: &mut Cases) {
    let against = |starved: usize| {
        let after = [1, 0, 1, 0, 0, 0, 1, 0];
        let mut book = long_paper_book(&Length { choices: 8, after, chain: 108, starved });
        let last = book.rules.len() - 1;
        book.rules[last].negative = AtomSet::none().with(book.rules[last].head);
        book
    };
    let book = against(5);
    let bytes = book.write();
    assert!(cases.paper(NONE, 1_023, 60_000, &bytes).starts_with("paper 1023 60000 "));
    assert_eq!(cases.paper(NONE, 1_023, 59_999, &bytes), "refused 14");
    assert_eq!(cases.paper(NONE, 1_022, 65_536, &bytes), "limit 1022");
    let paper = match write_paper(&book, NONE, 1_023, 60_000).0 {
        Written::Paper { bytes, .. } => bytes,
        other => panic!("{:?}", other),
    };
    assert_eq!(cases.check(&bytes, &paper), "none");
    assert_eq!(cases.paper(NONE, 1_023, 65_536, &against(6).write()), "refused 14");
}
