// Cases of request 2: `clear` on every atom of random books with tight limits and rooms, and
// clearing papers under `check`: changed byte by byte, step by step, and under the other mark.

use crate::book::{Book, Rule};
use crate::cases::Cases;
use crate::cases_bad::{self, Word};
use crate::cases_damage::one_of_each;
use crate::cases_naming::{ends, larger_book, short_book, tight};
use crate::cases_papers::{engine_paper, every_place, papers_of};
use crate::claim::{certain, clear, Claim};
use crate::desk::{MOST_BOOK, MOST_NUMBER, MOST_ROOM};
use crate::paper::assemble;
use crate::random::Random;
use crate::shapes::{deep_book, deep_certain_book, long_paper_book, Length, LONGEST};
use crate::worked_requests::clearing_lines;

const SEED: u64 = 2;

pub fn add(cases: &mut Cases) {
    cases.worked(&clearing_lines());
    let mut random = Random::new(SEED);
    let random = &mut random;
    for count in 0..40 {
        let book = short_book(random, count);
        for atom in 0..book.atoms as u8 {
            tight(cases, &book, clear(atom));
            marks(cases, &book, clear(atom));
            marks(cases, &book, certain(atom));
        }
        let beyond = random.from_to(book.atoms, 255) as u8;
        assert_eq!(cases.paper(clear(beyond), 1, 0, &book.write()), "refused 13");
    }
    for count in 0..20 {
        let book = short_book(random, count);
        for atom in 0..book.atoms as u8 {
            papers_of(cases, &book, clear(atom), random);
        }
        let (book, claim) = larger_book(random, count, clear);
        tight(cases, &book, claim);
        papers_of(cases, &book, claim, random);
    }
    for (book, atom) in shown_books() {
        every_place(cases, &book, clear(atom));
    }
    some_rules_off(cases);
    ends(cases, clear);
    for (number, place, book) in one_of_each() {
        let expected = format!("refused {} {}", number, place);
        assert_eq!(cases.paper(clear(number), 0, 0, &book), expected);
    }
    deepest(cases);
    longest(cases);
    let good = "clear 0 1000 100 000100010101000000000400020208005242";
    let (most, room, book) = (Word::Number(MOST_NUMBER), Word::Number(MOST_ROOM), MOST_BOOK);
    cases_bad::add(cases, good, &[Word::Number(255), most, room, Word::Bytes(book)]);
}

/// The engine's paper under the other mark and under marks that are none.
fn marks(cases: &mut Cases, book: &Book, claim: Claim) {
    let bytes = book.write();
    let mut paper = match engine_paper(book, claim) {
        Some(paper) => paper,
        None => return,
    };
    let last = paper.len() - 1;
    cases.check(&bytes, &paper);
    paper[last] = claim.others()[0].mark()[1];
    assert!(cases.check(&bytes, &paper).starts_with("refused 25 "), "both kinds of one atom");
    paper[last] = 0x44;
    assert_eq!(cases.check(&bytes, &paper), format!("refused 21 {}", last - 1));
}

/// Books whose clearing papers hold every kind of step, the last one without a split.
fn shown_books() -> Vec<(Book, u8)> {
    let either_hand = vec![
        Rule::new(0, &[], &[1]),
        Rule::new(1, &[], &[0]),
        Rule::new(2, &[], &[0, 1]),
        Rule::new(3, &[2], &[]),
    ];
    let circle = vec![
        Rule::new(2, &[], &[]),
        Rule::new(0, &[1], &[]),
        Rule::new(1, &[0], &[]),
        Rule::new(0, &[2, 3], &[]),
        Rule::new(0, &[], &[2]),
    ];
    vec![(Book { atoms: 4, rules: either_hand }, 3), (Book { atoms: 4, rules: circle }, 0)]
}

/// Small papers worked out by hand for an atom of which one rule, or each but one, is off; none of
/// its rules; all of them.
fn some_rules_off(cases: &mut Cases) {
    let book = Book {
        atoms: 3,
        rules: vec![Rule::new(0, &[1], &[]), Rule::new(0, &[2], &[]), Rule::new(2, &[], &[])],
    };
    let papers: [(&[u8], Claim, &str); 9] = [
        (&[0x55, 1, 0, 0x45], clear(0), "refused 25 3"),
        (&[0x55, 1, 0, 0x41, 2, 0x45], clear(0), "refused 25 5"),
        (&[0x55, 1, 0, 0x41, 2, 0x41, 1, 0x45], clear(0), "refused 25 7"),
        (&[0x55, 1, 0, 0x41, 2, 0x41, 1, 0x45], certain(0), "certain 0"),
        (&[0x53, 1, 0x41, 2, 0x45, 0x45], clear(0), "refused 25 4"),
        (&[0x45], clear(1), "clear 1"),
        (&[0x45], clear(2), "refused 25 0"),
        (&[0x41, 2, 0x45], clear(2), "refused 25 2"),
        (&[0x41, 2, 0x45], certain(2), "certain 2"),
    ];
    for (steps, claim, expected) in papers {
        let paper = assemble(steps, &[2, 1], claim);
        assert_eq!(cases.check(&book.write(), &paper), expected, "{:02x?}", steps);
    }
}

fn deepest(cases: &mut Cases) {
    let mut book = deep_certain_book();
    book.rules.truncate(253);
    book.rules.push(Rule::new(2, &[], &[0, 1]));
    let bytes = book.write();
    assert!(cases.paper(clear(2), 1_000, 60_000, &bytes).starts_with("paper "));
    let paper = engine_paper(&book, clear(2)).expect("2 is blocked from either side");
    assert_eq!(cases.check(&bytes, &paper), "clear 2");
    let book = deep_book(254).write();
    assert_eq!(cases.paper(clear(0), 1_000, 60_000, &book), "refused 18");
    assert_eq!(cases.paper(clear(1), 509, 60_000, &book), "refused 18");
    assert_eq!(cases.paper(clear(1), 508, 60_000, &book), "limit 508");
}

/// The book of the longest naming, a little changed, with an atom that is clear because atom 0 is
/// certain: its paper has 60,000 bytes, and with one more rule that starves 60,001.
fn longest(cases: &mut Cases) {
    let cleared = |starved: usize| {
        let after = [0, 0, 1, 1, 0, 1, 0, 2];
        let chain = LONGEST.chain - 2;
        let mut book = long_paper_book(&Length { after, chain, starved, ..LONGEST });
        let last = book.atoms as u8;
        book.atoms += 1;
        book.rules.push(Rule::new(last, &[], &[0]));
        (book, clear(last))
    };
    let (book, claim) = cleared(6);
    let bytes = book.write();
    assert!(cases.paper(claim, 511, 60_000, &bytes).starts_with("paper 511 60000 "));
    assert_eq!(cases.paper(claim, 511, 59_999, &bytes), "refused 14");
    assert_eq!(cases.paper(claim, 510, 65_536, &bytes), "limit 510");
    let paper = engine_paper(&book, claim).expect("it has 60,000 bytes");
    assert_eq!(cases.check(&bytes, &paper), format!("clear {}", claim.byte()));
    let (longer, claim) = cleared(7);
    assert_eq!(cases.paper(claim, 511, 65_536, &longer.write()), "refused 14");
}
