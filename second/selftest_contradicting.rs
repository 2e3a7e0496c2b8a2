// The part of `selftest` about papers that a book has no answer set: the engine and the checker
// against the definition, on the random books and on every book of a small size.

use crate::altered::{alter, Parts, KINDS};
use crate::book::{Book, Refusal, Rule};
use crate::checker::check_paper;
use crate::claim::Claim;
use crate::legal::{LegalWriter, CUT};
use crate::meaning::answer_sets;
use crate::numbers::{AtomSet, RuleSet};
use crate::paper::{write_paper, Written, LONGEST_PAPER};
use crate::random::Random;
use crate::selftest_papers::{is_accepted, under_other_marks};
use crate::walk::{find_set, Finding};

const AMPLE: u64 = 1_000_000;

#[derive(Default)]
pub struct NoneCounts {
    books: usize,
    papers: usize,
    readings: usize,
    legal: usize,
    forged: usize,
    changed: usize,
    accepted: usize,
}

/// One book whose answer sets are `sets`.
pub fn contradiction(book: &Book, sets: &[AtomSet], random: &mut Random, counts: &mut NoneCounts) {
    counts.books += 1;
    match write_paper(book, Claim::NoReading, AMPLE, LONGEST_PAPER).0 {
        Written::Paper { tries, bytes } => {
            assert!(sets.is_empty(), "a paper for {:?}", book);
            assert_eq!(check_paper(book, &bytes), Ok(Claim::NoReading));
            let found = find_set(book, 1, AMPLE);
            let whole = matches!(found, Finding::Fewer { tries: all, sets: 0, .. } if all == tries);
            assert!(whole, "{} tries of {:?}", tries, book);
            rooms(book, tries, &bytes);
            other_trailers(book, &bytes);
            change(book, sets, &bytes, random, counts);
            counts.papers += 1;
        }
        written => {
            assert_eq!(written, Written::Refused(Refusal::placeless(38)), "of {:?}", book);
            let tries = match find_set(book, 1, AMPLE) {
                Finding::Set(found) => found.tries,
                other => panic!("{:?} where contradicting gives 38", other),
            };
            assert!(!sets.is_empty());
            assert_eq!(with(book, tries, 0), written);
            assert_eq!(with(book, tries - 1, LONGEST_PAPER), Written::Limit);
            counts.readings += 1;
        }
    }
    drawn(book, sets, random, counts);
}

fn with(book: &Book, limit: u64, room: usize) -> Written {
    write_paper(book, Claim::NoReading, limit, room).0
}

/// The tries and the room that the paper needs, and one less of each.
fn rooms(book: &Book, tries: u64, paper: &[u8]) {
    let whole = Written::Paper { tries, bytes: paper.to_vec() };
    assert_eq!(with(book, tries, paper.len()), whole);
    assert_eq!(with(book, tries - 1, LONGEST_PAPER), Written::Limit);
    let short = Written::Refused(Refusal::placeless(14));
    assert_eq!(with(book, tries, paper.len() - 1), short);
}

/// Right steps under another mark want a witness, and there is none; an atom is 23, a rule as
/// witness 27, whatever the atom and the rule.
fn other_trailers(book: &Book, paper: &[u8]) {
    let start = paper.len() - 6;
    let mut parts = Parts::of(paper);
    for claim in Claim::NoReading.others() {
        parts.claim = claim;
        assert_eq!(check_paper(book, &parts.paper()).map_err(|r| r.number), Err(27));
    }
    parts.claim = Claim::NoReading;
    for rule in [0, book.rules.len() as u8, 255] {
        parts.witness = vec![rule];
        assert_eq!(check_paper(book, &parts.paper()), Err(Refusal::at(27, start)));
    }
    for atom in [1, book.atoms as u8, 255] {
        let mut changed = paper.to_vec();
        changed[start] = atom;
        assert_eq!(check_paper(book, &changed), Err(Refusal::at(23, start)));
    }
}

/// A paper with steps at random: legal and accepted where there is no answer set, else refused.
fn drawn(book: &Book, sets: &[AtomSet], random: &mut Random, counts: &mut NoneCounts) {
    let idle_below = random.below(50);
    let claim = Claim::NoReading;
    let paper = LegalWriter { book, claim, random, idle_below, split_once_in: 12 }
        .write(&RuleSet::none());
    if paper.len() >= CUT {
        return;
    }
    let answer = check_paper(book, &paper);
    if sets.is_empty() {
        assert_eq!(answer, Ok(claim), "legal: {:02x?} of {:?}", paper, book);
        counts.legal += 1;
    } else {
        assert_eq!(answer.map_err(|refusal| refusal.number), Err(25));
        counts.forged += 1;
    }
    change(book, sets, &paper, random, counts);
}

/// Changed papers, each under every mark: whatever is accepted claims what holds.
fn change(
    book: &Book,
    sets: &[AtomSet],
    paper: &[u8],
    random: &mut Random,
    counts: &mut NoneCounts,
) {
    for kind in 0..KINDS.len() {
        let changed = alter(paper, kind, book.rules.len(), random);
        let length = changed.len();
        let claim = match Claim::by_mark(&changed[length - 2..], changed[length - 6]) {
            Some(claim) if changed != paper => claim,
            _ => continue,
        };
        counts.changed += 1;
        counts.accepted += is_accepted(book, sets, claim, &changed) as usize;
        under_other_marks(book, sets, &changed, claim);
    }
}

/// Every book with one atom and up to four rules, and with two atoms and up to three.
pub fn every_small_book(counts: &mut NoneCounts) {
    let mut random = Random::new(38);
    for (atoms, most) in [(1, 4), (2, 3)] {
        let rules = every_rule(atoms);
        for count in 0..=most {
            for number in 0..rules.len().pow(count) {
                let drawn = (0..count).map(|place| number / rules.len().pow(place) % rules.len());
                let book = Book { atoms, rules: drawn.map(|rule| rules[rule]).collect() };
                contradiction(&book, &answer_sets(&book), &mut random, counts);
            }
        }
    }
}

/// Every rule over so many atoms.
fn every_rule(atoms: usize) -> Vec<Rule> {
    let part = |bits: usize| -> Vec<u8> {
        (0..atoms as u8).filter(|atom| bits >> atom & 1 == 1).collect()
    };
    let parts: Vec<Vec<u8>> = (0..1 << atoms).map(part).collect();
    let mut rules = Vec::new();
    for head in 0..atoms as u8 {
        for positive in &parts {
            rules.extend(parts.iter().map(|negative| Rule::new(head, positive, negative)));
        }
    }
    rules
}

impl NoneCounts {
    pub fn report(&self) {
        println!("contradict: {} books, small ones all", self.books);
        println!("  papers: {}, all accepted, with the tries of the whole fixed walk", self.papers);
        println!("  a reading (38): {}, at the try that finds it", self.readings);
        println!("  legal papers in other orders: {}, all accepted", self.legal);
        println!("  forged papers: {}, all refused with 25", self.forged);
        println!(
            "  changed papers: {}; {} accepted, all of them hold",
            self.changed, self.accepted
        );
        assert!(self.books >= 54_000 && self.papers >= 10_000 && self.readings >= 10_000);
        assert!(self.legal >= 10_000 && self.forged >= 10_000);
        assert!(self.changed >= 200_000 && self.accepted >= 1_000);
    }
}
