// The part of `selftest` about papers: naming and clearing against the definition, the checker on
// the engine's papers, on legal ones in other orders, on forged ones and on changed ones.

use crate::altered::{alter, Parts, KINDS};
use crate::book::{Book, Refusal};
use crate::checker::check_paper;
use crate::claim::{certain, clear, Claim};
use crate::forged::forged_witnesses;
use crate::legal::LegalWriter;
use crate::meaning::{generating, holds};
use crate::numbers::{AtomSet, RuleSet};
use crate::paper::{write_paper, Written, LONGEST_PAPER};
use crate::random::Random;

const AMPLE: u64 = 1_000_000;

/// What was met with claims of one kind.
#[derive(Default)]
pub struct PaperCounts {
    papers: usize,
    no_reading: usize,
    refuted: usize,
    limits: usize,
    legal: usize,
    forged: usize,
    witnesses: usize,
    changed: [usize; KINDS.len()],
    accepted: [usize; KINDS.len()],
    doubtful: usize,
}

/// Every atom of one book whose answer sets are `sets`, named and cleared.
pub fn papers(book: &Book, sets: &[AtomSet], random: &mut Random, counts: &mut [PaperCounts; 2]) {
    for atom in 0..book.atoms as u8 {
        let named = paper(book, sets, certain(atom), random, &mut counts[0]);
        let cleared = paper(book, sets, clear(atom), random, &mut counts[1]);
        assert!(!(named && cleared), "papers of both kinds for atom {} of {:?}", atom, book);
    }
}

/// One claim; true if it has a paper.
fn paper(
    book: &Book,
    sets: &[AtomSet],
    claim: Claim,
    random: &mut Random,
    counts: &mut PaperCounts,
) -> bool {
    let (written, spent) = write_paper(book, claim, AMPLE, LONGEST_PAPER);
    match &written {
        Written::Paper { bytes, .. } => {
            assert!(holds(sets, claim), "a paper for {:?} of {:?}", claim, book);
            assert_eq!(check_paper(book, bytes), Ok(claim));
            counts.papers += 1;
            change(book, sets, bytes, 4, random, counts);
        }
        Written::NoReading { .. } => {
            assert!(sets.is_empty());
            counts.no_reading += 1;
        }
        Written::Refused(refusal) => {
            let refuted = Refusal::placeless(claim.refuted());
            assert_eq!(*refusal, refuted, "a small book's paper is short");
            assert!(!sets.is_empty() && !holds(sets, claim));
            counts.refuted += 1;
        }
        Written::Limit => panic!("a small book needs few tries"),
    }
    limits(book, claim, &written, spent, counts);
    if sets.is_empty() {
        without_reading(book, claim, random, counts);
    } else {
        drawn(book, sets, claim, random, counts);
    }
    matches!(written, Written::Paper { .. })
}

/// With fewer tries than the longer of both walks needs the answer is the limit.
fn limits(book: &Book, claim: Claim, written: &Written, spent: u64, counts: &mut PaperCounts) {
    let with = |limit, room| write_paper(book, claim, limit, room).0;
    let need = (0..=spent).find(|l| with(*l, LONGEST_PAPER) != Written::Limit);
    let need = need.expect("the tries of both walks are enough");
    assert_eq!(&with(need, LONGEST_PAPER), written);
    if let Written::Paper { bytes, tries } = written {
        assert!(*tries <= need && need > 0);
        assert_eq!(&with(need, bytes.len()), written);
        let tight = with(need, bytes.len() - 1);
        assert_eq!(tight, Written::Refused(Refusal::placeless(14)));
    }
    counts.limits += need as usize + 1;
}

/// A paper with steps at random: legal and accepted if the claim holds, else refused.
fn drawn(
    book: &Book,
    sets: &[AtomSet],
    claim: Claim,
    random: &mut Random,
    counts: &mut PaperCounts,
) {
    let on = generating(book, random.pick(sets));
    let idle_below = random.below(50);
    let mut writer = LegalWriter { book, claim, random, idle_below, split_once_in: 12 };
    let paper = writer.write(&on);
    let answer = check_paper(book, &paper);
    if holds(sets, claim) {
        assert_eq!(answer, Ok(claim), "legal: {:02x?} of {:?}", paper, book);
        counts.legal += 1;
    } else {
        assert_eq!(answer.map_err(|refusal| refusal.number), Err(25));
        counts.forged += 1;
    }
    change(book, sets, &paper, 2, random, counts);
}

/// In a book without a reading every step of a paper may be right: the witness must be what fails.
fn without_reading(book: &Book, claim: Claim, random: &mut Random, counts: &mut PaperCounts) {
    let mut writer = LegalWriter { book, claim, random, idle_below: 10, split_once_in: 12 };
    let mut parts = Parts::of(&writer.write(&RuleSet::none()));
    for witness in forged_witnesses(book, random) {
        parts.witness = witness;
        let paper = parts.paper();
        let answer = check_paper(book, &paper).map_err(|refusal| refusal.number);
        assert_eq!(answer, Err(27), "witness of {:02x?} for {:?}", paper, book);
        counts.witnesses += 1;
        change(book, &[], &paper, 1, random, counts);
    }
}

/// Changed papers, each under every mark: whatever is accepted claims what holds.
fn change(
    book: &Book,
    sets: &[AtomSet],
    paper: &[u8],
    times: usize,
    random: &mut Random,
    counts: &mut PaperCounts,
) {
    for _ in 0..times {
        let kind = random.below(KINDS.len());
        let changed = alter(paper, kind, book.rules.len(), random);
        let length = changed.len();
        let claim = match Claim::by_mark(&changed[length - 2..], changed[length - 6]) {
            Some(claim) if changed != paper => claim,
            _ => continue,
        };
        counts.changed[kind] += 1;
        counts.doubtful += !holds(sets, claim) as usize;
        counts.accepted[kind] += is_accepted(book, sets, claim, &changed) as usize;
        under_other_marks(book, sets, &changed, claim);
    }
}

/// The paper under the marks of the other kinds: whatever is accepted claims what holds.
pub fn under_other_marks(book: &Book, sets: &[AtomSet], paper: &[u8], claim: Claim) {
    let (bytes, atom) = (&paper[..paper.len() - 2], paper[paper.len() - 6]);
    for mark in claim.others().map(Claim::mark) {
        let other = Claim::by_mark(&mark, atom).expect("a mark");
        is_accepted(book, sets, other, &[bytes, &mark].concat());
    }
}

/// Whether the checker takes a paper with this claim, which must hold then.
pub fn is_accepted(book: &Book, sets: &[AtomSet], claim: Claim, paper: &[u8]) -> bool {
    match check_paper(book, paper) {
        Ok(told) => {
            assert_eq!(told, claim);
            assert!(holds(sets, told), "accepted: {:02x?} of {:?}", paper, book);
            true
        }
        Err(_) => false,
    }
}

impl PaperCounts {
    pub fn report(&self, kind: fn(u8) -> Claim) {
        let (word, refuted) = (kind(0).command(), kind(0).refuted());
        println!("{}: {} papers, all accepted, for exactly the right claims", word, self.papers);
        println!("  no reading (11): {}, refuted ({}): {}", self.no_reading, refuted, self.refuted);
        println!("  calls with limits up to the one needed: {}", self.limits);
        println!("  legal papers in other orders: {}, all accepted", self.legal);
        println!("  forged papers: {}, all refused with 25", self.forged);
        println!("  papers for books without a reading: {}, all refused with 27", self.witnesses);
        let changed: usize = self.changed.iter().sum();
        let accepted: usize = self.accepted.iter().sum();
        println!(
            "  changed papers: {}, {} claim what does not hold; {} accepted, all of them hold",
            changed, self.doubtful, accepted
        );
        for (kind, text) in KINDS.iter().enumerate() {
            println!("    {}: {}, {} accepted", text, self.changed[kind], self.accepted[kind]);
        }
        assert!(changed >= 100_000 && self.doubtful >= 20_000 && accepted >= 1_000);
        assert!(self.papers >= 5_000 && self.legal >= 5_000 && self.forged >= 5_000);
        assert!(self.witnesses >= 20_000);
    }
}
