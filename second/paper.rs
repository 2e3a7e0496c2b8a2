// Naming, clearing and contradicting: the engine's own paper that an atom is in every answer set, or
// in none, or that the book has no answer set.

use crate::book::{Book, Refusal};
use crate::claim::Claim;
use crate::closing::{atoms_said, goes_on, is_blocked, support, Colouring};
use crate::numbers::{AtomSet, Numbered, RuleNo, RuleSet};
use crate::walk::{find_set, Finding};

pub const LONGEST_PAPER: usize = 60_000;
pub const GO_ON: u8 = 0x41;
pub const GO_OFF: u8 = 0x42;
pub const STARVE: u8 = 0x55;
pub const SPLIT: u8 = 0x53;
pub const END: u8 = 0x45;

#[derive(Clone, PartialEq, Eq, Debug)]
pub enum Written {
    Paper { tries: u64, bytes: Vec<u8> },
    NoReading { tries: u64, clash: Option<RuleNo> },
    Limit,
    Refused(Refusal),
}

/// Why the paper's walk stopped before its end.
enum Stop {
    Limit,
    Refuted,
}

struct Writer<'a> {
    book: &'a Book,
    claim: Claim,
    limit: u64,
    tries: u64,
    /// The steps, as far as a paper can hold them; `length` goes on counting past that.
    steps: Vec<u8>,
    length: u64,
}

/// 45's condition: a contradiction, or what is claimed shows: an on rule has the atom as head, or
/// all rules with that head are off. That there is no answer set shows by a contradiction alone.
pub fn may_end(book: &Book, claim: Claim, colouring: &Colouring) -> bool {
    let said = atoms_said(book, colouring);
    colouring.contradicts()
        || match claim {
            Claim::Certain(atom) => said.derived.has(atom),
            Claim::Clear(atom) => said.given_up.has(atom),
            Claim::NoReading => false,
        }
}

enum Step {
    On(RuleNo),
    Off(RuleNo),
    Starve(RuleSet),
}

/// The first step that adds something, in the order of document 01.
fn next_step(book: &Book, colouring: &Colouring) -> Option<Step> {
    let said = atoms_said(book, colouring);
    let not_on = book.all_rules().minus(&colouring.on);
    let not_off = book.all_rules().minus(&colouring.off);
    if let Some(r) = not_on.members().find(|r| goes_on(book.rule(*r), &said)) {
        return Some(Step::On(r));
    }
    if let Some(r) = not_off.members().find(|r| is_blocked(book.rule(*r), &said)) {
        return Some(Step::Off(r));
    }
    let outside = not_off.minus(&support(book, colouring));
    if outside.is_none() {
        None
    } else {
        Some(Step::Starve(outside))
    }
}

impl Writer<'_> {
    fn put(&mut self, bytes: &[u8]) {
        self.length += bytes.len() as u64;
        if self.length <= LONGEST_PAPER as u64 {
            self.steps.extend(bytes);
        }
    }

    fn branch(&mut self, start: &Colouring) -> Result<(), Stop> {
        if self.tries == self.limit {
            return Err(Stop::Limit);
        }
        self.tries += 1;
        let mut now = *start;
        while !may_end(self.book, self.claim, &now) {
            match next_step(self.book, &now) {
                Some(step) => self.take(step, &mut now),
                None => return self.split(&now),
            }
        }
        self.put(&[END]);
        Ok(())
    }

    fn take(&mut self, step: Step, now: &mut Colouring) {
        match step {
            Step::On(r) => {
                self.put(&[GO_ON, r.0]);
                now.on.insert(r);
            }
            Step::Off(r) => {
                self.put(&[GO_OFF, r.0]);
                now.off.insert(r);
            }
            Step::Starve(rules) => {
                let mut bytes = vec![STARVE, rules.count() as u8];
                bytes.extend(rules.members().map(|r| r.byte()));
                self.put(&bytes);
                now.off = now.off.union(&rules);
            }
        }
    }

    fn split(&mut self, now: &Colouring) -> Result<(), Stop> {
        let r = now.lowest_uncoloured(self.book).ok_or(Stop::Refuted)?;
        self.put(&[SPLIT, r.0]);
        self.branch(&now.with_on(r))?;
        self.branch(&now.with_off(r))
    }
}

/// The on rules in the order of the witness: always the lowest that may be listed next.
pub fn witness(book: &Book, on: &RuleSet) -> Vec<u8> {
    let mut listed = Vec::new();
    let mut left = *on;
    let mut heads = AtomSet::none();
    while let Some(r) = left.members().find(|r| book.rule(*r).positive.within(&heads)) {
        listed.push(r.0);
        heads.insert(book.rule(r).head);
        left = left.minus(&RuleSet::none().with(r));
    }
    listed
}

/// Steps, witness and trailer put together.
pub fn assemble(steps: &[u8], witness: &[u8], claim: Claim) -> Vec<u8> {
    let mut bytes = steps.to_vec();
    bytes.extend(witness);
    bytes.push(claim.byte());
    bytes.push(witness.len() as u8);
    bytes.extend((steps.len() as u16).to_le_bytes());
    bytes.extend(claim.mark());
    bytes
}

/// Naming, clearing or contradicting as a caller sees it, and the tries of all walks together. That
/// there is no answer set has no witness, and no walk to answer set 1 before the paper's.
pub fn write_paper(book: &Book, claim: Claim, limit: u64, room: usize) -> (Written, u64) {
    if claim == Claim::NoReading {
        return write_walk(book, claim, limit, room, &[]);
    }
    if claim.byte() as usize >= book.atoms {
        return (Written::Refused(Refusal::placeless(13)), 0);
    }
    let first = match find_set(book, 1, limit) {
        Finding::Set(found) => found,
        Finding::Fewer { tries, clash, .. } => return (Written::NoReading { tries, clash }, tries),
        Finding::Limit => return (Written::Limit, limit),
    };
    let witness = witness(book, &first.colouring.on);
    let (written, spent) = write_walk(book, claim, limit, room, &witness);
    (written, first.tries + spent)
}

/// The paper's walk, what it came to, and its tries.
fn write_walk(
    book: &Book,
    claim: Claim,
    limit: u64,
    room: usize,
    witness: &[u8],
) -> (Written, u64) {
    let mut writer = Writer { book, claim, limit, tries: 0, steps: Vec::new(), length: 0 };
    let outcome = writer.branch(&Colouring::empty());
    let tries = writer.tries;
    let refused = |number: u8| (Written::Refused(Refusal::placeless(number)), tries);
    match outcome {
        Err(Stop::Limit) => return (Written::Limit, tries),
        Err(Stop::Refuted) => return refused(claim.refuted()),
        Ok(()) => (),
    }
    let length = writer.length + witness.len() as u64 + 6;
    if length > room as u64 || length > LONGEST_PAPER as u64 {
        return refused(14);
    }
    (Written::Paper { tries, bytes: assemble(&writer.steps, witness, claim) }, tries)
}
