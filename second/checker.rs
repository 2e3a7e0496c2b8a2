// The checker of papers. It stands on the book alone and shares no condition with the closing, the
// walk or the writer: each is evaluated here again, rule by rule, from document 01's words.

use crate::book::{two_bytes, Book, Refusal};
use crate::claim::{certain, clear, Claim};
use crate::numbers::{Atom, Numbered, RuleNo};

const LONGEST: usize = 60_000;
const TRAILER: usize = 6;

/// Which rules are on and which are off, by rule number.
#[derive(Clone)]
pub struct Colours {
    pub on: [bool; 256],
    pub off: [bool; 256],
}

impl Colours {
    pub const EMPTY: Colours = Colours { on: [false; 256], off: [false; 256] };
}

pub struct Checker<'a> {
    pub book: &'a Book,
    pub paper: &'a [u8],
    pub claim: Claim,
    pub witness_start: usize,
}

/// A step as its bytes say it, before its condition is looked at.
pub enum Step {
    On(usize),
    Off(usize),
    Starve(Vec<usize>),
    Split(usize),
    End,
}

/// Gives what the paper claims if it shows it.
pub fn check(book_bytes: &[u8], paper: &[u8]) -> Result<Claim, Refusal> {
    let book = Book::read(book_bytes)?;
    check_paper(&book, paper)
}

pub fn check_paper(book: &Book, paper: &[u8]) -> Result<Claim, Refusal> {
    let checker = Checker::open(book, paper)?;
    let end = checker.branch(0, Colours::EMPTY)?;
    if end != checker.witness_start {
        return Err(Refusal::at(26, end));
    }
    checker.grounds()?;
    Ok(checker.claim)
}

impl<'a> Checker<'a> {
    /// The paper's length, mark and trailer.
    pub fn open(book: &'a Book, paper: &'a [u8]) -> Result<Checker<'a>, Refusal> {
        let length = paper.len();
        if length < TRAILER || length > LONGEST {
            return Err(Refusal::at(20, 0));
        }
        let claim = match paper[length - 2..] {
            [0x50, 0x46] => certain(paper[length - 6]),
            [0x50, 0x43] => clear(paper[length - 6]),
            [0x50, 0x4e] => Claim::NoReading,
            _ => return Err(Refusal::at(21, length - 2)),
        };
        let witness_start = two_bytes(paper, length - 4);
        if witness_start + paper[length - 5] as usize + TRAILER != length {
            return Err(Refusal::at(22, length - 4));
        }
        let is_claimed = match claim {
            Claim::Certain(atom) | Claim::Clear(atom) => (atom.byte() as usize) < book.atoms,
            Claim::NoReading => paper[length - 6] == 0,
        };
        if !is_claimed {
            return Err(Refusal::at(23, length - 6));
        }
        Ok(Checker { book, paper, claim, witness_start })
    }

    /// The rules that the witness lists.
    pub fn listed(&self) -> &'a [u8] {
        &self.paper[self.witness_start..self.paper.len() - TRAILER]
    }

    /// A witness; none where the claim is that there is no answer set.
    pub fn grounds(&self) -> Result<(), Refusal> {
        match self.claim {
            Claim::NoReading if self.listed().is_empty() => Ok(()),
            Claim::NoReading => Err(Refusal::at(27, self.witness_start)),
            _ => self.witness(),
        }
    }

    /// Checks a branch from `place` on and gives the place after it.
    fn branch(&self, mut place: usize, mut colours: Colours) -> Result<usize, Refusal> {
        loop {
            let (step, after) = self.step(place)?;
            if !self.holds(&step, &colours) {
                return Err(Refusal::at(25, place));
            }
            match step {
                Step::On(r) => colours.on[r] = true,
                Step::Off(r) => colours.off[r] = true,
                Step::Starve(list) => list.into_iter().for_each(|r| colours.off[r] = true),
                Step::Split(r) => return self.split(after, &colours, r),
                Step::End => return Ok(after),
            }
            place = after;
        }
    }

    fn split(&self, place: usize, before: &Colours, r: usize) -> Result<usize, Refusal> {
        let mut on = before.clone();
        on.on[r] = true;
        let second = self.branch(place, on)?;
        let mut off = before.clone();
        off.off[r] = true;
        self.branch(second, off)
    }

    /// Reads the step at `place`: refusal 24, whatever is wrong with its bytes.
    pub fn step(&self, place: usize) -> Result<(Step, usize), Refusal> {
        let bad = Refusal::at(24, place);
        if place >= self.witness_start {
            return Err(bad);
        }
        let bytes = &self.paper[place..self.witness_start];
        if bytes[0] == 0x45 {
            return Ok((Step::End, place + 1));
        }
        if ![0x41, 0x42, 0x53, 0x55].contains(&bytes[0]) || bytes.len() < 2 {
            return Err(bad);
        }
        let number = bytes[1] as usize;
        if bytes[0] == 0x55 {
            let list = self.list(&bytes[2..], number).ok_or(bad)?;
            return Ok((Step::Starve(list), place + 2 + number));
        }
        if number >= self.book.rules.len() {
            return Err(bad);
        }
        let step = match bytes[0] {
            0x41 => Step::On(number),
            0x42 => Step::Off(number),
            _ => Step::Split(number),
        };
        Ok((step, place + 2))
    }

    /// The list of a 55: at least one rule, all there, all rules of the book, strictly ascending.
    fn list(&self, bytes: &[u8], count: usize) -> Option<Vec<usize>> {
        if count == 0 || count > bytes.len() {
            return None;
        }
        let list: Vec<usize> = bytes[..count].iter().map(|b| *b as usize).collect();
        let ascending = list.windows(2).all(|pair| pair[0] < pair[1]);
        let in_book = list.iter().all(|r| *r < self.book.rules.len());
        if ascending && in_book {
            Some(list)
        } else {
            None
        }
    }

    pub fn is_derived(&self, atom: Atom, colours: &Colours) -> bool {
        let rules = &self.book.rules;
        (0..rules.len()).any(|r| colours.on[r] && rules[r].head == atom)
    }

    pub fn all_rules_off(&self, atom: Atom, colours: &Colours, listed: &[usize]) -> bool {
        let rules = &self.book.rules;
        let gone = |r: usize| colours.off[r] || listed.binary_search(&r).is_ok();
        (0..rules.len()).all(|r| rules[r].head != atom || gone(r))
    }

    fn is_shown(&self, colours: &Colours) -> bool {
        match self.claim {
            Claim::Certain(atom) => self.is_derived(atom, colours),
            Claim::Clear(atom) => self.all_rules_off(atom, colours, &[]),
            Claim::NoReading => false,
        }
    }

    pub fn holds(&self, step: &Step, colours: &Colours) -> bool {
        let rules = &self.book.rules;
        match step {
            Step::On(r) => {
                rules[*r].positive.members().all(|a| self.is_derived(a, colours))
                    && rules[*r].negative.members().all(|a| self.all_rules_off(a, colours, &[]))
            }
            Step::Off(r) => rules[*r].negative.members().any(|a| self.is_derived(a, colours)),
            Step::Starve(list) => list.iter().all(|r| {
                rules[*r].positive.members().any(|a| self.all_rules_off(a, colours, list))
            }),
            Step::Split(r) => !colours.on[*r] && !colours.off[*r],
            Step::End => {
                (0..rules.len()).any(|r| colours.on[r] && colours.off[r]) || self.is_shown(colours)
            }
        }
    }

    /// Refusal 27, in three passes: each byte for number, repetition and positive atoms; each byte
    /// for negative atoms; last the rules that are not listed.
    fn witness(&self) -> Result<(), Refusal> {
        let rules = &self.book.rules;
        let listed = self.listed();
        let mut seen = [false; 256];
        let mut in_x = [false; 256];
        for (offset, r) in listed.iter().enumerate() {
            let wrong = Refusal::at(27, self.witness_start + offset);
            let r = *r as usize;
            if r >= rules.len() || seen[r] {
                return Err(wrong);
            }
            if rules[r].positive.members().any(|a| !in_x[a.byte() as usize]) {
                return Err(wrong);
            }
            seen[r] = true;
            in_x[rules[r].head.byte() as usize] = true;
        }
        for (offset, r) in listed.iter().enumerate() {
            let rule = self.book.rule(RuleNo(*r));
            if rule.negative.members().any(|a| in_x[a.byte() as usize]) {
                return Err(Refusal::at(27, self.witness_start + offset));
            }
        }
        for (r, rule) in rules.iter().enumerate() {
            let outside = rule.positive.members().any(|a| !in_x[a.byte() as usize]);
            let blocked = rule.negative.members().any(|a| in_x[a.byte() as usize]);
            if !seen[r] && !outside && !blocked {
                return Err(Refusal::at(27, self.paper.len() - TRAILER));
            }
        }
        Ok(())
    }
}
