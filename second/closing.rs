// Colourings and their closing, as document 01 section "Colours and closing" says them.

use crate::book::{Book, Rule};
use crate::numbers::{AtomSet, RuleNo, RuleSet};

/// The pair of sets, how many choices were made so far, and for each coloured rule the number of
/// choices made when it got its colour.
#[derive(Clone, Copy, PartialEq, Eq, Debug)]
pub struct Colouring {
    pub on: RuleSet,
    pub off: RuleSet,
    level: u8,
    levels: [u8; 256],
}

impl Colouring {
    pub fn empty() -> Colouring {
        Colouring::of(RuleSet::none(), RuleSet::none())
    }

    /// A pair before any choice.
    pub fn of(on: RuleSet, off: RuleSet) -> Colouring {
        Colouring { on, off, level: 0, levels: [0; 256] }
    }

    pub fn coloured(&self) -> RuleSet {
        self.on.union(&self.off)
    }

    pub fn level(&self) -> u8 {
        self.level
    }

    pub fn level_of(&self, rule: RuleNo) -> u8 {
        self.levels[rule.0 as usize]
    }

    /// The rule put on by choice, one level deeper.
    pub fn choose_on(self, rule: RuleNo) -> Colouring {
        self.deeper(rule).with_on(rule)
    }

    /// The rule put off by choice, one level deeper.
    pub fn choose_off(self, rule: RuleNo) -> Colouring {
        self.deeper(rule).with_off(rule)
    }

    fn deeper(mut self, chosen: RuleNo) -> Colouring {
        self.level += 1;
        self.levels[chosen.0 as usize] = self.level;
        self
    }

    /// Gives this level to each rule that has a colour now and had none in `before`.
    fn stamp(mut self, before: &Colouring) -> Colouring {
        for r in self.coloured().minus(&before.coloured()).members() {
            self.levels[r.0 as usize] = self.level;
        }
        self
    }

    pub fn contradicts(&self) -> bool {
        self.on.meets(&self.off)
    }

    /// The lowest rule that is in both sets.
    pub fn lowest_clash(&self) -> Option<RuleNo> {
        self.on.members().find(|r| self.off.has(*r))
    }

    pub fn lowest_uncoloured(&self, book: &Book) -> Option<RuleNo> {
        book.all_rules().minus(&self.on).minus(&self.off).lowest()
    }

    pub fn with_on(mut self, rule: RuleNo) -> Colouring {
        self.on.insert(rule);
        self
    }

    pub fn with_off(mut self, rule: RuleNo) -> Colouring {
        self.off.insert(rule);
        self
    }
}

/// What a colouring says of the atoms.
pub struct AtomsSaid {
    /// Heads of on rules.
    pub derived: AtomSet,
    /// Atoms all of whose rules are off, those without a rule included.
    pub given_up: AtomSet,
}

pub fn atoms_said(book: &Book, colouring: &Colouring) -> AtomsSaid {
    let not_off = book.all_rules().minus(&colouring.off);
    AtomsSaid {
        derived: book.heads(&colouring.on),
        given_up: book.all_atoms().minus(&book.heads(&not_off)),
    }
}

pub fn goes_on(rule: &Rule, said: &AtomsSaid) -> bool {
    rule.positive.within(&said.derived) && rule.negative.within(&said.given_up)
}

pub fn is_blocked(rule: &Rule, said: &AtomsSaid) -> bool {
    rule.negative.meets(&said.derived)
}

fn is_starved(rule: &Rule, said: &AtomsSaid) -> bool {
    rule.positive.meets(&said.given_up)
}

/// The smallest set V of rules such that a rule that is not off, and whose positive atoms are all
/// heads of rules in V, is in V.
pub fn support(book: &Book, colouring: &Colouring) -> RuleSet {
    let mut supported = RuleSet::none();
    let mut heads = AtomSet::none();
    loop {
        let before = supported;
        for r in book.all_rules().minus(&colouring.off).minus(&before).members() {
            if book.rule(r).positive.within(&heads) {
                supported.insert(r);
                heads.insert(book.rule(r).head);
            }
        }
        if supported == before {
            return supported;
        }
    }
}

/// Whether the closing has its support part; without it the closing is wrong, and `selftest`
/// counts how often that shows.
#[derive(Clone, Copy, PartialEq, Eq)]
pub enum Support {
    Kept,
    LeftOut,
}

pub fn close(book: &Book, start: &Colouring, part: Support) -> Colouring {
    let mut closed = *start;
    loop {
        let before = closed;
        let said = atoms_said(book, &before);
        for (r, rule) in book.numbered() {
            if goes_on(rule, &said) {
                closed.on.insert(r);
            }
            if is_blocked(rule, &said) || is_starved(rule, &said) {
                closed.off.insert(r);
            }
        }
        if part == Support::Kept {
            let outside = book.all_rules().minus(&support(book, &closed));
            closed.off = closed.off.union(&outside);
        }
        if closed == before {
            return closed.stamp(start);
        }
    }
}
