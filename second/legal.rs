// Papers that keep the printed rules but not the engine's order: steps at random, steps that add
// nothing, splits on any uncoloured rule, any grounded order of the witness.

use crate::book::Book;
use crate::claim::Claim;
use crate::closing::{atoms_said, goes_on, is_blocked, support, Colouring};
use crate::numbers::{AtomSet, Numbered, RuleNo, RuleSet};
use crate::paper::{assemble, may_end, END, GO_OFF, GO_ON, SPLIT, STARVE};
use crate::random::Random;

/// No split is written past this length: splits at random can make a paper grow without end.
pub const CUT: usize = 4_000;

pub struct LegalWriter<'a> {
    pub book: &'a Book,
    pub claim: Claim,
    pub random: &'a mut Random,
    /// Steps that add nothing are written only while the paper is shorter than this.
    pub idle_below: usize,
    /// A split comes once in so many steps although other steps are left.
    pub split_once_in: usize,
}

fn rules_where(book: &Book, wanted: impl Fn(RuleNo) -> bool) -> Vec<RuleNo> {
    book.all_rules().members().filter(|r| wanted(*r)).collect()
}

impl LegalWriter<'_> {
    /// A legal paper if the claim holds and the paper stays below `CUT`. If some reading does not
    /// bear it out, some branch ends in a 45 that is not allowed: a forged paper. If the book has
    /// no reading, the steps are legal and no witness is.
    pub fn write(&mut self, on: &RuleSet) -> Vec<u8> {
        let mut steps = Vec::new();
        self.branch(Colouring::empty(), &mut steps);
        let witness = self.witness(on);
        assemble(&steps, &witness, self.claim)
    }

    fn branch(&mut self, mut now: Colouring, steps: &mut Vec<u8>) {
        loop {
            if may_end(self.book, self.claim, &now) && !self.random.once_in(3) {
                return steps.push(END);
            }
            let uncoloured = rules_where(self.book, |r| !now.on.has(r) && !now.off.has(r));
            let splits = !uncoloured.is_empty() && self.random.once_in(self.split_once_in);
            if !splits && self.take_step(&mut now, steps) {
                continue;
            }
            if uncoloured.is_empty() || steps.len() > CUT {
                return steps.push(END);
            }
            let r = *self.random.pick(&uncoloured);
            steps.extend(&[SPLIT, r.byte()]);
            self.branch(now.with_on(r), steps);
            return self.branch(now.with_off(r), steps);
        }
    }

    /// Writes one legal step; false if there was none that adds anything and idling is over.
    fn take_step(&mut self, now: &mut Colouring, steps: &mut Vec<u8>) -> bool {
        let said = atoms_said(self.book, now);
        let idle = steps.len() < self.idle_below && self.random.once_in(4);
        let kind = self.random.below(3);
        let book = self.book;
        (0..3).any(|turn| match (kind + turn) % 3 {
            0 => {
                let may = rules_where(book, |r| goes_on(book.rule(r), &said));
                self.step_rule(GO_ON, &may, &mut now.on, idle, steps)
            }
            1 => {
                let may = rules_where(book, |r| is_blocked(book.rule(r), &said));
                self.step_rule(GO_OFF, &may, &mut now.off, idle, steps)
            }
            _ => self.step_starve(now, idle, steps),
        })
    }

    /// Puts one of the rules that may be there in a side; only new ones where it is not to idle.
    fn step_rule(
        &mut self,
        code: u8,
        may: &[RuleNo],
        side: &mut RuleSet,
        idle: bool,
        steps: &mut Vec<u8>,
    ) -> bool {
        let may: Vec<RuleNo> = may.iter().copied().filter(|r| idle || !side.has(*r)).collect();
        if may.is_empty() {
            return false;
        }
        let r = *self.random.pick(&may);
        side.insert(r);
        steps.extend(&[code, r.byte()]);
        true
    }

    /// A 55 with some of the rules outside the support: rules are struck from a random choice until
    /// each that is left has a positive atom all of whose rules are off or listed.
    fn step_starve(&mut self, now: &mut Colouring, idle: bool, steps: &mut Vec<u8>) -> bool {
        let outside = self.book.all_rules().minus(&support(self.book, now));
        if outside.is_none() {
            return false;
        }
        let mut list = outside;
        if self.random.once_in(2) {
            let dropped = rules_where(self.book, |_| true);
            list = list.minus(&RuleSet::none().with(*self.random.pick(&dropped)));
        }
        list = self.largest_starved(list, now);
        if list.is_none() || (!idle && list.within(&now.off)) {
            list = self.largest_starved(outside, now);
        }
        if list.is_none() || (!idle && list.within(&now.off)) {
            return false;
        }
        now.off = now.off.union(&list);
        steps.extend(&[STARVE, list.count() as u8]);
        steps.extend(list.members().map(|r| r.byte()));
        true
    }

    fn largest_starved(&self, mut list: RuleSet, now: &Colouring) -> RuleSet {
        loop {
            let gone = now.off.union(&list);
            let left = self.book.heads(&self.book.all_rules().minus(&gone));
            let fed = list.members().filter(|r| self.book.rule(*r).positive.within(&left));
            let fed = fed.fold(RuleSet::none(), |set, r| set.with(r));
            if fed.is_none() {
                return list;
            }
            list = list.minus(&fed);
        }
    }

    fn witness(&mut self, on: &RuleSet) -> Vec<u8> {
        let mut listed = Vec::new();
        let mut left = *on;
        let mut heads = AtomSet::none();
        loop {
            let may: Vec<RuleNo> =
                left.members().filter(|r| self.book.rule(*r).positive.within(&heads)).collect();
            if may.is_empty() {
                return listed;
            }
            let r = *self.random.pick(&may);
            listed.push(r.byte());
            heads.insert(self.book.rule(r).head);
            left = left.minus(&RuleSet::none().with(r));
        }
    }
}
