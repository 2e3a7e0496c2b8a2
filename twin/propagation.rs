// Propagation by what is new: rules go off and on from the atoms that have become true or lost, and
// only rules that such an atom stands in are looked at again.

use crate::book::Book;
use crate::colouring::Colouring;
use crate::numbers::{Number, RuleNo};
use crate::rows::Rows;
use crate::set::{Atoms, Rules};

/// What propagation has not gone into yet. An atom is true if an on rule has it as head, and lost
/// if all its rules are off; the candidates are rules that may be able to go on.
pub struct Pending {
    pub newly_true: Atoms,
    pub newly_lost: Atoms,
    pub candidates: Rules,
}

impl Pending {
    pub const NOTHING: Pending =
        Pending { newly_true: Atoms::EMPTY, newly_lost: Atoms::EMPTY, candidates: Rules::EMPTY };
}

/// Puts rules on and off until nothing follows any more, support apart.
pub fn propagate(book: &Book, rows: &Rows, c: &mut Colouring, mut pending: Pending) {
    loop {
        let hit = take_atoms(rows, &mut pending);
        pending.newly_lost = drop_rules(book, rows, c, &hit);
        if pending.newly_lost.is_empty() {
            pending.newly_true = raise_rules(book, rows, c, &pending.candidates);
            if pending.newly_true.is_empty() {
                return;
            }
            pending.candidates = Rules::EMPTY;
        }
    }
}

/// The rules that the new atoms put off; those that they may put on become candidates.
fn take_atoms(rows: &Rows, pending: &mut Pending) -> Rules {
    let mut hit = Rules::EMPTY;
    for a in pending.newly_true.members() {
        hit.add(&rows.negative[a.place()]);
        pending.candidates.add(&rows.positive[a.place()]);
    }
    for a in pending.newly_lost.members() {
        hit.add(&rows.positive[a.place()]);
        pending.candidates.add(&rows.negative[a.place()]);
    }
    pending.newly_true = Atoms::EMPTY;
    hit
}

/// Puts the rules off, and gives the atoms that are lost by it.
pub fn drop_rules(book: &Book, rows: &Rows, c: &mut Colouring, rules: &Rules) -> Atoms {
    let fresh = rules.difference(&c.off);
    c.off.add(&fresh);
    let mut lost = Atoms::EMPTY;
    for r in fresh.members() {
        let head = book.head(r);
        if rows.is_lost(head, &c.off) {
            lost.insert(head);
        }
    }
    lost
}

/// Puts those of the rules on that may go on, and gives the atoms that are true by it.
fn raise_rules(book: &Book, rows: &Rows, c: &mut Colouring, rules: &Rules) -> Atoms {
    let mut newly_true = Atoms::EMPTY;
    for r in rules.difference(&c.on).members() {
        if may_go_on(book, rows, c, r) {
            let head = book.head(r);
            if !rows.is_headed(head, &c.on) {
                newly_true.insert(head);
            }
            c.on.insert(r);
        }
    }
    newly_true
}

fn may_go_on(book: &Book, rows: &Rows, c: &Colouring, r: RuleNo) -> bool {
    book.positives(r).all(|a| rows.is_headed(a, &c.on))
        && book.negatives(r).all(|a| rows.is_lost(a, &c.off))
}
