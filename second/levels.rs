// What holds without any guess, and at which level each rule of a reading got its colour.

use crate::book::{Book, Refusal};
use crate::closing::{atoms_said, close, Colouring, Support};
use crate::numbers::{AtomSet, RuleSet};
use crate::walk::{find_set, Finding};

/// What the first closing settles; no name follows from it.
pub struct Settled {
    pub on: RuleSet,
    pub off: RuleSet,
    pub true_atoms: AtomSet,
    pub false_atoms: AtomSet,
}

pub fn settle(book: &Book) -> Settled {
    let first = close(book, &Colouring::empty(), Support::Kept);
    let said = atoms_said(book, &first);
    Settled { on: first.on, off: first.off, true_atoms: said.derived, false_atoms: said.given_up }
}

/// The k-th reading for its levels: as finding, but the room is for a byte for each rule.
pub fn find_levels(book: &Book, k: u64, limit: u64, room: usize) -> Result<Finding, Refusal> {
    if k == 0 {
        return Err(Refusal::placeless(15));
    }
    if room < book.rules.len() {
        return Err(Refusal::placeless(8));
    }
    Ok(find_set(book, k, limit))
}
