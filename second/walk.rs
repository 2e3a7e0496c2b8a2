// The walk over colourings, its tries, and finding the k-th answer set.

use crate::book::{Book, Refusal};
use crate::closing::{close, Colouring, Support};
use crate::numbers::{AtomSet, RuleNo};

/// How a walk came to its end.
#[derive(Clone, Copy, PartialEq, Eq, Debug)]
pub enum WalkEnd {
    /// Every branch was walked.
    Whole,
    /// The visitor had what it wanted.
    Stopped,
    /// One more try was needed than the limit allows.
    Limit,
}

/// What a visitor says after an answer set.
#[derive(Clone, Copy, PartialEq, Eq)]
pub enum Visit {
    GoOn,
    Stop,
}

struct Walk<'a> {
    book: &'a Book,
    part: Support,
    limit: u64,
    tries: u64,
    clash: Option<RuleNo>,
    visitor: &'a mut dyn FnMut(&Colouring, u64) -> Visit,
}

impl Walk<'_> {
    /// None: this branch was walked to its end. Some: the whole walk ends here.
    fn branch(&mut self, start: &Colouring) -> Option<WalkEnd> {
        if self.tries == self.limit {
            return Some(WalkEnd::Limit);
        }
        self.tries += 1;
        let closed = close(self.book, start, self.part);
        if closed.contradicts() {
            self.clash = closed.lowest_clash();
            return None;
        }
        match closed.lowest_uncoloured(self.book) {
            None => match (self.visitor)(&closed, self.tries) {
                Visit::GoOn => None,
                Visit::Stop => Some(WalkEnd::Stopped),
            },
            Some(r) => {
                let end = self.branch(&closed.choose_on(r));
                end.or_else(|| self.branch(&closed.choose_off(r)))
            }
        }
    }
}

/// What a walk came to.
#[derive(Clone, Copy)]
pub struct Walked {
    pub end: WalkEnd,
    pub tries: u64,
    /// The lowest rule in both sets at the last try that was contradictory.
    pub clash: Option<RuleNo>,
}

/// Walks from the empty colouring and hands each complete colouring to the visitor with the tries
/// so far.
pub fn walk(
    book: &Book,
    limit: u64,
    part: Support,
    visitor: &mut dyn FnMut(&Colouring, u64) -> Visit,
) -> Walked {
    let mut walk = Walk { book, part, limit, tries: 0, clash: None, visitor };
    let end = walk.branch(&Colouring::empty()).unwrap_or(WalkEnd::Whole);
    Walked { end, tries: walk.tries, clash: walk.clash }
}

#[derive(Clone, Copy, PartialEq, Eq, Debug)]
pub struct Found {
    pub set: AtomSet,
    pub colouring: Colouring,
    pub tries: u64,
}

#[derive(Clone, Copy, PartialEq, Eq, Debug)]
pub enum Finding {
    Set(Found),
    Fewer { tries: u64, sets: u64, clash: Option<RuleNo> },
    Limit,
}

/// The walk for the k-th answer set; k is at least 1.
pub fn find_set(book: &Book, k: u64, limit: u64) -> Finding {
    let mut sets = 0;
    let mut last = Colouring::empty();
    let Walked { end, tries, clash } = walk(book, limit, Support::Kept, &mut |colouring, _| {
        sets += 1;
        last = *colouring;
        if sets == k {
            Visit::Stop
        } else {
            Visit::GoOn
        }
    });
    match end {
        WalkEnd::Limit => Finding::Limit,
        WalkEnd::Whole => Finding::Fewer { tries, sets, clash },
        WalkEnd::Stopped => {
            Finding::Set(Found { set: book.heads(&last.on), colouring: last, tries })
        }
    }
}

/// Finding as a caller sees it: 15 and 8 come before the walk.
pub fn find(book: &Book, k: u64, limit: u64, room: usize) -> Result<Finding, Refusal> {
    if k == 0 {
        return Err(Refusal::placeless(15));
    }
    if room < book.atoms {
        return Err(Refusal::placeless(8));
    }
    Ok(find_set(book, k, limit))
}

/// All readings in the walk's order, with the tries after which each came, or None past the limit.
pub fn all_readings(book: &Book, limit: u64, part: Support) -> Option<(Vec<(AtomSet, u64)>, u64)> {
    let mut sets = Vec::new();
    let walked = walk(book, limit, part, &mut |colouring, tries| {
        sets.push((book.heads(&colouring.on), tries));
        Visit::GoOn
    });
    match walked.end {
        WalkEnd::Limit => None,
        _ => Some((sets, walked.tries)),
    }
}
