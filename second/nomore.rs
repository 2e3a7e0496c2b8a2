// Request 6: the noMoRe way of choosing, after Theorem 15 of document 003. It closes without
// support and chooses only rules whose positive atoms are all heads of on rules.

use crate::book::{Book, Refusal};
use crate::closing::{close, Colouring, Support};
use crate::numbers::RuleNo;
use crate::walk::{Finding, Found};

struct Own<'a> {
    book: &'a Book,
    wanted: u64,
    limit: u64,
    tries: u64,
    sets: u64,
    clash: Option<RuleNo>,
}

/// Why a walk ended before all its branches were walked.
enum Halt {
    Limit,
    Reading(Colouring),
}

impl Own<'_> {
    /// One try: a closing without support. None on a contradiction.
    fn try_pair(&mut self, start: &Colouring) -> Result<Option<Colouring>, Halt> {
        if self.tries == self.limit {
            return Err(Halt::Limit);
        }
        self.tries += 1;
        let closed = close(self.book, start, Support::LeftOut);
        if closed.contradicts() {
            self.clash = closed.lowest_clash();
            return Ok(None);
        }
        Ok(Some(closed))
    }

    fn branch(&mut self, start: &Colouring) -> Result<(), Halt> {
        let closed = match self.try_pair(start)? {
            Some(closed) => closed,
            None => return Ok(()),
        };
        match self.lowest_supported(&closed) {
            Some(r) => {
                self.branch(&closed.with_on(r))?;
                self.branch(&closed.with_off(r))
            }
            None => self.test(&closed),
        }
    }

    /// The lowest uncoloured rule whose positive atoms are all heads of on rules.
    fn lowest_supported(&self, closed: &Colouring) -> Option<RuleNo> {
        let heads = self.book.heads(&closed.on);
        let left = self.book.all_rules().minus(&closed.coloured());
        left.members().find(|r| self.book.rule(*r).positive.within(&heads))
    }

    /// The rest goes off; a reading if one more closing adds nothing and finds no contradiction.
    fn test(&mut self, closed: &Colouring) -> Result<(), Halt> {
        let left = self.book.all_rules().minus(&closed.coloured());
        let whole = Colouring::of(closed.on, closed.off.union(&left));
        let tested = match self.try_pair(&whole)? {
            Some(tested) => tested,
            None => return Ok(()),
        };
        if tested != whole {
            return Ok(());
        }
        self.sets += 1;
        if self.sets == self.wanted {
            return Err(Halt::Reading(whole));
        }
        Ok(())
    }
}

/// As finding, over its own walk: 15 and 8 come before it.
pub fn find_nomore(book: &Book, k: u64, limit: u64, room: usize) -> Result<Finding, Refusal> {
    if k == 0 {
        return Err(Refusal::placeless(15));
    }
    if room < book.atoms {
        return Err(Refusal::placeless(8));
    }
    let mut own = Own { book, wanted: k, limit, tries: 0, sets: 0, clash: None };
    Ok(match own.branch(&Colouring::empty()) {
        Ok(()) => Finding::Fewer { tries: own.tries, sets: own.sets, clash: own.clash },
        Err(Halt::Limit) => Finding::Limit,
        Err(Halt::Reading(colouring)) => {
            Finding::Set(Found { set: book.heads(&colouring.on), colouring, tries: own.tries })
        }
    })
}

/// All readings of this walk with the tries after which each came, and all its tries; None past
/// the limit.
pub fn nomore_readings(book: &Book, limit: u64) -> Option<(Vec<Found>, u64)> {
    let mut list = Vec::new();
    loop {
        match find_nomore(book, list.len() as u64 + 1, limit, book.atoms) {
            Ok(Finding::Set(found)) => list.push(found),
            Ok(Finding::Fewer { tries, .. }) => return Some((list, tries)),
            _ => return None,
        }
    }
}
