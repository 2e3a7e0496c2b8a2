// The part of `selftest` about closed pairs of any kind, not only those that a walk meets: one in
// which every rule has one colour has the least model of its reduct as heads.

use crate::book::Book;
use crate::closing::{close, Colouring, Support};
use crate::meaning::{generating, is_answer_set};
use crate::numbers::{AtomSet, RuleNo, RuleSet};

/// Books with more rules are not tried: there are two to the power of their number of pairs.
const MOST_RULES: usize = 6;

#[derive(Default)]
pub struct ClosingCounts {
    books: usize,
    pairs: usize,
    closed: usize,
}

/// Every pair that gives each rule one colour.
pub fn closings(book: &Book, sets: &[AtomSet], counts: &mut ClosingCounts) {
    if book.rules.len() > MOST_RULES {
        return;
    }
    counts.books += 1;
    let mut closed = 0;
    for bits in 0..1u32 << book.rules.len() {
        let rules = (0..book.rules.len()).filter(|r| bits >> r & 1 == 1);
        let on = rules.fold(RuleSet::none(), |set, r| set.with(RuleNo(r as u8)));
        let pair = Colouring::of(on, book.all_rules().minus(&on));
        counts.pairs += 1;
        if close(book, &pair, Support::Kept) == pair {
            let heads = book.heads(&on);
            assert!(is_answer_set(book, &heads), "{:?} of {:?}", pair, book);
            assert_eq!(generating(book, &heads), on);
            closed += 1;
        }
    }
    assert_eq!(closed, sets.len(), "a closed pair for each answer set of {:?}", book);
    counts.closed += closed;
}

impl ClosingCounts {
    pub fn report(&self) {
        println!(
            "closed pairs: {} pairs of {} books, {} closed",
            self.pairs, self.books, self.closed
        );
        println!("  each of these has the least model of its reduct as heads");
        assert!(self.books >= 5_000 && self.closed >= 5_000);
    }
}
