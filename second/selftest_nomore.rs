// The part of `selftest` about the noMoRe way: the same answer sets, each once, and its tries.

use crate::book::Book;
use crate::closing::{close, Colouring, Support};
use crate::nomore::{find_nomore, nomore_readings};
use crate::numbers::AtomSet;
use crate::walk::Finding;

#[derive(Default)]
pub struct NomoreCounts {
    readings: usize,
    tries: u64,
    other_order: usize,
}

/// `sets` are all answer sets in the order of the old walk.
pub fn nomore(book: &Book, sets: &[AtomSet], counts: &mut NomoreCounts) {
    let (found, tries) = nomore_readings(book, 1_000_000).expect("a small book");
    let own: Vec<AtomSet> = found.iter().map(|one| one.set).collect();
    assert_eq!(own.len(), sets.len(), "readings of {:?}", book);
    assert!(sets.iter().all(|set| own.contains(set)), "readings of {:?}", book);
    let first = close(book, &Colouring::empty(), Support::LeftOut);
    let left = book.all_rules().minus(&first.coloured()).count();
    assert!(tries < 3 << left, "tries of {:?}", book);
    for (number, one) in found.iter().enumerate() {
        let k = number as u64 + 1;
        assert_eq!(find_nomore(book, k, one.tries, book.atoms), Ok(Finding::Set(*one)));
        assert_eq!(find_nomore(book, k, one.tries - 1, book.atoms), Ok(Finding::Limit));
    }
    let k = own.len() as u64 + 1;
    assert_eq!(find_nomore(book, k, tries - 1, book.atoms), Ok(Finding::Limit));
    counts.readings += own.len();
    counts.tries += tries;
    counts.other_order += (own != sets) as usize;
}

impl NomoreCounts {
    pub fn report(&self) {
        println!("noMoRe: {} readings, the same; {} tries", self.readings, self.tries);
        println!("  books whose readings come in another order: {}", self.other_order);
        assert!(self.readings >= 10_000 && self.other_order >= 20);
    }
}
