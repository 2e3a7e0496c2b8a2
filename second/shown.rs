// Request 3: the k-th reading where two readings differ only if they differ in a shown atom.

use crate::book::{Book, Refusal};
use crate::closing::{Colouring, Support};
use crate::numbers::{Atom, AtomSet};
use crate::walk::{walk, Finding, Found, Visit, WalkEnd};

/// The shown atoms of a list, None if it is not strictly ascending or names an atom that is none.
fn shown_atoms(book: &Book, list: &[u8]) -> Option<AtomSet> {
    let ascending = list.windows(2).all(|pair| pair[0] < pair[1]);
    let in_book = list.iter().all(|atom| (*atom as usize) < book.atoms);
    if !ascending || !in_book {
        return None;
    }
    Some(list.iter().fold(AtomSet::none(), |set, atom| set.with(Atom(*atom))))
}

/// As a caller sees it: 15, 16 and 8 come before the walk, which is the one fixed walk.
pub fn find_shown(
    book: &Book,
    k: u64,
    limit: u64,
    list: &[u8],
    room: usize,
) -> Result<Finding, Refusal> {
    if k == 0 {
        return Err(Refusal::placeless(15));
    }
    let shown = shown_atoms(book, list).ok_or(Refusal::placeless(16))?;
    if room < book.atoms {
        return Err(Refusal::placeless(8));
    }
    Ok(find_apart(book, k, limit, &shown))
}

/// The k-th answer set of the walk that no earlier one matches on the shown atoms.
fn find_apart(book: &Book, k: u64, limit: u64, shown: &AtomSet) -> Finding {
    let mut earlier: Vec<AtomSet> = Vec::new();
    let mut last = Colouring::empty();
    let walked = walk(book, limit, Support::Kept, &mut |colouring, _| {
        let part = book.heads(&colouring.on).meet(shown);
        if earlier.contains(&part) {
            return Visit::GoOn;
        }
        earlier.push(part);
        last = *colouring;
        if earlier.len() as u64 == k {
            Visit::Stop
        } else {
            Visit::GoOn
        }
    });
    let (tries, clash) = (walked.tries, walked.clash);
    match walked.end {
        WalkEnd::Limit => Finding::Limit,
        WalkEnd::Whole => Finding::Fewer { tries, sets: earlier.len() as u64, clash },
        WalkEnd::Stopped => {
            Finding::Set(Found { set: book.heads(&last.on), colouring: last, tries })
        }
    }
}
