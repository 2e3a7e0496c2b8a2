// Support by suspects: which rules that are not off stand on nothing but each other.
//
// A set of off rules is settled if, with these off, all other rules are supported. Where more rules
// are off, only those can have lost their support that stand on the head of a rule which went off
// since, or on that of such a rule in turn, unless a free rule that is not off has that head.

use crate::book::Book;
use crate::numbers::{Number, RuleNo};
use crate::rows::Rows;
use crate::set::{Atoms, Rules};

/// The rules that may be unsupported with these off, where `settled` was off before.
pub fn suspects(book: &Book, rows: &Rows, settled: &Rules, off: &Rules) -> Rules {
    let live = rows.all.difference(off);
    let sure = rows.free.difference(off);
    let mut suspects = Rules::EMPTY;
    let mut doubted = doubted_heads(book, rows, &off.difference(settled), &sure);
    while !doubted.is_empty() {
        let mut standing = Rules::EMPTY;
        for a in doubted.members() {
            standing.add(&rows.positive[a.place()]);
        }
        let fresh = standing.intersection(&live).difference(&suspects);
        suspects.add(&fresh);
        doubted = doubted_heads(book, rows, &fresh, &sure);
    }
    suspects
}

/// The heads of the rules, but for those that are sure.
fn doubted_heads(book: &Book, rows: &Rows, rules: &Rules, sure: &Rules) -> Atoms {
    let mut doubted = Atoms::EMPTY;
    for r in rules.members() {
        let head = book.head(r);
        if !rows.is_headed(head, sure) {
            doubted.insert(head);
        }
    }
    doubted
}

/// Those of the suspects that are not supported. All other rules are, and then, by what is new,
/// suspects that stand on supported rules alone.
pub fn unsupported(book: &Book, rows: &Rows, off: &Rules, suspects: &Rules) -> Rules {
    let mut supported = rows.all.difference(off).difference(suspects);
    let mut candidates = *suspects;
    while !candidates.is_empty() {
        let mut woken = Rules::EMPTY;
        for r in candidates.members() {
            if stands_on(book, rows, r, &supported) {
                let head = book.head(r);
                if !rows.is_headed(head, &supported) {
                    woken.add(&rows.positive[head.place()]);
                }
                supported.insert(r);
            }
        }
        candidates = woken.intersection(suspects).difference(&supported);
    }
    suspects.difference(&supported)
}

fn stands_on(book: &Book, rows: &Rows, r: RuleNo, supported: &Rules) -> bool {
    book.positives(r).all(|a| rows.is_headed(a, supported))
}
