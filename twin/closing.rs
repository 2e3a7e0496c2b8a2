// Closing: the least closed colouring above one that is given. A try is left at its first
// contradiction. `close` goes on to the end, since the rule that is told of a contradiction is the
// lowest then.

use crate::book::Book;
use crate::colouring::{Colouring, Side};
use crate::numbers::RuleNo;
use crate::propagation::{drop_rules, propagate, Pending};
use crate::rows::Rows;
use crate::set::Rules;
use crate::support::{suspects, unsupported};

/// The closing of two sets to its end: every rule is still to be looked at.
pub fn close(book: &Book, rows: &Rows, on: Rules, off: Rules) -> Colouring {
    let mut c = Colouring { on, off, ..Colouring::EMPTY };
    let before = c.coloured();
    let mut start = Pending { candidates: rows.all, ..Pending::NOTHING };
    for a in book.all_atoms().members() {
        if rows.is_headed(a, &c.on) {
            start.newly_true.insert(a);
        }
        if rows.is_lost(a, &c.off) {
            start.newly_lost.insert(a);
        }
    }
    close_from(book, rows, &mut c, start, None, false);
    c.stamp(&c.coloured().difference(&before));
    c
}

/// The closing after a choice: of a colouring that is closed, with a rule that has no colour in it
/// put on that side. All that is new is the rule's head. It says whether it came to its end, and
/// leaves the colouring on the way where a rule is in both sets.
pub fn close_or_clash(
    book: &Book,
    rows: &Rows,
    c: &mut Colouring,
    r: RuleNo,
    side: Side,
) -> bool {
    let settled = c.off;
    c.choose(r, side);
    let before = c.coloured();
    let head = book.head(r);
    let mut start = Pending::NOTHING;
    match side {
        Side::On => start.newly_true.insert(head),
        Side::Off if rows.is_lost(head, &c.off) => start.newly_lost.insert(head),
        Side::Off => {}
    }
    let ended = close_from(book, rows, c, start, Some(settled), true);
    if ended {
        c.stamp(&c.coloured().difference(&before));
    }
    ended
}

/// Propagates, and puts unsupported rules off, until there is nothing to do. With the `settled`
/// rules off all others are supported; where there is no such set yet, every rule is suspected.
/// Where it may be left early it is left at a contradiction; it says whether it came to its end.
fn close_from(
    book: &Book,
    rows: &Rows,
    c: &mut Colouring,
    start: Pending,
    settled: Option<Rules>,
    early: bool,
) -> bool {
    let mut pending = start;
    let mut settled = settled;
    loop {
        propagate(book, rows, c, pending);
        if early && c.on.meets(&c.off) {
            return false;
        }
        let suspected = match settled {
            Some(off) if off == c.off => return true,
            Some(off) => suspects(book, rows, &off, &c.off),
            None => rows.all.difference(&c.off),
        };
        let dropped = unsupported(book, rows, &c.off, &suspected);
        if dropped.is_empty() {
            return true;
        }
        let newly_lost = drop_rules(book, rows, c, &dropped);
        pending = Pending { newly_lost, ..Pending::NOTHING };
        settled = Some(c.off);
    }
}
