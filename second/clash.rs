// Which rule clashed last, said anew for the tests: of a walk as a tree, and not as a walk goes.

use crate::book::Book;
use crate::closing::{close, Colouring, Support};
use crate::numbers::RuleNo;

/// The lowest rule in both sets of the closed pair at the last contradictory leaf: with the lowest
/// uncoloured rule off if that side has one, else with it on.
pub fn last_clash(book: &Book, start: &Colouring) -> Option<RuleNo> {
    let closed = close(book, start, Support::Kept);
    let both = book.all_rules().members().find(|r| closed.on.has(*r) && closed.off.has(*r));
    if both.is_some() {
        return both;
    }
    let r = closed.lowest_uncoloured(book)?;
    last_clash(book, &closed.with_off(r)).or_else(|| last_clash(book, &closed.with_on(r)))
}
