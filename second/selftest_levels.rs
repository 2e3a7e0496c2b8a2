// The part of `selftest` about levels: the first closing against the well-founded model, and the
// levels of every try against the closed colourings above it.

use crate::book::Book;
use crate::closing::{close, Colouring, Support};
use crate::levels::settle;
use crate::meaning::{generating, well_founded};
use crate::numbers::{AtomSet, RuleSet};

#[derive(Default)]
pub struct LevelCounts {
    settled: usize,
    settled_without_reading: usize,
    tries: usize,
    drops: usize,
    deepest: usize,
}

pub fn levels(book: &Book, sets: &[AtomSet], counts: &mut LevelCounts) {
    let settled = settle(book);
    let (true_atoms, false_atoms) = well_founded(book);
    assert_eq!((settled.true_atoms, settled.false_atoms), (true_atoms, false_atoms));
    assert!(!settled.on.meets(&settled.off), "the first closing of {:?}", book);
    for set in sets {
        let on = generating(book, set);
        assert!(settled.on.within(&on) && !settled.off.meets(&on));
        assert!(true_atoms.within(set) && !false_atoms.meets(set));
    }
    let any = !true_atoms.is_none();
    counts.settled += any as usize;
    counts.settled_without_reading += (any && sets.is_empty()) as usize;
    branch(book, &Colouring::empty(), &mut Vec::new(), counts);
}

/// One try and those below it; `above` has the closed colourings on the way to it, by level.
fn branch(book: &Book, start: &Colouring, above: &mut Vec<Colouring>, counts: &mut LevelCounts) {
    let closed = close(book, start, Support::Kept);
    assert_eq!(closed.level() as usize, above.len());
    counts.tries += 1;
    counts.deepest = counts.deepest.max(above.len());
    if closed.contradicts() {
        return;
    }
    for r in closed.coloured().members() {
        assert!(closed.level_of(r) <= closed.level());
        assert!(!start.coloured().has(r) || closed.level_of(r) == start.level_of(r));
    }
    above.push(closed);
    for (level, at_level) in above.iter().enumerate() {
        let kept = |side: &RuleSet| {
            let low = side.members().filter(|r| closed.level_of(*r) as usize <= level);
            low.fold(RuleSet::none(), |set, r| set.with(r))
        };
        assert_eq!((kept(&closed.on), kept(&closed.off)), (at_level.on, at_level.off));
        counts.drops += 1;
    }
    if let Some(r) = closed.lowest_uncoloured(book) {
        let (on, off) = (closed.choose_on(r), closed.choose_off(r));
        assert_eq!((on.level_of(r), off.level_of(r)), (on.level(), off.level()));
        branch(book, &on, above, counts);
        branch(book, &off, above, counts);
    }
    above.pop();
}

impl LevelCounts {
    pub fn report(&self) {
        println!("levels: {} books with a settled atom,", self.settled);
        println!("  {} of them without a reading", self.settled_without_reading);
        println!("  {} tries, up to level {}; {} drops", self.tries, self.deepest, self.drops);
        assert!(self.settled >= 2_000 && self.settled_without_reading >= 200);
        assert!(self.tries >= 20_000 && self.deepest >= 4);
    }
}
