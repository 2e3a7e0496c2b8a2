// Witnesses for books that have no reading: all of them are wrong, in different ways.

use crate::book::Book;
use crate::closing::Support;
use crate::meaning::generating;
use crate::numbers::{Atom, AtomSet, Numbered, RuleNo, RuleSet};
use crate::paper::witness;
use crate::random::Random;
use crate::walk::all_readings;

fn random_rules(book: &Book, random: &mut Random) -> RuleSet {
    let mut set = RuleSet::none();
    for r in 0..book.rules.len() {
        if random.once_in(2) {
            set.insert(RuleNo(r as u8));
        }
    }
    set
}

fn random_atoms(book: &Book, random: &mut Random) -> AtomSet {
    let mut set = AtomSet::none();
    for a in 0..book.atoms {
        if random.once_in(2) {
            set.insert(Atom(a as u8));
        }
    }
    set
}

fn in_order(rules: &RuleSet) -> Vec<u8> {
    rules.members().map(|r| r.byte()).collect()
}

/// No rule, some rules in a grounded order, the rules whose bodies hold in some set of atoms, and
/// those of the sets that would be readings if rules could hold each other up.
pub fn forged_witnesses(book: &Book, random: &mut Random) -> Vec<Vec<u8>> {
    let mut list = vec![Vec::new()];
    list.push(witness(book, &random_rules(book, random)));
    let atoms = random_atoms(book, random);
    list.push(in_order(&generating(book, &atoms)));
    list.push(witness(book, &generating(book, &atoms)));
    if let Some((loose, _)) = all_readings(book, 1_000, Support::LeftOut) {
        for (set, _) in loose {
            list.push(in_order(&generating(book, &set)));
            list.push(witness(book, &generating(book, &set)));
        }
    }
    list
}
