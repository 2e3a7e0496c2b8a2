// The definitional engine: answer sets by Gelfond and Lifschitz's definition and nothing else.
// It tries every set of atoms, so it is for books with few atoms.

use crate::book::{Book, Rule};
use crate::claim::Claim;
use crate::numbers::{Atom, AtomSet, RuleSet};

/// The reduct by X: rules with a negative atom in X are dropped, the rest lose their negative part.
fn reduct(book: &Book, x: &AtomSet) -> Vec<Rule> {
    let kept = book.rules.iter().filter(|rule| !rule.negative.meets(x));
    kept.map(|rule| Rule { negative: AtomSet::none(), ..*rule }).collect()
}

/// The smallest set closed under rules without negative atoms.
fn least_model(rules: &[Rule]) -> AtomSet {
    let mut model = AtomSet::none();
    loop {
        let before = model;
        for rule in rules {
            if rule.positive.within(&model) {
                model.insert(rule.head);
            }
        }
        if model == before {
            return model;
        }
    }
}

pub fn is_answer_set(book: &Book, x: &AtomSet) -> bool {
    least_model(&reduct(book, x)) == *x
}

/// The least model of the reduct by X, which is X itself for an answer set.
fn gamma(book: &Book, x: &AtomSet) -> AtomSet {
    least_model(&reduct(book, x))
}

/// The well-founded model by its own definition, without colours: the true atoms are the least
/// fixpoint of applying `gamma` twice, the false ones those outside `gamma` of it.
pub fn well_founded(book: &Book) -> (AtomSet, AtomSet) {
    let mut true_atoms = AtomSet::none();
    loop {
        let possible = gamma(book, &true_atoms);
        let next = gamma(book, &possible);
        if next == true_atoms {
            return (true_atoms, book.all_atoms().minus(&possible));
        }
        true_atoms = next;
    }
}

/// All answer sets, each once, in no order that matters.
pub fn answer_sets(book: &Book) -> Vec<AtomSet> {
    let subset = |bits: u32| {
        let atoms = (0..book.atoms).filter(|a| bits >> a & 1 == 1);
        atoms.fold(AtomSet::none(), |set, a| set.with(Atom(a as u8)))
    };
    (0..1u32 << book.atoms).map(subset).filter(|x| is_answer_set(book, x)).collect()
}

/// Whether a claim is true of the book with these answer sets: there is one, and the atom is in
/// each, or in none; or there is none.
pub fn holds(sets: &[AtomSet], claim: Claim) -> bool {
    match claim {
        Claim::Certain(atom) => !sets.is_empty() && sets.iter().all(|set| set.has(atom)),
        Claim::Clear(atom) => !sets.is_empty() && !sets.iter().any(|set| set.has(atom)),
        Claim::NoReading => sets.is_empty(),
    }
}

/// The generating rules of a set: those whose body holds in it.
pub fn generating(book: &Book, x: &AtomSet) -> RuleSet {
    let holds = |rule: &Rule| rule.positive.within(x) && !rule.negative.meets(x);
    let numbers = book.numbered().filter(|(_, rule)| holds(rule)).map(|(r, _)| r);
    numbers.fold(RuleSet::none(), |set, r| set.with(r))
}

/// Whether reading X comes before reading Y: the lowest rule in just one of their generating sets
/// is one of X's.
pub fn comes_before(book: &Book, x: &AtomSet, y: &AtomSet) -> bool {
    let (of_x, of_y) = (generating(book, x), generating(book, y));
    let apart = of_x.minus(&of_y).union(&of_y.minus(&of_x));
    apart.lowest().map_or(false, |r| of_x.has(r))
}
