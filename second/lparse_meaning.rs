// The answer sets of a text by its own definition, from the text's atoms alone: every set is tried,
// so it is for texts with few atoms.

use crate::lparse::{mentioned, Gives, Text, TextAtom, TextRule};
use std::collections::BTreeSet;

type Set = BTreeSet<TextAtom>;

/// The smallest set closed under the rules that X does not block, where a choice gives only those
/// of its heads that are in X.
fn least_model(text: &Text, x: &Set) -> Set {
    let kept: Vec<&TextRule> =
        text.rules.iter().filter(|rule| rule.negative.is_disjoint(x)).collect();
    let mut model = Set::new();
    loop {
        let before = model.len();
        for rule in &kept {
            if rule.positive.is_subset(&model) {
                model.extend(given(rule, x));
            }
        }
        if model.len() == before {
            return model;
        }
    }
}

fn given(rule: &TextRule, x: &Set) -> Vec<TextAtom> {
    match &rule.gives {
        Gives::Head(head) => vec![*head],
        Gives::AnyOf(heads) => heads.iter().copied().filter(|head| x.contains(head)).collect(),
    }
}

/// All answer sets that hold every atom of B+ and none of B-.
pub fn obeying(text: &Text) -> BTreeSet<Set> {
    let atoms: Vec<TextAtom> = mentioned(text).into_iter().collect();
    let subset = |bits: u32| -> Set {
        let members = (0..atoms.len()).filter(|n| bits >> n & 1 == 1);
        members.map(|n| atoms[n]).collect()
    };
    (0..1u32 << atoms.len())
        .map(subset)
        .filter(|x| least_model(text, x) == *x)
        .filter(|x| text.plus.iter().all(|atom| x.contains(atom)))
        .filter(|x| !text.minus.iter().any(|atom| x.contains(atom)))
        .collect()
}
