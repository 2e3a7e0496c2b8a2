// Changed papers: one byte changed, or steps and witness taken apart, changed and put together
// again with a trailer that fits.

use crate::book::two_bytes;
use crate::claim::Claim;
use crate::paper::{assemble, END, GO_OFF, GO_ON, SPLIT, STARVE};
use crate::random::Random;

/// A paper taken apart.
#[derive(Clone)]
pub struct Parts {
    pub steps: Vec<Vec<u8>>,
    pub witness: Vec<u8>,
    pub claim: Claim,
}

impl Parts {
    /// Takes a well-formed paper apart, step by step.
    pub fn of(paper: &[u8]) -> Parts {
        let length = paper.len();
        let start = two_bytes(paper, length - 4);
        let mut steps = Vec::new();
        let mut place = 0;
        while place < start {
            let size = match paper[place] {
                END => 1,
                STARVE => 2 + paper[place + 1] as usize,
                _ => 2,
            };
            steps.push(paper[place..place + size].to_vec());
            place += size;
        }
        let claim = Claim::by_mark(&paper[length - 2..], paper[length - 6]).expect("a mark");
        Parts { steps, witness: paper[start..length - 6].to_vec(), claim }
    }

    pub fn paper(&self) -> Vec<u8> {
        assemble(&self.steps.concat(), &self.witness, self.claim)
    }
}

/// The kinds of change, in the order of their numbers.
pub const KINDS: [&str; 8] = [
    "byte changed",
    "steps swapped",
    "step dropped",
    "step doubled",
    "list changed",
    "witness changed",
    "claim changed",
    "step put in",
];

/// Changes a well-formed paper in the way of that number; it may come out as it was.
pub fn alter(paper: &[u8], kind: usize, rules: usize, random: &mut Random) -> Vec<u8> {
    let near = |random: &mut Random| random.below(rules + 2).min(255) as u8;
    let mut parts = Parts::of(paper);
    let step = random.below(parts.steps.len());
    match kind {
        0 => return change_byte(paper, near(random), random),
        1 => {
            let other = random.below(parts.steps.len());
            parts.steps.swap(step, other);
        }
        2 => drop(parts.steps.remove(step)),
        3 => {
            let to = random.from_to(0, parts.steps.len());
            let copy = parts.steps[step].clone();
            parts.steps.insert(to, copy);
        }
        4 => change_list(&mut parts, near(random), random),
        5 => change_witness(&mut parts.witness, near(random), random),
        6 => parts.claim = parts.claim.of(near(random)),
        _ => {
            let code = *random.pick(&[GO_ON, GO_OFF, SPLIT, END, STARVE]);
            let r = near(random);
            let bytes = match code {
                END => vec![END],
                STARVE => vec![STARVE, 1, r],
                _ => vec![code, r],
            };
            parts.steps.insert(step, bytes);
        }
    }
    parts.paper()
}

fn change_byte(paper: &[u8], near: u8, random: &mut Random) -> Vec<u8> {
    let mut changed = paper.to_vec();
    let place = random.below(paper.len());
    let codes = [GO_ON, GO_OFF, STARVE, SPLIT, END];
    changed[place] = match random.below(4) {
        0 => random.byte(),
        1 => *random.pick(&codes),
        2 => paper[place].wrapping_add(1),
        _ => near,
    };
    changed
}

/// Adds a rule to a list, takes one out, or, where the paper has no list, turns a step into one.
fn change_list(parts: &mut Parts, near: u8, random: &mut Random) {
    let lists: Vec<usize> =
        (0..parts.steps.len()).filter(|s| parts.steps[*s][0] == STARVE).collect();
    if lists.is_empty() {
        let step = random.below(parts.steps.len());
        parts.steps.insert(step, vec![STARVE, 1, near]);
        return;
    }
    let step = *random.pick(&lists);
    let mut list = parts.steps[step][2..].to_vec();
    if random.once_in(2) && !list.contains(&near) {
        list.push(near);
        list.sort_unstable();
    } else {
        list.remove(random.below(list.len()));
    }
    parts.steps[step] = vec![STARVE, list.len() as u8];
    parts.steps[step].extend(list);
}

fn change_witness(witness: &mut Vec<u8>, near: u8, random: &mut Random) {
    let place = random.from_to(0, witness.len());
    if witness.is_empty() || random.once_in(3) {
        if witness.len() < 255 {
            witness.insert(place, near);
        }
        return;
    }
    let place = random.below(witness.len());
    if random.once_in(2) {
        witness.remove(place);
    } else {
        let other = random.below(witness.len());
        witness.swap(place, other);
    }
}
