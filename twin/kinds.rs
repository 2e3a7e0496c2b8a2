// The four kinds of book that a year has. Each is told how far the year has come: books grow.

use crate::draft::{Draft, MOST};
use crate::numbers::AtomNo;
use crate::random::Random;

/// How far the year has come: which of its turns a kind has, and how many it has.
#[derive(Clone, Copy)]
pub struct Season {
    pub turn: usize,
    pub turns: usize,
}

impl Season {
    /// A size that goes up from `least` at the first turn to `most` at the last.
    fn size(self, least: usize, most: usize) -> usize {
        least + (most - least) * self.turn / (self.turns - 1)
    }
}

const FORBIDDEN: usize = 8;

/// Slots that one of two people takes, a chain of consequences behind each first one, and pairs
/// that are forbidden.
pub fn roster(season: Season, random: &mut Random) -> Draft {
    let slots = season.size(6, 13);
    let chain = season.size(3, 20).min((MOST - FORBIDDEN) / slots - 2);
    let mut draft = Draft::new();
    let mut last = Vec::new();
    for _ in 0..slots {
        let (p, q) = (draft.atom(), draft.atom());
        draft.pair(p, q);
        last.push([p, q]);
    }
    for slot in &mut last {
        for _ in 0..chain {
            let next = draft.atom();
            draft.rule(next, &[slot[0]], &[]);
            slot[0] = next;
        }
    }
    forbid_some(&mut draft, &last, random);
    draft
}

/// Pairs, each with a third atom that holds either way, groups of up to eight of these, and pairs
/// that are forbidden.
pub fn blame(season: Season, random: &mut Random) -> Draft {
    let pairs = season.size(6, 45);
    let mut draft = Draft::new();
    let mut choices = Vec::new();
    let mut either = Vec::new();
    for _ in 0..pairs {
        let (a, b, c) = (draft.atom(), draft.atom(), draft.atom());
        draft.pair(a, b);
        draft.rule(c, &[a], &[]);
        draft.rule(c, &[b], &[]);
        choices.push([a, b]);
        either.push(c);
    }
    for group in either.chunks(8) {
        let g = draft.atom();
        draft.rule(g, group, &[]);
    }
    forbid_some(&mut draft, &choices, random);
    draft
}

/// Three colours for each node of a graph, and none for both ends of an edge.
pub fn conflicts(season: Season, random: &mut Random) -> Draft {
    let nodes = season.size(8, 25);
    let mut draft = Draft::new();
    let mut colours = Vec::new();
    for _ in 0..nodes {
        let node = draft.new_atoms(3);
        for c in 0..3 {
            draft.rule(node[c], &[], &[node[(c + 1) % 3], node[(c + 2) % 3]]);
        }
        colours.push(node);
    }
    let f = draft.atom();
    let mut edges: Vec<(usize, usize)> =
        (0..nodes).flat_map(|v| (0..v).map(move |u| (u, v))).collect();
    random.shuffle(&mut edges);
    for (u, v) in edges.into_iter().take(nodes * 9 / 4) {
        for (x, y) in colours[u].iter().zip(&colours[v]) {
            draft.forbid(f, *x, *y);
        }
    }
    draft
}

/// Rules at random: a third of them in pairs, the others on up to two positive atoms and two
/// negative ones.
pub fn chance(season: Season, random: &mut Random) -> Draft {
    let rules = season.size(40, MOST);
    let mut draft = Draft::new();
    let atoms = draft.new_atoms(season.size(20, 200));
    for _ in 0..rules / 6 {
        let (a, b) = random.pick_two(&atoms);
        draft.pair(a, b);
    }
    for _ in rules / 6 * 2..rules {
        let head = random.pick(&atoms);
        let positives = some_of(&atoms, random);
        let negatives = some_of(&atoms, random);
        draft.rule(head, &positives, &negatives);
    }
    draft
}

/// Up to two of the atoms.
fn some_of(atoms: &[AtomNo], random: &mut Random) -> Vec<AtomNo> {
    (0..random.below(3)).map(|_| random.pick(atoms)).collect()
}

/// Forbids some pairs of atoms, each from two choices.
fn forbid_some(draft: &mut Draft, choices: &[[AtomNo; 2]], random: &mut Random) {
    let f = draft.atom();
    for _ in 0..FORBIDDEN {
        let (x, y) = random.pick_two(choices);
        draft.forbid(f, random.pick(&x), random.pick(&y));
    }
}
