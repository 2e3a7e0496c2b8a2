// Books to try things on: random ones of several shapes, and some of a shape said in words.

use crate::book::{Book, Rule};
use crate::numbers::{Atom, AtomSet};
use crate::random::Random;

/// What random rules look like: how many atoms of each sign, from least to most, and how many
/// pairs "a if not b", "b if not a" are put in.
#[derive(Clone, Copy)]
pub struct Shape {
    pub positive: (usize, usize),
    pub negative: (usize, usize),
    pub pairs: usize,
}

pub const MIXED: Shape = Shape { positive: (0, 2), negative: (0, 2), pairs: 0 };
pub const SHAPES: [Shape; 5] = [
    MIXED,
    Shape { positive: (0, 2), negative: (0, 1), pairs: 1 },
    Shape { positive: (0, 1), negative: (1, 2), pairs: 1 },
    Shape { positive: (0, 0), negative: (1, 1), pairs: 0 },
    Shape { positive: (1, 3), negative: (0, 1), pairs: 2 },
];

fn random_part(random: &mut Random, atoms: usize, bounds: (usize, usize)) -> AtomSet {
    let count = random.from_to(bounds.0, bounds.1);
    let drawn = (0..count).map(|_| Atom(random.below(atoms) as u8));
    drawn.fold(AtomSet::none(), |set, atom| set.with(atom))
}

pub fn random_rule(random: &mut Random, atoms: usize, shape: Shape) -> Rule {
    Rule {
        head: Atom(random.below(atoms) as u8),
        positive: random_part(random, atoms, shape.positive),
        negative: random_part(random, atoms, shape.negative),
    }
}

/// A book of the given size; with no atoms it has no rules.
pub fn random_book(random: &mut Random, atoms: usize, rules: usize, shape: Shape) -> Book {
    let rules = if atoms == 0 { 0 } else { rules };
    let mut rules: Vec<Rule> = (0..rules).map(|_| random_rule(random, atoms, shape)).collect();
    for _ in 0..shape.pairs {
        if rules.len() >= 2 {
            let (left, right) = (random.below(atoms) as u8, random.below(atoms) as u8);
            let place = random.below(rules.len());
            rules[place] = Rule::new(left, &[], &[right]);
            let place = random.below(rules.len());
            rules[place] = Rule::new(right, &[], &[left]);
        }
    }
    Book { atoms, rules }
}

/// A book as people make them: a few choices below, the rest derived from lower atoms.
pub fn layered_book(random: &mut Random, atoms: usize, rules: usize, choices: usize) -> Book {
    let mut book = Book { atoms, rules: Vec::new() };
    for rule in 0..rules {
        let pair = (rule / 2 * 2) as u8;
        if rule < 2 * choices && (pair as usize) + 1 < atoms {
            let (own, other) = (pair + (rule % 2) as u8, pair + 1 - (rule % 2) as u8);
            book.rules.push(Rule::new(own, &[], &[other]));
            continue;
        }
        let head = random.below(atoms);
        let lower = head.max(1);
        let shape = Shape { positive: (0, 3), negative: (0, 2), pairs: 0 };
        let mut drawn = random_rule(random, lower, shape);
        drawn.head = Atom(head as u8);
        if head == 0 {
            drawn = Rule::new(0, &[], &[]);
        }
        book.rules.push(drawn);
    }
    book
}

/// `count` copies of "0 if not 1" and one "1 if not 0": with 254 copies the deepest walk.
pub fn deep_book(count: usize) -> Book {
    let mut rules = vec![Rule::new(0, &[], &[1]); count];
    rules.push(Rule::new(1, &[], &[0]));
    Book { atoms: 2, rules }
}

/// The deepest naming: 252 copies of "0 if not 1", and 2 follows from 0 as well as from 1.
pub fn deep_certain_book() -> Book {
    let mut book = deep_book(252);
    book.atoms = 3;
    book.rules.push(Rule::new(2, &[0], &[]));
    book.rules.push(Rule::new(2, &[1], &[]));
    book
}

/// How long a paper for atom 0 is to become, in pieces of falling size.
#[derive(Clone, Copy)]
pub struct Length {
    pub choices: usize,
    /// Rules that follow each choice, by its place: the k-th costs about 2^k bytes.
    pub after: [usize; 8],
    /// Rules from the last choice to atom 0, written in every leaf.
    pub chain: usize,
    /// Rules that starve; each costs one byte.
    pub starved: usize,
}

/// The paper for atom 0 of this book has 60,000 bytes; with one more starved rule it has 60,001.
pub const LONGEST: Length =
    Length { choices: 8, after: [0, 0, 1, 1, 0, 1, 0, 1], chain: 112, starved: 5 };

/// Choices between atoms 1 and 2, 3 and 4, and so on; atom 0 follows by a chain of rules from
/// either side of the last choice. Many of its rules have a head that nothing asks for.
pub fn long_paper_book(length: &Length) -> Book {
    let mut rules = Vec::new();
    let first_free = 2 * length.choices as u8 + 1;
    let (idle, dead) = (first_free, first_free + 1);
    for choice in 0..length.choices as u8 {
        rules.push(Rule::new(2 * choice + 1, &[], &[2 * choice + 2]));
        rules.push(Rule::new(2 * choice + 2, &[], &[2 * choice + 1]));
    }
    for (choice, count) in length.after.iter().enumerate() {
        for _ in 0..*count {
            rules.push(Rule::new(idle, &[2 * choice as u8 + 1], &[]));
        }
    }
    for _ in 0..length.starved {
        rules.push(Rule::new(idle, &[dead], &[]));
    }
    let chain = |link: usize| first_free + 2 + link as u8;
    rules.push(Rule::new(chain(0), &[2 * length.choices as u8 - 1], &[]));
    rules.push(Rule::new(chain(0), &[2 * length.choices as u8], &[]));
    for link in 1..length.chain {
        rules.push(Rule::new(chain(link), &[chain(link - 1)], &[]));
    }
    rules.push(Rule::new(0, &[chain(length.chain - 1)], &[]));
    Book { atoms: first_free as usize + 2 + length.chain, rules }
}

/// A book with one rule for each atom that wants the atom before: a chain, closed in one try.
pub fn chain_book(length: usize) -> Book {
    let follows = |a: usize| match a {
        0 => Rule::new(0, &[], &[]),
        a => Rule::new(a as u8, &[a as u8 - 1], &[]),
    };
    Book { atoms: length, rules: (0..length).rev().map(follows).collect() }
}

/// A book whose every rule has `p` positive and `n` negative atoms.
pub fn wide_book(rules: usize, p: usize, n: usize, atoms: usize) -> Book {
    let rule = |r: usize| Rule {
        head: Atom((r % atoms) as u8),
        positive: AtomSet::below(p),
        negative: AtomSet::below(atoms).minus(&AtomSet::below(atoms - n)),
    };
    Book { atoms, rules: (0..rules).map(rule).collect() }
}
