// A book that is being made: its rules, and at the end its bytes.

use crate::numbers::AtomNo;
use crate::random::Random;

pub const MOST: usize = 255;

struct Rule {
    head: AtomNo,
    positives: Vec<AtomNo>,
    negatives: Vec<AtomNo>,
}

pub struct Draft {
    atoms: usize,
    rules: Vec<Rule>,
}

impl Draft {
    pub fn new() -> Draft {
        Draft { atoms: 0, rules: Vec::new() }
    }

    /// A new atom.
    pub fn atom(&mut self) -> AtomNo {
        assert!(self.atoms < MOST, "a book has at most 255 atoms");
        self.atoms += 1;
        AtomNo((self.atoms - 1) as u8)
    }

    pub fn new_atoms(&mut self, count: usize) -> Vec<AtomNo> {
        (0..count).map(|_| self.atom()).collect()
    }

    /// "head if positives and not negatives".
    pub fn rule(&mut self, head: AtomNo, positives: &[AtomNo], negatives: &[AtomNo]) {
        assert!(self.rules.len() < MOST, "a book has at most 255 rules");
        self.rules.push(Rule {
            head,
            positives: ascending(positives),
            negatives: ascending(negatives),
        });
    }

    /// "a if not b; b if not a".
    pub fn pair(&mut self, a: AtomNo, b: AtomNo) {
        self.rule(a, &[], &[b]);
        self.rule(b, &[], &[a]);
    }

    /// "f if x and y, not f": no reading holds both.
    pub fn forbid(&mut self, f: AtomNo, x: AtomNo, y: AtomNo) {
        self.rule(f, &[x, y], &[f]);
    }

    pub fn shuffle(&mut self, random: &mut Random) {
        random.shuffle(&mut self.rules);
    }

    /// Document 01's format: records, index, trailer.
    pub fn bytes(&self) -> Vec<u8> {
        let mut bytes = Vec::new();
        let mut index = Vec::new();
        for rule in &self.rules {
            index.extend(&(bytes.len() as u16).to_le_bytes());
            bytes.extend(&[rule.head.0, rule.positives.len() as u8, rule.negatives.len() as u8]);
            bytes.extend(rule.positives.iter().chain(&rule.negatives).map(|atom| atom.0));
        }
        let start = (bytes.len() as u16).to_le_bytes();
        bytes.extend(&index);
        bytes.extend(&[self.atoms as u8, self.rules.len() as u8, start[0], start[1], 0x52, 0x42]);
        bytes
    }
}

/// A part of a body: each atom once, in ascending order.
fn ascending(atoms: &[AtomNo]) -> Vec<AtomNo> {
    let mut part = atoms.to_vec();
    part.sort_by_key(|atom| atom.0);
    part.dedup();
    part
}
