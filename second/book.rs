// The rule book: reading its bytes with every refusal of document 01 (1 to 7), and writing them.

use crate::numbers::{Atom, AtomSet, Numbered, RuleNo, RuleSet};

pub const LONGEST_BOOK: usize = 9_441;
pub const BOOK_MARK: [u8; 2] = [0x52, 0x42];
const TRAILER: usize = 6;
const LARGEST_PART: usize = 16;

/// A number of document 01's table, with a place where the table gives one.
#[derive(Clone, Copy, PartialEq, Eq, Debug)]
pub struct Refusal {
    pub number: u8,
    pub place: Option<usize>,
}

impl Refusal {
    pub fn at(number: u8, place: usize) -> Refusal {
        Refusal { number, place: Some(place) }
    }

    pub fn placeless(number: u8) -> Refusal {
        Refusal { number, place: None }
    }
}

/// The parts of a body are strictly ascending in the bytes, so they are sets.
#[derive(Clone, Copy, PartialEq, Eq, Debug)]
pub struct Rule {
    pub head: Atom,
    pub positive: AtomSet,
    pub negative: AtomSet,
}

impl Rule {
    pub fn new(head: u8, positive: &[u8], negative: &[u8]) -> Rule {
        let set = |part: &[u8]| part.iter().fold(AtomSet::none(), |all, a| all.with(Atom(*a)));
        Rule { head: Atom(head), positive: set(positive), negative: set(negative) }
    }
}

#[derive(Clone, PartialEq, Eq, Debug)]
pub struct Book {
    pub atoms: usize,
    pub rules: Vec<Rule>,
}

impl Book {
    pub fn rule(&self, number: RuleNo) -> &Rule {
        &self.rules[number.0 as usize]
    }

    pub fn all_rules(&self) -> RuleSet {
        RuleSet::below(self.rules.len())
    }

    pub fn all_atoms(&self) -> AtomSet {
        AtomSet::below(self.atoms)
    }

    /// The rules with their numbers, in order.
    pub fn numbered(&self) -> impl Iterator<Item = (RuleNo, &Rule)> {
        self.rules.iter().enumerate().map(|(n, rule)| (RuleNo(n as u8), rule))
    }

    pub fn heads(&self, of: &RuleSet) -> AtomSet {
        of.members().fold(AtomSet::none(), |heads, r| heads.with(self.rule(r).head))
    }

    pub fn read(bytes: &[u8]) -> Result<Book, Refusal> {
        let length = bytes.len();
        if length < TRAILER || length > LONGEST_BOOK {
            return Err(Refusal::at(1, 0));
        }
        if bytes[length - 2..] != BOOK_MARK {
            return Err(Refusal::at(2, length - 2));
        }
        let atoms = bytes[length - 6] as usize;
        let count = bytes[length - 5] as usize;
        let index = two_bytes(bytes, length - 4);
        if index + 2 * count + TRAILER != length {
            return Err(Refusal::at(3, length - 4));
        }
        let mut rules = Vec::new();
        let mut end = 0;
        for number in 0..count {
            let entry = index + 2 * number;
            if two_bytes(bytes, entry) != end {
                return Err(Refusal::at(4, entry));
            }
            let (rule, length) = read_record(&bytes[end..index], end, atoms)?;
            rules.push(rule);
            end += length;
        }
        if end != index {
            return Err(Refusal::at(4, index));
        }
        Ok(Book { atoms, rules })
    }

    pub fn write(&self) -> Vec<u8> {
        let mut bytes = Vec::new();
        let mut starts = Vec::new();
        for rule in &self.rules {
            starts.push(bytes.len());
            bytes.push(rule.head.0);
            bytes.push(rule.positive.count() as u8);
            bytes.push(rule.negative.count() as u8);
            bytes.extend(rule.positive.members().map(|a| a.byte()));
            bytes.extend(rule.negative.members().map(|a| a.byte()));
        }
        let index = bytes.len();
        for start in starts {
            bytes.extend((start as u16).to_le_bytes());
        }
        bytes.push(self.atoms as u8);
        bytes.push(self.rules.len() as u8);
        bytes.extend((index as u16).to_le_bytes());
        bytes.extend(BOOK_MARK);
        bytes
    }
}

pub fn two_bytes(bytes: &[u8], place: usize) -> usize {
    bytes[place] as usize + 256 * bytes[place + 1] as usize
}

/// Reads the record at the start of `part`, which stands at `place` and goes on to the index.
fn read_record(part: &[u8], place: usize, atoms: usize) -> Result<(Rule, usize), Refusal> {
    if part.len() < 3 {
        return Err(Refusal::at(5, place));
    }
    let (p, n) = (part[1] as usize, part[2] as usize);
    let length = 3 + p + n;
    if p > LARGEST_PART || n > LARGEST_PART || length > part.len() {
        return Err(Refusal::at(5, place));
    }
    if part[0] as usize >= atoms {
        return Err(Refusal::at(6, place));
    }
    let head = Atom(part[0]);
    let positive = read_body_part(&part[3..3 + p], place + 3, atoms)?;
    let negative = read_body_part(&part[3 + p..length], place + 3 + p, atoms)?;
    Ok((Rule { head, positive, negative }, length))
}

/// Byte by byte: first whether the atom is one of the book's (6), then whether it ascends (7).
fn read_body_part(part: &[u8], place: usize, atoms: usize) -> Result<AtomSet, Refusal> {
    let mut set = AtomSet::none();
    for (offset, byte) in part.iter().enumerate() {
        if *byte as usize >= atoms {
            return Err(Refusal::at(6, place + offset));
        }
        if offset > 0 && *byte <= part[offset - 1] {
            return Err(Refusal::at(7, place + offset));
        }
        set.insert(Atom(*byte));
    }
    Ok(set)
}
