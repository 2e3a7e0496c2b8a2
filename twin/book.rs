// A rule book: any bytes are read as a good book or refused, with document 01's number and place.

use crate::numbers::{AtomNo, Number, RuleNo};
use crate::set::{Atoms, Rules};

const MOST_BYTES: usize = 255 * 35 + 510 + 6;
const MOST_IN_PART: usize = 16;

/// Document 01's number, 1 to 7, and the place in the book.
pub struct Refusal {
    pub number: u8,
    pub place: usize,
}

fn refuse<T>(number: u8, place: usize) -> Result<T, Refusal> {
    Err(Refusal { number, place })
}

/// A rule, its parts in place in the book's bytes.
struct Rule<'a> {
    head: AtomNo,
    positives: &'a [u8],
    negatives: &'a [u8],
}

pub struct Book<'a> {
    pub atoms: u8,
    rules: Vec<Rule<'a>>,
}

impl<'a> Book<'a> {
    /// The trailer first, then each record in turn, then where the last one ends.
    pub fn read(bytes: &'a [u8]) -> Result<Book<'a>, Refusal> {
        let length = bytes.len();
        if !(6..=MOST_BYTES).contains(&length) {
            return refuse(1, 0);
        }
        if &bytes[length - 2..] != b"\x52\x42" {
            return refuse(2, length - 2);
        }
        let (atoms, count) = (bytes[length - 6], bytes[length - 5] as usize);
        let index = two_bytes(bytes, length - 4);
        if index + 2 * count + 6 != length {
            return refuse(3, length - 4);
        }
        let mut rules = Vec::with_capacity(count);
        let mut start = 0;
        for entry in (index..).step_by(2).take(count) {
            if two_bytes(bytes, entry) != start {
                return refuse(4, entry);
            }
            let (rule, size) = read_record(&bytes[start..index], atoms, start)?;
            rules.push(rule);
            start += size;
        }
        if start != index {
            return refuse(4, index);
        }
        Ok(Book { atoms, rules })
    }

    pub fn all_atoms(&self) -> Atoms {
        Atoms::below(self.atoms)
    }

    pub fn all_rules(&self) -> Rules {
        Rules::below(self.rules.len() as u8)
    }

    pub fn head(&self, r: RuleNo) -> AtomNo {
        self.rules[r.place()].head
    }

    pub fn positives(&self, r: RuleNo) -> impl Iterator<Item = AtomNo> + 'a {
        atoms_of(self.rules[r.place()].positives)
    }

    pub fn negatives(&self, r: RuleNo) -> impl Iterator<Item = AtomNo> + 'a {
        atoms_of(self.rules[r.place()].negatives)
    }
}

fn atoms_of<'a>(part: &'a [u8]) -> impl Iterator<Item = AtomNo> + 'a {
    part.iter().map(|atom| AtomNo(*atom))
}

fn two_bytes(bytes: &[u8], at: usize) -> usize {
    u16::from_le_bytes([bytes[at], bytes[at + 1]]) as usize
}

/// The rule whose record `part` starts with, and the record's length. The part goes on to the
/// index, and stands at `at` of the book.
fn read_record(part: &[u8], atoms: u8, at: usize) -> Result<(Rule<'_>, usize), Refusal> {
    if part.len() < 3 {
        return refuse(5, at);
    }
    let (p, n) = (part[1] as usize, part[2] as usize);
    let middle = 3 + p;
    let end = middle + n;
    if p > MOST_IN_PART || n > MOST_IN_PART || part.len() < end {
        return refuse(5, at);
    }
    if part[0] >= atoms {
        return refuse(6, at);
    }
    let (positives, negatives) = (&part[3..middle], &part[middle..end]);
    check_part(positives, atoms, at + 3)?;
    check_part(negatives, atoms, at + middle)?;
    Ok((Rule { head: AtomNo(part[0]), positives, negatives }, end))
}

/// Each byte is an atom below `atoms`, and greater than the one before it.
fn check_part(part: &[u8], atoms: u8, at: usize) -> Result<(), Refusal> {
    let mut before = None;
    for (i, atom) in part.iter().enumerate() {
        if *atom >= atoms {
            return refuse(6, at + i);
        }
        if before >= Some(atom) {
            return refuse(7, at + i);
        }
        before = Some(atom);
    }
    Ok(())
}
