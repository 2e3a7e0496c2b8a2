// Request 9: two books joined, the second's atoms and rules numbered on after the first's, and
// which of them has no answer set.

use crate::book::{Book, Refusal, Rule};
use crate::numbers::{Atom, AtomSet};
use crate::walk::{find_set, Finding};

const MOST_ATOMS: usize = 255;
const MOST_RULES: usize = 255;

/// Why two books are not joined: what is wrong with one of them, or with both together.
#[derive(Clone, Copy, PartialEq, Eq, Debug)]
pub enum NotJoined {
    First(Refusal),
    Second(Refusal),
    Together(u8),
}

pub enum Logged {
    /// Whether each book has a reading, and the joined book's bytes.
    Book { readings: [bool; 2], joined: Vec<u8> },
    /// The limit that was passed.
    Limit(u64),
}

pub fn joined(first: &Book, second: &Book) -> Book {
    let up = |atom: Atom| Atom(atom.0 + first.atoms as u8);
    let up_all = |set: &AtomSet| set.members().fold(AtomSet::none(), |all, a| all.with(up(a)));
    let moved = second.rules.iter().map(|rule| Rule {
        head: up(rule.head),
        positive: up_all(&rule.positive),
        negative: up_all(&rule.negative),
    });
    let rules = first.rules.iter().copied().chain(moved).collect();
    Book { atoms: first.atoms + second.atoms, rules }
}

/// Both books, good and small enough together, and the bytes of the joined one.
fn read_both(first: &[u8], second: &[u8], room: usize) -> Result<([Book; 2], Vec<u8>), NotJoined> {
    let first = Book::read(first).map_err(NotJoined::First)?;
    let second = Book::read(second).map_err(NotJoined::Second)?;
    let too_many_atoms = first.atoms + second.atoms > MOST_ATOMS;
    if too_many_atoms || first.rules.len() + second.rules.len() > MOST_RULES {
        return Err(NotJoined::Together(17));
    }
    let bytes = joined(&first, &second).write();
    if bytes.len() > room {
        return Err(NotJoined::Together(19));
    }
    Ok(([first, second], bytes))
}

pub fn join(first: &[u8], second: &[u8], room: usize) -> Result<Vec<u8>, NotJoined> {
    read_both(first, second, room).map(|(_, bytes)| bytes)
}

/// Both searches, each with its own limit, and their tries together. The limit that was passed
/// comes before what the other search says, the first book's before the second's.
pub fn log(
    first: &[u8],
    second: &[u8],
    limits: [u64; 2],
    room: usize,
) -> Result<(Logged, u64), NotJoined> {
    let (books, joined) = read_both(first, second, room)?;
    let mut readings = [false; 2];
    let mut spent = 0;
    for crew in 0..2 {
        match find_set(&books[crew], 1, limits[crew]) {
            Finding::Set(found) => {
                readings[crew] = true;
                spent += found.tries;
            }
            Finding::Fewer { tries, .. } => spent += tries,
            Finding::Limit => return Ok((Logged::Limit(limits[crew]), spent + limits[crew])),
        }
    }
    Ok((Logged::Book { readings, joined }, spent))
}
