// What a paper claims: of an atom that it is in every answer set, or that it is in none, where
// either way the book has an answer set; or of no atom, that the book has no answer set. The kinds
// differ in their mark, in what ends a branch and in the number that says that the claim does not
// hold.

use crate::numbers::{Atom, Numbered};

#[derive(Clone, Copy, PartialEq, Eq, Debug)]
pub enum Claim {
    Certain(Atom),
    Clear(Atom),
    NoReading,
}

pub fn certain(atom: u8) -> Claim {
    Claim::Certain(Atom(atom))
}

pub fn clear(atom: u8) -> Claim {
    Claim::Clear(Atom(atom))
}

impl Claim {
    /// The last two bytes of a paper with this claim.
    pub fn mark(self) -> [u8; 2] {
        match self {
            Claim::Certain(_) => [0x50, 0x46],
            Claim::Clear(_) => [0x50, 0x43],
            Claim::NoReading => [0x50, 0x4e],
        }
    }

    /// The claim that a paper with this mark makes of this atom, or of none.
    pub fn by_mark(mark: &[u8], atom: u8) -> Option<Claim> {
        let claims = [certain(atom), clear(atom), Claim::NoReading];
        claims.iter().copied().find(|claim| claim.mark() == mark)
    }

    /// The first byte of a paper's trailer.
    pub fn byte(self) -> u8 {
        match self {
            Claim::Certain(atom) | Claim::Clear(atom) => atom.byte(),
            Claim::NoReading => 0,
        }
    }

    /// The same kind of claim of another atom; the one without an atom becomes one of this atom.
    pub fn of(self, atom: u8) -> Claim {
        match self {
            Claim::Certain(_) | Claim::NoReading => certain(atom),
            Claim::Clear(_) => clear(atom),
        }
    }

    /// The kinds of claim that this is not, of the same atom; the opposite one first.
    pub fn others(self) -> [Claim; 2] {
        match self {
            Claim::Certain(atom) => [Claim::Clear(atom), Claim::NoReading],
            Claim::Clear(atom) => [Claim::Certain(atom), Claim::NoReading],
            Claim::NoReading => [certain(0), clear(0)],
        }
    }

    /// The number for a claim that some answer set does not bear out.
    pub fn refuted(self) -> u8 {
        match self {
            Claim::Certain(_) => 12,
            Claim::Clear(_) => 18,
            Claim::NoReading => 38,
        }
    }

    /// The command of `desk` that writes a paper for the claim.
    pub fn command(self) -> &'static str {
        match self {
            Claim::Certain(_) => "name",
            Claim::Clear(_) => "clear",
            Claim::NoReading => "contradict",
        }
    }

    /// What `desk` calls an accepted claim.
    pub fn told(self) -> String {
        match self {
            Claim::Certain(_) => format!("certain {}", self.byte()),
            Claim::Clear(_) => format!("clear {}", self.byte()),
            Claim::NoReading => "none".to_string(),
        }
    }
}
