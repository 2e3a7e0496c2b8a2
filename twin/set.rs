// Sets of 256 bits in four words: bit i % 64 of word i / 64 says whether i is a member.

use crate::numbers::{AtomNo, Number, RuleNo};
use std::marker::PhantomData;

#[derive(Clone, Copy, PartialEq, Eq)]
pub struct Set<T> {
    words: [u64; 4],
    members: PhantomData<T>,
}

pub type Atoms = Set<AtomNo>;
pub type Rules = Set<RuleNo>;

impl<T: Number> Set<T> {
    pub const EMPTY: Set<T> = Set { words: [0; 4], members: PhantomData };

    /// All numbers below `count`.
    pub fn below(count: u8) -> Set<T> {
        let mut set = Set::EMPTY;
        for number in 0..count {
            set.insert(T::from_byte(number));
        }
        set
    }

    pub fn insert(&mut self, member: T) {
        let at = member.place();
        self.words[at / 64] |= 1 << (at % 64);
    }

    pub fn remove(&mut self, member: T) {
        let at = member.place();
        self.words[at / 64] &= !(1 << (at % 64));
    }

    /// Puts every member of the other set in.
    pub fn add(&mut self, other: &Set<T>) {
        for (word, more) in self.words.iter_mut().zip(&other.words) {
            *word |= more;
        }
    }

    pub fn union(mut self, other: &Set<T>) -> Set<T> {
        self.add(other);
        self
    }

    pub fn intersection(mut self, other: &Set<T>) -> Set<T> {
        for (word, kept) in self.words.iter_mut().zip(&other.words) {
            *word &= kept;
        }
        self
    }

    pub fn difference(mut self, other: &Set<T>) -> Set<T> {
        for (word, gone) in self.words.iter_mut().zip(&other.words) {
            *word &= !gone;
        }
        self
    }

    pub fn meets(&self, other: &Set<T>) -> bool {
        self.words.iter().zip(&other.words).fold(0, |all, (a, b)| all | (a & b)) != 0
    }

    pub fn is_within(&self, other: &Set<T>) -> bool {
        self.words.iter().zip(&other.words).fold(0, |all, (a, b)| all | (a & !b)) == 0
    }

    pub fn is_empty(&self) -> bool {
        self.words.iter().fold(0, |all, word| all | word) == 0
    }

    pub fn lowest(&self) -> Option<T> {
        self.members().next()
    }

    /// The members in ascending order.
    pub fn members(&self) -> Members<T> {
        Members { left: *self, word: 0 }
    }
}

pub struct Members<T> {
    left: Set<T>,
    word: usize,
}

impl<T: Number> Iterator for Members<T> {
    type Item = T;

    fn next(&mut self) -> Option<T> {
        while self.word < 4 {
            let bits = self.left.words[self.word];
            if bits != 0 {
                self.left.words[self.word] = bits & (bits - 1);
                return Some(T::from_byte((64 * self.word + bits.trailing_zeros() as usize) as u8));
            }
            self.word += 1;
        }
        None
    }
}
