// The numbers of atoms and of rules, kept apart by type, and sets of each.
// Both are one byte in a book; giving one where the other is due does not compile here.

use std::marker::PhantomData;

pub trait Numbered: Copy {
    fn from_byte(byte: u8) -> Self;
    fn byte(self) -> u8;
}

#[derive(Clone, Copy, PartialEq, Eq, PartialOrd, Ord, Debug)]
pub struct Atom(pub u8);

#[derive(Clone, Copy, PartialEq, Eq, PartialOrd, Ord, Debug)]
pub struct RuleNo(pub u8);

impl Numbered for Atom {
    fn from_byte(byte: u8) -> Atom {
        Atom(byte)
    }
    fn byte(self) -> u8 {
        self.0
    }
}

impl Numbered for RuleNo {
    fn from_byte(byte: u8) -> RuleNo {
        RuleNo(byte)
    }
    fn byte(self) -> u8 {
        self.0
    }
}

/// A set of numbers 0 to 255, one bit each.
#[derive(Clone, Copy, PartialEq, Eq, Debug)]
pub struct SetOf<T> {
    words: [u64; 4],
    kind: PhantomData<T>,
}

pub type AtomSet = SetOf<Atom>;
pub type RuleSet = SetOf<RuleNo>;

impl<T: Numbered> SetOf<T> {
    pub fn none() -> Self {
        SetOf { words: [0; 4], kind: PhantomData }
    }

    /// All numbers below `count`.
    pub fn below(count: usize) -> Self {
        let mut set = Self::none();
        for number in 0..count {
            set.insert(T::from_byte(number as u8));
        }
        set
    }

    pub fn has(&self, member: T) -> bool {
        let n = member.byte() as usize;
        self.words[n / 64] >> (n % 64) & 1 == 1
    }

    pub fn insert(&mut self, member: T) {
        let n = member.byte() as usize;
        self.words[n / 64] |= 1 << (n % 64);
    }

    pub fn with(mut self, member: T) -> Self {
        self.insert(member);
        self
    }

    pub fn union(mut self, other: &Self) -> Self {
        for (word, add) in self.words.iter_mut().zip(&other.words) {
            *word |= add;
        }
        self
    }

    pub fn minus(mut self, other: &Self) -> Self {
        for (word, drop) in self.words.iter_mut().zip(&other.words) {
            *word &= !drop;
        }
        self
    }

    pub fn meet(mut self, other: &Self) -> Self {
        for (word, keep) in self.words.iter_mut().zip(&other.words) {
            *word &= keep;
        }
        self
    }

    pub fn meets(&self, other: &Self) -> bool {
        self.words.iter().zip(&other.words).any(|(a, b)| a & b != 0)
    }

    pub fn within(&self, other: &Self) -> bool {
        self.words.iter().zip(&other.words).all(|(a, b)| a & !b == 0)
    }

    pub fn is_none(&self) -> bool {
        self.words == [0; 4]
    }

    pub fn count(&self) -> usize {
        self.words.iter().map(|word| word.count_ones() as usize).sum()
    }

    pub fn lowest(&self) -> Option<T> {
        self.members().next()
    }

    /// The members in ascending order.
    pub fn members(&self) -> Members<T> {
        Members { left: *self, word: 0 }
    }
}

pub struct Members<T> {
    left: SetOf<T>,
    word: usize,
}

impl<T: Numbered> Iterator for Members<T> {
    type Item = T;

    fn next(&mut self) -> Option<T> {
        while self.word < 4 {
            let bits = self.left.words[self.word];
            if bits != 0 {
                self.left.words[self.word] = bits & (bits - 1);
                let number = 64 * self.word + bits.trailing_zeros() as usize;
                return Some(T::from_byte(number as u8));
            }
            self.word += 1;
        }
        None
    }
}
