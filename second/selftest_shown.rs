// The part of `selftest` about shown atoms: the readings so counted against the list of all answer
// sets in the walk's order.

use crate::book::{Book, Refusal};
use crate::closing::Support;
use crate::numbers::{Atom, AtomSet};
use crate::random::Random;
use crate::shown::find_shown;
use crate::walk::{all_readings, find, Finding};

#[derive(Default)]
pub struct ShownCounts {
    lists: usize,
    fewer: usize,
    wrong: usize,
}

/// No atom, all atoms and some atoms shown; `sets` are all answer sets in the walk's order.
pub fn shown(book: &Book, sets: &[AtomSet], random: &mut Random, counts: &mut ShownCounts) {
    let (walked, tries) = all_readings(book, 1_000_000, Support::Kept).expect("a small book");
    let some: Vec<u8> = (0..book.atoms as u8).filter(|_| random.once_in(2)).collect();
    let all: Vec<u8> = (0..book.atoms as u8).collect();
    for list in [&[][..], &all, &some] {
        let alike = |x: &AtomSet, y: &AtomSet| {
            all.iter().filter(|a| list.contains(a)).all(|a| {
                let atom = Atom(*a);
                x.has(atom) == y.has(atom)
            })
        };
        let apart = (0..sets.len()).filter(|n| !sets[..*n].iter().any(|x| alike(x, &sets[*n])));
        let apart: Vec<usize> = apart.collect();
        for (number, place) in apart.iter().enumerate() {
            let (k, at) = (number as u64 + 1, walked[*place].1);
            match find_shown(book, k, at, list, book.atoms) {
                Ok(Finding::Set(found)) => assert_eq!((found.set, found.tries), (sets[*place], at)),
                other => panic!("{:?} with {:?} shown of {:?}", other, list, book),
            }
            assert_eq!(find_shown(book, k, at - 1, list, book.atoms), Ok(Finding::Limit));
        }
        let k = apart.len() as u64 + 1;
        let told = find_shown(book, k, tries, list, book.atoms);
        match told {
            Ok(Finding::Fewer { sets, .. }) => assert_eq!(sets, k - 1),
            other => panic!("{:?} with {:?} shown of {:?}", other, list, book),
        }
        assert_eq!(find_shown(book, k, tries - 1, list, book.atoms), Ok(Finding::Limit));
        counts.lists += 1;
        counts.fewer += (apart.len() < sets.len()) as usize;
        if list.len() == book.atoms {
            assert_eq!(told, find(book, k, tries, book.atoms));
        }
    }
    wrong_lists(book, &all, counts);
}

/// Each atom doubled, exchanged with the next, or followed by one that is none.
fn wrong_lists(book: &Book, all: &[u8], counts: &mut ShownCounts) {
    for place in 0..all.len() {
        let mut doubled = all.to_vec();
        doubled.insert(place, all[place]);
        let mut beyond = all[..place].to_vec();
        beyond.push(book.atoms as u8);
        let mut turned = all.to_vec();
        turned.rotate_left(place);
        for list in [doubled, beyond, turned] {
            if list != all {
                let answer = find_shown(book, 1, 1, &list, 0);
                assert_eq!(answer, Err(Refusal::placeless(16)));
                counts.wrong += 1;
            }
        }
    }
}

impl ShownCounts {
    pub fn report(&self) {
        println!("shown atoms: {} lists, {} make fewer readings", self.lists, self.fewer);
        println!("  wrong lists: {}, all refused with 16", self.wrong);
        assert!(self.lists >= 50_000 && self.fewer >= 2_000 && self.wrong >= 50_000);
    }
}
