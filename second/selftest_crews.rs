// The part of `selftest` about two crews: the joined book's answer sets, and what is certain or
// clear in it, against the two books by the definition.

use crate::book::Book;
use crate::claim::{certain, clear, Claim};
use crate::crews::{join, joined, log, Logged, NotJoined};
use crate::meaning::{answer_sets, holds};
use crate::numbers::{Atom, AtomSet};
use crate::random::Random;
use crate::shapes::{random_book, SHAPES};
use crate::walk::{find_set, Finding};

const PAIRS: usize = 3_000;

/// Gives the number of pairs that were joined.
pub fn crews(random: &mut Random) -> usize {
    let mut without = 0;
    for number in 0..PAIRS {
        let books = [drawn(random, number), drawn(random, number + 1)];
        let whole = joined(&books[0], &books[1]);
        let sets = [answer_sets(&books[0]), answer_sets(&books[1])];
        compare(&books, &sets, &whole);
        compare_log(&books, &sets, &whole);
        without += (sets[0].is_empty() != sets[1].is_empty()) as usize;
    }
    assert!(without >= 300, "pairs with one book without a reading: {}", without);
    PAIRS
}

fn drawn(random: &mut Random, number: usize) -> Book {
    let atoms = random.from_to(1, 4);
    let rules = random.from_to(0, 6);
    random_book(random, atoms, rules, SHAPES[number % SHAPES.len()])
}

/// The union of a set of the first book and one of the second, moved up.
fn united(up: usize, x: &AtomSet, y: &AtomSet) -> AtomSet {
    y.members().fold(*x, |all, atom| all.with(Atom(atom.0 + up as u8)))
}

fn compare(books: &[Book; 2], sets: &[Vec<AtomSet>; 2], whole: &Book) {
    let up = books[0].atoms;
    let of_whole = answer_sets(whole);
    let mut unions = 0;
    for x in &sets[0] {
        for y in &sets[1] {
            assert!(of_whole.contains(&united(up, x, y)), "joined: {:?}", books);
            unions += 1;
        }
    }
    assert_eq!(of_whole.len(), unions, "joined: {:?}", books);
    for kind in [certain, clear] {
        for atom in 0..whole.atoms {
            let own = (atom >= up) as usize;
            let claim: Claim = kind((atom - own * up) as u8);
            let expected = holds(&sets[own], claim) && !sets[1 - own].is_empty();
            assert_eq!(holds(&of_whole, kind(atom as u8)), expected, "joined: {:?}", books);
        }
    }
}

/// Both searches with just the tries they need, and each with one less.
fn compare_log(books: &[Book; 2], sets: &[Vec<AtomSet>; 2], whole: &Book) {
    let bytes = [books[0].write(), books[1].write()];
    let room = whole.write().len();
    assert_eq!(join(&bytes[0], &bytes[1], room), Ok(whole.write()));
    assert_eq!(join(&bytes[0], &bytes[1], room - 1), Err(NotJoined::Together(19)));
    let need = |book: &Book| match find_set(book, 1, 1_000_000) {
        Finding::Set(found) => found.tries,
        Finding::Fewer { tries, .. } => tries,
        Finding::Limit => panic!("a small book needs few tries"),
    };
    let needs = [need(&books[0]), need(&books[1])];
    for (limits, passed) in [
        (needs, None),
        ([needs[0] - 1, needs[1]], Some(needs[0] - 1)),
        ([needs[0], needs[1] - 1], Some(needs[1] - 1)),
        ([needs[0] - 1, 0], Some(needs[0] - 1)),
    ] {
        match (log(&bytes[0], &bytes[1], limits, room), passed) {
            (Ok((Logged::Limit(told), _)), Some(limit)) => assert_eq!(told, limit),
            (Ok((Logged::Book { readings, joined }, _)), None) => {
                assert_eq!(readings, [!sets[0].is_empty(), !sets[1].is_empty()]);
                assert_eq!(joined, whole.write());
            }
            _ => panic!("log of {:?} with {:?}", books, limits),
        }
    }
}
