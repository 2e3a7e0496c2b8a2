// Cases of request 5: the rule that 11 tells, where another try or another closing would tell
// another rule.

use crate::book::Book;
use crate::cases::Cases;
use crate::clash::last_clash;
use crate::closing::{atoms_said, close, goes_on, is_blocked, Colouring, Support};
use crate::desk::fewer;
use crate::numbers::RuleNo;
use crate::random::Random;
use crate::shapes::{random_book, SHAPES};
use crate::walk::all_readings;
use crate::worked_requests::clash_lines;

const SEED: u64 = 5;

pub fn add(cases: &mut Cases) {
    cases.worked(&clash_lines());
    let mut random = Random::new(SEED);
    let kinds: [(fn(&Clashes) -> bool, usize); 4] = [
        (|clashes| clashes.last() != clashes.first(), 30),
        (|clashes| clashes.lowest.last() != clashes.highest.last(), 30),
        (|clashes| clashes.lowest.last() != clashes.seen_first.last(), 30),
        (|clashes| clashes.readings_after && clashes.last() != Some(RuleNo(0)), 30),
    ];
    for (wanted, count) in kinds {
        for number in 0..count {
            let book = loop {
                let atoms = random.from_to(2, 6);
                let rules = random.from_to(3, 10);
                let book = random_book(&mut random, atoms, rules, SHAPES[number % SHAPES.len()]);
                if Clashes::of(&book).map_or(false, |clashes| wanted(&clashes)) {
                    break book;
                }
            };
            ask(cases, &book, number);
        }
    }
}

fn ask(cases: &mut Cases, book: &Book, number: usize) {
    let bytes = book.write();
    let (sets, tries) = all_readings(book, 60, Support::Kept).expect("a short walk");
    let sets = sets.len() as u64;
    let expected = fewer(tries, sets, last_clash(book, &Colouring::empty()));
    assert_eq!(cases.find(sets + 1, tries, book.atoms, &bytes), expected);
    if sets == 0 {
        let atom = (number % book.atoms) as u8;
        assert_eq!(cases.name(atom, tries, 0, &bytes), expected);
    }
}

/// The contradictory tries of a short walk, and what could be told of each.
#[derive(Default)]
struct Clashes {
    lowest: Vec<RuleNo>,
    highest: Vec<RuleNo>,
    /// The lowest rule in both sets where a closing, rule by rule, first has one.
    seen_first: Vec<RuleNo>,
    readings_after: bool,
}

impl Clashes {
    fn of(book: &Book) -> Option<Clashes> {
        all_readings(book, 60, Support::Kept)?;
        let mut clashes = Clashes::default();
        clashes.branch(book, &Colouring::empty());
        Some(clashes)
    }

    fn first(&self) -> Option<RuleNo> {
        self.lowest.first().copied()
    }

    fn last(&self) -> Option<RuleNo> {
        self.lowest.last().copied()
    }

    fn branch(&mut self, book: &Book, start: &Colouring) {
        let closed = close(book, start, Support::Kept);
        let both = book.all_rules().members().filter(|r| closed.on.has(*r) && closed.off.has(*r));
        let both: Vec<RuleNo> = both.collect();
        if let (Some(low), Some(high)) = (both.first(), both.last()) {
            self.lowest.push(*low);
            self.highest.push(*high);
            self.seen_first.push(first_seen(book, start).unwrap_or(*low));
            self.readings_after = false;
        } else if let Some(r) = closed.lowest_uncoloured(book) {
            self.branch(book, &closed.with_on(r));
            self.branch(book, &closed.with_off(r));
        } else {
            self.readings_after = !self.lowest.is_empty();
        }
    }
}

/// Closing without support, one rule at a time, up to the first rule in both sets.
fn first_seen(book: &Book, start: &Colouring) -> Option<RuleNo> {
    let mut now = *start;
    loop {
        let before = now;
        for (r, rule) in book.numbered() {
            let said = atoms_said(book, &now);
            if goes_on(rule, &said) {
                now.on.insert(r);
            }
            if is_blocked(rule, &said) || rule.positive.meets(&said.given_up) {
                now.off.insert(r);
            }
            if now.on.has(r) && now.off.has(r) {
                return Some(r);
            }
        }
        if now == before {
            return None;
        }
    }
}
