// `second selftest`: the plain engine against the definition of answer sets on random books, with
// the counts of what was met. One line for each check; the first failure ends it with a panic.

use crate::book::Book;
use crate::claim::{certain, clear};
use crate::clash::last_clash;
use crate::closing::{close, Colouring, Support};
use crate::meaning::{answer_sets, comes_before};
use crate::numbers::AtomSet;
use crate::random::Random;
use crate::selftest_aspif::round_trips;
use crate::selftest_closing::{closings, ClosingCounts};
use crate::selftest_contradicting::{contradiction, every_small_book, NoneCounts};
use crate::selftest_crews::crews;
use crate::selftest_levels::{levels, LevelCounts};
use crate::selftest_lparse::texts;
use crate::selftest_nomore::{nomore, NomoreCounts};
use crate::selftest_papers::{papers, PaperCounts};
use crate::selftest_shown::{shown, ShownCounts};
use crate::selftest_table::tables;
use crate::selftest_words::{steps_back, words_back};
use crate::shapes::{random_book, SHAPES};
use crate::walk::{all_readings, find, Finding};
use crate::worked::{assert_worked, worked_lines};
use crate::worked_contradicting::contradicting_lines;
use crate::worked_requests::{
    aspif_lines, choice_lines, clash_lines, clearing_lines, crew_lines, level_lines, lparse_lines,
    nomore_lines, shown_lines, table_lines,
};
use crate::worked_words::word_lines;
use std::cmp::Ordering;

const SEED: u64 = 3;
const BOOKS: usize = 20_000;
const AMPLE: u64 = 1_000_000;

#[derive(Default)]
struct BookCounts {
    books: usize,
    several: usize,
    none: usize,
    support: usize,
    readings: usize,
    finds: usize,
    clashes: usize,
}

pub fn run() -> Result<(), String> {
    println!("worked books: {} lines as document 01 prints them", assert_worked(&worked_lines()));
    println!("worked clearing: {} lines", assert_worked(&clearing_lines()));
    println!("worked clashes: {} lines", assert_worked(&clash_lines()));
    println!("worked levels: {} lines", assert_worked(&level_lines()));
    println!("worked shown atoms: {} lines", assert_worked(&shown_lines()));
    println!("worked noMoRe: {} lines", assert_worked(&nomore_lines()));
    println!("worked crews: {} lines", assert_worked(&crew_lines()));
    println!("worked tables: {} lines", assert_worked(&table_lines()));
    println!("worked texts: {} lines", assert_worked(&lparse_lines()));
    println!("worked choices: {} lines", assert_worked(&choice_lines()));
    println!("worked aspif: {} lines", assert_worked(&aspif_lines()));
    println!("worked contradicting: {} lines", assert_worked(&contradicting_lines()));
    println!("worked words: {} lines", assert_worked(&word_lines()));
    let mut random = Random::new(SEED);
    let mut counts = BookCounts::default();
    let mut closing_counts = ClosingCounts::default();
    let mut level_counts = LevelCounts::default();
    let mut shown_counts = ShownCounts::default();
    let mut nomore_counts = NomoreCounts::default();
    let mut paper_counts: [PaperCounts; 2] = Default::default();
    let mut none_counts = NoneCounts::default();
    for number in 0..BOOKS {
        let book = drawn_book(&mut random, number);
        let sets = compare(&book, &mut counts);
        closings(&book, &sets, &mut closing_counts);
        levels(&book, &sets, &mut level_counts);
        shown(&book, &sets, &mut Random::new(number as u64), &mut shown_counts);
        nomore(&book, &sets, &mut nomore_counts);
        papers(&book, &sets, &mut random, &mut paper_counts);
        contradiction(&book, &sets, &mut Random::new(number as u64), &mut none_counts);
    }
    every_small_book(&mut none_counts);
    report(&counts);
    closing_counts.report();
    level_counts.report();
    shown_counts.report();
    nomore_counts.report();
    paper_counts[0].report(certain);
    paper_counts[1].report(clear);
    none_counts.report();
    println!("two crews: {} pairs of books, joined and logged", crews(&mut random));
    println!("tables: {} of up to 6 books", tables(&mut random));
    println!("Lparse: {} texts, whose books have their answer sets", texts(&mut random));
    println!("aspif: {} books written and read back", round_trips(&mut random, drawn_book));
    println!("damaged bytes: {} books and papers read to an end", damaged(&mut random));
    println!("words: {} books to words and back", words_back(&mut random, drawn_book));
    println!("words: {} papers to words and back", steps_back(&mut random, drawn_book));
    println!("selftest ok");
    Ok(())
}

/// Books of up to 7 atoms and 10 rules, in turn of each shape.
fn drawn_book(random: &mut Random, number: usize) -> Book {
    let atoms = random.from_to(if number % 50 == 0 { 0 } else { 1 }, 7);
    let rules = random.from_to(if number % 50 == 1 { 0 } else { 1 }, 10);
    random_book(random, atoms, rules, SHAPES[number % SHAPES.len()])
}

/// Readings, their order, tries and finding. Gives the answer sets by the definition.
fn compare(book: &Book, counts: &mut BookCounts) -> Vec<AtomSet> {
    assert_eq!(Book::read(&book.write()).as_ref(), Ok(book), "a book read back");
    let mut sets = answer_sets(book);
    sets.sort_by(|x, y| {
        assert!(x == y || comes_before(book, x, y) != comes_before(book, y, x));
        if comes_before(book, x, y) {
            Ordering::Less
        } else {
            Ordering::Greater
        }
    });
    let (walked, tries) = all_readings(book, AMPLE, Support::Kept).expect("a small book");
    let listed: Vec<AtomSet> = walked.iter().map(|(set, _)| *set).collect();
    assert_eq!(listed, sets, "readings of {:?}", book);
    assert_bound(book, tries);
    compare_finding(book, &walked, tries, counts);
    let (loose, _) = all_readings(book, AMPLE, Support::LeftOut).expect("a small book");
    let loose: Vec<AtomSet> = loose.iter().map(|(set, _)| *set).collect();
    counts.books += 1;
    counts.readings += sets.len();
    counts.several += (sets.len() > 1) as usize;
    counts.none += sets.is_empty() as usize;
    counts.support += (loose != sets) as usize;
    sets
}

/// The whole walk has at most 2^(u+1) - 1 tries.
fn assert_bound(book: &Book, tries: u64) {
    let first = close(book, &Colouring::empty(), Support::Kept);
    if !first.contradicts() {
        let uncoloured = book.all_rules().minus(&first.on).minus(&first.off).count();
        assert!(tries < 1 << (uncoloured + 1), "tries of {:?}", book);
    }
}

/// Each k up to one too many, with the tries it needs and with one less.
fn compare_finding(book: &Book, walked: &[(AtomSet, u64)], tries: u64, counts: &mut BookCounts) {
    for (number, (set, at)) in walked.iter().enumerate() {
        let k = number as u64 + 1;
        match find(book, k, *at, book.atoms) {
            Ok(Finding::Set(found)) => assert_eq!((found.set, found.tries), (*set, *at)),
            other => panic!("{:?} for reading {} of {:?}", other, k, book),
        }
        assert_eq!(find(book, k, at - 1, book.atoms), Ok(Finding::Limit));
    }
    let sets = walked.len() as u64;
    let clash = last_clash(book, &Colouring::empty());
    assert!(clash.is_some() || sets > 0, "a book without readings clashes");
    assert_eq!(find(book, sets + 1, tries, book.atoms), Ok(Finding::Fewer { tries, sets, clash }));
    assert_eq!(find(book, sets + 1, tries - 1, book.atoms), Ok(Finding::Limit));
    counts.finds += 2 * walked.len() + 2;
    counts.clashes += clash.is_some() as usize;
}

fn report(counts: &BookCounts) {
    println!("books: {} random ones, {} readings in all", counts.books, counts.readings);
    println!("  with several readings: {}", counts.several);
    println!("  with none: {}", counts.none);
    println!("  where leaving support out changes the readings: {}", counts.support);
    println!("finding: {} calls, at the tries needed and one less", counts.finds);
    println!("  books with a contradictory try, whose last clash is told: {}", counts.clashes);
    assert!(counts.books >= 20_000);
    assert!(counts.several >= 2_000 && counts.none >= 2_000 && counts.support >= 2_000);
}

/// Books and papers of any bytes come to an end.
fn damaged(random: &mut Random) -> usize {
    let good = random_book(random, 7, 6, SHAPES[0]).write();
    let mut count = 0;
    for _ in 0..40_000 {
        let mut bytes = good.clone();
        for _ in 0..random.from_to(1, 4) {
            let place = random.below(bytes.len());
            bytes[place] = if random.once_in(2) { random.byte() } else { random.below(9) as u8 };
        }
        bytes.truncate(random.from_to(bytes.len() / 2, 2 * bytes.len()));
        let mut paper: Vec<u8> = (0..random.below(40)).map(|_| random.byte()).collect();
        let mark = *random.pick(&[0x46, 0x43, 0x4e]);
        paper.extend(&[random.below(7) as u8, 0, paper.len() as u8, 0, 0x50, mark]);
        let _ = crate::checker::check(&bytes, &paper);
        let _ = crate::checker::check(&good, &paper);
        count += 2;
    }
    count
}
