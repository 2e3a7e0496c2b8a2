// The collection of cases for `desk`: lines with their answers from the plain engine, what they
// cover, and the two files they are written to.

use crate::claim::{certain, Claim};
use crate::desk::{answer, hex, BAD_LINE};
use crate::random::Random;
use crate::worked::{worked_lines, Worked};
use crate::{
    cases_aspif, cases_books, cases_choices, cases_clash, cases_clearing, cases_contradicting,
    cases_crews, cases_damage, cases_levels, cases_lines, cases_lparse, cases_naming, cases_nomore,
    cases_papers, cases_shown, cases_table, cases_words,
};
use std::collections::{BTreeMap, BTreeSet};

const SEED: u64 = 20_240_607;
const FEWEST_CASES: usize = 4_000;
const MOST_TRIES: u64 = 300_000;

const COMMANDS: &[&str] = &[
    "find", "readings", "check", "name", "clear", "levels", "levelsk", "shown", "nomore", "join",
    "log", "table", "lparse", "aspif", "unaspif", "contradict", "words",
];

/// What a request adds, written here before the proved engine has it.
struct Later {
    /// Any of them brings its cases.
    commands: &'static [&'static str],
    /// The numbers of the table that it brings.
    numbers: &'static [u8],
    add: fn(&mut Cases),
}

const LATER: [Later; 9] = [
    Later { commands: &["levels", "levelsk"], numbers: &[], add: cases_levels::add },
    Later { commands: &["shown"], numbers: &[16], add: cases_shown::add },
    Later { commands: &["nomore"], numbers: &[], add: cases_nomore::add },
    Later { commands: &["join", "log"], numbers: &[17, 19], add: cases_crews::add },
    Later { commands: &["table"], numbers: &[36], add: cases_table::add },
    Later { commands: &["lparse"], numbers: &[30, 31, 32], add: cases_lparse::add },
    Later { commands: &["aspif", "unaspif"], numbers: &[33, 34, 35], add: cases_aspif::add },
    Later { commands: &["contradict"], numbers: &[38], add: cases_contradicting::add },
    Later { commands: &["words"], numbers: &[40, 41, 42, 43], add: cases_words::add },
];

/// What these commands bring, in the order in which they are named, so that a later one's cases
/// stand behind those of before.
fn brought(commands: &[&str]) -> Vec<&'static Later> {
    let first = |later: &Later| commands.iter().position(|c| later.commands.contains(c));
    let mut list: Vec<_> = LATER.iter().filter(|later| first(later).is_some()).collect();
    list.sort_by_key(|later| first(later));
    list
}

struct Case {
    line: Vec<u8>,
    answer: String,
}

pub struct Cases {
    list: Vec<Case>,
    known: BTreeSet<Vec<u8>>,
    tries: u64,
    /// How often each number of document 01's table was given, 9 and 11 by their words.
    numbers: BTreeMap<u8, usize>,
    bad_kinds: BTreeMap<&'static str, usize>,
}

impl Cases {
    fn add(&mut self, line: &[u8]) -> String {
        let answer = answer(line);
        if self.known.insert(line.to_vec()) {
            self.tries += answer.tries;
            if let Some(number) = number_of(&answer.text) {
                *self.numbers.entry(number).or_insert(0) += 1;
            }
            self.list.push(Case { line: line.to_vec(), answer: answer.text.clone() });
        }
        answer.text
    }

    /// A line that `desk` takes. Gives its answer.
    pub fn ask(&mut self, line: &str) -> String {
        let text = self.add(line.as_bytes());
        assert_ne!(text, BAD_LINE, "meant to be taken: {:.200}", line);
        text
    }

    /// Lines whose answers were worked out by hand.
    pub fn worked(&mut self, lines: &[Worked]) {
        for (line, expected) in lines {
            assert_eq!(&self.ask(line), expected, "worked: {:.200}", line);
        }
    }

    /// A line that `desk` does not take, and why.
    pub fn bad(&mut self, kind: &'static str, line: &[u8]) {
        let text = self.add(line);
        let shown = String::from_utf8_lossy(line);
        assert_eq!(text, BAD_LINE, "{}: {:.200}", kind, shown);
        *self.bad_kinds.entry(kind).or_insert(0) += 1;
    }

    pub fn find(&mut self, k: u64, limit: u64, room: usize, book: &[u8]) -> String {
        self.ask(&format!("find {} {} {} {}", k, limit, room, hex(book)))
    }

    pub fn name(&mut self, atom: u8, limit: u64, room: usize, book: &[u8]) -> String {
        self.paper(certain(atom), limit, room, book)
    }

    pub fn paper(&mut self, claim: Claim, limit: u64, room: usize, book: &[u8]) -> String {
        let about = match claim {
            Claim::NoReading => String::new(),
            _ => format!(" {}", claim.byte()),
        };
        self.ask(&format!("{}{} {} {} {}", claim.command(), about, limit, room, hex(book)))
    }

    pub fn check(&mut self, book: &[u8], paper: &[u8]) -> String {
        self.ask(&format!("check {} {}", hex(book), hex(paper)))
    }

    pub fn shown(&mut self, k: u64, limit: u64, room: usize, list: &[u8], book: &[u8]) -> String {
        self.ask(&format!("shown {} {} {} {} {}", k, limit, room, hex(list), hex(book)))
    }

    pub fn nomore(&mut self, k: u64, limit: u64, room: usize, book: &[u8]) -> String {
        self.ask(&format!("nomore {} {} {} {}", k, limit, room, hex(book)))
    }

    pub fn join(&mut self, room: usize, first: &[u8], second: &[u8]) -> String {
        self.ask(&format!("join {} {} {}", room, hex(first), hex(second)))
    }

    pub fn log(&mut self, limits: [u64; 2], room: usize, first: &[u8], second: &[u8]) -> String {
        let [one, two] = limits;
        self.ask(&format!("log {} {} {} {} {}", one, two, room, hex(first), hex(second)))
    }

    pub fn table(&mut self, books: &[&[u8]]) -> String {
        let words: String = books.iter().map(|book| format!(" {}", hex(book))).collect();
        self.ask(&format!("table{}", words))
    }

    pub fn lparse(&mut self, room: usize, text: &[u8]) -> String {
        self.ask(&format!("lparse {} {}", room, hex(text)))
    }

    pub fn aspif(&mut self, room: usize, book: &[u8]) -> String {
        self.ask(&format!("aspif {} {}", room, hex(book)))
    }

    pub fn unaspif(&mut self, room: usize, text: &[u8]) -> String {
        self.ask(&format!("unaspif {} {}", room, hex(text)))
    }

    pub fn words(&mut self, room: usize, text: &[u8]) -> String {
        self.ask(&format!("words {} {}", room, hex(text)))
    }

    pub fn levels(&mut self, book: &[u8]) -> String {
        self.ask(&format!("levels {}", hex(book)))
    }

    pub fn levelsk(&mut self, k: u64, limit: u64, room: usize, book: &[u8]) -> String {
        self.ask(&format!("levelsk {} {} {} {}", k, limit, room, hex(book)))
    }

    pub fn readings(&mut self, book: &[u8]) -> String {
        self.ask(&format!("readings {}", hex(book)))
    }
}

/// The number of the table that an answer gives.
fn number_of(text: &str) -> Option<u8> {
    let text = text.trim_start_matches("book1 ").trim_start_matches("book2 ");
    let mut words = text.trim_end_matches('|').split(' ');
    match words.next() {
        Some("limit") => Some(9),
        Some("fewer") => Some(11),
        Some("refused") => words.next().and_then(|number| number.parse().ok()),
        _ => None,
    }
}

/// All cases of these commands and their requests, always the same. What a request adds comes behind
/// what was there and draws from a seed of its own, so that the lines before it stay.
fn all_cases(commands: &[&str]) -> Cases {
    let mut cases = Cases {
        list: Vec::new(),
        known: BTreeSet::new(),
        tries: 0,
        numbers: BTreeMap::new(),
        bad_kinds: BTreeMap::new(),
    };
    cases.worked(&worked_lines());
    let mut random = Random::new(SEED);
    cases_books::add(&mut cases, &mut random);
    cases_damage::add(&mut cases);
    cases_naming::add(&mut cases, &mut random);
    cases_papers::add(&mut cases, &mut random);
    cases_lines::add(&mut cases);
    cases_clearing::add(&mut cases);
    cases_clash::add(&mut cases);
    cases_books::add_two_pages(&mut cases);
    for later in brought(commands) {
        (later.add)(&mut cases);
    }
    // Choices have no command of their own, and came after the requests that have one.
    if commands.contains(&"lparse") {
        cases_choices::add(&mut cases);
    }
    cases_lines::add_last(&mut cases);
    cases
}

fn assert_covered(cases: &Cases, commands: &[&str]) {
    assert!(cases.list.len() >= FEWEST_CASES, "{} cases", cases.list.len());
    assert!(cases.tries < MOST_TRIES, "{} tries", cases.tries);
    let later = brought(commands).into_iter().flat_map(|later| later.numbers.iter().copied());
    for number in (1..=9).chain(11..=15).chain([18]).chain(20..=27).chain(later) {
        assert!(cases.numbers.contains_key(&number), "number {} does not occur", number);
    }
    for kind in cases_lines::KINDS {
        assert!(cases.bad_kinds.contains_key(kind), "no bad line: {}", kind);
    }
}

fn command_of(case: &Case) -> &[u8] {
    case.line.split(|byte| *byte == b' ').next().unwrap_or(b"")
}

/// Writes `stdin` and `stdout` to the folder, with the cases of these commands and all bad lines.
/// The last line of `stdin` has no line end, which is a case too.
pub fn write(folder: &str, commands: &[&str]) -> Result<(), String> {
    for command in commands {
        if !COMMANDS.contains(command) {
            return Err(format!("no command {} in desk", command));
        }
    }
    let cases = all_cases(commands);
    assert_covered(&cases, commands);
    let wanted = |case: &&Case| {
        case.answer == BAD_LINE || commands.iter().any(|c| c.as_bytes() == command_of(case))
    };
    let chosen: Vec<&Case> = cases.list.iter().filter(wanted).collect();
    let lines: Vec<&[u8]> = chosen.iter().map(|case| case.line.as_slice()).collect();
    let answers: String = chosen.iter().map(|case| format!("{}\n", case.answer)).collect();
    let put = |name: &str, bytes: &[u8]| {
        let path = format!("{}/{}", folder, name);
        std::fs::write(&path, bytes).map_err(|trouble| format!("{}: {}", path, trouble))
    };
    put("stdin", &lines.join(&b'\n'))?;
    put("stdout", answers.as_bytes())?;
    report(&cases, chosen.len());
    Ok(())
}

fn report(cases: &Cases, chosen: usize) {
    println!("{} cases in all, {} written, {} tries in all", cases.list.len(), chosen, cases.tries);
    for command in COMMANDS {
        let of = |case: &&Case| command_of(case) == command.as_bytes() && case.answer != BAD_LINE;
        println!("{}: {} cases", command, cases.list.iter().filter(of).count());
    }
    let bad: usize = cases.bad_kinds.values().sum();
    println!("bad line: {} cases of {} kinds", bad, cases.bad_kinds.len());
    let numbers: Vec<String> =
        cases.numbers.iter().map(|(number, count)| format!("{} ({})", number, count)).collect();
    println!("numbers, with how often: {}", numbers.join(", "));
}
