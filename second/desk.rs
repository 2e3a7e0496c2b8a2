// The line protocol of `desk`: one command a line, one line of answer each.

use crate::aspif::{export, restore};
use crate::book::{Book, Refusal};
use crate::checker::check;
use crate::claim::{certain, clear, Claim};
use crate::crews::{join, log, Logged, NotJoined};
use crate::levels::{find_levels, settle};
use crate::listing::{write_readings, LISTING_LIMIT};
use crate::lparse::import;
use crate::nomore::find_nomore;
use crate::numbers::{AtomSet, RuleNo, RuleSet};
use crate::paper::{write_paper, Written};
use crate::shown::find_shown;
use crate::table::{table, File};
use crate::walk::{find, Finding, Found};
use crate::words::make;
use std::fmt::Write as _;
use std::io::{self, BufRead, Write};

pub const MOST_BOOK: usize = 16_384;
pub const MOST_PAPER: usize = 65_536;
pub const MOST_ROOM: u64 = 65_536;
pub const MOST_SHOWN: usize = 4_096;
pub const MOST_TEXT: usize = 65_536;
pub const MOST_NUMBER: u64 = 4_294_967_295;
/// The longest line: a `check` with the most of both.
pub const MOST_LINE: usize = 7 + 2 * MOST_BOOK + 2 * MOST_PAPER;
pub const BAD_LINE: &str = "bad line";

/// An answer, and the tries of all walks that were made for it.
pub struct Answer {
    pub text: String,
    pub tries: u64,
}

/// Answers each line before the next is read. A last line without a line end is a line too.
pub fn run(input: &mut dyn BufRead, out: &mut dyn Write) -> io::Result<()> {
    let mut line = Vec::new();
    loop {
        line.clear();
        if input.read_until(b'\n', &mut line)? == 0 {
            return Ok(());
        }
        if line.last() == Some(&b'\n') {
            line.pop();
        }
        writeln!(out, "{}", answer(&line).text)?;
        out.flush()?;
    }
}

pub fn answer(line: &[u8]) -> Answer {
    let bad = || Answer { text: BAD_LINE.to_string(), tries: 0 };
    if line.len() > MOST_LINE {
        return bad();
    }
    let words: Vec<&[u8]> = line.split(|byte| *byte == b' ').collect();
    let known = match (words[0], words.len()) {
        (b"table", _) => answer_table(&words[1..]),
        (b"find", 5) => answer_find(find, &words),
        (b"nomore", 5) => answer_find(find_nomore, &words),
        (b"name", 5) => answer_paper(certain, &words),
        (b"clear", 5) => answer_paper(clear, &words),
        (b"contradict", 4) => answer_claim(Claim::NoReading, &words[1..]),
        (b"check", 3) => answer_check(&words),
        (b"readings", 2) => answer_readings(&words),
        (b"shown", 6) => answer_shown(&words),
        (b"levels", 2) => answer_settled(&words),
        (b"join", 4) => answer_join(&words),
        (b"lparse", 3) => answer_made(import, &words),
        (b"aspif", 3) => answer_aspif(&words),
        (b"unaspif", 3) => answer_made(restore, &words),
        (b"words", 3) => answer_words(&words),
        (b"log", 6) => answer_log(&words),
        (b"levelsk", 5) => answer_levels(&words),
        _ => None,
    };
    known.unwrap_or_else(bad)
}

/// One of the two engines: the book, K, L and the room.
type Finder = fn(&Book, u64, u64, usize) -> Result<Finding, Refusal>;

fn answer_find(finder: Finder, words: &[&[u8]]) -> Option<Answer> {
    let k = decimal(words[1], MOST_NUMBER)?;
    let limit = decimal(words[2], MOST_NUMBER)?;
    let room = decimal(words[3], MOST_ROOM)? as usize;
    let bytes = hexadecimal(words[4], MOST_BOOK)?;
    Some(match Book::read(&bytes).and_then(|book| finder(&book, k, limit, room)) {
        Err(refusal) => refused(refusal, 0),
        Ok(finding) => found_answer(finding, limit, &set_text),
    })
}

fn answer_shown(words: &[&[u8]]) -> Option<Answer> {
    let k = decimal(words[1], MOST_NUMBER)?;
    let limit = decimal(words[2], MOST_NUMBER)?;
    let room = decimal(words[3], MOST_ROOM)? as usize;
    let shown = hexadecimal(words[4], MOST_SHOWN)?;
    let bytes = hexadecimal(words[5], MOST_BOOK)?;
    Some(match Book::read(&bytes).and_then(|book| find_shown(&book, k, limit, &shown, room)) {
        Err(refusal) => refused(refusal, 0),
        Ok(finding) => found_answer(finding, limit, &set_text),
    })
}

fn set_text(found: &Found) -> String {
    format!("set {}{}", found.tries, spaced(found.set.members().map(|atom| atom.0)))
}

/// The numbers, each after a space.
fn spaced(numbers: impl Iterator<Item = u8>) -> String {
    numbers.map(|number| format!(" {}", number)).collect()
}

/// What was found, told by `tell`, or why nothing was.
fn found_answer(finding: Finding, limit: u64, tell: &dyn Fn(&Found) -> String) -> Answer {
    match finding {
        Finding::Set(found) => Answer { text: tell(&found), tries: found.tries },
        Finding::Fewer { tries, sets, clash } => Answer { text: fewer(tries, sets, clash), tries },
        Finding::Limit => Answer { text: format!("limit {}", limit), tries: limit },
    }
}

fn answer_paper(kind: fn(u8) -> Claim, words: &[&[u8]]) -> Option<Answer> {
    let claim = kind(decimal(words[1], 255)? as u8);
    answer_claim(claim, &words[2..])
}

/// A paper for the claim; the words are L, the room and the book.
fn answer_claim(claim: Claim, words: &[&[u8]]) -> Option<Answer> {
    let limit = decimal(words[0], MOST_NUMBER)?;
    let room = decimal(words[1], MOST_ROOM)? as usize;
    let bytes = hexadecimal(words[2], MOST_BOOK)?;
    let (written, spent) = match Book::read(&bytes) {
        Ok(book) => write_paper(&book, claim, limit, room),
        Err(refusal) => (Written::Refused(refusal), 0),
    };
    let text = match written {
        Written::Paper { tries, bytes } => {
            format!("paper {} {} {}", tries, bytes.len(), hex(&bytes))
        }
        Written::NoReading { tries, clash } => fewer(tries, 0, clash),
        Written::Limit => format!("limit {}", limit),
        Written::Refused(refusal) => return Some(refused(refusal, spent)),
    };
    Some(Answer { text, tries: spent })
}

fn answer_check(words: &[&[u8]]) -> Option<Answer> {
    let book = hexadecimal(words[1], MOST_BOOK)?;
    let paper = hexadecimal(words[2], MOST_PAPER)?;
    Some(match check(&book, &paper) {
        Ok(claim) => Answer { text: claim.told(), tries: 0 },
        Err(refusal) => refused(refusal, 0),
    })
}

fn answer_settled(words: &[&[u8]]) -> Option<Answer> {
    let bytes = hexadecimal(words[1], MOST_BOOK)?;
    let settled = match Book::read(&bytes) {
        Ok(book) => settle(&book),
        Err(refusal) => return Some(refused(refusal, 0)),
    };
    let rules = |set: &RuleSet| spaced(set.members().map(|rule| rule.0));
    let atoms = |set: &AtomSet| spaced(set.members().map(|atom| atom.0));
    let (on, off) = (rules(&settled.on), rules(&settled.off));
    let (true_atoms, false_atoms) = (atoms(&settled.true_atoms), atoms(&settled.false_atoms));
    let text = format!("levels on{} off{} true{} false{}", on, off, true_atoms, false_atoms);
    Some(Answer { text, tries: 1 })
}

fn answer_levels(words: &[&[u8]]) -> Option<Answer> {
    let k = decimal(words[1], MOST_NUMBER)?;
    let limit = decimal(words[2], MOST_NUMBER)?;
    let room = decimal(words[3], MOST_ROOM)? as usize;
    let bytes = hexadecimal(words[4], MOST_BOOK)?;
    let book = match Book::read(&bytes) {
        Ok(book) => book,
        Err(refusal) => return Some(refused(refusal, 0)),
    };
    let levels_text = |found: &Found| {
        let levels = book.all_rules().members().map(|r| found.colouring.level_of(r));
        format!("levels {}{}", found.tries, spaced(levels))
    };
    Some(match find_levels(&book, k, limit, room) {
        Err(refusal) => refused(refusal, 0),
        Ok(finding) => found_answer(finding, limit, &levels_text),
    })
}

fn answer_join(words: &[&[u8]]) -> Option<Answer> {
    let room = decimal(words[1], MOST_ROOM)? as usize;
    let first = hexadecimal(words[2], MOST_BOOK)?;
    let second = hexadecimal(words[3], MOST_BOOK)?;
    Some(match join(&first, &second, room) {
        Ok(joined) => Answer { text: format!("book {}", hex(&joined)), tries: 0 },
        Err(trouble) => not_joined(trouble),
    })
}

fn answer_log(words: &[&[u8]]) -> Option<Answer> {
    let limits = [decimal(words[1], MOST_NUMBER)?, decimal(words[2], MOST_NUMBER)?];
    let room = decimal(words[3], MOST_ROOM)? as usize;
    let first = hexadecimal(words[4], MOST_BOOK)?;
    let second = hexadecimal(words[5], MOST_BOOK)?;
    let (logged, tries) = match log(&first, &second, limits, room) {
        Ok(answer) => answer,
        Err(trouble) => return Some(not_joined(trouble)),
    };
    let text = match logged {
        Logged::Limit(limit) => format!("limit {}", limit),
        Logged::Book { readings, joined } => {
            let word = match readings {
                [true, true] => "both",
                [false, true] => "none-in-first",
                [true, false] => "none-in-second",
                [false, false] => "none-in-either",
            };
            format!("{} {}", word, hex(&joined))
        }
    };
    Some(Answer { text, tries })
}

fn not_joined(trouble: NotJoined) -> Answer {
    let (word, refusal) = match trouble {
        NotJoined::First(refusal) => ("book1 ", refusal),
        NotJoined::Second(refusal) => ("book2 ", refusal),
        NotJoined::Together(number) => ("", Refusal::placeless(number)),
    };
    Answer { text: format!("{}{}", word, refused(refusal, 0).text), tries: 0 }
}

/// A reader of texts: the text and the room to a book.
type Reader = fn(&[u8], usize) -> Result<Vec<u8>, Refusal>;

fn answer_made(reader: Reader, words: &[&[u8]]) -> Option<Answer> {
    let room = decimal(words[1], MOST_ROOM)? as usize;
    let text = hexadecimal(words[2], MOST_TEXT)?;
    Some(match reader(&text, room) {
        Ok(book) => Answer { text: format!("book {}", hex(&book)), tries: 0 },
        Err(refusal) => refused(refusal, 0),
    })
}

/// The book and the names of its atoms.
fn answer_words(words: &[&[u8]]) -> Option<Answer> {
    let room = decimal(words[1], MOST_ROOM)? as usize;
    let text = hexadecimal(words[2], MOST_TEXT)?;
    let (book, names) = match make(&text, room) {
        Ok(made) => made,
        Err(refusal) => return Some(refused(refusal, 0)),
    };
    let list: String = names.iter().map(|name| format!(" {}", name)).collect();
    Some(Answer { text: format!("book {}{}", hex(&book), list), tries: 0 })
}

fn answer_aspif(words: &[&[u8]]) -> Option<Answer> {
    let room = decimal(words[1], MOST_ROOM)? as usize;
    let book = hexadecimal(words[2], MOST_BOOK)?;
    Some(match export(&book, room) {
        Ok(text) => Answer { text: format!("text {}", hex(&text)), tries: 0 },
        Err(refusal) => refused(refusal, 0),
    })
}

/// Books, or `?` for a name that can't be opened.
fn answer_table(words: &[&[u8]]) -> Option<Answer> {
    let mut files = Vec::new();
    for word in words {
        files.push(match *word {
            b"?" => File::Closed,
            word => File::Bytes(hexadecimal(word, MOST_BOOK)?),
        });
    }
    let (lines, tries) = table(&files, LISTING_LIMIT);
    let text = lines.iter().map(|line| format!("{}|", line.join(" "))).collect();
    Some(Answer { text, tries })
}

fn answer_readings(words: &[&[u8]]) -> Option<Answer> {
    let book = hexadecimal(words[1], MOST_BOOK)?;
    let mut listing = Vec::new();
    let tries = write_readings(&book, LISTING_LIMIT, &mut listing).expect("a vector takes all");
    let text = String::from_utf8(listing).expect("a listing is plain").replace('\n', "|");
    Some(Answer { text, tries })
}

/// 11: the tries, the sets and the rule that clashed last, 255 where none did.
pub fn fewer(tries: u64, sets: u64, clash: Option<RuleNo>) -> String {
    format!("fewer {} {} {}", tries, sets, clash.map_or(255, |rule| rule.0))
}

fn refused(refusal: Refusal, tries: u64) -> Answer {
    let text = match refusal.place {
        Some(place) => format!("refused {} {}", refusal.number, place),
        None => format!("refused {}", refusal.number),
    };
    Answer { text, tries }
}

/// A decimal number without leading zeros, at most `most`.
pub fn decimal(word: &[u8], most: u64) -> Option<u64> {
    if word.is_empty() || word.len() > 10 || !word.iter().all(|b| b.is_ascii_digit()) {
        return None;
    }
    if word[0] == b'0' && word.len() > 1 {
        return None;
    }
    let value = word.iter().fold(0, |sum, digit| 10 * sum + (digit - b'0') as u64);
    if value <= most {
        Some(value)
    } else {
        None
    }
}

/// Bytes in hexadecimal, `-` for none, at most `most` of them.
fn hexadecimal(word: &[u8], most: usize) -> Option<Vec<u8>> {
    if word == b"-" {
        return Some(Vec::new());
    }
    if word.is_empty() || word.len() % 2 == 1 || word.len() / 2 > most {
        return None;
    }
    let digit = |byte: u8| (byte as char).to_digit(16).map(|value| value as u8);
    word.chunks(2).map(|pair| Some(16 * digit(pair[0])? + digit(pair[1])?)).collect()
}

/// The way back, in lower case; `-` for no bytes.
pub fn hex(bytes: &[u8]) -> String {
    if bytes.is_empty() {
        return "-".to_string();
    }
    let mut text = String::new();
    for byte in bytes {
        write!(text, "{:02x}", byte).expect("a string takes all");
    }
    text
}
