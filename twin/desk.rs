// The lines of `desk`, of its commands `find K L ROOM BOOK` alone: one line of answer each.

use crate::walk::{find, Found};
use std::io::{self, BufRead, Write};

const MOST_NUMBER: u64 = 4_294_967_295;
const MOST_ROOM: u64 = 65_536;
const MOST_BOOK: usize = 16_384;
const MOST_LINE: usize = 163_847;

/// Answers each line before the next is read. A last line without a line end is a line too.
pub fn run(input: &mut dyn BufRead, out: &mut dyn Write) -> io::Result<()> {
    let mut line = Vec::new();
    while input.read_until(b'\n', &mut line)? != 0 {
        if line.last() == Some(&b'\n') {
            line.pop();
        }
        writeln!(out, "{}", answer(&line))?;
        line.clear();
    }
    out.flush()
}

pub fn answer(line: &[u8]) -> String {
    answer_find(line).unwrap_or_else(|| "bad line".to_string())
}

/// The answer, where the line is such a command and its words are right.
fn answer_find(line: &[u8]) -> Option<String> {
    if line.len() > MOST_LINE {
        return None;
    }
    let words: Vec<&[u8]> = line.split(|byte| *byte == b' ').collect();
    if words.len() != 5 || words[0] != b"find" {
        return None;
    }
    let k = decimal(words[1], MOST_NUMBER)? as u32;
    let limit = decimal(words[2], MOST_NUMBER)? as u32;
    let mut room = vec![0; decimal(words[3], MOST_ROOM)? as usize];
    let book = hexadecimal(words[4])?;
    Some(match find(&book, k, limit, &mut room) {
        Found::Set(tries) => format!("set {}{}", tries, members(&room)),
        Found::Fewer { tries, sets, clash } => {
            format!("fewer {} {} {}", tries, sets, clash.map_or(255, |rule| rule.0))
        }
        Found::Stopped => format!("limit {}", limit),
        Found::Book(refusal) => format!("refused {} {}", refusal.number, refusal.place),
        Found::NoRoom => "refused 8".to_string(),
        Found::NoNumber => "refused 15".to_string(),
    })
}

/// The atoms whose byte is 1, each after a space. The bytes behind the reading are 0, as they were
/// made.
fn members(row: &[u8]) -> String {
    row.iter()
        .enumerate()
        .filter(|(_, byte)| **byte == 1)
        .map(|(atom, _)| format!(" {}", atom))
        .collect()
}

/// A decimal number without leading zeros, at most `most`.
fn decimal(word: &[u8], most: u64) -> Option<u64> {
    let plain = !word.is_empty() && word.len() <= 10 && word.iter().all(u8::is_ascii_digit);
    if !plain || (word[0] == b'0' && word.len() > 1) {
        return None;
    }
    let value = word.iter().fold(0, |sum, digit| 10 * sum + u64::from(digit - b'0'));
    Some(value).filter(|value| *value <= most)
}

/// Bytes in hexadecimal, `-` for none.
fn hexadecimal(word: &[u8]) -> Option<Vec<u8>> {
    if word == b"-" {
        return Some(Vec::new());
    }
    if word.is_empty() || word.len() % 2 == 1 || word.len() / 2 > MOST_BOOK {
        return None;
    }
    let digit = |byte: u8| (byte as char).to_digit(16).map(|value| value as u8);
    word.chunks(2).map(|pair| Some(16 * digit(pair[0])? + digit(pair[1])?)).collect()
}
