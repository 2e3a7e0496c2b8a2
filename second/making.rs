// What the program `making` prints of rules in words: the size, a line for each atom and, where no
// `atoms:` line says that the names are meant as they stand, remarks on what may be a slip of the pen.

use crate::book::Refusal;
use crate::numbers::Atom;
use crate::words::{read_words, NamedBook};
use std::fmt::Write as _;

pub fn made(text: &[u8]) -> String {
    match read_words(text) {
        Ok(named) => told(&named, is_listed(text)),
        Err(refusal) => format!("{}\n", refused(text, refusal)),
    }
}

/// Some line starts with `atoms:`. In a text that is read it stands before all rules.
fn is_listed(text: &[u8]) -> bool {
    let blank = |byte: &u8| b" \t\r".contains(byte);
    let first = |line: &[u8]| line.split(blank).find(|word| !word.is_empty()) == Some(b"atoms:");
    text.split(|byte| *byte == b'\n').any(first)
}

/// Number, place, line and column, both from 1, and the word that stands there.
pub fn refused(text: &[u8], refusal: Refusal) -> String {
    let place = refusal.place.unwrap_or(0);
    let line = text[..place].iter().filter(|byte| **byte == b'\n').count() + 1;
    let start = text[..place].iter().rposition(|byte| *byte == b'\n').map_or(0, |end| end + 1);
    format!("refused {} at {}: line {}, column {}", refusal.number, place, line, place - start + 1)
}

fn told(named: &NamedBook, listed: bool) -> String {
    let (book, names) = (&named.book, &named.names);
    let mut out = format!("made: rules {} atoms {}\n", book.rules.len(), book.atoms);
    let has = |n: usize| book.rules.iter().filter(|rule| rule.head == Atom(n as u8)).count();
    for (n, name) in names.iter().enumerate() {
        let atom = Atom(n as u8);
        let uses = |rule: &&crate::book::Rule| rule.positive.has(atom) || rule.negative.has(atom);
        let used = book.rules.iter().filter(uses).count();
        writeln!(out, "atom {}: {}; rules {}; used {}", n, name, has(n), used).expect("a string");
    }
    if listed {
        return out;
    }
    for (n, name) in names.iter().enumerate() {
        if has(n) == 0 {
            writeln!(out, "remark: {} (atom {}) has no rule: it is in no reading", name, n)
                .expect("a string");
        }
    }
    for (n, name) in names.iter().enumerate() {
        for (m, other) in names.iter().enumerate().skip(n + 1) {
            if let Some(by) = alike(name, other) {
                let both = format!("atoms {} {} and {} {}", n, name, m, other);
                writeln!(out, "remark: {} differ only in {}", both, by).expect("a string");
            }
        }
    }
    out
}

/// In what two names differ, where that is little.
fn alike(one: &str, other: &str) -> Option<&'static str> {
    let plain = |name: &str| -> Vec<u8> {
        name.bytes().filter(u8::is_ascii_alphanumeric).map(|b| b.to_ascii_lowercase()).collect()
    };
    let (one, other) = (plain(one), plain(other));
    if one == other {
        return Some("case or signs");
    }
    let (short, long) = if one.len() <= other.len() { (one, other) } else { (other, one) };
    let same = short.iter().zip(&long).take_while(|(a, b)| a == b).count();
    let more = long.len() - short.len();
    if more > 1 || !long[same].is_ascii_alphabetic() {
        return None;
    }
    let met = more == 1 || short[same].is_ascii_alphabetic();
    let rest = &short[same + 1 - more..];
    (met && *rest == long[same + 1..]).then(|| "one letter")
}
