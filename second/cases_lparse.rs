// Cases of request 1: texts of the grounder, good ones, cut at every byte, damaged at every word,
// and at the limits of a book.

use crate::cases::Cases;
use crate::cases_bad::{self, Word};
use crate::desk::{hex, MOST_ROOM, MOST_TEXT};
use crate::lparse::import;
use crate::random::Random;
use crate::selftest_lparse::{drawn_text, write_text};
use crate::worked_requests::lparse_lines;

const SEED: u64 = 1;
const FIRST: &str = "1 2 1 1 3\n1 3 1 1 2\n0\n2 a\n3 b\n0\nB+\n0\nB-\n1\n0\n1\n";
const SECOND: &str = "1 7 3 1 9 4 9\n1 4 0 0\n0\n9 n(\"x y\")\n0\nB+\n4\n9\n0\nB-\n7\n7\n0\n2\n";

pub fn add(cases: &mut Cases) {
    cases.worked(&lparse_lines());
    let mut random = Random::new(SEED);
    for text in [FIRST, SECOND] {
        cut(cases, text);
        damaged(cases, text);
    }
    for _ in 0..150 {
        let text = drawn_text(&mut random);
        let bytes = write_text(&text, &mut random);
        let book = import(&bytes, 65_536).expect("a small text");
        assert_eq!(cases.lparse(book.len(), &bytes), format!("book {}", hex(&book)));
        assert_eq!(cases.lparse(book.len() - 1, &bytes), "refused 32");
    }
    words(cases);
    limits(cases);
    let line = format!("lparse 100 {}", hex(FIRST.as_bytes()));
    cases_bad::add(cases, &line, &[Word::Number(MOST_ROOM), Word::Bytes(MOST_TEXT)]);
}

pub fn cut(cases: &mut Cases, text: &str) {
    for length in 0..=text.len() {
        cases.lparse(100, text[..length].as_bytes());
    }
}

/// Each word exchanged for others, left out and doubled.
pub fn damaged(cases: &mut Cases, text: &str) {
    let words: Vec<&str> = text.split_whitespace().collect();
    for place in 0..words.len() {
        for other in ["0", "1", "2", "3", "91", "x", "-1", "B+", "B-", "4294967296", "007"] {
            let mut changed = words.clone();
            changed[place] = other;
            cases.lparse(100, changed.join(" ").as_bytes());
        }
        let mut shorter = words.clone();
        shorter.remove(place);
        cases.lparse(100, shorter.join("\n").as_bytes());
        let mut longer = words.clone();
        longer.insert(place, words[place]);
        cases.lparse(100, longer.join(" ").as_bytes());
    }
}

/// What parts words and what does not, numbers at their ends, names that look like something else.
fn words(cases: &mut Cases) {
    for (text, expected) in [
        ("  0 0\n\nB+ 0  B- 0 1 \n ", "book 000000005242"),
        ("0 0 B+ 0 B- 0 4294967295", "book 000000005242"),
        ("0 0 B+ 0 B- 0 000000000000000000000", "book 000000005242"),
        ("0 0 B+ 0 B- 0 4294967296", "refused 30 14"),
        ("0 0 B+ 0 B- 0 ", "refused 30 14"),
        ("0 0 B+ 0 B- 0\n\n", "refused 30 15"),
        ("0\r\n0 B+ 0 B- 0 1", "refused 30 0"),
        ("0\t0 B+ 0 B- 0 1", "refused 30 0"),
        ("0 0 b+ 0 B- 0 1", "refused 30 4"),
        ("0 0 B+0 B- 0 1", "refused 30 4"),
        ("0 0 B- 0 B+ 0 1", "refused 30 4"),
        ("0 5 0 0 B+ 0 B- 0 1", "book 010000005242"),
        ("0 5 B+ 0 B+ 0 B- 0 1", "book 010000005242"),
        ("0 5 a 5 b 5 a 0 B+ 0 B- 0 1", "book 010000005242"),
        ("0 5 \"a b\" 0 B+ 0 B- 0 1", "book 010000005242"),
        ("0 5 \"a \\\" b\" 0 B+ 0 B- 0 1", "book 010000005242"),
        ("0 5 \"a \\\\\" 0 B+ 0 B- 0 1", "book 010000005242"),
        ("0 5 \"a b\n0 B+ 0 B- 0 1", "book 010000005242"),
        ("0 5 \"a \\\n0 B+ 0 B- 0 1", "book 010000005242"),
        ("0 5 a b 0 B+ 0 B- 0 1", "refused 30 6"),
        ("0 5 a\\ b 0 B+ 0 B- 0 1", "refused 30 7"),
        ("0 5", "refused 30 3"),
        ("0 \"0 0\" B+ 0 B- 0 1", "refused 30 2"),
        ("1 2 2 1 3", "refused 30 9"),
        ("1 2 4294967295 0 3 3 3", "refused 30 22"),
        ("1 2 4294967295 4294967295 3 3 3 0", "refused 30 32"),
        ("1 2 1 0 0", "refused 30 8"),
        ("1 2 0 1", "refused 30 6"),
        ("2 1 2 0 0 x", "refused 31 0"),
        ("4294967295 x", "refused 31 0"),
        ("1 2 0 0 8 x", "refused 31 8"),
        ("1 2 x 0 8", "refused 30 4"),
        ("x 2", "refused 30 0"),
        ("E 0", "refused 30 0"),
        ("0 0 B+ 0 B- 0 E 1 0 1", "refused 30 14"),
    ] {
        assert_eq!(cases.lparse(100, text.as_bytes()), expected, "{:?}", text);
    }
}

/// 255 and 256 atoms, with and without a helper; rules; parts of 16 and 17; repeats.
fn limits(cases: &mut Cases) {
    let table = |atoms: usize| (1..=atoms).map(|a| format!("{} a ", a)).collect::<String>();
    let numbers = |count: usize| (1..=count).map(|a| format!(" {}", a)).collect::<String>();
    let mut put = |text: String, fits: bool| {
        let answer = cases.lparse(65_536, text.as_bytes());
        assert_eq!(answer != "refused 32", fits, "{:.200}", text);
        assert!(answer == "refused 32" || answer.starts_with("book "));
    };
    for (atoms, lists, fits) in
        [(255, "B+ 0 B- 0", true), (256, "B+ 0 B- 0", false), (254, "B+ 1 0 B- 0", true)]
    {
        put(format!("0 {}0 {} 1", table(atoms), lists), fits);
    }
    put(format!("0 {}0 B+ 0 B- 7 0 1", table(255)), false);
    put(format!("{}0 0 B+ 0 B- 0 1", "1 2 0 0 ".repeat(255)), true);
    put(format!("{}0 0 B+ 0 B- 0 1", "1 2 0 0 ".repeat(256)), false);
    put(format!("{}0 0 B+ 2 0 B- 0 1", "1 2 0 0 ".repeat(254)), true);
    put(format!("{}0 0 B+ 2 0 B- 2 0 1", "1 2 0 0 ".repeat(254)), false);
    put(format!("0 0 B+{} 0 B- 0 1", " 3".repeat(255)), true);
    put(format!("0 0 B+{} 0 B- 0 1", " 3".repeat(256)), false);
    for (count, fits) in [(16, true), (17, false)] {
        put(format!("1 99 {} 0{} 0 0 B+ 0 B- 0 1", count, numbers(count)), fits);
        put(format!("1 99 {} {}{} 0 0 B+ 0 B- 0 1", count, count, numbers(count)), fits);
        let twice = format!("{}{}", numbers(count), numbers(count));
        put(format!("1 99 {} 0{} 0 0 B+ 0 B- 0 1", 2 * count, twice), fits);
        put(format!("1 99 {} {}{} 0 0 B+ 0 B- 0 1", 2 * count, count, twice), fits);
    }
    put(format!("1 2 30000 15000{} 0 0 B+ 0 B- 0 1", " 3".repeat(30_000)), true);
    let wrong = format!("0 {}0 B+ 0 B- 0 x", table(256));
    let place = wrong.len() - 1;
    assert_eq!(cases.lparse(0, wrong.as_bytes()), format!("refused 30 {}", place));
}
