// Cases of `words`: texts of random books in many layouts with the room exact and one short, texts cut
// at every byte, with other words in each place, with every byte in a name, and texts at the limits of
// a book.

use crate::book::Book;
use crate::cases::Cases;
use crate::cases_bad::{self, Word};
use crate::cases_naming::short_book;
use crate::desk::{hex, MOST_ROOM, MOST_TEXT};
use crate::layout::{drawn_names, drawn_text};
use crate::random::Random;
use crate::shapes::layered_book;
use crate::words::plain_text;
use crate::worked_words::word_lines;

const SEED: u64 = 40;
const FIRST: &str = "# who\nanna if not bea and carl\nbea unless anna or carl\ncarl\n";
const SECOND: &str = "atoms: anna bea\natoms: carl\r\nanna if carl and bea unless anna\nbea";

pub fn add(cases: &mut Cases) {
    cases.worked(&word_lines());
    let mut random = Random::new(SEED);
    for text in [FIRST, SECOND] {
        for length in 0..=text.len() {
            cases.words(100, text[..length].as_bytes());
        }
        damaged(cases, text);
    }
    for count in 0..150 {
        let book = short_book(&mut random, count);
        there_and_back(cases, &book, &mut random);
    }
    for _ in 0..10 {
        let (atoms, rules) = (random.from_to(9, 255), random.from_to(1, 60));
        let book = layered_book(&mut random, atoms, rules, 2);
        there_and_back(cases, &book, &mut random);
    }
    every_byte(cases);
    limits(cases);
    let line = format!("words 100 {}", hex(FIRST.as_bytes()));
    cases_bad::add(cases, &line, &[Word::Number(MOST_ROOM), Word::Bytes(MOST_TEXT)]);
}

/// The plain form and another layout of it give the book and its names.
fn there_and_back(cases: &mut Cases, book: &Book, random: &mut Random) {
    let names = drawn_names(random, book.atoms);
    let bytes = book.write();
    let list: String = names.iter().map(|name| format!(" {}", name)).collect();
    let plain = plain_text(book, &names).expect("a name for each atom").into_bytes();
    for text in [plain, drawn_text(random, book, &names)] {
        assert_eq!(cases.words(bytes.len(), &text), format!("book {}{}", hex(&bytes), list));
        assert_eq!(cases.words(bytes.len() - 1, &text), "refused 43");
    }
}

/// Each word exchanged for others, left out and doubled; line ends stay where they are.
fn damaged(cases: &mut Cases, text: &str) {
    let words: Vec<&str> = text.split(' ').collect();
    for place in 0..words.len() {
        for other in ["if", "and", "not", "unless", "or", "atoms:", "#", "dora", "4", "", "\n"] {
            let mut changed = words.clone();
            changed[place] = other;
            cases.words(100, changed.join(" ").as_bytes());
        }
        let mut longer = words.clone();
        longer.insert(place, words[place]);
        cases.words(100, longer.join(" ").as_bytes());
    }
}

/// Each byte first in a name, inside one, and by itself behind a head.
fn every_byte(cases: &mut Cases) {
    for byte in 0..=255 {
        cases.words(100, &[byte, b'a']);
        cases.words(100, &[b'a', byte, b'a']);
        cases.words(100, &[b'a', b' ', byte]);
    }
}

/// 255 and 256 names and rules; parts of 16 and 17 in every way; names of 64 and 65 bytes.
fn limits(cases: &mut Cases) {
    let names = |count: usize| (0..count).map(|n| format!("n{}", n)).collect::<Vec<_>>();
    let mut put = |text: String, number: u8, place: usize| {
        let answer = cases.words(65_536, text.as_bytes());
        match number {
            0 => assert!(answer.starts_with("book "), "{:.200}", text),
            _ => assert_eq!(answer, format!("refused {} {}", number, place), "{:.200}", text),
        }
    };
    let lines = names(256).join("\n");
    let last = lines.len() - 4;
    put(lines[..last].to_string(), 0, 0);
    put(lines.clone(), 42, last);
    let list = format!("atoms: {}", names(256).join(" "));
    let last = list.len() - 4;
    put(list[..last].to_string(), 0, 0);
    put(list.clone(), 42, last);
    put(format!("{}n7", &list[..last]), 41, last);
    put(format!("{}if", &list[..last]), 40, last);
    let rules = "anna\n".repeat(255);
    put(rules.clone(), 0, 0);
    put(format!("{}anna", rules), 42, rules.len());
    put(format!("{}# anna\n\n anna if", rules), 42, rules.len() + 9);
    put(format!("{}7", rules), 40, rules.len());
    let listed = format!("atoms: anna\n{}", rules);
    put(format!("{}bea", listed), 41, listed.len());
    for (start, word) in [("n0 if ", " and "), ("n0 if not ", " and not "), ("n0 unless ", " or ")] {
        let wide = format!("{}{}", start, names(17).join(word));
        let last = wide.len() - 3;
        let sixteen = wide[..last].trim_end_matches(word).to_string();
        put(sixteen.clone(), 0, 0);
        put(format!("{}{}n3{}n15", sixteen, word, word), 0, 0);
        put(wide, 42, last);
    }
    let halves = format!("n0 if not {} unless n8 or n9", names(8).join(" and not "));
    put(format!("{} or {}", halves, names(16).join(" or ")), 0, 0);
    let longer = format!("{} or {} or ", halves, names(16).join(" or "));
    put(format!("{}n16", longer), 42, longer.len());
    let longest = "x".repeat(64);
    put(format!("{}\n{}y", longest, &longest[1..]), 0, 0);
    put(format!("{}\n{}x", longest, longest), 40, 65);
}
