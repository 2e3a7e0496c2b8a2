// Cases of request 12: books to aspif texts and back with the room exact and one short, texts cut at
// every byte and changed, and texts at the limits of a book.

use crate::aspif::export;
use crate::book::{Book, Rule};
use crate::cases::Cases;
use crate::cases_bad::{self, Word};
use crate::cases_damage::one_of_each;
use crate::cases_naming::short_book;
use crate::desk::{hex, MOST_BOOK, MOST_ROOM, MOST_TEXT};
use crate::random::Random;
use crate::selftest_aspif::change;
use crate::shapes::{deep_book, layered_book};
use crate::worked_requests::aspif_lines;

const SEED: u64 = 12;

pub fn add(cases: &mut Cases) {
    cases.worked(&aspif_lines());
    let mut random = Random::new(SEED);
    let random = &mut random;
    for count in 0..60 {
        there_and_back(cases, &short_book(random, count));
    }
    for _ in 0..15 {
        let (atoms, rules) = (random.from_to(9, 255), random.from_to(1, 60));
        there_and_back(cases, &layered_book(random, atoms, rules, 2));
    }
    let book =
        Book { atoms: 3, rules: vec![Rule::new(2, &[0, 1], &[1, 2]), Rule::new(0, &[], &[])] };
    let text = export(&book.write(), 1_000).expect("a small book");
    for length in 0..text.len() {
        assert_eq!(cases.unaspif(100, &text[..length]), "refused 34");
    }
    for _ in 0..250 {
        let mut changed = change(&text, random);
        if random.once_in(3) {
            changed = change(&changed, random);
        }
        cases.unaspif(100, &changed);
    }
    for (number, place, book) in one_of_each() {
        assert_eq!(cases.aspif(0, &book), format!("refused {} {}", number, place));
    }
    largest(cases);
    limits(cases);
    let fact = "0000000000010103005242";
    let (room, line) = (Word::Number(MOST_ROOM), format!("aspif 100 {}", fact));
    cases_bad::add(cases, &line, &[room, Word::Bytes(MOST_BOOK)]);
    let line = format!("unaspif 100 {}", hex(&text));
    cases_bad::add(cases, &line, &[room, Word::Bytes(MOST_TEXT)]);
}

fn there_and_back(cases: &mut Cases, book: &Book) {
    let bytes = book.write();
    let text = export(&bytes, 65_536).expect("a good book");
    assert_eq!(cases.aspif(text.len(), &bytes), format!("text {}", hex(&text)));
    assert_eq!(cases.aspif(text.len() - 1, &bytes), "refused 33");
    assert_eq!(cases.unaspif(bytes.len(), &text), format!("book {}", hex(&bytes)));
    assert_eq!(cases.unaspif(bytes.len() - 1, &text), "refused 35");
}

/// The longest text, the most rules, the most atoms.
fn largest(cases: &mut Cases) {
    let high: Vec<u8> = (239..255).collect();
    let longest = Book { atoms: 255, rules: vec![Rule::new(254, &high, &high); 255] };
    assert_eq!(export(&longest.write(), 65_536).map(|text| text.len()), Ok(44_164));
    there_and_back(cases, &longest);
    there_and_back(cases, &deep_book(254));
    there_and_back(cases, &Book { atoms: 255, rules: Vec::new() });
}

/// Formed texts that no book has for their size (35), and the same with a slip (34).
fn limits(cases: &mut Cases) {
    let outputs = |atoms: usize| -> String {
        let line = |n: usize| format!("4 {} x{} 1 {}\n", format!("x{}", n).len(), n, n + 1);
        (0..atoms).map(line).collect()
    };
    let numbers = |from: usize, sign: &str| -> String {
        (from..from + 17).map(|n| format!(" {}{}", sign, n)).collect()
    };
    let fact = "1 0 1 1 0 0\n";
    let texts = [
        format!("asp 1 0 0\n{}0\n", outputs(256)),
        format!("asp 1 0 0\n{}0\n", outputs(1_001)),
        format!("asp 1 0 0\n{}{}0\n", fact.repeat(256), outputs(1)),
        format!("asp 1 0 0\n1 0 1 1 0 17{}\n{}0\n", numbers(1, ""), outputs(17)),
        format!("asp 1 0 0\n1 0 1 1 0 17{}\n{}0\n", numbers(1, "-"), outputs(17)),
        format!("asp 1 0 0\n1 0 1 300 0 1 -299\n{}0\n", outputs(300)),
    ];
    for text in &texts {
        assert_eq!(cases.unaspif(65_536, text.as_bytes()), "refused 35");
        let end = text.len() - 3;
        for (from, to) in [(end, "x\n0\n"), (end, "\n0"), (end, "\n\n0\n"), (end, "0\n0\n")] {
            let wrong = format!("{}{}", &text[..from], to);
            assert_eq!(cases.unaspif(65_536, wrong.as_bytes()), "refused 34");
        }
    }
    let beyond = format!("asp 1 0 0\n1 0 1 257 0 0\n{}0\n", outputs(256));
    assert_eq!(cases.unaspif(65_536, beyond.as_bytes()), "refused 34");
    assert_eq!(cases.unaspif(65_536, &[0xff; 20]), "refused 34");
}
