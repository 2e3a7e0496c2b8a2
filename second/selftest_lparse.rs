// The part of `selftest` about Lparse texts: the answer sets of the book made are those of the text.

use crate::book::Refusal;
use crate::lparse::{import, make_book, mentioned, read_text, Gives, Text, TextAtom, TextRule};
use crate::lparse_meaning::obeying;
use crate::meaning::answer_sets;
use crate::numbers::Atom;
use crate::random::Random;
use std::collections::BTreeSet;

const TEXTS: usize = 6_000;

/// Gives the number of texts.
pub fn texts(random: &mut Random) -> usize {
    let mut several = 0;
    let mut obeyed = 0;
    for number in 0..TEXTS {
        let mut text = drawn_text(random);
        if number % 2 == 0 {
            free(&mut text, random);
        }
        if number % 4 < 2 {
            text.rules.extend(pair());
        }
        assert_eq!(read_text(&write_text(&text, random)), Ok(text.clone()));
        let sets = compare(&text);
        several += (sets > 1) as usize;
        let lists = !text.plus.is_empty() || !text.minus.is_empty();
        obeyed += (lists && sets > 0) as usize;
    }
    assert!(several >= 500 && obeyed >= 500, "{} several, {} obeyed", several, obeyed);
    million();
    TEXTS
}

fn some_atoms(random: &mut Random, most: usize) -> Vec<TextAtom> {
    let atoms = [1, 2, 5, 40, 4_294_967_295];
    (0..random.from_to(0, most)).map(|_| TextAtom(*random.pick(&atoms))).collect()
}

/// A text over five atoms, far apart.
pub fn drawn_text(random: &mut Random) -> Text {
    let mut text = Text::default();
    for _ in 0..random.from_to(0, 6) {
        let head = some_atoms(random, 3).first().copied().unwrap_or(TextAtom(2));
        let positive = some_atoms(random, 1).into_iter().collect();
        let negative = some_atoms(random, 2).into_iter().collect();
        text.rules.push(TextRule { gives: Gives::Head(head), positive, negative });
    }
    text.named = some_atoms(random, 2);
    if random.once_in(2) {
        text.plus = some_atoms(random, 1);
        text.minus = some_atoms(random, 2);
    }
    text
}

/// Turns some rules into choices, with a head more now and then, the same one too.
pub fn free(text: &mut Text, random: &mut Random) {
    for rule in &mut text.rules {
        if random.once_in(2) {
            let mut heads = rule.gives.heads().to_vec();
            heads.extend(some_atoms(random, 1));
            rule.gives = Gives::AnyOf(heads);
        }
    }
}

/// Two rules that block each other, so that there may be several answer sets.
fn pair() -> Vec<TextRule> {
    let rule = |head: u32, other: u32| TextRule {
        gives: Gives::Head(TextAtom(head)),
        positive: BTreeSet::new(),
        negative: BTreeSet::from([TextAtom(other)]),
    };
    vec![rule(5, 40), rule(40, 5)]
}

/// The text in bytes, each word parted by a blank or a line end.
pub fn write_text(text: &Text, random: &mut Random) -> Vec<u8> {
    let mut words: Vec<String> = Vec::new();
    let mut put = |numbers: &[u32]| words.extend(numbers.iter().map(|n| n.to_string()));
    for rule in &text.rules {
        let literals = (rule.positive.len() + rule.negative.len()) as u32;
        let heads: Vec<u32> = rule.gives.heads().iter().map(|head| head.0).collect();
        match &rule.gives {
            Gives::Head(_) => put(&[1]),
            Gives::AnyOf(_) => put(&[3, heads.len() as u32]),
        }
        put(&heads);
        put(&[literals, rule.negative.len() as u32]);
        put(&rule.negative.iter().map(|atom| atom.0).collect::<Vec<u32>>());
        put(&rule.positive.iter().map(|atom| atom.0).collect::<Vec<u32>>());
    }
    words.push("0".to_string());
    for atom in &text.named {
        words.push(atom.0.to_string());
        words.push(random.pick(&["a", "0", "B+", "p(\"a b\")", "q(\"\\\" \",1)"]).to_string());
    }
    words.extend(["0", "B+"].iter().map(|word| word.to_string()));
    words.extend(text.plus.iter().map(|atom| atom.0.to_string()));
    words.extend(["0", "B-"].iter().map(|word| word.to_string()));
    words.extend(text.minus.iter().map(|atom| atom.0.to_string()));
    words.extend(["0", "1"].iter().map(|word| word.to_string()));
    let mut bytes = Vec::new();
    for word in words {
        bytes.extend(word.bytes());
        bytes.extend(*random.pick(&[&b"\n"[..], b" ", b" \n "]));
    }
    bytes
}

/// Answer sets of the book and of the text, one for one. Gives their number.
fn compare(text: &Text) -> usize {
    let book = make_book(text).expect("a small text");
    let atoms: Vec<TextAtom> = mentioned(text).into_iter().collect();
    let meant = obeying(text);
    let made = answer_sets(&book);
    let helper = !text.plus.is_empty() || !text.minus.is_empty();
    let mut back = BTreeSet::new();
    for set in &made {
        assert!(!helper || !set.has(Atom(book.atoms as u8 - 1)), "the helper is in none");
        let members = (0..atoms.len()).filter(|n| set.has(Atom(*n as u8)));
        back.insert(members.map(|n| atoms[n]).collect::<BTreeSet<TextAtom>>());
    }
    assert_eq!(back, meant, "{:?}", text);
    assert_eq!(back.len(), made.len(), "{:?}", text);
    made.len()
}

/// A million repeats of one body atom, and a number of literals that no text has.
fn million() {
    let text = format!("1 2 1000000 0{} 0 0 B+ 0 B- 0 1", " 3".repeat(1_000_000));
    let book = [0, 1, 0, 1, 0, 0, 2, 1, 4, 0, 0x52, 0x42];
    assert_eq!(import(text.as_bytes(), 12), Ok(book.to_vec()));
    let short = b"1 2 4294967295 0 3 3 3";
    assert_eq!(import(short, 12), Err(Refusal::at(30, short.len())));
}
