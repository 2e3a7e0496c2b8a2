// Texts of a book in other layouts than the plain one: other blanks, notes, `unless`, repeats and
// another order inside the parts. The book of each is the same.

use crate::book::{Book, Rule};
use crate::numbers::{Atom, AtomSet};
use crate::random::Random;

/// Names that are all different, some of them only in case or a sign.
pub fn drawn_names(random: &mut Random, count: usize) -> Vec<String> {
    let shapes = ["anna_", "Anna-", "if", "not'", "x", "_"];
    let start = random.below(shapes.len());
    (0..count).map(|n| format!("{}{}", shapes[(start + n) % shapes.len()], n)).collect()
}

fn blanks(random: &mut Random) -> &'static str {
    *random.pick(&[" ", " ", " ", "  ", "\t", " \r "])
}

/// A line that says nothing, now and then.
fn quiet(random: &mut Random) -> &'static str {
    *random.pick(&["", "", "", "\n", "# if anna\n", " \t#\n"])
}

fn put(text: &mut String, word: &str, random: &mut Random) {
    text.push_str(word);
    text.push_str(blanks(random));
}

/// The atoms of a part in some order, some of them twice.
fn drawn_part(random: &mut Random, part: &AtomSet) -> Vec<Atom> {
    let mut atoms: Vec<Atom> = part.members().collect();
    for place in 1..atoms.len() {
        atoms.swap(place, random.below(place + 1));
    }
    if !atoms.is_empty() && random.once_in(3) {
        let again = *random.pick(&atoms);
        atoms.push(again);
    }
    atoms
}

fn put_rule(text: &mut String, rule: &Rule, names: &[String], random: &mut Random) {
    let called = |atom: &Atom| names[atom.0 as usize].as_str();
    let negative = drawn_part(random, &rule.negative);
    let (nots, exceptions) = negative.split_at(random.below(negative.len() + 1));
    put(text, called(&rule.head), random);
    let mut body: Vec<(bool, Atom)> = nots.iter().map(|atom| (true, *atom)).collect();
    for atom in drawn_part(random, &rule.positive) {
        body.insert(random.below(body.len() + 1), (false, atom));
    }
    for (place, (negated, atom)) in body.iter().enumerate() {
        put(text, if place == 0 { "if" } else { "and" }, random);
        if *negated {
            put(text, "not", random);
        }
        put(text, called(atom), random);
    }
    for (place, atom) in exceptions.iter().enumerate() {
        put(text, if place == 0 { "unless" } else { "or" }, random);
        put(text, called(atom), random);
    }
    text.push('\n');
}

/// A text of the book, its names listed in one or several lines.
pub fn drawn_text(random: &mut Random, book: &Book, names: &[String]) -> Vec<u8> {
    let mut text = String::from(quiet(random));
    put(&mut text, "atoms:", random);
    for name in names {
        put(&mut text, name, random);
        if random.once_in(5) {
            text.push_str("\n ");
            put(&mut text, "atoms:", random);
        }
    }
    text.push('\n');
    for rule in &book.rules {
        text.push_str(quiet(random));
        put_rule(&mut text, rule, names, random);
    }
    if random.once_in(4) {
        text.pop();
    }
    text.into_bytes()
}
