// Requests 1 and 10: Lparse's numeric text to a book. The text is read word by word; the first word that
// cannot stand where it stands is refused with its place.

use crate::book::{Book, Refusal, Rule};
use crate::numbers::{Atom, AtomSet};
use std::collections::BTreeSet;

const MOST_NUMBER: u64 = 4_294_967_295;
const MOST_ATOMS: usize = 255;
const MOST_RULES: usize = 255;
const MOST_PART: usize = 16;

/// An atom's number in a text. It is never given where a book's atom is due.
#[derive(Clone, Copy, PartialEq, Eq, PartialOrd, Ord, Debug)]
pub struct TextAtom(pub u32);

/// What a rule gives: its head, or any of the heads of a choice.
#[derive(Clone, PartialEq, Eq, Debug)]
pub enum Gives {
    Head(TextAtom),
    AnyOf(Vec<TextAtom>),
}

impl Gives {
    pub fn heads(&self) -> &[TextAtom] {
        match self {
            Gives::Head(head) => std::slice::from_ref(head),
            Gives::AnyOf(heads) => heads,
        }
    }

    /// How many helpers it needs: one for each place where a head of a choice stands.
    fn helpers(&self) -> usize {
        match self {
            Gives::Head(_) => 0,
            Gives::AnyOf(heads) => heads.len(),
        }
    }
}

/// Repeated body atoms are one, so the parts are sets.
#[derive(Clone, PartialEq, Eq, Debug)]
pub struct TextRule {
    pub gives: Gives,
    pub positive: BTreeSet<TextAtom>,
    pub negative: BTreeSet<TextAtom>,
}

/// What a text says; names don't bear on the book.
#[derive(Clone, PartialEq, Eq, Debug, Default)]
pub struct Text {
    pub rules: Vec<TextRule>,
    pub named: Vec<TextAtom>,
    pub plus: Vec<TextAtom>,
    pub minus: Vec<TextAtom>,
}

/// The words of a text, one after the other.
struct Words<'a> {
    text: &'a [u8],
    at: usize,
}

#[derive(Clone, Copy)]
struct Word<'a> {
    place: usize,
    bytes: &'a [u8],
}

fn parts(byte: u8) -> bool {
    byte == b' ' || byte == b'\n'
}

impl<'a> Words<'a> {
    fn next(&mut self) -> Option<Word<'a>> {
        while self.at < self.text.len() && parts(self.text[self.at]) {
            self.at += 1;
        }
        let place = self.at;
        self.at += word_length(&self.text[place..]);
        if self.at == place {
            return None;
        }
        Some(Word { place, bytes: &self.text[place..self.at] })
    }

    /// The next word, or 30 at the length where the text is missing.
    fn due(&mut self) -> Result<Word<'a>, Refusal> {
        let missing = Refusal::at(30, self.text.len());
        self.next().ok_or(missing)
    }

    fn number(&mut self) -> Result<(u32, usize), Refusal> {
        let word = self.due()?;
        let value = number_of(word.bytes).ok_or(Refusal::at(30, word.place))?;
        Ok((value, word.place))
    }

    fn atom(&mut self) -> Result<TextAtom, Refusal> {
        match self.number()? {
            (0, place) => Err(Refusal::at(30, place)),
            (number, _) => Ok(TextAtom(number)),
        }
    }

    fn exactly(&mut self, bytes: &[u8]) -> Result<(), Refusal> {
        let word = self.due()?;
        if word.bytes == bytes {
            Ok(())
        } else {
            Err(Refusal::at(30, word.place))
        }
    }

    /// Atoms up to a 0.
    fn list(&mut self) -> Result<Vec<TextAtom>, Refusal> {
        let mut list = Vec::new();
        loop {
            match self.number()? {
                (0, _) => return Ok(list),
                (number, _) => list.push(TextAtom(number)),
            }
        }
    }
}

/// Bytes up to the next blank or line end; a blank between two quotes is part of the word, and
/// there a backslash takes the next byte along. A line end ends a word always.
fn word_length(bytes: &[u8]) -> usize {
    let mut quoted = false;
    let mut escaped = false;
    for (length, byte) in bytes.iter().enumerate() {
        if *byte == b'\n' || (*byte == b' ' && !quoted) {
            return length;
        }
        if escaped {
            escaped = false;
        } else if *byte == b'"' {
            quoted = !quoted;
        } else if *byte == b'\\' && quoted {
            escaped = true;
        }
    }
    bytes.len()
}

/// Digits, leading zeros allowed, up to the largest number.
fn number_of(word: &[u8]) -> Option<u32> {
    let mut value = 0u64;
    for byte in word {
        if !byte.is_ascii_digit() {
            return None;
        }
        value = (10 * value + (byte - b'0') as u64).min(MOST_NUMBER + 1);
    }
    if value > MOST_NUMBER {
        return None;
    }
    Some(value as u32)
}

/// Reads a text, or gives 30 or 31 with the place of the first word that is wrong.
pub fn read_text(bytes: &[u8]) -> Result<Text, Refusal> {
    let mut words = Words { text: bytes, at: 0 };
    let mut text = Text::default();
    loop {
        match words.number()? {
            (0, _) => break,
            (1, _) => text.rules.push(read_basic(&mut words)?),
            (3, _) => text.rules.push(read_choice(&mut words)?),
            (_, place) => return Err(Refusal::at(31, place)),
        }
    }
    loop {
        match words.number()? {
            (0, _) => break,
            (number, _) => text.named.push(TextAtom(number)),
        }
        words.due()?;
    }
    words.exactly(b"B+")?;
    text.plus = words.list()?;
    words.exactly(b"B-")?;
    text.minus = words.list()?;
    words.number()?;
    match words.next() {
        Some(word) => Err(Refusal::at(30, word.place)),
        None => Ok(text),
    }
}

/// A basic rule behind its 1: head, literals, negatives, the negative and the positive atoms.
fn read_basic(words: &mut Words) -> Result<TextRule, Refusal> {
    let gives = Gives::Head(words.atom()?);
    read_body(words, gives)
}

/// A choice behind its 3: the number of its heads, at least 1, the heads, then as a basic rule.
fn read_choice(words: &mut Words) -> Result<TextRule, Refusal> {
    let (count, place) = words.number()?;
    if count == 0 {
        return Err(Refusal::at(30, place));
    }
    let mut heads = Vec::new();
    for _ in 0..count {
        heads.push(words.atom()?);
    }
    read_body(words, Gives::AnyOf(heads))
}

/// Literals, negatives, the negative and the positive atoms.
fn read_body(words: &mut Words, gives: Gives) -> Result<TextRule, Refusal> {
    let (literals, _) = words.number()?;
    let (negatives, place) = words.number()?;
    if negatives > literals {
        return Err(Refusal::at(30, place));
    }
    let mut part = |count: u32| -> Result<BTreeSet<TextAtom>, Refusal> {
        let mut set = BTreeSet::new();
        for _ in 0..count {
            set.insert(words.atom()?);
        }
        Ok(set)
    };
    let negative = part(negatives)?;
    let positive = part(literals - negatives)?;
    Ok(TextRule { gives, positive, negative })
}

/// All atoms standing anywhere in the text.
pub fn mentioned(text: &Text) -> BTreeSet<TextAtom> {
    let mut all = BTreeSet::new();
    for rule in &text.rules {
        all.extend(rule.gives.heads());
        all.extend(rule.positive.iter().chain(&rule.negative));
    }
    all.extend(text.named.iter().chain(&text.plus).chain(&text.minus));
    all
}

/// The numbers of a text's atoms in its book, ascending.
struct Numbering {
    atoms: Vec<TextAtom>,
}

impl Numbering {
    fn atom(&self, atom: TextAtom) -> Atom {
        Atom(self.atoms.binary_search(&atom).expect("an atom of the text") as u8)
    }

    fn part(&self, atoms: &BTreeSet<TextAtom>) -> AtomSet {
        atoms.iter().fold(AtomSet::none(), |set, atom| set.with(self.atom(*atom)))
    }
}

/// The book of a text, None where it doesn't fit: the text's rules, then one for each entry of B+
/// and of B- with the helper of the lists, which is the last atom.
pub fn make_book(text: &Text) -> Option<Book> {
    let numbering = Numbering { atoms: mentioned(text).into_iter().collect() };
    let free: usize = text.rules.iter().map(|rule| rule.gives.helpers()).sum();
    let lists = text.plus.len() + text.minus.len();
    let last = numbering.atoms.len() + free;
    let atoms = last + (lists > 0) as usize;
    let count: usize = text.rules.iter().map(rules_of).sum::<usize>() + lists;
    if atoms > MOST_ATOMS || count > MOST_RULES || !text.rules.iter().all(fits) {
        return None;
    }
    let mut rules = text_rules(&numbering, text);
    rules.extend(list_rules(&numbering, text, Atom(last as u8)));
    Some(Book { atoms, rules })
}

/// How many rules a rule of the text becomes: two for each head of a choice.
fn rules_of(rule: &TextRule) -> usize {
    match &rule.gives {
        Gives::Head(_) => 1,
        Gives::AnyOf(heads) => 2 * heads.len(),
    }
}

/// A choice's rules have one negative atom more.
fn fits(rule: &TextRule) -> bool {
    let added = (rule.gives.helpers() > 0) as usize;
    rule.positive.len() <= MOST_PART && rule.negative.len() + added <= MOST_PART
}

/// The text's rules in their order. Each head of a choice has a helper of its own, numbered on from
/// the text's atoms: "head if body, not helper", then "helper if not head".
fn text_rules(numbering: &Numbering, text: &Text) -> Vec<Rule> {
    let mut rules = Vec::new();
    let mut helper = numbering.atoms.len();
    for rule in &text.rules {
        let positive = numbering.part(&rule.positive);
        let negative = numbering.part(&rule.negative);
        for head in rule.gives.heads() {
            let head = numbering.atom(*head);
            if rule.gives.helpers() == 0 {
                rules.push(Rule { head, positive, negative });
                continue;
            }
            let own = Atom(helper as u8);
            helper += 1;
            rules.push(Rule { head, positive, negative: negative.with(own) });
            let absent = AtomSet::none().with(head);
            rules.push(Rule { head: own, positive: AtomSet::none(), negative: absent });
        }
    }
    rules
}

/// "helper if not a, not helper" for each entry a of B+, "helper if a, not helper" for each of B-.
fn list_rules(numbering: &Numbering, text: &Text, helper: Atom) -> Vec<Rule> {
    let none = AtomSet::none();
    let one = |atom: &TextAtom| none.with(numbering.atom(*atom));
    let plus = |atom| Rule { head: helper, positive: none, negative: one(atom).with(helper) };
    let minus = |atom| Rule { head: helper, positive: one(atom), negative: none.with(helper) };
    text.plus.iter().map(plus).chain(text.minus.iter().map(minus)).collect()
}

/// Importing as a caller sees it: 30 and 31 anywhere in the text come before 32.
pub fn import(text: &[u8], room: usize) -> Result<Vec<u8>, Refusal> {
    let text = read_text(text)?;
    let bytes = make_book(&text).map(|book| book.write());
    bytes.filter(|bytes| bytes.len() <= room).ok_or(Refusal::placeless(32))
}
