// Rules in words to a book and the names of its atoms, with the refusals 40 to 43, and the way back.
// A line is `HEAD`, `HEAD if L and L`, either of them with `unless NAME or NAME` behind it, where L is
// `NAME` or `not NAME`; or `atoms: NAME NAME`, before the first rule; or it says nothing.

use crate::book::{Book, Refusal, Rule};
use crate::numbers::{Atom, AtomSet};

const MOST_ATOMS: usize = 255;
const MOST_RULES: usize = 255;
const MOST_PART: usize = 16;
const LONGEST_NAME: usize = 64;
const NO_NAMES: [&[u8]; 5] = [b"if", b"and", b"not", b"unless", b"or"];

/// A word that cannot stand there, or that is missing.
const FORM: u8 = 40;
/// A name that is not listed, or listed twice.
const NAME: u8 = 41;
/// One name, rule or atom of a part too many.
const MANY: u8 = 42;
/// No room for the book.
const ROOM: u8 = 43;

/// A book and the names of its atoms, the n-th for atom n.
#[derive(Debug, PartialEq)]
pub struct NamedBook {
    pub book: Book,
    pub names: Vec<String>,
}

/// A word and the place of its first byte.
type Word<'t> = (usize, &'t [u8]);

/// The words of one line that are still to be read, and the place of the line's end.
struct Line<'t> {
    words: std::vec::IntoIter<Word<'t>>,
    end: usize,
}

impl<'t> Line<'t> {
    fn new(text: &'t [u8], start: usize) -> Line<'t> {
        let blank = |byte: u8| byte == b' ' || byte == b'\t' || byte == b'\r';
        let (mut words, mut at) = (Vec::new(), start);
        while at < text.len() && text[at] != b'\n' {
            let first = at;
            while at < text.len() && text[at] != b'\n' && !blank(text[at]) {
                at += 1;
            }
            if first < at {
                words.push((first, &text[first..at]));
            } else {
                at += 1;
            }
        }
        Line { words: words.into_iter(), end: at }
    }

    /// The next word, which is due.
    fn due(&mut self) -> Result<Word<'t>, Refusal> {
        self.words.next().ok_or_else(|| Refusal::at(FORM, self.end))
    }
}

pub fn is_name(word: &[u8]) -> bool {
    let letter = |byte: &u8| byte.is_ascii_alphanumeric() || b"_-'".contains(byte);
    (1..=LONGEST_NAME).contains(&word.len())
        && word.iter().all(letter)
        && !word[0].is_ascii_digit()
        && !NO_NAMES.contains(&word)
}

/// What was read so far.
#[derive(Default)]
struct Reader {
    names: Vec<String>,
    /// An `atoms:` line was there.
    listed: bool,
    rules: Vec<Rule>,
}

impl Reader {
    fn known(&self, word: &[u8]) -> Option<Atom> {
        let known = self.names.iter().position(|name| name.as_bytes() == word);
        known.map(|number| Atom(number as u8))
    }

    fn new_name(&mut self, (place, word): Word) -> Result<Atom, Refusal> {
        if self.names.len() == MOST_ATOMS {
            return Err(Refusal::at(MANY, place));
        }
        self.names.push(String::from_utf8_lossy(word).into_owned());
        Ok(Atom(self.names.len() as u8 - 1))
    }

    /// The atom of a word in a rule.
    fn atom(&mut self, (place, word): Word) -> Result<Atom, Refusal> {
        if !is_name(word) {
            return Err(Refusal::at(FORM, place));
        }
        match self.known(word) {
            Some(atom) => Ok(atom),
            None if self.listed => Err(Refusal::at(NAME, place)),
            None => self.new_name((place, word)),
        }
    }

    fn add(&mut self, part: &mut AtomSet, word: Word) -> Result<(), Refusal> {
        let atom = self.atom(word)?;
        if !part.has(atom) && part.count() == MOST_PART {
            return Err(Refusal::at(MANY, word.0));
        }
        part.insert(atom);
        Ok(())
    }

    fn line(&mut self, mut line: Line) -> Result<(), Refusal> {
        match line.words.next() {
            None => Ok(()),
            Some((_, word)) if word[0] == b'#' => Ok(()),
            Some((place, b"atoms:")) if !self.rules.is_empty() => Err(Refusal::at(FORM, place)),
            Some((_, b"atoms:")) => self.list(line),
            Some(head) => self.rule(head, line),
        }
    }

    fn list(&mut self, line: Line) -> Result<(), Refusal> {
        self.listed = true;
        for (place, word) in line.words {
            if !is_name(word) {
                return Err(Refusal::at(FORM, place));
            }
            if self.known(word).is_some() {
                return Err(Refusal::at(NAME, place));
            }
            self.new_name((place, word))?;
        }
        Ok(())
    }

    fn rule(&mut self, word: Word, mut line: Line) -> Result<(), Refusal> {
        let head = self.atom(word)?;
        if self.rules.len() == MOST_RULES {
            return Err(Refusal::at(MANY, word.0));
        }
        let mut rule = Rule { head, positive: AtomSet::none(), negative: AtomSet::none() };
        match line.words.next() {
            None => {}
            Some((_, b"if")) => self.body(&mut rule, line)?,
            Some((_, b"unless")) => self.exceptions(&mut rule, line)?,
            Some((place, _)) => return Err(Refusal::at(FORM, place)),
        }
        self.rules.push(rule);
        Ok(())
    }

    fn body(&mut self, rule: &mut Rule, mut line: Line) -> Result<(), Refusal> {
        loop {
            match line.due()? {
                (_, b"not") => self.add(&mut rule.negative, line.due()?)?,
                word => self.add(&mut rule.positive, word)?,
            }
            match line.words.next() {
                None => return Ok(()),
                Some((_, b"and")) => {}
                Some((_, b"unless")) => return self.exceptions(rule, line),
                Some((place, _)) => return Err(Refusal::at(FORM, place)),
            }
        }
    }

    fn exceptions(&mut self, rule: &mut Rule, mut line: Line) -> Result<(), Refusal> {
        loop {
            self.add(&mut rule.negative, line.due()?)?;
            match line.words.next() {
                None => return Ok(()),
                Some((_, b"or")) => {}
                Some((place, _)) => return Err(Refusal::at(FORM, place)),
            }
        }
    }
}

/// Reads a text of rules, whatever its bytes.
pub fn read_words(text: &[u8]) -> Result<NamedBook, Refusal> {
    let mut reader = Reader::default();
    let mut start = 0;
    while start < text.len() {
        let line = Line::new(text, start);
        start = line.end + 1;
        reader.line(line)?;
    }
    let book = Book { atoms: reader.names.len(), rules: reader.rules };
    Ok(NamedBook { book, names: reader.names })
}

/// The book of a text, if it has room.
pub fn make(text: &[u8], room: usize) -> Result<(Vec<u8>, Vec<String>), Refusal> {
    let named = read_words(text)?;
    let bytes = named.book.write();
    if bytes.len() > room {
        return Err(Refusal::placeless(ROOM));
    }
    Ok((bytes, named.names))
}

/// The rules in words, one a line. Without names each atom is its number.
pub fn write_words(book: &Book, names: Option<&[String]>) -> Result<String, String> {
    if let Some(names) = names {
        if names.len() != book.atoms {
            return Err(format!("{} names for {} atoms", names.len(), book.atoms));
        }
    }
    let called = |atom: Atom| match names {
        Some(names) => names[atom.0 as usize].clone(),
        None => atom.0.to_string(),
    };
    let mut text = String::new();
    for rule in &book.rules {
        let mut body: Vec<String> = rule.positive.members().map(called).collect();
        body.extend(rule.negative.members().map(|atom| format!("not {}", called(atom))));
        text.push_str(&called(rule.head));
        if !body.is_empty() {
            text.push_str(" if ");
            text.push_str(&body.join(" and "));
        }
        text.push('\n');
    }
    Ok(text)
}

/// The plain form of a book: its names in a line, then its rules.
pub fn plain_text(book: &Book, names: &[String]) -> Result<String, String> {
    let list: String = names.iter().map(|name| format!(" {}", name)).collect();
    Ok(format!("atoms:{}\n{}", list, write_words(book, Some(names))?))
}
