// Request 12: a book as an aspif text for other solvers, and the reader of exactly such texts: a
// text is read if it is what the writer's rules give for what it says.

use crate::book::{Book, Refusal, Rule};
use crate::numbers::Atom;
use std::fmt::Write as _;

const MOST_ATOMS: usize = 255;
const MOST_RULES: usize = 255;
const MOST_PART: usize = 16;

/// A rule in the text's numbers, which are ours and one more; limits of size are left out.
struct LooseRule {
    head: u64,
    positive: Vec<u64>,
    negative: Vec<u64>,
}

/// What a text says: its rules, and how many output lines it has.
struct Loose {
    rules: Vec<LooseRule>,
    atoms: u64,
}

impl Loose {
    fn of(book: &Book) -> Loose {
        let theirs = |atom: Atom| atom.0 as u64 + 1;
        let rule = |rule: &Rule| LooseRule {
            head: theirs(rule.head),
            positive: rule.positive.members().map(theirs).collect(),
            negative: rule.negative.members().map(theirs).collect(),
        };
        Loose { rules: book.rules.iter().map(rule).collect(), atoms: book.atoms as u64 }
    }

    fn text(&self) -> String {
        let mut text = "asp 1 0 0\n".to_string();
        for rule in &self.rules {
            let count = rule.positive.len() + rule.negative.len();
            write!(text, "1 0 1 {} 0 {}", rule.head, count).expect("a string takes all");
            rule.positive.iter().for_each(|atom| text.push_str(&format!(" {}", atom)));
            rule.negative.iter().for_each(|atom| text.push_str(&format!(" -{}", atom)));
            text.push('\n');
        }
        for atom in 0..self.atoms {
            let name = format!("x{}", atom);
            text.push_str(&format!("4 {} {} 1 {}\n", name.len(), name, atom + 1));
        }
        text.push_str("0\n");
        text
    }

    /// Each part ascends, and no atom is beyond the output lines.
    fn is_well_formed(&self) -> bool {
        let ascends = |part: &[u64]| part.windows(2).all(|pair| pair[0] < pair[1]);
        self.rules.iter().all(|rule| {
            let mut atoms = rule.positive.iter().chain(&rule.negative).chain([&rule.head]);
            ascends(&rule.positive)
                && ascends(&rule.negative)
                && atoms.all(|atom| *atom >= 1 && *atom <= self.atoms)
        })
    }

    fn book(&self) -> Option<Book> {
        let small =
            |rule: &LooseRule| rule.positive.len() <= MOST_PART && rule.negative.len() <= MOST_PART;
        if self.atoms > MOST_ATOMS as u64 || self.rules.len() > MOST_RULES {
            return None;
        }
        if !self.rules.iter().all(small) {
            return None;
        }
        let ours = |part: &[u64]| part.iter().map(|atom| (atom - 1) as u8).collect::<Vec<u8>>();
        let rule = |rule: &LooseRule| {
            Rule::new((rule.head - 1) as u8, &ours(&rule.positive), &ours(&rule.negative))
        };
        Some(Book { atoms: self.atoms as usize, rules: self.rules.iter().map(rule).collect() })
    }
}

/// What a rule line says, taken loosely: its head and its literals by their sign.
fn read_rule(line: &str) -> Option<LooseRule> {
    let words: Vec<&str> = line.split(' ').collect();
    let head = words.get(3)?.parse().ok()?;
    let mut rule = LooseRule { head, positive: Vec::new(), negative: Vec::new() };
    for word in words.get(6..)? {
        match word.strip_prefix('-') {
            Some(atom) => rule.negative.push(atom.parse().ok()?),
            None => rule.positive.push(word.parse().ok()?),
        }
    }
    Some(rule)
}

/// The book that a text says, if writing it gives that text.
fn read_text(bytes: &[u8]) -> Option<Loose> {
    let text = std::str::from_utf8(bytes).ok()?;
    let mut loose = Loose { rules: Vec::new(), atoms: 0 };
    for line in text.lines() {
        if line.starts_with("1 ") {
            loose.rules.push(read_rule(line)?);
        }
        if line.starts_with("4 ") {
            loose.atoms += 1;
        }
    }
    if loose.is_well_formed() && loose.text() == text {
        Some(loose)
    } else {
        None
    }
}

/// The writer: 1 to 7, then 33 where the room is too short.
pub fn export(book: &[u8], room: usize) -> Result<Vec<u8>, Refusal> {
    let text = Loose::of(&Book::read(book)?).text().into_bytes();
    if text.len() > room {
        return Err(Refusal::placeless(33));
    }
    Ok(text)
}

/// The reader: 34 for a text that no book has, whatever its size, then 35.
pub fn restore(text: &[u8], room: usize) -> Result<Vec<u8>, Refusal> {
    let loose = read_text(text).ok_or(Refusal::placeless(34))?;
    let bytes = loose.book().map(|book| book.write());
    bytes.filter(|bytes| bytes.len() <= room).ok_or(Refusal::placeless(35))
}
