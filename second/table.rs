// Request 13: exact numbers over up to 64 books: sets, in how many each atom stands, and totals.

use crate::book::Book;
use crate::closing::Support;
use crate::numbers::{Atom, AtomSet};
use crate::walk::{walk, Visit, WalkEnd};

pub const MOST_BOOKS: usize = 64;

/// What a name of a book led to.
pub enum File {
    Bytes(Vec<u8>),
    /// It can't be opened.
    Closed,
    /// No book can be made of it; the number of the refusal.
    Refused(u8),
}

/// The answer sets of one book: how many there are, and in how many each atom stands.
pub struct Count {
    pub sets: u64,
    pub standing: Vec<u64>,
}

/// Numbers over all counted books: atoms in every set, in some but not in all, in none.
#[derive(Default, Clone, Copy, PartialEq, Eq, Debug)]
pub struct Totals {
    pub certain: u64,
    pub some: u64,
    pub none: u64,
    pub atoms: u64,
}

/// The whole walk of a book; None past the limit. Gives the tries too.
pub fn count(book: &Book, limit: u64) -> (Option<Count>, u64) {
    let mut count = Count { sets: 0, standing: vec![0; book.atoms] };
    let walked = walk(book, limit, Support::Kept, &mut |colouring, _| {
        count.add(&book.heads(&colouring.on));
        Visit::GoOn
    });
    match walked.end {
        WalkEnd::Limit => (None, walked.tries),
        _ => (Some(count), walked.tries),
    }
}

impl Count {
    fn add(&mut self, set: &AtomSet) {
        self.sets += 1;
        for (atom, standing) in self.standing.iter_mut().enumerate() {
            *standing += set.has(Atom(atom as u8)) as u64;
        }
    }
}

impl Totals {
    /// A book without answer sets counts no atoms.
    pub fn add(&mut self, count: &Count) {
        if count.sets == 0 {
            return;
        }
        let atoms_where = |wanted: &dyn Fn(u64) -> bool| {
            count.standing.iter().filter(|standing| wanted(**standing)).count() as u64
        };
        self.certain += atoms_where(&|standing| standing == count.sets);
        self.some += atoms_where(&|standing| standing > 0 && standing < count.sets);
        self.none += atoms_where(&|standing| standing == 0);
        self.atoms += count.standing.len() as u64;
    }
}

/// What a book's line says behind its number; a count where it counts.
fn book_line(file: &File, limit: u64) -> (Vec<String>, Option<Count>, u64) {
    let refused = |number: u8| vec!["refused".to_string(), number.to_string()];
    let bytes = match file {
        File::Bytes(bytes) => bytes,
        File::Closed => return (refused(37), None, 0),
        File::Refused(number) => return (refused(*number), None, 0),
    };
    let book = match Book::read(bytes) {
        Ok(book) => book,
        Err(refusal) => return (refused(refusal.number), None, 0),
    };
    let (count, tries) = count(&book, limit);
    let count = match count {
        Some(count) => count,
        None => return (refused(9), None, tries),
    };
    let mut words = vec!["sets".to_string(), count.sets.to_string()];
    if count.sets > 0 {
        words.push("atoms".to_string());
        words.extend(count.standing.iter().map(|standing| standing.to_string()));
    }
    (words, Some(count), tries)
}

/// The table as lines of words, and the tries of all its walks.
pub fn table(files: &[File], limit: u64) -> (Vec<Vec<String>>, u64) {
    if files.len() > MOST_BOOKS {
        return (vec![vec!["refused".to_string(), "36".to_string()]], 0);
    }
    let mut lines = Vec::new();
    let mut without = vec!["without".to_string()];
    let mut totals = Totals::default();
    let mut spent = 0;
    for (place, file) in files.iter().enumerate() {
        let number = (place + 1).to_string();
        let (words, count, tries) = book_line(file, limit);
        spent += tries;
        if let Some(count) = count {
            totals.add(&count);
            if count.sets == 0 {
                without.push(number.clone());
            }
        }
        lines.push([vec![number], words].concat());
    }
    lines.push(without);
    lines.push(totals_line(&totals));
    (lines, spent)
}

fn totals_line(totals: &Totals) -> Vec<String> {
    let said = [
        ("certain", totals.certain),
        ("some", totals.some),
        ("none", totals.none),
        ("of", totals.atoms),
    ];
    said.iter().flat_map(|(word, number)| vec![word.to_string(), number.to_string()]).collect()
}
