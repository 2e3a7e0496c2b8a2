// What the program `readings` prints for a book.

use crate::book::Book;
use crate::closing::Support;
use crate::numbers::AtomSet;
use crate::walk::{walk, Visit, WalkEnd};
use std::io::{Result, Write};

pub const LISTING_LIMIT: u64 = 1_000_000;

/// Writes the listing and gives back the tries that it took.
pub fn write_readings(bytes: &[u8], limit: u64, out: &mut dyn Write) -> Result<u64> {
    let book = match Book::read(bytes) {
        Ok(book) => book,
        Err(refusal) => {
            let place = refusal.place.expect("a book is refused with a place");
            writeln!(out, "refused {} {}", refusal.number, place)?;
            return Ok(0);
        }
    };
    writeln!(out, "rules {} atoms {}", book.rules.len(), book.atoms)?;
    let mut sets = 0u64;
    let mut trouble = Ok(());
    let walked = walk(&book, limit, Support::Kept, &mut |colouring, _| {
        sets += 1;
        trouble = write_set(sets, &book.heads(&colouring.on), out);
        if trouble.is_ok() {
            Visit::GoOn
        } else {
            Visit::Stop
        }
    });
    trouble?;
    match walked.end {
        WalkEnd::Limit => writeln!(out, "stopped {} tries {}", sets, limit)?,
        _ => writeln!(out, "end {} tries {}", sets, walked.tries)?,
    }
    Ok(walked.tries)
}

fn write_set(number: u64, set: &AtomSet, out: &mut dyn Write) -> Result<()> {
    write!(out, "{}:", number)?;
    for atom in set.members() {
        write!(out, " {}", atom.0)?;
    }
    writeln!(out)
}
