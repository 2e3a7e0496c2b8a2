// A year of books, one a day, always the same: four kinds in turn, growing over the year, then
// those of examples/. Each is asked for a reading that it does not have, so that its whole walk is
// gone, or 5,000 tries of it.

use crate::draft::Draft;
use crate::kinds::{blame, chance, conflicts, roster, Season};
use crate::random::Random;
use std::fmt::Write as _;
use std::io::{self, Write};

const SEED: u64 = 14;
const DAYS: usize = 364;
const ASKED: &str = "find 4294967295 5000 255";

const EXAMPLES: [&[u8]; 12] = [
    include_bytes!("../examples/127-pairs.book"),
    include_bytes!("../examples/bureau.book"),
    include_bytes!("../examples/contradiction.book"),
    include_bytes!("../examples/deepest-paper.book"),
    include_bytes!("../examples/deepest-walk.book"),
    include_bytes!("../examples/either-hand.book"),
    include_bytes!("../examples/either-way.book"),
    include_bytes!("../examples/holding-up.book"),
    include_bytes!("../examples/no-paper.book"),
    include_bytes!("../examples/shift-change.book"),
    include_bytes!("../examples/sixteen-pairs.book"),
    include_bytes!("../examples/two-readings.book"),
];

/// One of the kinds of book.
type Kind = fn(Season, &mut Random) -> Draft;

const KINDS: [Kind; 4] = [roster, blame, conflicts, chance];

/// The book of each day.
pub fn books() -> Vec<Vec<u8>> {
    let mut random = Random::new(SEED);
    let days = DAYS - EXAMPLES.len();
    let mut books: Vec<Vec<u8>> = (0..days).map(|day| book_of(day, days, &mut random)).collect();
    books.extend(EXAMPLES.iter().map(|book| book.to_vec()));
    books
}

/// Every other week somebody has put the rules in another order.
fn book_of(day: usize, days: usize, random: &mut Random) -> Vec<u8> {
    let season = Season { turn: day / KINDS.len(), turns: days / KINDS.len() };
    let mut draft = KINDS[day % KINDS.len()](season, random);
    if day / 7 % 2 == 1 {
        draft.shuffle(random);
    }
    draft.bytes()
}

/// The lines to ask `desk`.
pub fn write(out: &mut dyn Write) -> io::Result<()> {
    for book in books() {
        let mut digits = String::new();
        for byte in book {
            write!(digits, "{:02x}", byte).expect("a string takes all");
        }
        writeln!(out, "{} {}", ASKED, digits)?;
    }
    out.flush()
}
