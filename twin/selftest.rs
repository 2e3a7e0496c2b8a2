// Worked lines with answers written by hand, closings with their levels, and that the year is the
// one that is measured.

use crate::book::Book;
use crate::closing::{close, close_or_clash};
use crate::colouring::{Colouring, Side};
use crate::desk;
use crate::draft::Draft;
use crate::numbers::RuleNo;
use crate::rows::Rows;
use crate::set::Rules;
use crate::year;

/// Lines of document 01's worked books, of its refusals, and of what is no command.
const LINES: [(&str, &str); 24] = [
    ("find 1 1000 255 000000005242", "set 1"),
    ("find 2 1000 255 000000005242", "fewer 1 1 255"),
    ("find 1 1000 1 0000000000010103005242", "set 1 0"),
    ("find 1 0 1 0000000000010103005242", "limit 0"),
    ("find 1 1000 0 0000000000010103005242", "refused 8"),
    ("find 0 1000 0 0000000000010103005242", "refused 15"),
    ("find 1 1000 255 000001010100010000000400020208005242", "set 2 0"),
    ("find 2 1000 255 000001010100010000000400020208005242", "set 3 1"),
    ("find 3 1000 255 000001010100010000000400020208005242", "fewer 3 2 255"),
    ("find 1 1000 255 000001000000010104005242", "fewer 3 0 0"),
    ("find 1 1000 255 000100010101000000000400020208005242", "set 1"),
    ("find 1 1000 255 000000010101000100000300020208005242", "fewer 3 0 1"),
    ("find 1 1000 255 020100000201000100000101010001000000040008000c00030410005242", "set 7 0 2"),
    ("find 3 14 255 020100000201000100000101010001000000040008000C00030410005242", "limit 14"),
    ("find 0 0 0 -", "refused 1 0"),
    ("find 0 0 0 000000005243", "refused 2 4"),
    ("find 0 0 0 000101005242", "refused 3 2"),
    ("find 1 1 1 0100000000010103005242", "refused 6 0"),
    ("find 4294967296 1 1 000000005242", "bad line"),
    ("find 01 1 1 000000005242", "bad line"),
    ("find 1 1 65537 000000005242", "bad line"),
    ("find 1 1 1 00000000524", "bad line"),
    ("find 1 1 1", "bad line"),
    ("readings 000000005242", "bad line"),
];

/// The sum of the year's lines, with which every other year would differ.
const YEAR: u64 = 7_712_131_547_104_870_364;

pub fn run() -> Result<(), String> {
    for (line, answer) in LINES.iter() {
        expect(line, &desk::answer(line.as_bytes()).as_str(), answer)?;
    }
    closings()?;
    same_year()
}

fn expect<T: PartialEq + std::fmt::Debug>(what: &str, got: &T, due: &T) -> Result<(), String> {
    if got == due {
        return Ok(());
    }
    Err(format!("selftest: {}: {:?}, not {:?}", what, got, due))
}

/// Two choices, and two rules that hold each other up where the first one falls.
fn closings() -> Result<(), String> {
    let mut draft = Draft::new();
    let atoms = draft.new_atoms(7);
    draft.pair(atoms[0], atoms[1]);
    draft.rule(atoms[2], &[atoms[0]], &[]);
    draft.rule(atoms[2], &[atoms[3]], &[]);
    draft.rule(atoms[3], &[atoms[2]], &[]);
    draft.rule(atoms[4], &[], &[]);
    draft.pair(atoms[5], atoms[6]);
    let bytes = draft.bytes();
    let book = Book::read(&bytes).map_err(|refusal| format!("refused {}", refusal.number))?;
    let rows = Rows::new(&book);
    let mut c = close(&book, &rows, Rules::EMPTY, Rules::EMPTY);
    expect("the first closing", &told(&c), &(vec![5], vec![], vec![0; 8]))?;
    let mut other = c;
    let ended = close_or_clash(&book, &rows, &mut other, RuleNo(0), Side::On);
    expect("rule 0 on ends", &ended, &true)?;
    expect(
        "rule 0 on",
        &told(&other),
        &(vec![0, 2, 3, 4, 5], vec![1], vec![1, 1, 1, 1, 1, 0, 0, 0]),
    )?;
    close_or_clash(&book, &rows, &mut c, RuleNo(0), Side::Off);
    expect("rule 0 off", &told(&c), &(vec![1, 5], vec![0, 2, 3, 4], vec![1, 1, 1, 1, 1, 0, 0, 0]))?;
    close_or_clash(&book, &rows, &mut c, RuleNo(6), Side::On);
    expect(
        "rule 6 on",
        &told(&c),
        &(vec![1, 5, 6], vec![0, 2, 3, 4, 7], vec![1, 1, 1, 1, 1, 0, 2, 2]),
    )
}

/// The rules that are on, those that are off, and the levels of the eight rules.
fn told(c: &Colouring) -> (Vec<u8>, Vec<u8>, Vec<u8>) {
    let on = c.on.members().map(|r| r.0).collect();
    let off = c.off.members().map(|r| r.0).collect();
    (on, off, c.levels[..8].to_vec())
}

/// Every book of the year is good, and its lines are those that were measured (their sum, FNV-1a).
fn same_year() -> Result<(), String> {
    let mut lines = Vec::new();
    year::write(&mut lines).map_err(|trouble| trouble.to_string())?;
    for (day, book) in year::books().iter().enumerate() {
        let good = Book::read(book).is_ok();
        expect(&format!("the book of day {} is good", day), &good, &true)?;
    }
    let sum = lines.iter().fold(0xcbf2_9ce4_8422_2325, |sum: u64, byte| {
        (sum ^ u64::from(*byte)).wrapping_mul(0x0100_0000_01b3)
    });
    expect("the sum of the year's lines", &sum, &YEAR)
}
