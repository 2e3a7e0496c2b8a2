// Worked lines of `words`, with answers worked out by hand from the description of the text. `cases`
// and `selftest` hold the reader against them.

use crate::desk::hex;
use crate::worked::{worked, Worked, CASES, CHOICE, CIRCLE, EMPTY, FACT, FACT_AND_ODD};

/// A text and its answer, with ample room.
fn text(words: &str, expected: &str) -> Worked {
    worked("words 65536", &[&hex(words.as_bytes())], expected)
}

/// A text, its book and the names of the atoms.
fn made(words: &str, book: &str, names: &str) -> Worked {
    text(words, &format!("book {}{}", book.replace(' ', ""), names))
}

pub fn word_lines() -> Vec<Worked> {
    let mut lines = books();
    lines.extend(refusals());
    lines
}

fn books() -> Vec<Worked> {
    let either = "anna if not bea\nbea if not anna\n";
    let listed = "atoms: anna\r\n  atoms: bea\r\n\r\nanna unless bea or bea\r\nbea if not anna\r\n";
    let cases = "atoms: anna bea carl\ncarl if anna\ncarl if bea\nanna if not bea\nbea if not anna";
    let order = "atoms: a b c\n# both\na  if c and not c and b and c unless a or c\nb";
    vec![
        made("", EMPTY, ""),
        made("\n \t\r\n# a note: if if\n #\n", EMPTY, ""),
        made("atoms:", EMPTY, ""),
        made("atoms: anna", "010000005242", " anna"),
        made("anna", FACT, " anna"),
        made("\tanna \r\n", FACT, " anna"),
        made("atoms: anna\nanna", FACT, " anna"),
        made(either, CHOICE, " anna bea"),
        made("anna unless bea\nbea unless anna", CHOICE, " anna bea"),
        made(listed, CHOICE, " anna bea"),
        made("anna if bea and bea\nbea if anna", CIRCLE, " anna bea"),
        made("x\ny if x unless y", FACT_AND_ODD, " x y"),
        made("x\ny if x and not y and x unless y", FACT_AND_ODD, " x y"),
        made(cases, CASES, " anna bea carl"),
        made(order, "00020201020002 010000 0000 0700 03020a00 5242", " a b c"),
        made("a if a", "00010000 0000 01010400 5242", " a"),
        made("Anna unless anna", "00000101 0000 02010400 5242", " Anna anna"),
        made("_-'9", FACT, " _-'9"),
        made("atoms", FACT, " atoms"),
        made("Unless", FACT, " Unless"),
        worked("words 18", &[&hex(either.as_bytes())], &format!("book {} anna bea", CHOICE)),
        worked("words 17", &[&hex(either.as_bytes())], "refused 43"),
        worked("words 6", &["-"], &format!("book {}", EMPTY)),
        worked("words 5", &["-"], "refused 43"),
    ]
}

fn refusals() -> Vec<Worked> {
    vec![
        text("if", "refused 40 0"),
        text("or", "refused 40 0"),
        text("not anna", "refused 40 0"),
        text("anna bea", "refused 40 5"),
        text("anna if", "refused 40 7"),
        text("anna if \r\nbea", "refused 40 9"),
        text("anna unless", "refused 40 11"),
        text("anna if not", "refused 40 11"),
        text("anna if not not bea", "refused 40 12"),
        text("anna if bea and", "refused 40 15"),
        text("anna if bea carl", "refused 40 12"),
        text("anna if bea or carl", "refused 40 12"),
        text("anna unless bea and carl", "refused 40 16"),
        text("anna unless not bea", "refused 40 12"),
        text("anna unless bea unless carl", "refused 40 16"),
        text("anna unless bea if carl", "refused 40 16"),
        text("anna # a note", "refused 40 5"),
        text("7up", "refused 40 0"),
        text("anna if 7", "refused 40 8"),
        text("j\u{fc}rgen", "refused 40 0"),
        text("anna.", "refused 40 0"),
        text("atoms : anna", "refused 40 6"),
        text("atoms: anna\nanna\natoms: bea", "refused 40 17"),
        text("atoms: anna if", "refused 40 12"),
        text("atoms: anna # a note", "refused 40 12"),
        text("atoms: anna\nana", "refused 41 12"),
        text("atoms: anna\nanna if Anna", "refused 41 20"),
        text("atoms: anna\nanna unless anna or bea", "refused 41 32"),
        text("atoms:\nanna", "refused 41 7"),
        text("atoms: anna bea anna", "refused 41 16"),
        text("atoms: anna\natoms: anna", "refused 41 19"),
        // The first word that is wrong decides.
        text("atoms: anna\nbea if", "refused 41 12"),
        text("atoms: anna\nanna if\nbea", "refused 40 19"),
    ]
}
