// The worked books of document 01 as lines for `desk`, with the answers printed there. Both are
// written by hand from the document; `cases` and `selftest` hold the engine against them.

use crate::desk::answer;

pub const EMPTY: &str = "000000005242";
pub const FACT: &str = "0000000000010103005242";
pub const CHOICE: &str = "000001010100010000000400020208005242";
pub const ODD: &str = "000001000000010104005242";
pub const CIRCLE: &str = "000100010101000000000400020208005242";
pub const FACT_AND_ODD: &str = "0000000101010001000003000202080052 42";
pub const CASES: &str = "02010000 02010001 00000101 01000100 0000 0400 0800 0c00 03041000 5242";
pub const SIX_RULES: &str = "000000 01010000 0201010103 0301010002 01010004 050201020305 \
                         0000 0300 0700 0c00 1100 1500 06061b00 5242";

/// A line and its answer.
pub type Worked = (String, String);

/// A line of these words and these bytes; blanks inside the bytes are for the eye and taken out.
pub fn worked(words: &str, bytes: &[&str], expected: &str) -> Worked {
    let mut line = words.to_string();
    for part in bytes {
        line.push(' ');
        line.push_str(&part.replace(' ', ""));
    }
    (line, expected.to_string())
}

pub fn worked_lines() -> Vec<Worked> {
    let mut lines = Vec::new();
    let mut say =
        |words: &str, bytes: &[&str], expected: &str| lines.push(worked(words, bytes, expected));
    say("find 1 1000 0", &[EMPTY], "set 1");
    say("find 2 1000 0", &[EMPTY], "fewer 1 1 255");
    say("find 1 1000 1", &[FACT], "set 1 0");
    say("find 1 0 1", &[FACT], "limit 0");
    say("name 0 1000 10", &[FACT], "paper 1 10 41004500000103005046");
    say("name 0 0 10", &[FACT], "limit 0");
    say("check", &[FACT, "410045 00 00010300 5046"], "certain 0");
    say("check", &[FACT, "45 00 00010100 5046"], "refused 25 0");
    say("find 1 1000 2", &[CHOICE], "set 2 0");
    say("find 2 1000 2", &[CHOICE], "set 3 1");
    say("name 0 1000 60000", &[CHOICE], "refused 12");
    say("find 1 1000 1", &[ODD], "fewer 3 0 0");
    say("name 0 1000 60000", &[ODD], "fewer 3 0 0");
    say("find 1 1000 2", &[CIRCLE], "set 1");
    say("check", &[CIRCLE, "410045 00000300 5046"], "refused 25 0");
    say("find 1 1000 2", &[FACT_AND_ODD], "fewer 3 0 1");
    say("find 1 1000 3", &[CASES], "set 7 0 2");
    say("find 3 1000 3", &[CASES], "fewer 15 2 1");
    say("readings", &[CASES], "rules 4 atoms 3|1: 0 2|2: 1 2|end 2 tries 15|");
    let paper = "5300 45 5301 45 5302 4100 45 4103 4101 45 0200 02021000 5046";
    say("name 2 1000 24", &[CASES], &format!("paper 7 24 {}", paper.replace(' ', "")));
    say("name 2 1000 23", &[CASES], "refused 14");
    say("check", &[CASES, paper], "certain 2");
    say("find 1 1000 6", &[SIX_RULES], "set 2 0 1 2");
    say("find 2 1000 6", &[SIX_RULES], "set 3 0 1 3");
    say("readings", &[SIX_RULES], "rules 6 atoms 6|1: 0 1 2|2: 0 1 3|end 2 tries 3|");
    say("readings", &[CHOICE], "rules 2 atoms 2|1: 0|2: 1|end 2 tries 3|");
    lines.extend(worked_sizes());
    lines
}

/// The sizes: a part of 16 and of 17, books of 9,441 and 9,442 bytes, a paper of 60,001.
fn worked_sizes() -> Vec<Worked> {
    let sixteen = "000102030405060708090a0b0c0d0e0f";
    let seventeen = "000102030405060708090a0b0c0d0e0f10";
    let part_16 = format!("001000{}0000110113005242", sixteen);
    let part_17 = format!("001100{}0000110114005242", seventeen);
    let record = format!("001010{}{}", sixteen, sixteen);
    let mut longest = record.repeat(255);
    for start in (0..255).map(|r| 35 * r) {
        longest.push_str(&format!("{:02x}{:02x}", start % 256, start / 256));
    }
    longest.push_str("10ffdd225242");
    let expect = |line: String, expected: &str| (line, expected.to_string());
    vec![
        expect(format!("find 1 1000 17 {}", part_16), "set 1"),
        expect(format!("find 1 1000 17 {}", part_17), "refused 5 0"),
        expect(format!("find 1 1000 16 {}", longest), "set 1"),
        expect(format!("find 1 1000 16 00{}", longest), "refused 1 0"),
        expect(format!("check {} {}", FACT, "45".repeat(60_001)), "refused 20 0"),
    ]
}

/// Panics at the first of these lines that comes out otherwise; gives their number.
pub fn assert_worked(lines: &[Worked]) -> usize {
    for (line, expected) in lines {
        assert_eq!(&answer(line.as_bytes()).text, expected, "worked book: {:.200}", line);
    }
    lines.len()
}
