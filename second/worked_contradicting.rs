// Worked lines on papers that a book has no answer set, with answers worked out by hand. `cases` and
// `selftest` hold the engine against them.

use crate::worked::{worked, Worked, CASES, CHOICE, CIRCLE, EMPTY, FACT, FACT_AND_ODD, ODD};
use crate::worked_requests::LATE_CLASH;

/// 0 if not 1; 1 if not 2; 2 if not 0.
const RING: &str = "00000101 01000102 02000100 0000 0400 0800 03030c00 5242";

const ODD_PAPER: &str = "5300 4200 45 4100 45 00000800 504e";

pub fn contradicting_lines() -> Vec<Worked> {
    let undone = "4100 5301 4201 45 4101 45 00000a00 504e";
    let late = "5300 4201 550100 45 5301 4100 45 4101 45 00001000 504e";
    let ring = "5300 4202 4101 4200 45 4102 4201 4100 45 00001000 504e";
    let paper = |tries: usize, bytes: &str| {
        let digits = bytes.replace(' ', "");
        format!("paper {} {} {}", tries, digits.len() / 2, digits)
    };
    let mut lines = vec![
        worked("contradict 1000 60000", &[ODD], &paper(3, ODD_PAPER)),
        worked("contradict 3 14", &[ODD], &paper(3, ODD_PAPER)),
        worked("contradict 2 60000", &[ODD], "limit 2"),
        worked("contradict 2 0", &[ODD], "limit 2"),
        worked("contradict 1000 13", &[ODD], "refused 14"),
        worked("check", &[ODD, ODD_PAPER], "none"),
        worked("contradict 1000 60000", &[FACT_AND_ODD], &paper(3, undone)),
        worked("check", &[FACT_AND_ODD, undone], "none"),
        worked("contradict 1000 60000", &[LATE_CLASH], &paper(5, late)),
        worked("check", &[LATE_CLASH, late], "none"),
        worked("contradict 4 60000", &[LATE_CLASH], "limit 4"),
        worked("contradict 1000 60000", &[RING], &paper(3, ring)),
        worked("check", &[RING, ring], "none"),
    ];
    lines.extend(with_readings());
    lines.extend(wrong_papers());
    lines
}

/// Books with a reading: the walk ends at the try at which finding gives the first.
fn with_readings() -> Vec<Worked> {
    vec![
        worked("contradict 1000 60000", &[EMPTY], "refused 38"),
        worked("contradict 0 60000", &[EMPTY], "limit 0"),
        worked("contradict 1 0", &[FACT], "refused 38"),
        worked("contradict 0 60000", &[FACT], "limit 0"),
        worked("contradict 1000 60000", &[CHOICE], "refused 38"),
        worked("contradict 2 0", &[CHOICE], "refused 38"),
        worked("contradict 1 60000", &[CHOICE], "limit 1"),
        worked("contradict 1 0", &[CIRCLE], "refused 38"),
        worked("contradict 7 0", &[CASES], "refused 38"),
        worked("contradict 6 0", &[CASES], "limit 6"),
    ]
}

/// The paper of "0 if not 0" under other marks, with an atom, with a witness, with a branch that is
/// not closed; and a 45 alone.
fn wrong_papers() -> Vec<Worked> {
    let steps = "5300 4200 45 4100 45";
    let with = |rest: &str| format!("{} {}", steps, rest);
    vec![
        worked("check", &[ODD, &with("00000800 5046")], "refused 27 8"),
        worked("check", &[ODD, &with("00000800 5043")], "refused 27 8"),
        worked("check", &[ODD, &with("00000800 504f")], "refused 21 12"),
        worked("check", &[ODD, &with("01000800 504e")], "refused 23 8"),
        worked("check", &[ODD, &with("ff000800 504e")], "refused 23 8"),
        worked("check", &[ODD, &with("00 00010800 504e")], "refused 27 8"),
        worked("check", &[ODD, &with("ff 00010800 504e")], "refused 27 8"),
        worked("check", &[ODD, &with("00 01010800 504e")], "refused 23 9"),
        worked("check", &[ODD, "5300 4200 45 45 00000600 504e"], "refused 25 5"),
        worked("check", &[ODD, "5300 4200 45 00000500 504e"], "refused 24 5"),
        worked("check", &[ODD, &format!("{} 45 00000900 504e", steps)], "refused 26 8"),
        worked("check", &[ODD, &format!("{} 45 00 00010900 504e", steps)], "refused 26 8"),
        worked("check", &[ODD, "45 00000100 504e"], "refused 25 0"),
        worked("check", &[EMPTY, "45 00000100 504e"], "refused 25 0"),
        worked("check", &[EMPTY, "45 01000100 504e"], "refused 23 1"),
        worked("check", &[EMPTY, "00000000 504e"], "refused 24 0"),
        worked("check", &[FACT, "410045 00000300 504e"], "refused 25 2"),
        worked("check", &[CHOICE, ODD_PAPER], "refused 25 2"),
    ]
}
