// Worked lines of the change requests, with answers worked out by hand from their text. `cases` and
// `selftest` hold the engine against them.

use crate::desk::hex;
use crate::worked::{
    worked, Worked, CASES, CHOICE, CIRCLE, EMPTY, FACT, FACT_AND_ODD, ODD, SIX_RULES,
};

/// 0 if 0; 0 if not 0.
pub const LATE_CLASH: &str = "00010000 00000100 0000 0400 01020800 5242";

/// 0 if not 1; 1 if 1.
pub const HELD_BY_ITSELF: &str = "000001010101000100000400020208005242";

/// Three pairs: 0 if not 1; 1 if not 0; 2 if not 3; and so on.
pub const HELPERS: &str = "00000101 01000100 02000103 03000102 04000105 05000104 \
                           0000 0400 0800 0c00 1000 1400 06061800 5242";

/// Request 2: papers that clear.
pub fn clearing_lines() -> Vec<Worked> {
    let circle = "5502000145 00000500 5043";
    let six = "4100 4101 550104 5302 4203 550105 45 4103 550105 45 000102 05031500 5043";
    let paper = |tries: usize, bytes: &str| {
        let digits = bytes.replace(' ', "");
        format!("paper {} {} {}", tries, digits.len() / 2, digits)
    };
    vec![
        worked("clear 0 1000 60000", &[CIRCLE], &paper(1, circle)),
        worked("check", &[CIRCLE, circle], "clear 0"),
        worked("check", &[CIRCLE, "5502000145 00000500 5046"], "refused 25 4"),
        worked("check", &[CIRCLE, "45 00000100 5043"], "refused 25 0"),
        worked("clear 0 1000 60000", &[FACT], "refused 18"),
        worked("clear 0 1000 60000", &[CHOICE], "refused 18"),
        worked("clear 0 1000 60000", &[ODD], "fewer 3 0 0"),
        // Atom 4 has no rule.
        worked("clear 4 1000 60000", &[SIX_RULES], &paper(1, "45 000102 04030100 5043")),
        worked("check", &[SIX_RULES, "45 000102 04030100 5043"], "clear 4"),
        worked("check", &[SIX_RULES, "45 000102 04030100 5046"], "refused 25 0"),
        worked("clear 5 1000 60000", &[SIX_RULES], &paper(3, six)),
        worked("check", &[SIX_RULES, six], "clear 5"),
        worked("clear 5 2 60000", &[SIX_RULES], "limit 2"),
        worked("clear 5 1000 30", &[SIX_RULES], &paper(3, six)),
        worked("clear 5 1000 29", &[SIX_RULES], "refused 14"),
        worked("clear 6 1000 60000", &[SIX_RULES], "refused 13"),
        worked("check", &[FACT, "410045 00 00010300 5043"], "refused 25 2"),
        worked("check", &[FACT, "410045 00 00010300 5044"], "refused 21 8"),
    ]
}

/// Request 5: which rule clashed last, 255 where no try was contradictory.
pub fn clash_lines() -> Vec<Worked> {
    vec![
        worked("find 2 1000 0", &[EMPTY], "fewer 1 1 255"),
        worked("find 3 1000 2", &[CHOICE], "fewer 3 2 255"),
        worked("find 1 1000 1", &[ODD], "fewer 3 0 0"),
        worked("name 0 1000 60000", &[ODD], "fewer 3 0 0"),
        worked("clear 0 1000 60000", &[ODD], "fewer 3 0 0"),
        worked("find 2 1000 2", &[CIRCLE], "fewer 1 1 255"),
        worked("find 1 1000 2", &[FACT_AND_ODD], "fewer 3 0 1"),
        worked("name 0 1000 60000", &[FACT_AND_ODD], "fewer 3 0 1"),
        worked("clear 1 1000 60000", &[FACT_AND_ODD], "fewer 3 0 1"),
        worked("find 3 1000 3", &[CASES], "fewer 15 2 1"),
        worked("find 3 1000 6", &[SIX_RULES], "fewer 3 2 255"),
        // The last closing finds rule 1 in both sets first, and rule 0 at its end.
        worked("find 1 1000 1", &[LATE_CLASH], "fewer 5 0 0"),
        worked("name 0 1000 60000", &[LATE_CLASH], "fewer 5 0 0"),
        worked("clear 0 1000 60000", &[LATE_CLASH], "fewer 5 0 0"),
    ]
}

/// Request 8: what the first closing settles, and each rule's level in the k-th reading.
pub fn level_lines() -> Vec<Worked> {
    vec![
        worked("levels", &[FACT_AND_ODD], "levels on 0 off true 0 false"),
        worked("levels", &[CIRCLE], "levels on off 0 1 true false 0 1"),
        worked("levels", &[SIX_RULES], "levels on 0 1 off 4 true 0 1 false 4"),
        worked("levels", &[CHOICE], "levels on off true false"),
        worked("levels", &[EMPTY], "levels on off true false"),
        worked("levels", &["03000000 5242"], "levels on off true false 0 1 2"),
        worked("levelsk 1 1000 2", &[CHOICE], "levels 2 1 1"),
        worked("levelsk 2 1000 2", &[CHOICE], "levels 3 1 1"),
        worked("levelsk 1 1000 4", &[CASES], "levels 7 1 2 3 3"),
        worked("levelsk 2 1000 4", &[CASES], "levels 12 1 2 3 3"),
        worked("levelsk 1 1000 6", &[SIX_RULES], "levels 2 0 0 1 1 0 1"),
        worked("levelsk 2 1000 6", &[SIX_RULES], "levels 3 0 0 1 1 0 1"),
        worked("levelsk 1 1000 0", &[EMPTY], "levels 1"),
        worked("levelsk 1 1000 1", &[ODD], "fewer 3 0 0"),
        worked("levelsk 3 1000 4", &[CASES], "fewer 15 2 1"),
        worked("levelsk 2 11 4", &[CASES], "limit 11"),
        worked("levelsk 0 1000 0", &[CASES], "refused 15"),
        worked("levelsk 1 1000 3", &[CASES], "refused 8"),
    ]
}

/// Request 3: readings that differ in a shown atom.
pub fn shown_lines() -> Vec<Worked> {
    vec![
        worked("shown 1 1000 6", &["0001", HELPERS], "set 4 0 2 4"),
        worked("shown 2 1000 6", &["0001", HELPERS], "set 11 1 2 4"),
        worked("shown 3 1000 6", &["0001", HELPERS], "fewer 15 2 255"),
        worked("shown 3 14 6", &["0001", HELPERS], "limit 14"),
        worked("shown 9 1000 6", &["000102030405", HELPERS], "fewer 15 8 255"),
        worked("shown 2 1000 6", &["-", HELPERS], "fewer 15 1 255"),
        // The last pair is shown: each reading differs from the one just before.
        worked("shown 1 1000 6", &["0405", HELPERS], "set 4 0 2 4"),
        worked("shown 2 1000 6", &["0405", HELPERS], "set 5 0 2 5"),
        worked("shown 3 1000 6", &["0405", HELPERS], "fewer 15 2 255"),
        worked("shown 1 1000 6", &["0100", HELPERS], "refused 16"),
        worked("shown 1 1000 6", &["0000", HELPERS], "refused 16"),
        worked("shown 1 1000 6", &["06", HELPERS], "refused 16"),
        worked("shown 0 1000 6", &["06", HELPERS], "refused 15"),
        worked("shown 1 1000 5", &["06", HELPERS], "refused 16"),
        worked("shown 1 1000 5", &["01", HELPERS], "refused 8"),
        worked("shown 2 1000 3", &["02", CASES], "fewer 15 1 1"),
        worked("shown 2 1000 3", &["00", CASES], "set 12 1 2"),
    ]
}

/// Request 6: the noMoRe way of choosing. A reading takes one try more, for its test.
pub fn nomore_lines() -> Vec<Worked> {
    vec![
        worked("nomore 1 1000 0", &[EMPTY], "set 2"),
        worked("nomore 1 1 0", &[EMPTY], "limit 1"),
        worked("nomore 2 1000 0", &[EMPTY], "fewer 2 1 255"),
        worked("nomore 1 1000 1", &[FACT], "set 2 0"),
        worked("nomore 1 1 1", &[FACT], "limit 1"),
        worked("nomore 1 1000 2", &[CHOICE], "set 3 0"),
        worked("nomore 2 1000 2", &[CHOICE], "set 5 1"),
        worked("nomore 3 1000 2", &[CHOICE], "fewer 5 2 255"),
        worked("nomore 1 1000 1", &[ODD], "fewer 3 0 0"),
        worked("nomore 1 1000 2", &[CIRCLE], "set 2"),
        worked("nomore 1 1000 3", &[CASES], "set 3 0 2"),
        worked("nomore 2 1000 3", &[CASES], "set 5 1 2"),
        worked("nomore 3 1000 3", &[CASES], "fewer 5 2 255"),
        worked("nomore 1 1000 6", &[SIX_RULES], "set 3 0 1 2"),
        worked("nomore 2 1000 6", &[SIX_RULES], "set 5 0 1 3"),
        worked("nomore 3 1000 6", &[SIX_RULES], "fewer 5 2 255"),
        worked("nomore 1 1000 2", &[HELD_BY_ITSELF], "set 3 0"),
        // The test of the off side fails with rule 0.
        worked("nomore 2 1000 2", &[HELD_BY_ITSELF], "fewer 5 1 0"),
        worked("nomore 2 4 2", &[HELD_BY_ITSELF], "limit 4"),
        worked("nomore 0 1000 0", &[CHOICE], "refused 15"),
        worked("nomore 1 1000 1", &[CHOICE], "refused 8"),
    ]
}

/// Request 9: two crews, one log.
pub fn crew_lines() -> Vec<Worked> {
    let fact_choice = "000000010001020200010100000300070003030b005242";
    let choice_fact = "000001010100010002000000000400080003030b005242";
    let odd_twice = "000001000100010100000400020208005242";
    let said = |word: &str, book: &str| format!("{} {}", word, book);
    vec![
        worked("join 23", &[FACT, CHOICE], &said("book", fact_choice)),
        worked("join 22", &[FACT, CHOICE], "refused 19"),
        worked("join 65536", &[CHOICE, FACT], &said("book", choice_fact)),
        worked("join 18", &[EMPTY, CHOICE], &said("book", CHOICE)),
        worked("join 18", &[CHOICE, EMPTY], &said("book", CHOICE)),
        worked("join 6", &[EMPTY, EMPTY], &said("book", EMPTY)),
        worked("join 0", &["80000000 5242", "80000000 5242"], "refused 17"),
        worked("join 0", &["5242", "52"], "book1 refused 1 0"),
        worked("join 0", &[FACT, "5242"], "book2 refused 1 0"),
        worked("log 10 10 100", &[FACT, CHOICE], &said("both", fact_choice)),
        worked("log 0 10 100", &[FACT, CHOICE], "limit 0"),
        worked("log 10 1 100", &[ODD, CHOICE], "limit 1"),
        worked("log 2 2 100", &[ODD, ODD], "limit 2"),
        worked("log 2 1 100", &[ODD, ODD], "limit 2"),
        worked("log 10 10 100", &[ODD, ODD], &said("none-in-either", odd_twice)),
        worked("log 3 1 100", &[ODD, EMPTY], &said("none-in-first", &ODD.replace(' ', ""))),
        worked("log 1 3 100", &[EMPTY, ODD], &said("none-in-second", &ODD.replace(' ', ""))),
        worked("log 0 0 0", &[EMPTY, ODD], "refused 19"),
    ]
}

/// Request 13: the quarterly table.
pub fn table_lines() -> Vec<Worked> {
    let none = "without|certain 0 some 0 none 0 of 0|";
    vec![
        worked("table", &[], none),
        worked(
            "table",
            &[FACT, CHOICE, ODD, HELD_BY_ITSELF],
            "1 sets 1 atoms 1|2 sets 2 atoms 1 1|3 sets 0|4 sets 1 atoms 1 0|without 3|\
             certain 2 some 2 none 1 of 5|",
        ),
        worked("table", &["-"], &format!("1 refused 1|{}", none)),
        worked("table", &["?"], &format!("1 refused 37|{}", none)),
        worked("table", &[ODD, ODD], "1 sets 0|2 sets 0|without 1 2|certain 0 some 0 none 0 of 0|"),
        worked("table", &[EMPTY], "1 sets 1 atoms|without|certain 0 some 0 none 0 of 0|"),
        worked(
            "table",
            &[CHOICE, "?", FACT, FACT, "5242"],
            "1 sets 2 atoms 1 1|2 refused 37|3 sets 1 atoms 1|4 sets 1 atoms 1|5 refused 1|\
             without|certain 2 some 2 none 0 of 4|",
        ),
    ]
}

/// A text and its answer, with ample room.
fn lparse(text: &str, expected: &str) -> Worked {
    worked("lparse 65536", &[&hex(text.as_bytes())], expected)
}

/// Request 1: books from the grounder.
pub fn lparse_lines() -> Vec<Worked> {
    let first = "1 2 1 1 3\n1 3 1 1 2\n0\n2 a\n3 b\n0\nB+\n0\nB-\n1\n0\n1\n";
    let plus = "1 2 1 1 3\n1 3 1 1 2\n0\n2 a\n3 b\n0\nB+\n2\n0\nB-\n0\n1\n";
    vec![
        lparse(first, "book 0100010202000101030101000300000400080004030d005242"),
        lparse(plus, "book 0000010101000100020002000200000400080003030d005242"),
        lparse("0 0 B+ 0 B- 0 1", "book 000000005242"),
        lparse("1 7 4 2 9 9 7 7 0 0 B+ 0 B- 0 1", "book 00010100010000020105005242"),
        lparse("0 4 p(\"a b\") 0 B+ 0 B- 0 1", "book 010000005242"),
        lparse("2 3 0 0", "refused 31 0"),
        lparse("91 2 0\n1 x", "refused 31 0"),
        lparse("1 2 0", "refused 30 5"),
        lparse("1 2 1 2", "refused 30 6"),
        lparse("1 0 0 0", "refused 30 2"),
        lparse("0 0 B- 0", "refused 30 4"),
        lparse("1 4294967296 0 0", "refused 30 2"),
        lparse("", "refused 30 0"),
        lparse("0 0 B+ 0 B- 0 1 1", "refused 30 16"),
        lparse(&first[..22], "refused 30 22"),
        lparse(&first[..33], "refused 30 32"),
    ]
}

/// Request 10: free choices in a text.
pub fn choice_lines() -> Vec<Worked> {
    let two = "0100010303000101020001040400010205010100050000040008000c001000060515005242";
    let leaning = "00010100010100010000000500020209005242";
    let twice = "000001010100010000000102020001000000040008000c00030410005242";
    let free = "3 2 2 3 0 0\n0\n2 a\n3 b\n0\nB+\n0\nB-\n1\n0\n1\n";
    let end = "0 0 B+ 0 B- 0 1";
    vec![
        lparse(free, &format!("book {}", two)),
        // What is in needs a rule that doesn't lean on itself: one reading, without a.
        lparse("3 1 2 1 0 2\n0\n2 a\n0\nB+\n0\nB-\n0\n1\n", &format!("book {}", leaning)),
        worked("readings", &[leaning], "rules 2 atoms 2|1: 1|end 1 tries 1|"),
        lparse(&format!("3 1 2 0 0 {}", end), &format!("book {}", CHOICE)),
        lparse(&format!("3 2 5 5 0 0 {}", end), &format!("book {}", twice)),
        lparse("3 0 0 0", "refused 30 2"),
        lparse("3 1 0 0 0", "refused 30 4"),
        lparse("3 4294967295 2 2", "refused 30 16"),
        lparse("2 1 2 0 0", "refused 31 0"),
    ]
}

/// Request 12: a book for other solvers, and back.
pub fn aspif_lines() -> Vec<Worked> {
    let empty = "6173702031203020300a300a";
    let choice = "asp 1 0 0\n1 0 1 1 0 1 -2\n1 0 1 2 0 1 -1\n4 2 x0 1 1\n4 2 x1 1 2\n0\n";
    let back =
        |text: &str, expected: &str| worked("unaspif 65536", &[&hex(text.as_bytes())], expected);
    let changed = |from: &str, to: &str| back(&choice.replacen(from, to, 1), "refused 34");
    let two = "asp 1 0 0\n1 0 1 1 0 2 1 -2\n4 2 x0 1 1\n4 2 x1 1 2\n0\n";
    vec![
        worked("aspif 12", &[EMPTY], &format!("text {}", empty)),
        worked("aspif 11", &[EMPTY], "refused 33"),
        worked("aspif 65536", &[CHOICE], &format!("text {}", hex(choice.as_bytes()))),
        back(choice, &format!("book {}", CHOICE)),
        worked("unaspif 18", &[&hex(choice.as_bytes())], &format!("book {}", CHOICE)),
        worked("unaspif 17", &[&hex(choice.as_bytes())], "refused 35"),
        worked("unaspif 6", &[empty], &format!("book {}", EMPTY)),
        worked("unaspif 5", &[empty], "refused 35"),
        back(&choice[..choice.len() - 1], "refused 34"),
        changed("asp 1", "asp 01"),
        changed("4 2 x0 1 1\n4 2 x1 1 2\n", "4 2 x1 1 2\n4 2 x0 1 1\n"),
        changed("0 1 -2", "0 2 -2"),
        changed("1 -2", "1 -3"),
        back(two, "book 00010100010000020105005242"),
        back(&two.replacen("1 -2", "-1 2", 1), "refused 34"),
        back(&two.replacen("1 -2", "2 1", 1), "refused 34"),
        back("", "refused 34"),
        back(&choice.replacen("1 1 0", &format!("1 {} 0", "9".repeat(40)), 1), "refused 34"),
    ]
}
