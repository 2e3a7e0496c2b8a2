// Cases about the line itself: every kind of bad line, and good lines at the edge of it.

use crate::book::{Book, Rule};
use crate::cases::Cases;
use crate::cases_bad;
use crate::desk::{hex, MOST_BOOK, MOST_PAPER};

const BOOK: &str = "0000000000010103005242";
const PAPER: &str = "41004500000103005046";

pub const KINDS: [&str; 18] = [
    "empty line",
    "unknown command",
    "command in capitals",
    "word missing",
    "word too many",
    "two spaces",
    "space before",
    "space after",
    "tab",
    "carriage return",
    "odd number of digits",
    "no hexadecimal digit",
    "dash with digits",
    "leading zero",
    "sign",
    "no decimal digit",
    "number out of range",
    "too long for the buffers",
];

pub fn add(cases: &mut Cases) {
    edges(cases);
    words(cases);
    spaces(cases);
    bytes(cases);
    numbers(cases);
    lengths(cases);
    cases.bad("odd number of digits", b"readings 0");
}

/// The last line of all, which stands in the file without its line end.
pub fn add_last(cases: &mut Cases) {
    assert_eq!(cases.ask("find 1 7 0 000000005242"), "set 1");
}

/// Lines that are taken: no bytes, digits in either case, numbers at their ends.
fn edges(cases: &mut Cases) {
    for line in ["readings -", "find 1 1 1 -", "name 0 1 1 -", "check - -"] {
        assert_eq!(cases.ask(line).trim_end_matches('|'), "refused 1 0");
    }
    assert_eq!(cases.ask(&format!("check {} -", BOOK)), "refused 20 0");
    let mut book = Book { atoms: 255, rules: Vec::new() };
    for atom in 171..=175 {
        book.rules.push(Rule::new(atom, &[], &[]));
    }
    let lower = hex(&book.write());
    let (first, second) = lower.split_at(lower.len() / 2);
    let mixed = format!("{}{}", first.to_uppercase(), second);
    for digits in [lower.to_uppercase(), mixed, lower.clone()] {
        assert_eq!(cases.ask(&format!("find 1 1 255 {}", digits)), "set 1 171 172 173 174 175");
        assert!(cases.ask(&format!("name 175 1 65536 {}", digits)).starts_with("paper 1 "));
        cases.ask(&format!("readings {}", digits));
    }
    assert_eq!(cases.ask(&format!("check {} {}", BOOK, PAPER.to_uppercase())), "certain 0");
}

fn words(cases: &mut Cases) {
    cases.bad("empty line", b"");
    for line in ["look", "finds 1 1 1 -", "fin 1 1 1 -", "-", "set 1", "quit", "checking - -", "0"]
    {
        cases.bad("unknown command", line.as_bytes());
    }
    for command in ["FIND 1 1 1", "Find 1 1 1", "NAME 0 1 1", "Readings", "READINGS"] {
        cases.bad("command in capitals", format!("{} {}", command, BOOK).as_bytes());
    }
    cases.bad("command in capitals", format!("Check {} {}", BOOK, PAPER).as_bytes());
    for line in
        ["find", "find 1", "find 1 1", "find 1 1 1", "name", "name 0 1 1", "check", "readings"]
    {
        cases.bad("word missing", line.as_bytes());
    }
    cases.bad("word missing", format!("check {}", BOOK).as_bytes());
    cases.bad("word missing", format!("find 1 1 {}", BOOK).as_bytes());
    for line in good_lines() {
        cases.bad("word too many", format!("{} 1", line).as_bytes());
        cases.bad("word too many", format!("{} -", line).as_bytes());
    }
}

fn good_lines() -> Vec<String> {
    vec![
        format!("find 1 1000 1 {}", BOOK),
        format!("name 0 1000 100 {}", BOOK),
        format!("check {} {}", BOOK, PAPER),
        format!("readings {}", BOOK),
    ]
}

fn spaces(cases: &mut Cases) {
    for line in good_lines() {
        cases_bad::spaces(cases, &line);
    }
    cases.bad("two spaces", b"  ");
    cases.bad("space after", b"readings ");
    cases.bad("space after", b"find 1 1 1 ");
    cases.bad("space before", b" ");
    cases.bad("carriage return", b"\r");
}

fn bytes(cases: &mut Cases) {
    for command in ["find 1 1000 1", "name 0 1000 100", "readings"] {
        let mut put =
            |kind, digits: &str| cases.bad(kind, format!("{} {}", command, digits).as_bytes());
        put("odd number of digits", &BOOK[1..]);
        put("odd number of digits", &BOOK[..BOOK.len() - 1]);
        for digits in ["0g", "g0", "0x00", "00,00", "0 ", "zz", "/0", ":0", "@0", "`0", "G0"] {
            put("no hexadecimal digit", &format!("{}{}", digits, BOOK));
        }
        for digits in ["--", "-00", "00-", "-0", "0-"] {
            put("dash with digits", digits);
        }
        for byte in [0u8, 1, 0x7f, 0x80, 0xff] {
            let mut line = format!("{} {}", command, BOOK).into_bytes();
            let last = line.len() - 1;
            line[last] = byte;
            cases.bad("no hexadecimal digit", &line);
        }
    }
    for paper in ["0g", "zz", "41004g"] {
        cases.bad("no hexadecimal digit", format!("check {} {}", BOOK, paper).as_bytes());
    }
    cases.bad("odd number of digits", format!("check {} {}0", BOOK, PAPER).as_bytes());
    cases.bad("odd number of digits", format!("check {}0 {}", BOOK, PAPER).as_bytes());
    cases.bad("dash with digits", format!("check -- {}", PAPER).as_bytes());
    cases.bad("dash with digits", format!("check {} -45", BOOK).as_bytes());
}

/// Puts each odd number in each place of `find` and `name` where a number is due.
fn numbers(cases: &mut Cases) {
    let odd: [(&'static str, &[&str]); 4] = [
        ("leading zero", &["00", "01", "0001", "00000000001"]),
        ("sign", &["+1", "-1", "-0", "+0"]),
        ("no decimal digit", &["-", "a", "1a", "0x1", "1.0", "1,0", "1e1", "/", ":"]),
        (
            "number out of range",
            &[
                "4294967296",
                "4294967297",
                "9999999999",
                "10000000000",
                "18446744073709551616",
                "18446744073709551617",
                "340282366920938463463374607431768211457",
            ],
        ),
    ];
    for (kind, words) in odd {
        for word in words {
            for (command, place) in
                [("find", 1), ("find", 2), ("find", 3), ("name", 1), ("name", 2), ("name", 3)]
            {
                put_number(cases, kind, command, place, word);
            }
        }
    }
    for word in ["65537", "65538", "99999", "131072", "4294967295"] {
        put_number(cases, "number out of range", "find", 3, word);
        put_number(cases, "number out of range", "name", 3, word);
    }
    for word in ["256", "257", "300", "999", "512", "65536", "4294967295"] {
        put_number(cases, "number out of range", "name", 1, word);
    }
}

fn put_number(cases: &mut Cases, kind: &'static str, command: &str, place: usize, word: &str) {
    let mut words = [command, "0", "1", "1", BOOK];
    words[place] = word;
    cases.bad(kind, words.join(" ").as_bytes());
}

/// The longest book and paper that are taken, and one byte more.
fn lengths(cases: &mut Cases) {
    let book = "00".repeat(MOST_BOOK);
    let paper = "45".repeat(MOST_PAPER);
    for command in ["find 1 1 1", "name 0 1 1", "readings"] {
        let text = cases.ask(&format!("{} {}", command, book));
        assert_eq!(text.trim_end_matches('|'), "refused 1 0");
        let longer = format!("{} {}00", command, book);
        cases.bad("too long for the buffers", longer.as_bytes());
    }
    assert_eq!(cases.ask(&format!("check {} {}", book, paper)), "refused 1 0");
    assert_eq!(cases.ask(&format!("check {} {}", BOOK, paper)), "refused 20 0");
    let kind = "too long for the buffers";
    cases.bad(kind, format!("check {} {}45", BOOK, paper).as_bytes());
    cases.bad(kind, format!("check {}00 {}", book, PAPER).as_bytes());
    cases.bad(kind, format!("readings {}", "0".repeat(200_000)).as_bytes());
    cases.bad(kind, "0".repeat(40_000).as_bytes());
}
