// Cases of request 10: texts with free choices, good ones, cut at every byte, damaged at every word,
// and at the limits that the helpers bring.

use crate::cases::Cases;
use crate::cases_lparse::{cut, damaged};
use crate::desk::hex;
use crate::lparse::import;
use crate::random::Random;
use crate::selftest_lparse::{drawn_text, free, write_text};
use crate::worked_requests::choice_lines;

const SEED: u64 = 10;
const ROSTER: &str = "1 2 0 0\n3 2 3 4 2 1 4 2\n3 1 3 0 0\n0\n3 a\n0\nB+\n3\n0\nB-\n4\n0\n1\n";

pub fn add(cases: &mut Cases) {
    cases.worked(&choice_lines());
    let mut random = Random::new(SEED);
    cut(cases, ROSTER);
    damaged(cases, ROSTER);
    for _ in 0..120 {
        let mut text = drawn_text(&mut random);
        free(&mut text, &mut random);
        let bytes = write_text(&text, &mut random);
        let book = import(&bytes, 65_536).expect("a small text");
        assert_eq!(cases.lparse(book.len(), &bytes), format!("book {}", hex(&book)));
        assert_eq!(cases.lparse(book.len() - 1, &bytes), "refused 32");
    }
    limits(cases);
}

/// Heads, helpers, rules and negatives exact and one over.
fn limits(cases: &mut Cases) {
    let table = |atoms: usize| (1..=atoms).map(|a| format!("{} a ", a)).collect::<String>();
    let numbers = |count: usize| (1..=count).map(|a| format!(" {}", a)).collect::<String>();
    let end = "0 0 B+ 0 B- 0 1";
    let mut put = |text: String, fits: bool| {
        let answer = cases.lparse(65_536, text.as_bytes());
        assert_eq!(answer != "refused 32", fits, "{:.200}", text);
        assert!(answer == "refused 32" || answer.starts_with("book "));
    };
    put(format!("3 127{} 0 0 {}", numbers(127), end), true);
    put(format!("3 127{} 0 0 0 0 B+ 1 0 B- 0 1", numbers(127)), true);
    put(format!("3 127{} 0 0 0 0 B+ 1 1 0 B- 0 1", numbers(127)), false);
    put(format!("3 128{} 0 0 {}", numbers(128), end), false);
    put(format!("3 127{} 0 0 {}", " 5".repeat(127), end), true);
    put(format!("3 128{} 0 0 {}", " 5".repeat(128), end), false);
    put(format!("3 30000{} 0 0 {}", " 5".repeat(30_000), end), false);
    put(format!("3 2 1 2 0 0 0 {}0 B+ 0 B- 0 1", table(253)), true);
    put(format!("3 2 1 2 0 0 0 {}0 B+ 0 B- 0 1", table(254)), false);
    put(format!("3 2 1 2 0 0 0 {}0 B+ 0 B- 9 0 1", table(252)), true);
    put(format!("3 2 1 2 0 0 0 {}0 B+ 0 B- 9 0 1", table(253)), false);
    for (count, fits) in [(15, true), (16, false)] {
        put(format!("3 1 99 {} {}{} {}", count, count, numbers(count), end), fits);
    }
    for (count, fits) in [(16, true), (17, false)] {
        put(format!("3 1 99 {} 0{} {}", count, numbers(count), end), fits);
        put(format!("1 99 {} {}{} {}", count, count, numbers(count), end), fits);
    }
    let wrong = format!("3 128{} 0 0 0 0 B+ 0 B- 0 x", numbers(128));
    let place = wrong.len() - 1;
    assert_eq!(cases.lparse(0, wrong.as_bytes()), format!("refused 30 {}", place));
}
