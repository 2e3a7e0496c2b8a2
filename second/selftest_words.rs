// The part of `selftest` about rules and steps in words: books written in words, plainly and in other
// layouts, read back as the same books, papers as the same bytes, and steps with an error are refused
// by the number of their line.

use crate::book::{Book, Rule};
use crate::claim::{certain, clear, Claim};
use crate::layout::{drawn_names, drawn_text};
use crate::numbers::{Atom, AtomSet};
use crate::paper::{write_paper, Written, LONGEST_PAPER};
use crate::random::Random;
use crate::steps::{read_steps, write_steps};
use crate::words::{plain_text, read_words, write_words, NamedBook};

/// Gives the number of books that went to words and back.
pub fn words_back(random: &mut Random, drawn: fn(&mut Random, usize) -> Book) -> usize {
    let count = 20_000;
    let mut layouts = Random::new(40);
    for number in 0..count {
        let book = drawn(random, number);
        let names = drawn_names(&mut layouts, book.atoms);
        let named = NamedBook { book, names };
        let plain = plain_text(&named.book, &named.names).expect("a name for each atom");
        assert_eq!(read_words(plain.as_bytes()).as_ref(), Ok(&named), "{}", plain);
        let text = drawn_text(&mut layouts, &named.book, &named.names);
        assert_eq!(read_words(&text).as_ref(), Ok(&named), "{}", String::from_utf8_lossy(&text));
        unlisted(&named);
    }
    count
}

/// Without the list the names are numbered as they appear; by their names the rules are the same, and
/// the plain form of what is read is read as the same again.
fn unlisted(named: &NamedBook) {
    let text = write_words(&named.book, Some(&named.names)).expect("a name for each atom");
    let back = read_words(text.as_bytes()).expect("its own words");
    let meant = |atom: Atom| {
        let name = &back.names[atom.0 as usize];
        Atom(named.names.iter().position(|n| n == name).expect("a name that was written") as u8)
    };
    let meant_set =
        |set: &AtomSet| set.members().fold(AtomSet::none(), |all, a| all.with(meant(a)));
    let meant_rule = |rule: &Rule| Rule {
        head: meant(rule.head),
        positive: meant_set(&rule.positive),
        negative: meant_set(&rule.negative),
    };
    let rules: Vec<Rule> = back.book.rules.iter().map(meant_rule).collect();
    assert_eq!(rules, named.book.rules);
    let plain = plain_text(&back.book, &back.names).expect("a name for each atom");
    assert_eq!(read_words(plain.as_bytes()), Ok(back));
}

/// Gives the number of papers that went to words and back.
pub fn steps_back(random: &mut Random, drawn: fn(&mut Random, usize) -> Book) -> usize {
    let mut count = 0;
    for number in 0..1_000 {
        let book = drawn(random, number);
        let about = (0..book.atoms as u8).flat_map(|atom| [certain(atom), clear(atom)]);
        for claim in about.chain([Claim::NoReading]) {
            let (written, _) = write_paper(&book, claim, 1_000, LONGEST_PAPER);
            if let Written::Paper { bytes, .. } = written {
                let text = write_steps(&bytes).expect("its own paper");
                assert_eq!(read_steps(&text).as_ref(), Ok(&bytes));
                count += 1;
            }
        }
    }
    assert_no_steps();
    count
}

fn assert_no_steps() {
    let by_hand = "# one step\n  on 0\nend\n\nwitness 0\nclaim 0";
    assert_eq!(read_steps(by_hand), Ok(b"\x41\0\x45\0\0\x01\x03\0PF".to_vec()));
    let clearing = "unfounded 0 1\nend\nwitness\nclear 0\n";
    assert_eq!(read_steps(clearing), Ok(b"\x55\x02\0\x01\x45\0\0\x05\0PC".to_vec()));
    assert_eq!(read_steps("end\nwitness\nnone"), Ok(b"\x45\0\0\x01\0PN".to_vec()));
    for (text, line) in [
        ("on", 1),
        ("on 0 1", 1),
        ("off 256", 1),
        ("# a note\n\nsplit 00", 3),
        ("end 0", 1),
        ("unfounded", 1),
        ("End", 1),
        ("claim 0", 1),
        ("clear 0", 1),
        ("witness\nend", 2),
        ("witness\nclaim", 2),
        ("witness\nclear 0 1", 2),
        ("witness\nclaim 0\nclaim 0", 3),
        ("witness\nclear 0\nclaim 0", 3),
        ("none", 1),
        ("witness\nnone 0", 2),
        ("witness\nnone\nnone", 3),
    ] {
        let trouble = read_steps(text).expect_err("meant to be refused");
        assert!(trouble.starts_with(&format!("line {}: ", line)), "{}", trouble);
    }
    for text in ["end", "end\nwitness"] {
        assert!(read_steps(text).is_err());
    }
    let no_mark: &[u8] = b"\0\0\0\0PE";
    let no_witness: &[u8] = b"\0\x01\0\0PF";
    let cut_short: &[u8] = b"\x41\0\0\x01\0PF";
    let empty_list: &[u8] = b"\x55\0\0\0\x02\0PF";
    let of_an_atom: &[u8] = b"\x45\x01\0\x01\0PN";
    for bytes in [&[], no_mark, no_witness, cut_short, empty_list, of_an_atom] {
        assert!(write_steps(bytes).is_err());
    }
}
