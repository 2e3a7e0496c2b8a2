// Bad lines of one command, made from a good line of it: a word missing or too many, wrongly parted
// words, numbers and bytes that are none.

use crate::cases::Cases;

/// What a word of a command is: a number up to a most, or bytes up to so many.
#[derive(Clone, Copy)]
pub enum Word {
    Number(u64),
    Bytes(usize),
}

/// `line` is good; `words` says what its words are, the command itself left out.
pub fn add(cases: &mut Cases, line: &str, words: &[Word]) {
    assert_eq!(line.split(' ').count(), words.len() + 1);
    cases.ask(line);
    parted(cases, line);
    for (number, word) in words.iter().enumerate() {
        match word {
            Word::Number(most) => bad_numbers(cases, line, number + 1, *most),
            Word::Bytes(most) => bad_bytes(cases, line, number + 1, *most),
        }
    }
}

fn parted(cases: &mut Cases, line: &str) {
    let (command, rest) = line.split_once(' ').expect("a command with words");
    let (shorter, _) = line.rsplit_once(' ').expect("a command with words");
    cases.bad("word missing", command.as_bytes());
    cases.bad("word missing", shorter.as_bytes());
    cases.bad("word too many", format!("{} 1", line).as_bytes());
    cases.bad("word too many", format!("{} -", line).as_bytes());
    let capitals = format!("{} {}", command.to_uppercase(), rest);
    cases.bad("command in capitals", capitals.as_bytes());
    spaces(cases, line);
}

/// The line with a space too many or another blank, in each place.
pub fn spaces(cases: &mut Cases, line: &str) {
    for (place, _) in line.match_indices(' ') {
        let doubled = format!("{} {}", &line[..place], &line[place..]);
        cases.bad("two spaces", doubled.as_bytes());
        let tab = format!("{}\t{}", &line[..place], &line[place + 1..]);
        cases.bad("tab", tab.as_bytes());
    }
    cases.bad("space before", format!(" {}", line).as_bytes());
    cases.bad("space after", format!("{} ", line).as_bytes());
    cases.bad("carriage return", format!("{}\r", line).as_bytes());
}

/// The line with another word in that place.
fn with_word(line: &str, place: usize, word: &str) -> String {
    let mut words: Vec<&str> = line.split(' ').collect();
    words[place] = word;
    words.join(" ")
}

fn bad_numbers(cases: &mut Cases, line: &str, place: usize, most: u64) {
    let above = (most + 1).to_string();
    let bad: [(&'static str, &str); 9] = [
        ("leading zero", "01"),
        ("leading zero", "00"),
        ("sign", "+1"),
        ("sign", "-1"),
        ("no decimal digit", "-"),
        ("no decimal digit", "1a"),
        ("no decimal digit", "0x1"),
        ("number out of range", &above),
        ("number out of range", "18446744073709551617"),
    ];
    for (kind, word) in bad {
        cases.bad(kind, with_word(line, place, word).as_bytes());
    }
}

fn bad_bytes(cases: &mut Cases, line: &str, place: usize, most: usize) {
    let bad: [(&'static str, &str); 6] = [
        ("odd number of digits", "000"),
        ("no hexadecimal digit", "0g"),
        ("no hexadecimal digit", "0x00"),
        ("no hexadecimal digit", "@0"),
        ("dash with digits", "--"),
        ("dash with digits", "00-"),
    ];
    for (kind, word) in bad {
        cases.bad(kind, with_word(line, place, word).as_bytes());
    }
    let longer = "00".repeat(most + 1);
    cases.bad("too long for the buffers", with_word(line, place, &longer).as_bytes());
    cases.ask(&with_word(line, place, &longer[2..]));
    cases.ask(&with_word(line, place, "-"));
}
