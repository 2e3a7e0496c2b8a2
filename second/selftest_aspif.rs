// The part of `selftest` about aspif texts: written and read back, and changed texts.

use crate::aspif::{export, restore};
use crate::book::{Book, Refusal};
use crate::random::Random;

const BOOKS: usize = 2_000;
const CHANGES: usize = 30;

/// Gives the number of books that were written and read back.
pub fn round_trips(random: &mut Random, drawn: fn(&mut Random, usize) -> Book) -> usize {
    let mut refused = 0;
    for number in 0..BOOKS {
        let book = drawn(random, number).write();
        let text = export(&book, 60_000).expect("a small book");
        assert_eq!(export(&book, text.len()).as_ref(), Ok(&text));
        assert_eq!(export(&book, text.len() - 1), Err(Refusal::placeless(33)));
        assert_eq!(restore(&text, book.len()).as_ref(), Ok(&book));
        assert_eq!(restore(&text, book.len() - 1), Err(Refusal::placeless(35)));
        for _ in 0..CHANGES {
            let changed = change(&text, random);
            match restore(&changed, 60_000) {
                Ok(back) => assert_eq!(export(&back, 60_000), Ok(changed)),
                Err(refusal) => {
                    assert_eq!(refusal, Refusal::placeless(34));
                    refused += 1;
                }
            }
        }
    }
    assert!(refused >= BOOKS * CHANGES / 2);
    BOOKS
}

/// A byte changed, put in or left out, or a line left out, doubled or moved to the end.
pub fn change(text: &[u8], random: &mut Random) -> Vec<u8> {
    let mut bytes = text.to_vec();
    let place = random.below(bytes.len());
    let byte = *random.pick(b"0123456789- \nx4");
    match random.below(4) {
        0 => bytes[place] = byte,
        1 => bytes.insert(place, byte),
        2 => drop(bytes.remove(place)),
        _ => {
            let mut lines: Vec<&[u8]> = text.split(|b| *b == b'\n').collect();
            let line = lines.remove(random.below(lines.len()));
            match random.below(3) {
                0 => lines.insert(random.from_to(0, lines.len()), line),
                1 => lines.extend([line, line]),
                _ => (),
            }
            bytes = lines.join(&b'\n');
        }
    }
    bytes
}
