// The twin of the proved search: the same walk over the same sets of bits in Rust, for the tests.
// README.md in this folder says what it was written from and for what it is compared.

mod book;
mod closing;
mod colouring;
mod desk;
mod draft;
mod kinds;
mod numbers;
mod propagation;
mod random;
mod rows;
mod selftest;
mod set;
mod support;
mod walk;
mod year;

use std::io;
use std::process::exit;

const USAGE: &str = "usage:
  twin desk        lines `find K L ROOM BOOK` on standard input, one line of answer each
  twin year        the lines of a year of books
  twin selftest    worked lines";

fn main() {
    let arguments: Vec<String> = std::env::args().skip(1).collect();
    let words: Vec<&str> = arguments.iter().map(|word| word.as_str()).collect();
    let outcome = match words.as_slice() {
        ["desk"] => desk::run(&mut io::stdin().lock(), &mut io::stdout().lock()).map_err(told),
        ["year"] => year::write(&mut io::BufWriter::new(io::stdout())).map_err(told),
        ["selftest"] => selftest::run(),
        _ => Err(USAGE.to_string()),
    };
    if let Err(message) = outcome {
        eprintln!("{}", message);
        exit(2);
    }
}

fn told(trouble: io::Error) -> String {
    trouble.to_string()
}
