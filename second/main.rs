// The second program: rule books, readings and papers, written from documents 00 to 02 and their
// settled readings, so that a misreading of them in the proved engine shows. README.md in this folder
// says from what else, and has the commands.

mod altered;
mod aspif;
mod book;
mod cases;
mod cases_aspif;
mod cases_bad;
mod cases_books;
mod cases_choices;
mod cases_clash;
mod cases_clearing;
mod cases_contradicting;
mod cases_crews;
mod cases_damage;
mod cases_levels;
mod cases_lines;
mod cases_lparse;
mod cases_naming;
mod cases_nomore;
mod cases_papers;
mod cases_shown;
mod cases_table;
mod cases_words;
mod checker;
mod claim;
mod clash;
mod closing;
mod crews;
mod desk;
mod explain;
mod forged;
mod layout;
mod legal;
mod levels;
mod listing;
mod lparse;
mod lparse_meaning;
mod making;
mod meaning;
mod nomore;
mod numbers;
mod paper;
mod random;
mod selftest;
mod selftest_aspif;
mod selftest_closing;
mod selftest_contradicting;
mod selftest_crews;
mod selftest_levels;
mod selftest_lparse;
mod selftest_nomore;
mod selftest_papers;
mod selftest_shown;
mod selftest_table;
mod selftest_words;
mod shapes;
mod shown;
mod steps;
mod table;
mod walk;
mod words;
mod worked;
mod worked_contradicting;
mod worked_requests;
mod worked_words;

use std::fs;
use std::io::{self, BufWriter, Read, Write};
use std::os::unix::ffi::OsStrExt;
use std::process::exit;

const USAGE: &str = "usage:
  second desk                              commands on standard input, one line of answer each
  second readings                          all readings of the book on standard input
  second table [--words]                   the quarterly table of the books named on standard input; --text likewise
  second cases FOLDER COMMAND...           writes FOLDER/stdin and FOLDER/stdout for desk
  second selftest                          the engine against the definition
  second book WORDSFILE BOOKFILE NAMESFILE rules in words to a book (`-`: standard input)
  second words BOOKFILE [NAMESFILE]        a book to rules in words
  second plain BOOKFILE [NAMESFILE]        a book to a text that gives it again, without names x0, x1 ..
  second making WORDSFILE                  what the program making prints of rules in words
  second paper STEPSFILE PAPERFILE         steps in words to a paper (`-`: standard input)
  second explain BOOKFILE PAPERFILE        a paper step by step, as explaining prints it, but for its last line
  second explain --words WORDSFILE PAPERFILE  the same with the names of the words
  second random SEED                       a random book to standard output";

fn main() {
    let arguments: Vec<String> = std::env::args().skip(1).collect();
    let words: Vec<&str> = arguments.iter().map(|word| word.as_str()).collect();
    let outcome = match words.as_slice() {
        ["desk"] => desk::run(&mut io::stdin().lock(), &mut io::stdout().lock()).map_err(told),
        ["readings"] => run_readings(),
        ["table"] => run_table(&table::File::Bytes),
        ["table", "--words"] => run_table(&|text| made(words::make(&text, usize::MAX).map(|(book, _)| book))),
        ["table", "--text"] => run_table(&|text| made(lparse::import(&text, usize::MAX))),
        ["cases", folder, commands @ ..] if !commands.is_empty() => cases::write(folder, commands),
        ["selftest"] => selftest::run(),
        ["book", text, book, names] => run_book(text, book, names),
        ["words", book] => run_words(book, None),
        ["words", book, names] => run_words(book, Some(names)),
        ["plain", book] => run_plain(book, None),
        ["plain", book, names] => run_plain(book, Some(names)),
        ["making", text] => run_making(text),
        ["paper", text, paper] => run_paper(text, paper),
        ["explain", "--words", text, paper] => run_explain_words(text, paper),
        ["explain", book, paper] => run_explain(book, paper),
        ["random", seed] => run_random(seed),
        _ => Err(USAGE.to_string()),
    };
    if let Err(message) = outcome {
        eprintln!("{}", message);
        exit(2);
    }
}

fn told(trouble: io::Error) -> String {
    trouble.to_string()
}

/// The bytes of a file, or of standard input for `-`.
fn read_file(path: &str) -> Result<Vec<u8>, String> {
    let mut bytes = Vec::new();
    if path == "-" {
        io::stdin().lock().read_to_end(&mut bytes).map_err(told)?;
        return Ok(bytes);
    }
    fs::read(path).map_err(|trouble| format!("{}: {}", path, trouble))
}

fn read_text(path: &str) -> Result<String, String> {
    String::from_utf8(read_file(path)?).map_err(|_| format!("{} is no text in UTF-8", path))
}

fn write_file(path: &str, bytes: &[u8]) -> Result<(), String> {
    fs::write(path, bytes).map_err(|trouble| format!("{}: {}", path, trouble))
}

fn run_readings() -> Result<(), String> {
    let bytes = read_file("-")?;
    let mut out = BufWriter::new(io::stdout());
    listing::write_readings(&bytes, listing::LISTING_LIMIT, &mut out).map_err(told)?;
    out.flush().map_err(told)
}

/// The table of the books whose names stand on standard input, one a line, parted by tabs. `taken` says what the bytes of a file are.
fn run_table(taken: &dyn Fn(Vec<u8>) -> table::File) -> Result<(), String> {
    let mut names: Vec<Vec<u8>> = read_file("-")?.split(|b| *b == b'\n').map(Vec::from).collect();
    if names.last().map_or(false, |last| last.is_empty()) {
        names.pop();
    }
    let mut out = BufWriter::new(io::stdout());
    if names.len() > table::MOST_BOOKS {
        return writeln!(out, "refused 36").map_err(told);
    }
    let files: Vec<table::File> = names.iter().map(|name| open_book(name, taken)).collect();
    let (lines, _) = table::table(&files, listing::LISTING_LIMIT);
    for (number, mut line) in lines.into_iter().enumerate() {
        if let Some(name) = names.get(number) {
            line.insert(1, plain_name(name));
        }
        writeln!(out, "{}", line.join("\t")).map_err(told)?;
    }
    out.flush().map_err(told)
}

/// The book that was made of a text, or why there is none.
fn made(answer: Result<Vec<u8>, book::Refusal>) -> table::File {
    answer.map_or_else(|refusal| table::File::Refused(refusal.number), table::File::Bytes)
}

/// What a name leads to; one that is too long, empty or none is closed.
fn open_book(name: &[u8], taken: &dyn Fn(Vec<u8>) -> table::File) -> table::File {
    const LONGEST_NAME: usize = 4_095;
    if name.len() > LONGEST_NAME {
        return table::File::Closed;
    }
    let path = std::ffi::OsStr::from_bytes(name);
    fs::read(path).map_or(table::File::Closed, taken)
}

/// A name as it is printed: what could break a line is `?`.
fn plain_name(name: &[u8]) -> String {
    let plain = |byte: &u8| if byte.is_ascii_control() { b'?' } else { *byte };
    String::from_utf8_lossy(&name.iter().map(plain).collect::<Vec<u8>>()).into_owned()
}

/// Nothing is written where the words have an error.
fn run_book(text: &str, book: &str, names: &str) -> Result<(), String> {
    let text = read_file(text)?;
    let named = words::read_words(&text).map_err(|refusal| making::refused(&text, refusal))?;
    let list: String = named.names.iter().map(|name| format!("{}\n", name)).collect();
    write_file(book, &named.book.write())?;
    write_file(names, list.as_bytes())
}

fn run_words(book: &str, names: Option<&str>) -> Result<(), String> {
    let names = read_names(names)?;
    print!("{}", words::write_words(&open(book)?, names.as_deref())?);
    Ok(())
}

/// What the program `wording` prints.
fn run_plain(book: &str, names: Option<&str>) -> Result<(), String> {
    let book = open(book)?;
    let numbered = || (0..book.atoms).map(|n| format!("x{}", n)).collect();
    let names: Vec<String> = read_names(names)?.unwrap_or_else(numbered);
    print!("{}", words::plain_text(&book, &names)?);
    println!("# rules {} atoms {}", book.rules.len(), book.atoms);
    Ok(())
}

fn run_making(text: &str) -> Result<(), String> {
    print!("{}", making::made(&read_file(text)?));
    Ok(())
}

fn open(book: &str) -> Result<book::Book, String> {
    book::Book::read(&read_file(book)?)
        .map_err(|refusal| format!("refused {} {}", refusal.number, refusal.place.unwrap_or(0)))
}

/// The lines of a list of names.
fn read_names(path: Option<&str>) -> Result<Option<Vec<String>>, String> {
    path.map(|path| Ok(read_text(path)?.lines().map(String::from).collect())).transpose()
}

/// Nothing is written where the words have an error.
fn run_paper(text: &str, paper: &str) -> Result<(), String> {
    write_file(paper, &steps::read_steps(&read_text(text)?)?)
}

/// A book that is refused has no line.
fn run_explain(book: &str, paper: &str) -> Result<(), String> {
    if let Ok(book) = book::Book::read(&read_file(book)?) {
        print!("{}", explain::explain(&book, None, &read_file(paper)?));
    }
    Ok(())
}

fn run_explain_words(text: &str, paper: &str) -> Result<(), String> {
    let text = read_file(text)?;
    let named = words::read_words(&text).map_err(|refusal| making::refused(&text, refusal))?;
    print!("{}", explain::explain(&named.book, Some(&named.names), &read_file(paper)?));
    Ok(())
}

/// For comparisons with other programs: a book that depends on the seed only.
fn run_random(seed: &str) -> Result<(), String> {
    let seed = desk::decimal(seed.as_bytes(), desk::MOST_NUMBER).ok_or("SEED is no number")?;
    let mut random = random::Random::new(seed);
    let atoms = random.from_to(2, 14);
    let rules = random.from_to(atoms, 3 * atoms);
    let shape = *random.pick(&shapes::SHAPES);
    let book = shapes::random_book(&mut random, atoms, rules, shape);
    io::stdout().write_all(&book.write()).map_err(told)
}
