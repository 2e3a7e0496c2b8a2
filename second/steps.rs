// Papers in words, one step a line, and the way back.
// What is indented under a split holds with its rule on; what follows it at its own depth, with
// its rule off. The lines `witness` and `claim`, or `clear`, or `none`, come last.

use crate::book::two_bytes;
use crate::claim::{certain, clear, Claim};
use crate::desk::decimal;
use crate::paper::{assemble, END, GO_OFF, GO_ON, LONGEST_PAPER, SPLIT, STARVE};

const TRAILER: usize = 6;
const INDENT: &str = "    ";
const CLAIMS: [&str; 3] = ["claim", "clear", "none"];

/// What has been read of a paper, in the order of its bytes.
#[derive(Default)]
struct Draft {
    steps: Vec<u8>,
    witness: Option<Vec<u8>>,
    claim: Option<Claim>,
}

/// Reads a paper in words. Lines count from 1 in an error; indentation is for the eye.
pub fn read_steps(text: &str) -> Result<Vec<u8>, String> {
    let mut draft = Draft::default();
    for (number, line) in text.lines().enumerate() {
        let line = line.trim();
        if line.is_empty() || line.starts_with('#') {
            continue;
        }
        read_line(line, &mut draft).map_err(|why| format!("line {}: {}", number + 1, why))?;
    }
    let witness = draft.witness.ok_or("the line `witness` is missing")?;
    let claim = draft.claim.ok_or("the line `claim`, `clear` or `none` is missing")?;
    let paper = assemble(&draft.steps, &witness, claim);
    if paper.len() > LONGEST_PAPER {
        return Err(format!("the paper has more than {} bytes", LONGEST_PAPER));
    }
    Ok(paper)
}

fn read_line(line: &str, draft: &mut Draft) -> Result<(), String> {
    let words: Vec<&str> = line.split_whitespace().collect();
    let numbers =
        words[1..].iter().map(|word| read_number(word)).collect::<Result<Vec<u8>, _>>()?;
    if numbers.len() > 255 {
        return Err("more than 255 numbers".to_string());
    }
    if draft.claim.is_some() {
        return Err("nothing comes after the claim".to_string());
    }
    if draft.witness.is_some() != CLAIMS.contains(&words[0]) {
        let why = "`claim`, `clear` or `none`, and nothing else, comes after `witness`";
        return Err(why.to_string());
    }
    match (words[0], numbers.as_slice()) {
        ("on", [r]) => draft.steps.extend([GO_ON, *r]),
        ("off", [r]) => draft.steps.extend([GO_OFF, *r]),
        ("split", [r]) => draft.steps.extend([SPLIT, *r]),
        ("end", []) => draft.steps.push(END),
        ("unfounded", list) if !list.is_empty() => {
            draft.steps.extend([STARVE, list.len() as u8]);
            draft.steps.extend(list);
        }
        ("witness", rules) => draft.witness = Some(rules.to_vec()),
        ("claim", [atom]) => draft.claim = Some(certain(*atom)),
        ("clear", [atom]) => draft.claim = Some(clear(*atom)),
        ("none", []) => draft.claim = Some(Claim::NoReading),
        _ => return Err(format!("`{}` is no step", line)),
    }
    Ok(())
}

fn read_number(word: &str) -> Result<u8, String> {
    let number = decimal(word.as_bytes(), 255);
    number.map(|n| n as u8).ok_or_else(|| format!("`{}` is no number from 0 to 255", word))
}

/// The paper in words. Bytes that don't fall into steps, witness and trailer have none.
pub fn write_steps(paper: &[u8]) -> Result<String, String> {
    if paper.len() < TRAILER {
        return Err("this is no paper: it is too short".to_string());
    }
    let trailer = paper.len() - TRAILER;
    let claim = Claim::by_mark(&paper[trailer + 4..], paper[trailer])
        .ok_or("this is no paper: its mark is missing")?;
    let start = two_bytes(paper, trailer + 2);
    if start + paper[trailer + 1] as usize != trailer {
        return Err("this is no paper: its witness does not end at its trailer".to_string());
    }
    let mut text = write_branches(&paper[..start])?;
    text.push_str(&format!("witness{}\n", spaced(&paper[start..trailer])));
    match claim {
        Claim::Certain(_) => text.push_str(&format!("claim {}\n", claim.byte())),
        Claim::Clear(_) => text.push_str(&format!("clear {}\n", claim.byte())),
        Claim::NoReading if paper[trailer] == 0 => text.push_str("none\n"),
        Claim::NoReading => return Err("this is no paper: it names an atom".to_string()),
    }
    Ok(text)
}

/// The steps, each branch with a split's rule on one level further in.
fn write_branches(steps: &[u8]) -> Result<String, String> {
    let mut text = String::new();
    let mut depth: usize = 0;
    let mut splits = Vec::new();
    let mut place = 0;
    while place < steps.len() {
        let (line, length) = write_step(&steps[place..])
            .ok_or_else(|| format!("byte {}: no step starts here, or it is cut short", place))?;
        text.push_str(&INDENT.repeat(depth));
        text.push_str(&line);
        text.push('\n');
        match steps[place] {
            SPLIT => {
                splits.push(depth);
                depth += 1;
            }
            END => depth = splits.pop().unwrap_or(0),
            _ => (),
        }
        place += length;
    }
    Ok(text)
}

/// The first step in words, and how many bytes it has.
fn write_step(bytes: &[u8]) -> Option<(String, usize)> {
    let rule = bytes.get(1);
    match bytes[0] {
        END => Some(("end".to_string(), 1)),
        GO_ON => Some((format!("on {}", rule?), 2)),
        GO_OFF => Some((format!("off {}", rule?), 2)),
        SPLIT => Some((format!("split {}", rule?), 2)),
        STARVE => {
            let length = 2 + *rule? as usize;
            let list = bytes.get(2..length).filter(|list| !list.is_empty())?;
            Some((format!("unfounded{}", spaced(list)), length))
        }
        _ => None,
    }
}

fn spaced(numbers: &[u8]) -> String {
    numbers.iter().map(|number| format!(" {}", number)).collect()
}
