// A paper in words, a line for each step with its reason, up to the step that fails; then its witness,
// where that is right. What `explaining` prints, but for its last line, which is that of `checking`.

use crate::book::Book;
use crate::checker::{Checker, Colours, Step};
use crate::claim::Claim;
use crate::numbers::Atom;

const INDENT: &str = "    ";
/// No line stands further in than so many levels.
const DEEPEST: usize = 20;

const OFF: [&str; 2] = ["is off", "are off"];
const OFF_HERE: [&str; 2] = ["is off or goes off here", "are off or go off here"];

struct Teller<'a> {
    checker: Checker<'a>,
    names: Option<&'a [String]>,
    text: String,
}

/// The lines for a paper of this book. A paper whose trailer is refused has none.
pub fn explain(book: &Book, names: Option<&[String]>, paper: &[u8]) -> String {
    let checker = match Checker::open(book, paper) {
        Ok(checker) => checker,
        Err(_) => return String::new(),
    };
    let mut teller = Teller { checker, names, text: String::new() };
    let end = teller.branch(0, 0, Colours::EMPTY);
    let is_right = end == Some(teller.checker.witness_start) && teller.checker.grounds().is_ok();
    if is_right && teller.checker.claim != Claim::NoReading {
        teller.witness();
    }
    teller.text
}

impl Teller<'_> {
    fn line(&mut self, depth: usize, place: usize, words: String) {
        let indent = INDENT.repeat(depth.min(DEEPEST));
        self.text.push_str(&format!("{}{}: {}\n", indent, place, words));
    }

    /// The name and number of an atom in a rule; its number alone where there are no names.
    fn called(&self, atom: Atom) -> String {
        match self.names {
            Some(names) => format!("{} ({})", names[atom.0 as usize], atom.0),
            None => atom.0.to_string(),
        }
    }

    /// The same in a reason.
    fn subject(&self, atom: Atom) -> String {
        match self.names {
            Some(names) => format!("{} (atom {})", names[atom.0 as usize], atom.0),
            None => format!("atom {}", atom.0),
        }
    }

    fn rule(&self, r: usize) -> String {
        let rule = &self.checker.book.rules[r];
        let mut body: Vec<String> = rule.positive.members().map(|a| self.called(a)).collect();
        body.extend(rule.negative.members().map(|a| format!("not {}", self.called(a))));
        match body.is_empty() {
            true => self.called(rule.head),
            false => format!("{} if {}", self.called(rule.head), body.join(" and ")),
        }
    }

    fn rules_of(&self, atom: Atom) -> Vec<usize> {
        let rules = &self.checker.book.rules;
        (0..rules.len()).filter(|r| rules[*r].head == atom).collect()
    }

    /// The atom holds: the lowest of its on rules.
    fn by(&self, atom: Atom, colours: &Colours) -> String {
        let rule = self.rules_of(atom).into_iter().find(|r| colours.on[*r]);
        format!("{} holds by rule {}", self.subject(atom), rule.expect("an on rule"))
    }

    /// The atom is lost: its rules, and what is so of one and of several.
    fn left(&self, atom: Atom, so: [&str; 2]) -> String {
        let rules: Vec<String> = self.rules_of(atom).iter().map(|r| r.to_string()).collect();
        let what = match rules.len() {
            0 => return format!("{} has no rule", self.subject(atom)),
            1 => so[0],
            _ => so[1],
        };
        format!("{} is left without a rule: {} {}", self.subject(atom), rules.join(", "), what)
    }

    /// Why a rule may go on.
    fn on(&self, r: usize, colours: &Colours) -> String {
        let rule = &self.checker.book.rules[r];
        let mut why: Vec<String> = rule.positive.members().map(|a| self.by(a, colours)).collect();
        why.extend(rule.negative.members().map(|a| self.left(a, OFF)));
        match why.is_empty() {
            true => format!("rule {} on: {}", r, self.rule(r)),
            false => format!("rule {} on: {}: {}", r, self.rule(r), why.join("; ")),
        }
    }

    /// The first negative atom that holds.
    fn blocked(&self, r: usize, colours: &Colours) -> Option<String> {
        let mut atoms = self.checker.book.rules[r].negative.members();
        let atom = atoms.find(|a| self.checker.is_derived(*a, colours))?;
        Some(self.by(atom, colours))
    }

    /// The first positive atom all of whose rules are off or listed.
    fn starved(&self, r: usize, colours: &Colours, list: &[usize], so: [&str; 2]) -> Option<String> {
        let mut atoms = self.checker.book.rules[r].positive.members();
        let atom = atoms.find(|a| self.checker.all_rules_off(*a, colours, list))?;
        Some(self.left(atom, so))
    }

    fn off(&self, r: usize, why: Option<String>) -> String {
        format!("rule {} off: {}: {}", r, self.rule(r), why.expect("a reason"))
    }

    fn end(&self, colours: &Colours) -> String {
        let mut rules = 0..self.checker.book.rules.len();
        if let Some(r) = rules.find(|r| colours.on[*r] && colours.off[*r]) {
            return format!("end: rule {} is on and off, so no reading is here", r);
        }
        match self.checker.claim {
            Claim::Certain(atom) => format!("end: {}", self.by(atom, colours)),
            Claim::Clear(atom) => format!("end: {}", self.left(atom, OFF)),
            Claim::NoReading => unreachable!("only a clash ends a branch"),
        }
    }

    /// The place behind the branch; nothing where a step fails.
    fn branch(&mut self, depth: usize, mut place: usize, mut colours: Colours) -> Option<usize> {
        loop {
            let (step, after) = self.checker.step(place).ok()?;
            if !self.checker.holds(&step, &colours) {
                return None;
            }
            match step {
                Step::On(r) => {
                    self.line(depth, place, self.on(r, &colours));
                    colours.on[r] = true;
                }
                Step::Off(r) => {
                    self.line(depth, place, self.off(r, self.blocked(r, &colours)));
                    colours.off[r] = true;
                }
                Step::Starve(list) => {
                    for r in &list {
                        let why = self.starved(*r, &colours, &list, OFF_HERE);
                        self.line(depth, place, self.off(*r, why));
                    }
                    list.into_iter().for_each(|r| colours.off[r] = true);
                }
                Step::Split(r) => return self.split(depth, place, r, colours),
                Step::End => {
                    self.line(depth, place, self.end(&colours));
                    return Some(after);
                }
            }
            place = after;
        }
    }

    fn split(&mut self, depth: usize, place: usize, r: usize, before: Colours) -> Option<usize> {
        self.line(depth, place, format!("rule {} on, or off: {}", r, self.rule(r)));
        self.line(depth + 1, place, format!("first, rule {} on", r));
        let mut on = before.clone();
        on.on[r] = true;
        let second = self.branch(depth + 1, place + 2, on)?;
        self.line(depth, place, format!("now rule {} off", r));
        let mut off = before;
        off.off[r] = true;
        self.branch(depth, second, off)
    }

    /// The reading, each listed rule with what was listed before it, and each other rule.
    fn witness(&mut self) {
        let listed = self.checker.listed();
        let rules = self.checker.book.rules.len();
        let mut colours = Colours::EMPTY;
        (0..rules).for_each(|r| colours.off[r] = !listed.contains(&(r as u8)));
        self.line(0, self.checker.witness_start, self.reading(listed));
        for (offset, r) in listed.iter().enumerate() {
            let place = self.checker.witness_start + offset;
            self.line(0, place, self.on(*r as usize, &colours));
            colours.on[*r as usize] = true;
        }
        let place = self.checker.witness_start + listed.len();
        for r in (0..rules).filter(|r| !listed.contains(&(*r as u8))) {
            let why = self.starved(r, &colours, &[], OFF).or_else(|| self.blocked(r, &colours));
            self.line(0, place, self.off(r, why));
        }
    }

    fn reading(&self, listed: &[u8]) -> String {
        let rules = &self.checker.book.rules;
        let heads = |atom: Atom| listed.iter().any(|r| rules[*r as usize].head == atom);
        let atoms = (0..self.checker.book.atoms).map(|n| Atom(n as u8)).filter(|a| heads(*a));
        let told: Vec<String> = atoms.map(|a| self.subject(a)).collect();
        match told.is_empty() {
            true => "the witness: a reading with no atom".to_string(),
            false => format!("the witness: a reading with {}", told.join(", ")),
        }
    }
}
