// Cases of `check`: the engine's papers, legal papers in other orders, papers with one byte or step
// changed, every refusal 20 to 27 at every place in some papers, the longest and deepest papers.

use crate::altered::{alter, Parts, KINDS};
use crate::book::{Book, Rule};
use crate::cases::Cases;
use crate::cases_naming::{larger_book, short_book};
use crate::claim::{certain, Claim};
use crate::forged::forged_witnesses;
use crate::legal::{LegalWriter, CUT};
use crate::numbers::RuleSet;
use crate::paper::{assemble, write_paper, Written, END, GO_ON, LONGEST_PAPER, SPLIT};
use crate::random::Random;
use crate::shapes::{deep_certain_book, long_paper_book, LONGEST};
use crate::walk::{find_set, Finding};

pub fn add(cases: &mut Cases, random: &mut Random) {
    for count in 0..120 {
        let book = short_book(random, count);
        for atom in 0..book.atoms as u8 {
            papers_of(cases, &book, certain(atom), random);
        }
    }
    for count in 0..40 {
        let (book, claim) = larger_book(random, count, certain);
        papers_of(cases, &book, claim, random);
    }
    for (book, atom) in shown_books() {
        every_place(cases, &book, certain(atom));
    }
    small_slips(cases);
    long_papers(cases);
    deep_papers(cases);
}

pub fn engine_paper(book: &Book, claim: Claim) -> Option<Vec<u8>> {
    match write_paper(book, claim, 1_000, LONGEST_PAPER).0 {
        Written::Paper { bytes, .. } => Some(bytes),
        _ => None,
    }
}

/// Everything wrong at every place of the paper for a claim that holds.
pub fn every_place(cases: &mut Cases, book: &Book, claim: Claim) {
    let paper = engine_paper(book, claim).expect("a claim that holds");
    every_byte(cases, book, &paper);
    every_step(cases, book, &paper);
    every_witness(cases, book, &paper);
    trailers(cases, book, &paper);
}

/// The engine's paper, legal ones in other orders, changed ones; forged ones for other atoms.
pub fn papers_of(cases: &mut Cases, book: &Book, claim: Claim, random: &mut Random) {
    let bytes = book.write();
    let on = match find_set(book, 1, 1_000) {
        Finding::Set(found) => found.colouring.on,
        _ => return without_reading(cases, book, claim, random),
    };
    let split_once_in = 4 * book.rules.len();
    let drawn = LegalWriter { book, claim, random, idle_below: 60, split_once_in }.write(&on);
    let own = match engine_paper(book, claim) {
        Some(paper) => paper,
        None => return drop(cases.check(&bytes, &drawn)),
    };
    for paper in [&drawn, &own] {
        if paper.len() < CUT {
            assert_eq!(cases.check(&bytes, paper), claim.told());
        }
        let kinds = random.below(KINDS.len());
        for turn in 0..3 {
            let kind = (kinds + turn) % KINDS.len();
            cases.check(&bytes, &alter(paper, kind, book.rules.len(), random));
        }
    }
}

/// In a book without a reading the steps may be right; no witness is.
fn without_reading(cases: &mut Cases, book: &Book, claim: Claim, random: &mut Random) {
    let mut writer = LegalWriter { book, claim, random, idle_below: 10, split_once_in: 50 };
    let mut parts = Parts::of(&writer.write(&RuleSet::none()));
    for witness in forged_witnesses(book, random) {
        parts.witness = witness;
        assert!(cases.check(&book.write(), &parts.paper()).starts_with("refused 27 "));
    }
}

/// The worked book with the paper of 24 bytes, and books whose papers hold 42 and 55 too.
fn shown_books() -> Vec<(Book, u8)> {
    let worked = vec![
        Rule::new(2, &[0], &[]),
        Rule::new(2, &[1], &[]),
        Rule::new(0, &[], &[1]),
        Rule::new(1, &[], &[0]),
    ];
    let circle = vec![
        Rule::new(1, &[2], &[]),
        Rule::new(2, &[1], &[]),
        Rule::new(3, &[], &[1, 4]),
        Rule::new(4, &[], &[3]),
        Rule::new(5, &[4], &[]),
        Rule::new(5, &[3], &[2]),
        Rule::new(0, &[3, 5], &[]),
        Rule::new(0, &[4, 5], &[]),
    ];
    let odd = vec![
        Rule::new(0, &[], &[1]),
        Rule::new(1, &[], &[0]),
        Rule::new(2, &[1], &[2]),
        Rule::new(3, &[0], &[1]),
        Rule::new(4, &[3], &[5]),
    ];
    vec![
        (Book { atoms: 3, rules: worked }, 2),
        (Book { atoms: 6, rules: circle }, 0),
        (Book { atoms: 6, rules: odd }, 4),
    ]
}

pub fn every_byte(cases: &mut Cases, book: &Book, paper: &[u8]) {
    let bytes = book.write();
    for place in 0..paper.len() {
        let was = paper[place];
        let rules = book.rules.len() as u8;
        for value in [was.wrapping_add(1), was.wrapping_sub(1), rules, 0x45, 0x53, 0xff] {
            let mut changed = paper.to_vec();
            changed[place] = value;
            cases.check(&bytes, &changed);
        }
    }
}

/// 24 and 25 at each step, 26 after the last.
pub fn every_step(cases: &mut Cases, book: &Book, paper: &[u8]) {
    let bytes = book.write();
    let good = Parts::of(paper);
    let mut place = 0;
    for step in 0..good.steps.len() {
        for (put, number) in wrong_steps(book, good.steps[step][0] != END) {
            let mut parts = good.clone();
            parts.steps.insert(step, put);
            let expected = format!("refused {} {}", number, place);
            assert_eq!(cases.check(&bytes, &parts.paper()), expected);
        }
        let length = good.steps[step].len();
        for inside in 0..length {
            let cut = witness_at(paper, place + inside);
            assert_eq!(cases.check(&bytes, &cut), format!("refused 24 {}", place));
        }
        place += length;
    }
    for late in [&[END][..], &[GO_ON, 0], &[0xff], &[END, END, END]] {
        let mut parts = good.clone();
        parts.steps.push(late.to_vec());
        assert_eq!(cases.check(&bytes, &parts.paper()), format!("refused 26 {}", place));
    }
}

/// Steps that are wrong anywhere: another code, a rule too high, a bad list (24); a condition that
/// never holds (25). A 45 is wrong where the engine did not write one.
fn wrong_steps(book: &Book, end_is_wrong: bool) -> Vec<(Vec<u8>, u8)> {
    let rules = book.rules.len() as u8;
    let mut list = Vec::new();
    for code in [0x00, 0x40, 0x43, 0x44, 0x46, 0x52, 0x54, 0x56, 0xff] {
        list.push((vec![code, 0], 24));
    }
    for code in [0x41, 0x42, 0x53] {
        list.push((vec![code, rules], 24));
        list.push((vec![code, 255], 24));
    }
    for bad in
        [&[0x55, 0][..], &[0x55, 1, rules], &[0x55, 2, 1, 1], &[0x55, 2, 1, 0], &[0x55, 255, 0]]
    {
        list.push((bad.to_vec(), 24));
    }
    for (r, rule) in book.rules.iter().enumerate() {
        if rule.negative.is_none() {
            list.push((vec![0x42, r as u8], 25));
        }
        if rule.positive.is_none() {
            list.push((vec![0x55, 1, r as u8], 25));
        }
    }
    if end_is_wrong {
        list.push((vec![END], 25));
    }
    list
}

/// The same bytes with the witness said to start elsewhere.
fn witness_at(paper: &[u8], start: usize) -> Vec<u8> {
    let length = paper.len();
    let mut cut = paper.to_vec();
    cut[length - 5] = (length - 6 - start) as u8;
    cut[length - 4..length - 2].copy_from_slice(&(start as u16).to_le_bytes());
    cut
}

/// 27 at each byte of the witness for number and repetition; rules left out, put in and exchanged.
fn every_witness(cases: &mut Cases, book: &Book, paper: &[u8]) {
    let bytes = book.write();
    let good = Parts::of(paper);
    let start = paper.len() - 6 - good.witness.len();
    for offset in 0..=good.witness.len() {
        let mut wrong = vec![book.rules.len() as u8, 255];
        wrong.extend(&good.witness[..offset]);
        for r in wrong {
            let mut parts = good.clone();
            parts.witness.insert(offset, r);
            let expected = format!("refused 27 {}", start + offset);
            assert_eq!(cases.check(&bytes, &parts.paper()), expected);
        }
        for r in 0..book.rules.len() as u8 {
            let mut parts = good.clone();
            parts.witness.insert(offset, r);
            cases.check(&bytes, &parts.paper());
        }
    }
    for offset in 0..good.witness.len() {
        let mut parts = good.clone();
        parts.witness.remove(offset);
        assert!(cases.check(&bytes, &parts.paper()).starts_with("refused 27 "));
        for other in 0..offset {
            let mut parts = good.clone();
            parts.witness.swap(offset, other);
            cases.check(&bytes, &parts.paper());
        }
    }
    let mut none = good;
    none.witness.clear();
    assert_eq!(cases.check(&bytes, &none.paper()), format!("refused 27 {}", start));
}

/// 20 to 23, alone and two at once: the earlier number is the one given; the book comes first.
pub fn trailers(cases: &mut Cases, book: &Book, paper: &[u8]) {
    let bytes = book.write();
    let length = paper.len();
    for cut in 0..length {
        cases.check(&bytes, &paper[cut..]);
        if cut < 6 || length - cut < 4 {
            cases.check(&bytes, &paper[..cut]);
        }
    }
    let atoms = book.atoms as u8;
    let mut put = |changes: &[(usize, u8)], expected: String| {
        let mut changed = paper.to_vec();
        for (from_end, value) in changes {
            changed[length - from_end] = *value;
        }
        assert_eq!(cases.check(&bytes, &changed), expected);
    };
    put(&[(6, atoms)], format!("refused 23 {}", length - 6));
    put(&[(6, 255)], format!("refused 23 {}", length - 6));
    put(&[(5, 255)], format!("refused 22 {}", length - 4));
    put(&[(4, 255)], format!("refused 22 {}", length - 4));
    put(&[(3, 255)], format!("refused 22 {}", length - 4));
    put(&[(4, 255), (3, 255), (5, 255)], format!("refused 22 {}", length - 4));
    put(&[(2, 0x46)], format!("refused 21 {}", length - 2));
    put(&[(1, 0x50)], format!("refused 21 {}", length - 2));
    put(&[(2, 0x52), (1, 0x42)], format!("refused 21 {}", length - 2));
    put(&[(6, 255), (5, 255)], format!("refused 22 {}", length - 4));
    put(&[(6, 255), (1, 0)], format!("refused 21 {}", length - 2));
    put(&[(6, 255), (length, 0)], format!("refused 23 {}", length - 6));
    assert!(cases.check(&bytes[1..], paper).starts_with("refused 3 "));
    assert_eq!(cases.check(&bytes[..5], &[]), "refused 1 0");
}

/// Small papers whose answers were worked out by hand, a slip or a settled reading each.
fn small_slips(cases: &mut Cases) {
    let fact = Book { atoms: 1, rules: vec![Rule::new(0, &[], &[])] };
    let choice = Book { atoms: 2, rules: vec![Rule::new(0, &[], &[1]), Rule::new(1, &[], &[0])] };
    let odd = Book { atoms: 1, rules: vec![Rule::new(0, &[], &[0])] };
    let circle = Book {
        atoms: 3,
        rules: vec![Rule::new(0, &[1], &[]), Rule::new(1, &[0], &[]), Rule::new(2, &[], &[0])],
    };
    let hands: [(&Book, &[u8], &[u8], u8, &str); 17] = [
        // A split wants a rule without a colour, in contradiction too.
        (&fact, &[0x41, 0, 0x53, 0, 0x45, 0x45], &[0], 0, "refused 25 2"),
        (&fact, &[0x53, 0, 0x53, 0, 0x45, 0x45], &[0], 0, "refused 25 2"),
        (&fact, &[0x53, 0, 0x45, 0x53, 0, 0x45, 0x45], &[0], 0, "refused 25 3"),
        (&choice, &[0x53, 0, 0x45, 0x41, 1, 0x42, 0, 0x45], &[0], 0, "refused 25 7"),
        // The branch with the rule off starts from the colouring before the split.
        (&fact, &[0x53, 0, 0x45, 0x45], &[0], 0, "refused 25 3"),
        (&fact, &[0x53, 0, 0x45, 0x41, 0, 0x45], &[0], 0, "certain 0"),
        // A branch that is missing, a step after the last 45.
        (&fact, &[0x53, 0, 0x45], &[0], 0, "refused 24 3"),
        (&fact, &[0x41, 0], &[0], 0, "refused 24 2"),
        (&fact, &[], &[0], 0, "refused 24 0"),
        (&fact, &[0x41, 0, 0x45, 0x41, 0], &[0], 0, "refused 26 3"),
        // A book without a reading: each branch ends rightly, no witness is right.
        (&odd, &[0x53, 0, 0x42, 0, 0x45, 0x41, 0, 0x45], &[], 0, "refused 27 8"),
        (&odd, &[0x53, 0, 0x42, 0, 0x45, 0x41, 0, 0x45], &[0], 0, "refused 27 8"),
        // Rules that hold each other up: off by 55 together, not one alone; a wrong witness.
        (&circle, &[0x55, 2, 0, 1, 0x41, 2, 0x45], &[2], 2, "certain 2"),
        (&circle, &[0x55, 1, 0, 0x41, 2, 0x45], &[2], 2, "refused 25 0"),
        (&circle, &[0x55, 2, 0, 1, 0x55, 2, 0, 1, 0x41, 2, 0x45], &[2], 2, "certain 2"),
        (&circle, &[0x55, 2, 0, 1, 0x41, 2, 0x45], &[0, 1], 2, "refused 27 7"),
        // A rule is not listed under 55 because its negative atoms block it.
        (&choice, &[0x53, 0, 0x55, 1, 1, 0x45, 0x45], &[0], 0, "refused 25 2"),
    ];
    for (book, steps, witness, claimed, expected) in hands {
        let paper = assemble(steps, witness, certain(claimed));
        assert_eq!(cases.check(&book.write(), &paper), expected, "{:02x?}", steps);
    }
}

/// Papers of 60,000 bytes, accepted and refused near their end, and a legal one of 60,001.
fn long_papers(cases: &mut Cases) {
    let facts = |count: usize| {
        let rules = (0..count).map(|a| Rule::new(a as u8, &[], &[])).collect();
        Book { atoms: count, rules }.write()
    };
    let mut steps = [GO_ON, 0].repeat(29_996);
    steps.push(END);
    let longest = assemble(&steps, &[0], certain(0));
    assert_eq!(longest.len(), 60_000);
    assert_eq!(cases.check(&facts(1), &longest), "certain 0");
    let longer = assemble(&steps, &[0, 1], certain(0));
    assert_eq!(longer.len(), 60_001);
    assert_eq!(cases.check(&facts(2), &longer), "refused 20 0");
    assert_eq!(cases.check(&facts(2), &longest), "refused 27 59994");
    steps[59_991] = 1;
    let late = assemble(&steps, &[0], certain(0));
    assert_eq!(cases.check(&facts(1), &late), "refused 24 59990");
    let book = long_paper_book(&LONGEST);
    let paper = engine_paper(&book, certain(0)).expect("its paper has 60,000 bytes");
    assert_eq!(cases.check(&book.write(), &paper), "certain 0");
}

/// Papers with as many splits inside one another as a book has rules, in either kind of branch.
fn deep_papers(cases: &mut Cases) {
    let mut book = Book { atoms: 2, rules: vec![Rule::new(1, &[], &[]); 254] };
    book.rules.push(Rule::new(0, &[], &[]));
    let last = [GO_ON, 254, END];
    let witness: Vec<u8> = (0..=254).collect();
    let mut in_on: Vec<u8> = (0..254).flat_map(|r| vec![SPLIT, r]).collect();
    in_on.extend(last.repeat(255));
    let mut in_off: Vec<u8> = (0..254).flat_map(|r| [&[SPLIT, r][..], &last].concat()).collect();
    in_off.extend(&last);
    let mut all = Vec::new();
    for r in 0..=254 {
        all.extend(&[SPLIT, r]);
    }
    all.extend([END].repeat(256));
    for steps in [in_on, in_off, all] {
        cases.check(&book.write(), &assemble(&steps, &witness, certain(0)));
        cases.check(&book.write(), &assemble(&steps, &witness, certain(1)));
        cases.check(&book.write(), &assemble(&steps[..steps.len() - 1], &witness, certain(0)));
    }
    let book = deep_certain_book();
    let paper = engine_paper(&book, certain(2)).expect("2 follows from either side");
    assert_eq!(cases.check(&book.write(), &paper), "certain 2");
}
