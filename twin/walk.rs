// The walk and its tries: one try is one closing. Behind it is a contradiction, a reading, or two
// walks from the closed colouring: with the lowest uncoloured rule on, then with it off.

use crate::book::{Book, Refusal};
use crate::closing::{close, close_or_clash};
use crate::colouring::{Colouring, Side};
use crate::numbers::{Number, RuleNo};
use crate::rows::Rows;
use crate::set::Rules;

/// What a call for the k-th reading comes to.
pub enum Found {
    /// The reading stands in the buffer; so many tries were made.
    Set(u32),
    /// 11: all tries, all readings, and the rule of the last contradictory try, if there was one.
    Fewer { tries: u32, sets: u32, clash: Option<RuleNo> },
    /// 9: the limit.
    Stopped,
    /// 1 to 7.
    Book(Refusal),
    /// 8: the buffer has fewer bytes than the book has atoms.
    NoRoom,
    /// 15: k is 0.
    NoNumber,
}

/// Why a walk goes no further.
enum Halt {
    Found,
    Limit,
}

/// Walks to the k-th reading and writes it to the front of the buffer, a byte for each atom.
pub fn find(bytes: &[u8], k: u32, limit: u32, answer: &mut [u8]) -> Found {
    let book = match Book::read(bytes) {
        Ok(book) => book,
        Err(refusal) => return Found::Book(refusal),
    };
    if k == 0 {
        return Found::NoNumber;
    }
    if answer.len() < book.atoms as usize {
        return Found::NoRoom;
    }
    let rows = Rows::new(&book);
    let mut walk =
        Walk { book: &book, rows: &rows, k, limit, tries: 0, sets: 0, origin: None, answer };
    match walk.start() {
        Err(Halt::Found) => Found::Set(walk.tries),
        Err(Halt::Limit) => Found::Stopped,
        Ok(()) => Found::Fewer { tries: walk.tries, sets: walk.sets, clash: walk.clash() },
    }
}

struct Walk<'a> {
    book: &'a Book<'a>,
    rows: &'a Rows,
    k: u32,
    limit: u32,
    tries: u32,
    sets: u32,
    /// The sets, on and off, from which the last contradictory try was closed.
    origin: Option<(Rules, Rules)>,
    answer: &'a mut [u8],
}

impl<'a> Walk<'a> {
    /// The first closing, which never comes to a contradiction.
    fn start(&mut self) -> Result<(), Halt> {
        self.count_try()?;
        self.go_on(&close(self.book, self.rows, Rules::EMPTY, Rules::EMPTY))
    }

    /// One try with the rule chosen, and what follows it.
    fn choose(&mut self, d: &Colouring, r: RuleNo, side: Side) -> Result<(), Halt> {
        self.count_try()?;
        let mut c = *d;
        if close_or_clash(self.book, self.rows, &mut c, r, side) {
            return self.go_on(&c);
        }
        let (mut on, mut off) = (d.on, d.off);
        match side {
            Side::On => on.insert(r),
            Side::Off => off.insert(r),
        }
        self.origin = Some((on, off));
        Ok(())
    }

    /// The rule of the last contradictory try: the one closing that goes on to its end after a
    /// contradiction.
    fn clash(&self) -> Option<RuleNo> {
        let (on, off) = self.origin?;
        let closed = close(self.book, self.rows, on, off);
        closed.on.intersection(&closed.off).lowest()
    }

    fn count_try(&mut self) -> Result<(), Halt> {
        if self.tries >= self.limit {
            return Err(Halt::Limit);
        }
        self.tries += 1;
        Ok(())
    }

    /// Walks on from a closed colouring without contradiction.
    fn go_on(&mut self, d: &Colouring) -> Result<(), Halt> {
        match self.rows.all.difference(&d.coloured()).lowest() {
            None => self.meet(&d.on),
            Some(r) => {
                self.choose(d, r, Side::On)?;
                self.choose(d, r, Side::Off)
            }
        }
    }

    /// A reading, given by its on rules.
    fn meet(&mut self, on: &Rules) -> Result<(), Halt> {
        self.sets += 1;
        if self.sets < self.k {
            return Ok(());
        }
        let row = &mut self.answer[..self.book.atoms as usize];
        row.fill(0);
        for r in on.members() {
            row[self.book.head(r).place()] = 1;
        }
        Err(Halt::Found)
    }
}
