// Where each atom of a book stands, as sets of rules, made once for a book.

use crate::book::Book;
use crate::numbers::{AtomNo, Number};
use crate::set::Rules;

pub struct Rows {
    /// For each atom the rules with that head, those with the atom among their positive atoms, and
    /// those with it among their negative ones.
    pub heads: [Rules; 256],
    pub positive: [Rules; 256],
    pub negative: [Rules; 256],
    /// The rules without positive atoms, which stand on no other rule.
    pub free: Rules,
    pub all: Rules,
}

impl Rows {
    pub fn new(book: &Book) -> Rows {
        let mut rows = Rows {
            heads: [Rules::EMPTY; 256],
            positive: [Rules::EMPTY; 256],
            negative: [Rules::EMPTY; 256],
            free: book.all_rules(),
            all: book.all_rules(),
        };
        for r in rows.all.members() {
            rows.heads[book.head(r).place()].insert(r);
            for a in book.positives(r) {
                rows.positive[a.place()].insert(r);
                rows.free.remove(r);
            }
            for a in book.negatives(r) {
                rows.negative[a.place()].insert(r);
            }
        }
        rows
    }

    /// The atom is the head of a rule of the set.
    pub fn is_headed(&self, a: AtomNo, rules: &Rules) -> bool {
        self.heads[a.place()].meets(rules)
    }

    /// All rules with that head are off. An atom with no rule counts.
    pub fn is_lost(&self, a: AtomNo, off: &Rules) -> bool {
        self.heads[a.place()].is_within(off)
    }
}
