// The colouring: which rules are on and off, and at how many choices each rule got its colour.

use crate::numbers::{Number, RuleNo};
use crate::set::Rules;

#[derive(Clone, Copy)]
pub enum Side {
    On,
    Off,
}

#[derive(Clone, Copy)]
pub struct Colouring {
    pub on: Rules,
    pub off: Rules,
    /// The choices so far, and for each coloured rule those that stood above it then.
    pub level: u8,
    pub levels: [u8; 255],
}

impl Colouring {
    pub const EMPTY: Colouring =
        Colouring { on: Rules::EMPTY, off: Rules::EMPTY, level: 0, levels: [0; 255] };

    /// The rule gets its colour by choice, one level deeper.
    pub fn choose(&mut self, r: RuleNo, side: Side) {
        match side {
            Side::On => self.on.insert(r),
            Side::Off => self.off.insert(r),
        }
        self.level += 1;
        self.levels[r.place()] = self.level;
    }

    pub fn coloured(&self) -> Rules {
        self.on.union(&self.off)
    }

    /// The rules get the present level.
    pub fn stamp(&mut self, rules: &Rules) {
        for r in rules.members() {
            self.levels[r.place()] = self.level;
        }
    }
}
