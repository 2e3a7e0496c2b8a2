// The numbers of atoms and of rules: both are one byte in a book; they are kept apart by type.

/// What a set of 256 bits may hold.
pub trait Number: Copy {
    fn from_byte(byte: u8) -> Self;
    fn byte(self) -> u8;

    /// Its place in a table.
    fn place(self) -> usize {
        self.byte() as usize
    }
}

#[derive(Clone, Copy, PartialEq, Eq)]
pub struct AtomNo(pub u8);

#[derive(Clone, Copy, PartialEq, Eq)]
pub struct RuleNo(pub u8);

impl Number for AtomNo {
    fn from_byte(byte: u8) -> AtomNo {
        AtomNo(byte)
    }

    fn byte(self) -> u8 {
        self.0
    }
}

impl Number for RuleNo {
    fn from_byte(byte: u8) -> RuleNo {
        RuleNo(byte)
    }

    fn byte(self) -> u8 {
        self.0
    }
}
