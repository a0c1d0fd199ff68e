use crate::sys;
use std::fmt;

/// What an item of a name is, with its number in the C layer.
#[derive(Clone, Copy, Debug, PartialEq, Eq, PartialOrd, Ord, Hash)]
#[repr(u32)]
pub enum Kind {
    /// A timer.
    Timer = sys::TIMER,
    /// A port.
    Port = sys::PORT,
    /// A register.
    Register = sys::REGISTER,
}

impl Kind {
    /// All of them, in the order of their numbers.
    pub const ALL: [Kind; 3] = [Kind::Timer, Kind::Port, Kind::Register];

    /// Its number.
    pub fn number(self) -> u32 {
        self as u32
    }

    /// The kind with this number, if there is one.
    pub fn from_number(number: u32) -> Option<Kind> {
        Kind::ALL.into_iter().find(|k| k.number() == number)
    }

    /// The letter before an item's number: `t`, `p` or `r`.
    pub fn letter(self) -> char {
        match self {
            Kind::Timer => 't',
            Kind::Port => 'p',
            Kind::Register => 'r',
        }
    }
}

/// The item of a name. Two of them are equal when kind and number are.
#[derive(Clone, Copy, Debug, PartialEq, Eq, PartialOrd, Ord, Hash)]
pub struct Item {
    /// What it is.
    pub kind: Kind,
    /// Its number.
    pub number: u32,
}

impl Item {
    /// A timer with this number.
    pub const fn timer(number: u32) -> Item {
        Item { kind: Kind::Timer, number }
    }

    /// A port with this number.
    pub const fn port(number: u32) -> Item {
        Item { kind: Kind::Port, number }
    }

    /// A register with this number.
    pub const fn register(number: u32) -> Item {
        Item { kind: Kind::Register, number }
    }

    /// What a call of the C layer has found or listed. Its kind is always one of the three, since a table with another is refused as
    /// unsound; a number that is none would read as a register.
    pub(crate) fn read(kind: u32, number: u32) -> Item {
        Item { kind: Kind::from_number(kind).unwrap_or(Kind::Register), number }
    }
}

/// As the console writes it: `t5`, `p5`, `r5`.
impl fmt::Display for Item {
    fn fmt(&self, f: &mut fmt::Formatter<'_>) -> fmt::Result {
        write!(f, "{}{}", self.kind.letter(), self.number)
    }
}
