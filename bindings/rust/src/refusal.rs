use std::error::Error;
use std::fmt;

/// Why a call was refused, with the requirements' number. Where several apply, the first in this order is given; a refused call changes nothing.
#[derive(Clone, Copy, Debug, PartialEq, Eq, PartialOrd, Ord, Hash)]
#[repr(u32)]
pub enum Refusal {
    /// The table's memory is not a sound table. Tables that only calls have changed are.
    Unsound = 1,
    /// A query that is not empty does not end in a dot, or a byte is not allowed at its place.
    Malformed = 2,
    /// An empty id, key or segment of a registration or look-up; a look-up with no segment.
    Empty = 3,
    /// A name or segment over 31 bytes, over 17 segments, or a file path over 120 bytes.
    TooLong = 4,
    /// Some list of the new table would weigh over 96.
    Crowded = 5,
    /// A root of the new table would have depth over 16.
    Deep = 6,
    /// The call needs more records than are free.
    Full = 7,
    /// The call's texts are longer than the free text.
    TextFull = 8,
    /// The completion enters more tries than its budget.
    Spent = 9,
    /// The lines, or their texts, do not fit the output.
    Lines = 10,
}

impl Refusal {
    /// All of them, in the order of their numbers.
    pub const ALL: [Refusal; 10] = [
        Refusal::Unsound,
        Refusal::Malformed,
        Refusal::Empty,
        Refusal::TooLong,
        Refusal::Crowded,
        Refusal::Deep,
        Refusal::Full,
        Refusal::TextFull,
        Refusal::Spent,
        Refusal::Lines,
    ];

    /// The requirements' number.
    pub fn number(self) -> u32 {
        self as u32
    }

    /// The refusal with this number, if there is one.
    pub fn from_number(number: u32) -> Option<Refusal> {
        Refusal::ALL.into_iter().find(|r| r.number() == number)
    }

    /// An answer of the C layer: accepted, or the refusal.
    pub(crate) fn check(answer: u32) -> Result<(), Refusal> {
        match answer {
            0 => Ok(()),
            n => Err(Refusal::from_number(n).unwrap_or_else(|| unreachable!("answer {n}"))),
        }
    }
}

impl fmt::Display for Refusal {
    fn fmt(&self, f: &mut fmt::Formatter<'_>) -> fmt::Result {
        let meaning = match self {
            Refusal::Unsound => "the memory is not a sound table",
            Refusal::Malformed => "a query does not end in a dot, or a byte is not allowed at its place",
            Refusal::Empty => "an empty name or segment, or a look-up with no segment",
            Refusal::TooLong => "a name over 31 bytes, over 17 segments, or a path over 120 bytes",
            Refusal::Crowded => "a list would weigh over 96",
            Refusal::Deep => "a root would have depth over 16",
            Refusal::Full => "more records needed than are free",
            Refusal::TextFull => "more text needed than is free",
            Refusal::Spent => "more tries to enter than the budget",
            Refusal::Lines => "the lines or their texts do not fit the output",
        };
        write!(f, "{} {self:?}: {meaning}", self.number())
    }
}

impl Error for Refusal {}
