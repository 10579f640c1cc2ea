//! Why there is no answer.
use std::error::Error;
use std::fmt;

/// Why there is no answer: the first of these that applies to anything that was given.
#[derive(Clone, Copy, Debug, PartialEq, Eq, Hash)]
#[repr(u32)]
pub enum Refusal {
    /// Columns of unequal length; of a builder, no sailing.
    Unequal = 1,
    /// A count or an id over its bound.
    OverBound = 2,
    /// A position off the globe.
    OffGlobe = 3,
    /// Ids or sequences that do not ascend; of a builder, one that is there twice.
    Unsorted = 4,
    /// A row outside its table; of a builder, an id that no row has.
    Outside = 5,
    /// A moment, the offset or a schedule second out of bounds.
    Time = 6,
    /// An id that is empty, or has a byte outside 32 to 126.
    Id = 7,
    /// A distance that is not finite.
    NotFinite = 8,
    /// A date that is not one.
    Date = 10,
}

impl Refusal {
    /// Its number.
    pub fn number(self) -> u32 {
        self as u32
    }

    pub(crate) fn read(number: u32) -> Self {
        match number {
            1 => Refusal::Unequal,
            2 => Refusal::OverBound,
            3 => Refusal::OffGlobe,
            4 => Refusal::Unsorted,
            5 => Refusal::Outside,
            6 => Refusal::Time,
            7 => Refusal::Id,
            8 => Refusal::NotFinite,
            10 => Refusal::Date,
            _ => unreachable!("an estimate has no refusal {number}"),
        }
    }
}

impl fmt::Display for Refusal {
    fn fmt(&self, f: &mut fmt::Formatter) -> fmt::Result {
        let why = match self {
            Refusal::Unequal => "columns of unequal length",
            Refusal::OverBound => "a count or an id over its bound",
            Refusal::OffGlobe => "a position off the globe",
            Refusal::Unsorted => "ids or sequences that do not ascend",
            Refusal::Outside => "a row outside its table",
            Refusal::Time => "a moment, offset or schedule second out of bounds",
            Refusal::Id => "an id that is empty or has a byte outside 32 to 126",
            Refusal::NotFinite => "a distance that is not finite",
            Refusal::Date => "a date that is not one",
        };
        write!(f, "refused with {}: {why}", self.number())
    }
}

impl Error for Refusal {}
