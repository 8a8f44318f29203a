//! The refusal numbers of documents 01 and 02, and the places that go with them.

use std::fmt;

/// A refusal, by its number.
#[derive(Clone, Copy, Debug, PartialEq, Eq)]
pub struct Refusal(pub u8);

/// A refusal with its place on the sheet; with 11 the place is what was needed.
#[derive(Clone, Copy, Debug, PartialEq, Eq)]
pub struct Refused {
    pub refusal: Refusal,
    pub place: usize,
}

impl Refusal {
    pub fn at(self, place: usize) -> Refused {
        Refused {
            refusal: self,
            place,
        }
    }

    /// No sheet is at fault, or a writer refuses: the place is 0.
    pub fn nowhere(self) -> Refused {
        self.at(0)
    }
}

impl fmt::Display for Refusal {
    fn fmt(&self, out: &mut fmt::Formatter) -> fmt::Result {
        write!(out, "refused {}", self.0)
    }
}

impl fmt::Display for Refused {
    fn fmt(&self, out: &mut fmt::Formatter) -> fmt::Result {
        write!(out, "{} {}", self.refusal, self.place)
    }
}

/// The sheet ends inside a number or before one that is due.
pub const ENDS: Refusal = Refusal(1);
/// A number is not in shortest form or is too large.
pub const FORM: Refusal = Refusal(2);
/// The kind is not the one this call takes.
pub const KIND: Refusal = Refusal(3);
/// The unit number differs.
pub const OTHER_UNIT: Refusal = Refusal(4);
/// Not rented, or the tenancy differs.
pub const OTHER_TENANCY: Refusal = Refusal(5);
/// A count is out of its range; in a writer also tenancy 0, or lists unequal or broken.
pub const RANGE: Refusal = Refusal(6);
/// A block without copies.
pub const NO_COPY: Refusal = Refusal(7);
/// A number that should rise does not.
pub const NOT_RISING: Refusal = Refusal(8);
/// Bytes follow the last field.
pub const TRAILING: Refusal = Refusal(9);
/// A read request before any settings.
pub const NO_SETTINGS: Refusal = Refusal(10);
/// The result is longer than the lent buffer.
pub const NO_ROOM: Refusal = Refusal(11);
/// Rent while rented.
pub const RENTED: Refusal = Refusal(12);
/// Rent not above the last tenancy.
pub const NOT_ABOVE: Refusal = Refusal(13);
/// Return while not rented, or of another tenancy.
pub const NOT_RETURNED: Refusal = Refusal(14);
/// A cost, load, delay, start rule, mark or plan time is out of its range.
pub const VALUE: Refusal = Refusal(15);
/// A disk or block number is out of its range.
pub const NO_SUCH: Refusal = Refusal(16);
/// All copies of a block are out.
pub const ALL_OUT: Refusal = Refusal(20);
