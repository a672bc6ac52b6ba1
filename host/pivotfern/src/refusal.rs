//! Why a call was refused, in words that a site can act on. One enum for every call, with document 01's numbers and values: a caller can
//! match on the case, and a message always begins with the number, so that it can be read over the telephone.

use crate::input::Side;
use crate::raw::Told;
use std::fmt;

/// Why a call was refused: document 01's numbers 1 to 14, in its order. A later version may have more.
#[derive(Clone, Copy, Debug, PartialEq, Eq)]
#[non_exhaustive]
pub enum Refusal {
    /// 1: a limit is passed.
    TooBig,
    /// 2: the pointers break a rule, values and rows differ in count, or a block list is odd.
    BadShape,
    /// 3: a row number that is too large, or not above the one before it.
    BadRow {
        /// The first such column.
        column: u64,
        /// The entry's place among all entries.
        place: u64,
    },
    /// 4: a side has no block.
    EmptySide {
        /// Which side; kept is looked at first.
        side: Side,
    },
    /// 5: the chunk length is 0 or too large.
    BadChunk,
    /// 6: a buffer is shorter than its need.
    NoRoom {
        /// The buffer's place in the room list.
        buffer: u64,
        /// How many places it needs.
        need: u64,
    },
    /// 7: a block or a call names a column that does not exist.
    ColumnOutOfRange {
        /// That column.
        column: u64,
    },
    /// 8: a column is claimed a second time.
    ColumnTwice {
        /// That column.
        column: u64,
    },
    /// 9: no block claims a column.
    ColumnUnclaimed {
        /// The lowest such column.
        column: u64,
    },
    /// 10: two eliminated blocks have entries in one row.
    Connected {
        /// The block that finds its row taken.
        now: u64,
        /// The block that holds the row.
        earlier: u64,
    },
    /// 11: a vector, plan list or work buffer has another length than it should.
    WrongLength {
        /// Its place among those that the call takes, from 0.
        place: u64,
        /// The length it should have.
        need: u64,
    },
    /// 12: a damping limit is NaN, or min is above max.
    BadDamping,
    /// 13: a side's spans do not fit the columns.
    BadPlan {
        /// Which side; kept is looked at first.
        side: Side,
    },
    /// 14: a work order that cannot be done.
    BadSchedule {
        /// The first place that fails, or the order's length where spans are left.
        place: u64,
    },
}

impl Refusal {
    /// The refusal that a call tells. `None` where the number or its side is not one of document 01's.
    #[must_use]
    pub fn from_told(told: Told) -> Option<Refusal> {
        let (first, second) = (told.first, told.second);
        Some(match told.number {
            1 => Refusal::TooBig,
            2 => Refusal::BadShape,
            3 => Refusal::BadRow {
                column: first,
                place: second,
            },
            4 => Refusal::EmptySide {
                side: Side::from_number(first)?,
            },
            5 => Refusal::BadChunk,
            6 => Refusal::NoRoom {
                buffer: first,
                need: second,
            },
            7 => Refusal::ColumnOutOfRange { column: first },
            8 => Refusal::ColumnTwice { column: first },
            9 => Refusal::ColumnUnclaimed { column: first },
            10 => Refusal::Connected {
                now: first,
                earlier: second,
            },
            11 => Refusal::WrongLength {
                place: first,
                need: second,
            },
            12 => Refusal::BadDamping,
            13 => Refusal::BadPlan {
                side: Side::from_number(first)?,
            },
            14 => Refusal::BadSchedule { place: first },
            _ => return None,
        })
    }

    /// Document 01's number.
    #[must_use]
    pub fn number(self) -> u32 {
        match self {
            Refusal::TooBig => 1,
            Refusal::BadShape => 2,
            Refusal::BadRow { .. } => 3,
            Refusal::EmptySide { .. } => 4,
            Refusal::BadChunk => 5,
            Refusal::NoRoom { .. } => 6,
            Refusal::ColumnOutOfRange { .. } => 7,
            Refusal::ColumnTwice { .. } => 8,
            Refusal::ColumnUnclaimed { .. } => 9,
            Refusal::Connected { .. } => 10,
            Refusal::WrongLength { .. } => 11,
            Refusal::BadDamping => 12,
            Refusal::BadPlan { .. } => 13,
            Refusal::BadSchedule { .. } => 14,
        }
    }

    /// Its values: none, one or two.
    #[must_use]
    pub fn values(self) -> Vec<u64> {
        match self {
            Refusal::TooBig | Refusal::BadShape | Refusal::BadChunk | Refusal::BadDamping => vec![],
            Refusal::BadRow { column, place } => vec![column, place],
            Refusal::NoRoom { buffer, need } => vec![buffer, need],
            Refusal::Connected { now, earlier } => vec![now, earlier],
            Refusal::WrongLength { place, need } => vec![place, need],
            Refusal::EmptySide { side } | Refusal::BadPlan { side } => vec![side.number().into()],
            Refusal::ColumnOutOfRange { column } | Refusal::ColumnTwice { column } | Refusal::ColumnUnclaimed { column } => vec![column],
            Refusal::BadSchedule { place } => vec![place],
        }
    }

    /// The name that document 01 gives it.
    #[must_use]
    pub fn name(self) -> &'static str {
        match self {
            Refusal::TooBig => "TooBig",
            Refusal::BadShape => "BadShape",
            Refusal::BadRow { .. } => "BadRow",
            Refusal::EmptySide { .. } => "EmptySide",
            Refusal::BadChunk => "BadChunk",
            Refusal::NoRoom { .. } => "NoRoom",
            Refusal::ColumnOutOfRange { .. } => "ColumnOutOfRange",
            Refusal::ColumnTwice { .. } => "ColumnTwice",
            Refusal::ColumnUnclaimed { .. } => "ColumnUnclaimed",
            Refusal::Connected { .. } => "Connected",
            Refusal::WrongLength { .. } => "WrongLength",
            Refusal::BadDamping => "BadDamping",
            Refusal::BadPlan { .. } => "BadPlan",
            Refusal::BadSchedule { .. } => "BadSchedule",
        }
    }
}

impl fmt::Display for Refusal {
    fn fmt(&self, f: &mut fmt::Formatter) -> fmt::Result {
        write!(f, "refusal {}, {}: ", self.number(), self.name())?;
        match *self {
            Refusal::TooBig => write!(
                f,
                "more than 1,048,576 rows, 65,536 columns, 16,777,216 entries or 65,536 blocks of a side"
            ),
            Refusal::BadShape => write!(
                f,
                "the pointers do not rise from 0 to the entry count, values and row numbers differ in count, or a block list is of odd length"
            ),
            Refusal::BadRow { column, place } => write!(
                f,
                "in column {column}, the row number of entry {place} is too large or not above the one before it"
            ),
            Refusal::EmptySide { side } => write!(f, "the {} side has no block", side.name()),
            Refusal::BadChunk => write!(f, "the chunk length is 0 or above 1,048,576"),
            Refusal::NoRoom { buffer, need } => {
                write!(f, "buffer {buffer} of the room list needs {need} places")
            }
            Refusal::ColumnOutOfRange { column } => {
                write!(f, "column {column} is named and does not exist")
            }
            Refusal::ColumnTwice { column } => write!(f, "column {column} is claimed by two blocks"),
            Refusal::ColumnUnclaimed { column } => write!(f, "column {column} is claimed by no block"),
            Refusal::Connected { now, earlier } => write!(
                f,
                "eliminated block {now} has an entry in a row that eliminated block {earlier} holds"
            ),
            Refusal::WrongLength { place, need } => {
                write!(f, "list {place} of the call, counted from 0, must have {need} places")
            }
            Refusal::BadDamping => write!(f, "min or max is NaN, or min is above max"),
            Refusal::BadPlan { side } => write!(
                f,
                "the {} side's spans do not fit these columns and this chunk length",
                side.name()
            ),
            Refusal::BadSchedule { place } => write!(
                f,
                "the work order fails at place {place}: no such chunk, no span left there, or the order ends too early"
            ),
        }
    }
}

impl std::error::Error for Refusal {}

/// Why a call has no result.
#[derive(Clone, Copy, Debug, PartialEq, Eq)]
pub enum Error {
    /// The call was refused.
    Refused(Refusal),
    /// The archive told something that document 01 does not have: archive and host do not belong together.
    Unknown(Told),
}

impl Error {
    /// The refusal, where it is one.
    #[must_use]
    pub fn refusal(self) -> Option<Refusal> {
        match self {
            Error::Refused(refusal) => Some(refusal),
            Error::Unknown(_) => None,
        }
    }
}

impl fmt::Display for Error {
    fn fmt(&self, f: &mut fmt::Formatter) -> fmt::Result {
        match self {
            Error::Refused(refusal) => refusal.fmt(f),
            Error::Unknown(told) => write!(
                f,
                "unknown answer {} ({}, {}): archive and host do not belong together",
                told.number, told.first, told.second
            ),
        }
    }
}

impl std::error::Error for Error {}

impl From<Refusal> for Error {
    fn from(refusal: Refusal) -> Error {
        Error::Refused(refusal)
    }
}

impl Told {
    /// What it means where it is no success.
    #[must_use]
    pub fn error(self) -> Error {
        match Refusal::from_told(self) {
            Some(refusal) => Error::Refused(refusal),
            None => Error::Unknown(self),
        }
    }

    /// `Ok` for 0.
    ///
    /// # Errors
    ///
    /// What any other number means.
    pub fn done(self) -> Result<(), Error> {
        match self.number {
            0 => Ok(()),
            _ => Err(self.error()),
        }
    }
}

#[cfg(test)]
mod tests {
    use super::*;

    fn told(number: u32, first: u64, second: u64) -> Told {
        Told { number, first, second }
    }

    // Each refusal's number, name, values and message, beside document 01's table.
    #[test]
    fn messages() {
        let table: [(u32, &[u64], &str); 16] = [
            (1, &[], "refusal 1, TooBig: more than 1,048,576 rows, 65,536 columns, 16,777,216 entries or 65,536 blocks of a side"),
            (2, &[], "refusal 2, BadShape: the pointers do not rise from 0 to the entry count, values and row numbers differ in count, or a block list is of odd length"),
            (3, &[4, 17], "refusal 3, BadRow: in column 4, the row number of entry 17 is too large or not above the one before it"),
            (4, &[0], "refusal 4, EmptySide: the kept side has no block"),
            (4, &[1], "refusal 4, EmptySide: the eliminated side has no block"),
            (5, &[], "refusal 5, BadChunk: the chunk length is 0 or above 1,048,576"),
            (6, &[7, 72000], "refusal 6, NoRoom: buffer 7 of the room list needs 72000 places"),
            (7, &[17], "refusal 7, ColumnOutOfRange: column 17 is named and does not exist"),
            (8, &[17], "refusal 8, ColumnTwice: column 17 is claimed by two blocks"),
            (9, &[17], "refusal 9, ColumnUnclaimed: column 17 is claimed by no block"),
            (10, &[5, 2], "refusal 10, Connected: eliminated block 5 has an entry in a row that eliminated block 2 holds"),
            (11, &[3, 40], "refusal 11, WrongLength: list 3 of the call, counted from 0, must have 40 places"),
            (12, &[], "refusal 12, BadDamping: min or max is NaN, or min is above max"),
            (13, &[0], "refusal 13, BadPlan: the kept side's spans do not fit these columns and this chunk length"),
            (13, &[1], "refusal 13, BadPlan: the eliminated side's spans do not fit these columns and this chunk length"),
            (14, &[9], "refusal 14, BadSchedule: the work order fails at place 9: no such chunk, no span left there, or the order ends too early"),
        ];
        for (number, values, message) in table {
            let first = values.first().copied().unwrap_or(0);
            let second = values.get(1).copied().unwrap_or(0);
            let error = told(number, first, second).done().unwrap_err();
            let refusal = error.refusal().unwrap();
            assert_eq!(refusal.number(), number);
            assert_eq!(refusal.values(), values);
            assert_eq!(refusal.to_string(), message);
            assert_eq!(error.to_string(), message);
        }
    }

    #[test]
    fn numbers_that_document_01_does_not_have() {
        for strange in [told(15, 0, 0), told(u32::MAX, 1, 2), told(4, 2, 0), told(13, 2, 0)] {
            assert_eq!(strange.done(), Err(Error::Unknown(strange)));
        }
        assert_eq!(
            told(99, 5, 6).error().to_string(),
            "unknown answer 99 (5, 6): archive and host do not belong together"
        );
    }
}
