//! Why a call was refused.

use std::error::Error;
use std::fmt;

use crate::place::Place;

/// Why a call was refused. A refused call leaves every byte of the book or of the sheet as it was.
#[derive(Clone, Copy, Debug, PartialEq, Eq, Hash)]
#[non_exhaustive]
pub enum Refusal {
    /// 1: the length is not a multiple of 80 from 160 to 64,000.
    Length,
    /// 2: the book is damaged, and this record is faulty.
    Damaged {
        /// The index of the faulty record; of several the smallest.
        record: u32,
    },
    /// 3: the call needs one more record.
    Full,
    /// 4: the user number is 0, or a user has it already.
    Number,
    /// 5: a detail of the enrolment is out of its range.
    Detail,
    /// 6: no user has the number.
    Unknown,
    /// 7: there is no such day or option.
    Day,
    /// 8: the day is outside the election's window, or the open year is 2100.
    Window,
    /// 9: the year is not open or is above 2099, or the run is none, is not due or was made.
    Run,
    /// 10: the rate is above 500,000 or an estimate above 360,000,000 kWh.
    Order,
    /// 11: the sheet's length, header or a zero word is wrong.
    Sheet,
    /// 12: the sheet's year is not open or is above 2099.
    SheetYear,
    /// 13: a number of the sheet is above its limit; of the numbers at fault it is the earliest.
    AboveLimit {
        /// Its month, 1 to 12.
        month: u32,
        /// Its place in the month.
        place: Place,
    },
    /// 14: a domestic user withdrew more than 4,000,000 kWh in a month.
    DomesticMonth,
    /// 16: the open year is charged already, or is above 2099.
    Charge,
    /// 17: a line of the operator's text is not seven numbers with semicolons, is not of its month, or stands behind the twelfth.
    Line {
        /// The line, 1 to 13.
        line: u32,
    },
    /// 19: a single reading has kWh in F2 or F3; of the numbers at fault it is the earliest.
    StrayBand {
        /// Its month, 1 to 12.
        month: u32,
        /// Its place in the month.
        place: Place,
    },
    /// 23: the month is not 1 to 12, or the band is none of the injected reading.
    NoField,
    /// 26: the factor is above 200 thousandths.
    Factor,
    /// 27: a buffer is not of a sheet's 1,184 bytes.
    BufferSize,
    /// A number that this crate has no name for: the library is newer than the crate.
    Other(u32),
}

impl Refusal {
    /// Nothing for an accepted call, else the refusal with this number.
    #[inline]
    pub(crate) fn check(refusal: u32, record: u32) -> Result<(), Refusal> {
        Refusal::check_sheet(refusal, record, 0, 0)
    }

    /// The same for a call that takes a year sheet, and tells where the number at fault stands.
    /// What is named is a record, or a line of a text.
    pub(crate) fn check_sheet(refusal: u32, named: u32, month: u32, place: u32) -> Result<(), Refusal> {
        let (record, line, place) = (named, named, Place(place));
        Err(match refusal {
            0 => return Ok(()),
            1 => Refusal::Length,
            2 => Refusal::Damaged { record },
            3 => Refusal::Full,
            4 => Refusal::Number,
            5 => Refusal::Detail,
            6 => Refusal::Unknown,
            7 => Refusal::Day,
            8 => Refusal::Window,
            9 => Refusal::Run,
            10 => Refusal::Order,
            11 => Refusal::Sheet,
            12 => Refusal::SheetYear,
            13 => Refusal::AboveLimit { month, place },
            14 => Refusal::DomesticMonth,
            16 => Refusal::Charge,
            17 => Refusal::Line { line },
            19 => Refusal::StrayBand { month, place },
            23 => Refusal::NoField,
            26 => Refusal::Factor,
            27 => Refusal::BufferSize,
            other => Refusal::Other(other),
        })
    }

    /// The refusal's number.
    pub fn number(self) -> u32 {
        match self {
            Refusal::Length => 1,
            Refusal::Damaged { .. } => 2,
            Refusal::Full => 3,
            Refusal::Number => 4,
            Refusal::Detail => 5,
            Refusal::Unknown => 6,
            Refusal::Day => 7,
            Refusal::Window => 8,
            Refusal::Run => 9,
            Refusal::Order => 10,
            Refusal::Sheet => 11,
            Refusal::SheetYear => 12,
            Refusal::AboveLimit { .. } => 13,
            Refusal::DomesticMonth => 14,
            Refusal::Charge => 16,
            Refusal::Line { .. } => 17,
            Refusal::StrayBand { .. } => 19,
            Refusal::NoField => 23,
            Refusal::Factor => 26,
            Refusal::BufferSize => 27,
            Refusal::Other(number) => number,
        }
    }
}

impl fmt::Display for Refusal {
    fn fmt(&self, f: &mut fmt::Formatter<'_>) -> fmt::Result {
        f.write_str(match self {
            Refusal::Length => "the book's length is not a multiple of 80 from 160 to 64,000",
            Refusal::Damaged { record } => {
                return write!(f, "the book is damaged: record {record} is faulty");
            }
            Refusal::Full => "the book is full",
            Refusal::Number => "the user number is 0, or a user has it already",
            Refusal::Detail => "a detail of the enrolment is out of its range",
            Refusal::Unknown => "no user has the number",
            Refusal::Day => "there is no such day or option",
            Refusal::Window => "the day is outside the election's window, or the open year is 2100",
            Refusal::Run => "the year is not open or is above 2099, or the run is none, is not due or was made",
            Refusal::Order => "the rate is above 500,000 or an estimate above 360,000,000 kWh",
            Refusal::Sheet => "the sheet's length, header or a zero word is wrong",
            Refusal::SheetYear => "the sheet's year is not open or is above 2099",
            Refusal::AboveLimit { month, place } => {
                let limit = if place.is_energy() { "20,000,000 kWh" } else { "500,000" };
                return write!(f, "month {month}: {place} is above {limit}");
            }
            Refusal::DomesticMonth => "a domestic user withdrew more than 4,000,000 kWh in a month",
            Refusal::Charge => "the open year is charged already, or is above 2099",
            Refusal::Line { line: line @ 13.. } => {
                return write!(f, "line {line}: the text goes on behind its twelfth line");
            }
            Refusal::Line { line } => {
                return write!(f, "line {line}: not seven numbers with semicolons, the first of them {line}");
            }
            Refusal::StrayBand { month, place } => {
                return write!(f, "month {month}: {place} is filled, but the reading is single");
            }
            Refusal::NoField => "the month is not 1 to 12, or the band is none of the injected reading",
            Refusal::Factor => "the factor is above 200 thousandths",
            Refusal::BufferSize => "a buffer is not of a sheet's 1,184 bytes",
            Refusal::Other(number) => return write!(f, "refusal {number}"),
        })
    }
}

impl Error for Refusal {}

#[cfg(test)]
mod tests {
    use super::Refusal;

    #[test]
    fn numbers_are_kept() {
        for number in 1..=30 {
            let refusal = Refusal::check(number, 5).expect_err("not 0");
            assert_eq!(refusal.number(), number);
            let named = number <= 14 || matches!(number, 16 | 17 | 19 | 23 | 26 | 27);
            assert_eq!(refusal != Refusal::Other(number), named, "refusal {number} has a name");
        }
        assert_eq!(Refusal::check(0, 0), Ok(()));
    }

    #[test]
    fn a_sheet_names_its_number() {
        let words = |number, month, place| Refusal::check_sheet(number, 0, month, place).expect_err("not 0").to_string();
        assert_eq!(words(19, 3, 5), "month 3: injected F2 is filled, but the reading is single");
        assert_eq!(words(13, 12, 1), "month 12: withdrawn F1 is above 20,000,000 kWh");
        assert_eq!(words(13, 1, 23), "month 1: system rate of tier 4 is above 500,000");
    }

    #[test]
    fn damage_names_its_record() {
        let refusal = Refusal::check(2, 5).expect_err("not 0");
        assert_eq!(refusal.to_string(), "the book is damaged: record 5 is faulty");
    }
}
