//! A net metering account book (scambio sul posto, by the GSE's rules of May 2013) in one buffer that the caller lends.
//!
//! The calls are those of the proved library `libssp.a`; this crate lends it the buffer, names its refusals and shows its
//! amounts in euro. Any bytes may be lent and any numbers brought: what does not fit is refused, and a refused call leaves
//! every byte as it was.
//!
//! ```
//! use ssp_book::{Book, Day, Enrolment, Refusal, option};
//!
//! let mut bytes = [0; 8 * Book::RECORD];
//! let mut book = Book::fresh(&mut bytes)?;
//! let household = Enrolment {
//!     number: 7,
//!     class: 2,
//!     plant: 1,
//!     option: option::CREDIT,
//!     power: 3000,
//!     year: 2013,
//!     month: 1,
//!     island: 0,
//! };
//! assert_eq!(book.enrol(household)?, 1);
//! book.elect(7, option::LIQUIDATION, Day { year: 2013, month: 12, day: 31 })?;
//! assert_eq!(book.statement(7)?.open_year, 2013);
//! assert_eq!(book.statement(8), Err(Refusal::Unknown));
//! # Ok::<(), Refusal>(())
//! ```

#![warn(missing_docs)]

mod amount;
mod answers;
mod archive;
mod energy;
mod ffi;
mod losses;
mod measures;
mod place;
mod refusal;

pub use amount::{Balance, Ticks};
pub use answers::{Closing, Statement};
pub use archive::{archive_sheet, archive_sheet_into, restore_sheet, restore_sheet_into};
pub use energy::Kwh;
pub use losses::{Rests, raise_injected};
pub use measures::{read_measures, write_measures, write_measures_into};
pub use place::Place;
pub use refusal::Refusal;

/// The options of a year: what becomes of value beyond the purchase cost.
pub mod option {
    /// It is carried as credit.
    pub const CREDIT: u8 = 0;
    /// It is paid out, and the credit before it lapses.
    pub const LIQUIDATION: u8 = 1;
}

/// The runs of advances.
pub mod run {
    /// The run of June, for the first half of the year.
    pub const JUNE: u8 = 1;
    /// The run of October, for the second half; for both in the year of activation, if the plant started in March to August.
    pub const OCTOBER: u8 = 2;
    /// The run of January, for both halves of the year of activation, if the plant started in September to November.
    pub const JANUARY: u8 = 4;
}

/// What an enrolment brings.
#[derive(Clone, Copy, Debug, PartialEq, Eq)]
pub struct Enrolment {
    /// Any but 0 that no user of the book has.
    pub number: u32,
    /// 1 domestic D2, 2 domestic D3, 3 lighting, 4 vehicle charging, 5 other low voltage, 6 to 8 the same three at medium
    /// voltage, 9 high, 10 and 11 extra high voltage.
    pub class: u8,
    /// 1 to 16, the kinds of Table 1 in printed order (1 photovoltaic); 17 non-renewable high-efficiency cogeneration.
    pub plant: u8,
    /// One of [`option`].
    pub option: u8,
    /// Of the plant, 1 to 200,000 W.
    pub power: u32,
    /// Of activation, 2013 to 2099.
    pub year: u16,
    /// Of activation, 1 to 12.
    pub month: u8,
    /// 1 for a network that is not interconnected, else 0.
    pub island: u8,
}

/// A day of the Gregorian calendar.
#[derive(Clone, Copy, Debug, PartialEq, Eq)]
pub struct Day {
    /// The year's number.
    pub year: u32,
    /// 1 to 12.
    pub month: u32,
    /// From 1 to the month's last.
    pub day: u32,
}

/// An order to pay a run of advances.
#[derive(Clone, Copy, Debug, PartialEq, Eq)]
pub struct Order {
    /// The user's open year or the one after it, at most 2099.
    pub year: u32,
    /// One of [`run`].
    pub run: u8,
    /// In 0.00001 € per kWh, at most 500,000.
    pub rate: u64,
    /// For each half of the year in kWh, at most 360,000,000; used while no year is closed, checked always.
    pub estimates: [u64; 2],
}

/// A library of another interface may lay its answers out otherwise: no book is made with it.
fn check_library() {
    // SAFETY: it takes nothing and answers a number, in every interface from 2 on.
    let linked = unsafe { ffi::ssp_interface() };
    assert_eq!(linked, ffi::INTERFACE, "libssp.a has another interface than this crate");
}

/// A book over bytes that the caller lends.
///
/// It holds nothing but the bytes: they may be stored and lent again later.
#[derive(Debug)]
pub struct Book<'a> {
    bytes: &'a mut [u8],
}

impl<'a> Book<'a> {
    /// The length of a record. The head takes one, and each user, each advance and each closing one more.
    pub const RECORD: usize = 80;

    /// The length of a year sheet.
    pub const SHEET: usize = 1184;
    /// The bytes that the lines of every sheet fit into, as the grid operator's text has them.
    pub const MEASURES: usize = 675;

    /// Where a user's record has its newest entry, and an entry what it had withheld (docs/FORMAT.md).
    const FIRST_ENTRY: usize = 12;
    const WITHHELD: usize = 68;

    /// The book that the bytes hold. Whether they hold one is checked by each call.
    ///
    /// # Panics
    ///
    /// If the linked library has another interface than this crate was written for.
    pub fn over(bytes: &'a mut [u8]) -> Book<'a> {
        check_library();
        Book { bytes }
    }

    /// Makes a fresh book of the bytes, whatever they held. Refused with [`Refusal::Length`] alone.
    ///
    /// # Panics
    ///
    /// If the linked library has another interface than this crate was written for.
    pub fn fresh(bytes: &'a mut [u8]) -> Result<Book<'a>, Refusal> {
        check_library();
        // SAFETY: the pointer and the length are those of a slice that is borrowed mutably for the whole call.
        let refusal = unsafe { ffi::ssp_fresh(bytes.as_mut_ptr(), bytes.len()) };
        Refusal::check(refusal, 0)?;
        Ok(Book { bytes })
    }

    /// The bytes of the book.
    pub fn bytes(&self) -> &[u8] {
        self.bytes
    }

    /// Enrols a user and answers the index of its record. Refusals in the order 1 2 4 5 3.
    pub fn enrol(&mut self, user: Enrolment) -> Result<u32, Refusal> {
        // SAFETY: the pointer and the length are those of a slice that is borrowed mutably for the whole call.
        let booked = unsafe {
            ffi::ssp_enrol(
                self.bytes.as_mut_ptr(),
                self.bytes.len(),
                user.number,
                user.class,
                user.plant,
                user.option,
                user.power,
                user.year,
                user.month,
                user.island,
            )
        };
        Refusal::check(booked.refusal, booked.record)?;
        Ok(booked.record)
    }

    /// Sets the option of a user's open year and of those after it. Refusals in the order 1 2 6 7 8.
    pub fn elect(&mut self, number: u32, option: u8, day: Day) -> Result<(), Refusal> {
        // SAFETY: the pointer and the length are those of a slice that is borrowed mutably for the whole call.
        let booked = unsafe {
            ffi::ssp_elect(
                self.bytes.as_mut_ptr(),
                self.bytes.len(),
                number,
                option,
                day.year,
                day.month,
                day.day,
            )
        };
        Refusal::check(booked.refusal, booked.record)
    }

    /// Charges a user's open year, once: 15 € for a plant of up to 3,000 W, 30 € up to 20,000 W, 45 € above. What is charged is
    /// withheld from the payments after it, see [`Book::withheld`]. Answers the index of the user's record. Refusals in the order
    /// 1 2 6 16.
    pub fn charge(&mut self, number: u32) -> Result<u32, Refusal> {
        // SAFETY: the pointer and the length are those of a slice that is borrowed mutably for the whole call.
        let booked = unsafe { ffi::ssp_charge(self.bytes.as_mut_ptr(), self.bytes.len(), number) };
        Refusal::check(booked.refusal, booked.record)?;
        Ok(booked.record)
    }

    /// What the newest advance or closing of a user had withheld for charges: it is to be taken off what that call answered, which
    /// is counted before it. The user is named by the index of its record, as [`Book::enrol`] and [`Book::charge`] answer it. None
    /// where it has no entry, or where the book has no such record.
    ///
    /// ```
    /// use ssp_book::{Book, Enrolment, Order, Refusal, Ticks, option, run};
    ///
    /// let mut bytes = [0; 8 * Book::RECORD];
    /// let mut book = Book::fresh(&mut bytes)?;
    /// let (number, option) = (7, option::CREDIT);
    /// let user = book.enrol(Enrolment { number, class: 2, plant: 1, option, power: 3000, year: 2013, month: 1, island: 0 })?;
    /// assert_eq!(book.charge(7)?, user);
    /// assert_eq!(book.charge(7), Err(Refusal::Charge));
    /// assert_eq!(book.withheld(user), None);
    ///
    /// // 400 kWh at 0.09 € are 36 €, of which the charge of 15 € is withheld.
    /// let paid = book.advance(7, Order { year: 2013, run: run::JUNE, rate: 9_000, estimates: [400, 0] })?;
    /// assert_eq!(paid, Ticks(3_600_000));
    /// assert_eq!(book.withheld(user), Some(Ticks(1_500_000)));
    /// # Ok::<(), Refusal>(())
    /// ```
    pub fn withheld(&self, user: u32) -> Option<Ticks> {
        let first = u32::from_le_bytes(*self.field(user, Book::FIRST_ENTRY)?);
        (first != 0).then_some(first)?;
        Some(Ticks(u64::from_le_bytes(*self.field(first, Book::WITHHELD)?)))
    }

    /// So many bytes of a record from this one on.
    fn field<const N: usize>(&self, record: u32, at: usize) -> Option<&[u8; N]> {
        let begin = usize::try_from(record).ok()?.checked_mul(Book::RECORD)? + at;
        self.bytes.get(begin..)?.first_chunk()
    }

    /// Books a run of advances for a user's open year, or for the one after it, and answers what it pays, before charges are
    /// withheld ([`Book::withheld`]). Refusals in the order 1 2 6 9 10 3.
    pub fn advance(&mut self, number: u32, order: Order) -> Result<Ticks, Refusal> {
        // SAFETY: the pointer and the length are those of a slice that is borrowed mutably for the whole call.
        let advanced = unsafe {
            ffi::ssp_advance(
                self.bytes.as_mut_ptr(),
                self.bytes.len(),
                number,
                order.year,
                order.run,
                order.rate,
                order.estimates[0],
                order.estimates[1],
            )
        };
        Refusal::check(advanced.refusal, advanced.record)?;
        Ok(Ticks(advanced.ticks))
    }

    /// Closes the open year of the user that the year sheet names, and opens the next one. Its sums are counted before charges are
    /// withheld ([`Book::withheld`]). Refusals in the order 1 2 11 6 12 13 14 3, with 19 at the place of 13.
    pub fn close(&mut self, sheet: &[u8]) -> Result<Closing, Refusal> {
        // SAFETY: the pointers and the lengths are those of two slices that are borrowed for the whole call, the book's
        // mutably, so that they do not overlap.
        let closed = unsafe { ffi::ssp_close(self.bytes.as_mut_ptr(), self.bytes.len(), sheet.as_ptr(), sheet.len()) };
        Refusal::check_sheet(closed.refusal, closed.record, closed.month, closed.place)?;
        Ok(closed.into())
    }

    /// States a user's account. Refusals in the order 1 2 6.
    pub fn statement(&self, number: u32) -> Result<Statement, Refusal> {
        // SAFETY: the pointer and the length are those of a slice that is borrowed for the whole call.
        let sums = unsafe { ffi::ssp_statement(self.bytes.as_ptr(), self.bytes.len(), number) };
        Refusal::check(sums.refusal, sums.record)?;
        Ok(sums.into())
    }

    /// The least energy that, added to the injected reading of one month and band of a year sheet, brings the value of the energy
    /// injected to the cost of the energy withdrawn or above; none where no addition within the field's limit does. It is priced
    /// for the user that the sheet names, whatever the sheet's year. Refusals in the order 1 2 11 6 13 23, with 19 at the place of
    /// 13.
    ///
    /// ```
    /// use ssp_book::{Book, Enrolment, Kwh, Refusal, option};
    ///
    /// let mut bytes = [0; 2 * Book::RECORD];
    /// let mut book = Book::fresh(&mut bytes)?;
    /// let (number, option) = (7, option::CREDIT);
    /// book.enrol(Enrolment { number, class: 2, plant: 2, option, power: 3000, year: 2013, month: 1, island: 0 })?;
    ///
    /// // A single reading: 10 kWh withdrawn at a PUN mean of 7, and injected ones that have a zone mean of 4 in March.
    /// let mut sheet = [0; Book::SHEET];
    /// sheet[0] = 7;
    /// let [withdrawn, pun_mean, zone_mean] = [0, 9, 13].map(|place| 32 + 96 * 2 + 4 * place);
    /// (sheet[withdrawn], sheet[pun_mean], sheet[zone_mean]) = (10, 7, 4);
    /// assert_eq!(book.more_sun(&sheet, 3, 1)?, Some(Kwh(18)));
    /// assert_eq!(book.more_sun(&sheet, 4, 1)?, None);
    /// assert_eq!(book.more_sun(&sheet, 3, 2), Err(Refusal::NoField));
    /// # Ok::<(), Refusal>(())
    /// ```
    pub fn more_sun(&self, sheet: &[u8], month: u32, band: u32) -> Result<Option<Kwh>, Refusal> {
        // SAFETY: the pointers and the lengths are those of two slices that are borrowed for the whole call, and only read.
        let sun = unsafe {
            ffi::ssp_more_sun(
                self.bytes.as_ptr(),
                self.bytes.len(),
                sheet.as_ptr(),
                sheet.len(),
                month,
                band,
            )
        };
        Refusal::check_sheet(sun.refusal, sun.record, sun.month, sun.place)?;
        Ok((sun.found == 1).then_some(Kwh(sun.added)))
    }
}
