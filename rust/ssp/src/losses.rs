//! Raw injected readings: the kWh of a year sheet before the loss factor, raised to those that a closing takes.

use crate::{Refusal, ffi};

/// What is left of the raised kWh after December, in thousandths of a kWh, 0 to 999 for each band.
#[derive(Clone, Copy, Debug, Default, PartialEq, Eq, Hash)]
pub struct Rests {
    /// Of F1.
    pub f1: u32,
    /// Of F2.
    pub f2: u32,
    /// Of F3.
    pub f3: u32,
}

/// Raises the injected kWh of a year sheet by a factor of 0 to 200 thousandths: the sheet of an operator who sends
/// them before the loss factor becomes the one that [`Book::close`](crate::Book::close) expects. Raise a sheet once. The rest of
/// each division by 1,000 passes to the same band of the next month; those of December are answered.
///
/// Refusals in the order 11 26 13: [`Refusal::Sheet`], which passes any bytes 8 and 12–15 of the header, [`Refusal::Factor`], and
/// [`Refusal::AboveLimit`] with the earliest raised reading above its limit. A refusal leaves the sheet as it was.
///
/// ```
/// use ssp_book::{Book, Refusal, Rests, raise_injected};
///
/// let mut sheet = [0; Book::SHEET];
/// sheet[32 + 4 * 3] = 100; // January, injected F1
/// assert_eq!(raise_injected(&mut sheet, 51)?, Rests { f1: 100, f2: 0, f3: 0 });
/// assert_eq!(sheet[32 + 4 * 3], 105);
/// assert_eq!(raise_injected(&mut sheet, 201), Err(Refusal::Factor));
/// # Ok::<(), Refusal>(())
/// ```
#[inline]
pub fn raise_injected(sheet: &mut [u8], factor: u32) -> Result<Rests, Refusal> {
    // SAFETY: the pointer and the length are those of a slice that is borrowed mutably for the whole call.
    let answer = unsafe { ffi::ssp_raise(sheet.as_mut_ptr(), sheet.len(), factor) };
    Refusal::check_sheet(answer.refusal, 0, answer.month, answer.place)?;
    Ok(Rests {
        f1: answer.rest1,
        f2: answer.rest2,
        f3: answer.rest3,
    })
}
