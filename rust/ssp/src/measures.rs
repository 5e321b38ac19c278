//! The grid operator's text file: twelve lines of seven decimal numbers with semicolons, month, three withdrawn, three injected.

use crate::{Book, Refusal, ffi};

/// Fills the 72 kWh of a sheet from the twelve lines of a text, and touches no other byte. Of the sheet nothing is looked at but its
/// length. Refused, in this order, with [`Refusal::Sheet`] for another length than [`Book::SHEET`]; then line
/// by line with [`Refusal::Line`] or [`Refusal::AboveLimit`], in one line the former first. A refusal leaves the sheet as it was.
///
/// ```
/// use ssp_book::{Book, Refusal, read_measures, write_measures};
///
/// let text: String = (1..=12).map(|month| format!("{month};120;0;0;45;0;0\n")).collect();
/// let mut sheet = [0; Book::SHEET];
/// read_measures(&mut sheet, &text)?;
/// assert_eq!(sheet[32..36], [120, 0, 0, 0]);
/// assert_eq!(write_measures(&sheet)?, text);
///
/// let refusal = read_measures(&mut sheet, "1;120;0;0;45;0\n").expect_err("six numbers");
/// assert_eq!(refusal, Refusal::Line { line: 1 });
/// assert_eq!(refusal.to_string(), "line 1: not seven numbers with semicolons, the first of them 1");
/// # Ok::<(), Refusal>(())
/// ```
#[inline]
pub fn read_measures(sheet: &mut [u8], text: impl AsRef<[u8]>) -> Result<(), Refusal> {
    let text = text.as_ref();
    // SAFETY: the pointers and the lengths are those of two slices that are borrowed for the whole call, the sheet's mutably, so
    // that they do not overlap.
    let read = unsafe { ffi::ssp_read_measures(sheet.as_mut_ptr(), sheet.len(), text.as_ptr(), text.len()) };
    Refusal::check_sheet(read.refusal, read.line, read.month, read.place)
}

/// The twelve lines of a sheet: [`read_measures`] fills the same kWh from them into any sheet. Refused with [`Refusal::Sheet`] for
/// another length than [`Book::SHEET`], then with [`Refusal::AboveLimit`] for the first kWh above its limit.
pub fn write_measures(sheet: &[u8]) -> Result<String, Refusal> {
    let mut text = [0; Book::MEASURES];
    let length = write_measures_into(sheet, &mut text)?;
    Ok(String::from_utf8(text[..length].to_vec()).expect("digits, semicolons and line feeds"))
}

/// As [`write_measures`], into [`Book::MEASURES`] bytes that the caller lends: the lines stand at their front, and the rest stays. Their
/// length is answered. Refused with [`Refusal::Sheet`] for either size too; a refusal leaves every byte as it was.
#[inline]
pub fn write_measures_into(sheet: &[u8], text: &mut [u8]) -> Result<usize, Refusal> {
    // SAFETY: the pointers and the lengths are those of two slices that are borrowed for the whole call, the text's mutably, so
    // that they do not overlap.
    let written = unsafe { ffi::ssp_write_measures(sheet.as_ptr(), sheet.len(), text.as_mut_ptr(), text.len()) };
    Refusal::check_sheet(written.refusal, 0, written.month, written.place)?;
    Ok(written.length as usize)
}
