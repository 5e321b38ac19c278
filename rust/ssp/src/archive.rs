//! Sheets for the archive: a year sheet by columns, each the numbers of one quantity over the year.

use crate::{Book, Refusal, ffi};

/// The archive of a year sheet: its header, then 24 columns of twelve, each number after the first of its column replaced by its
/// difference from the one before, modulo 2^32. No byte of the sheet is checked. [`restore_sheet`] gives the sheet back.
///
/// ```
/// use ssp_book::{Book, archive_sheet, restore_sheet};
///
/// let sheet = [7; Book::SHEET];
/// let archive = archive_sheet(&sheet);
/// assert_eq!(archive[32..40], [7, 7, 7, 7, 0, 0, 0, 0]);
/// assert_eq!(restore_sheet(&archive), sheet);
/// ```
pub fn archive_sheet(sheet: &[u8; Book::SHEET]) -> [u8; Book::SHEET] {
    let mut archive = [0; Book::SHEET];
    archive_sheet_into(sheet, &mut archive).expect("both have a sheet's size");
    archive
}

/// The year sheet of an archive. Any bytes are an archive: [`archive_sheet`] gives them back.
pub fn restore_sheet(archive: &[u8; Book::SHEET]) -> [u8; Book::SHEET] {
    let mut sheet = [0; Book::SHEET];
    restore_sheet_into(archive, &mut sheet).expect("both have a sheet's size");
    sheet
}

/// As [`archive_sheet`], into bytes that the caller lends. Refused with [`Refusal::BufferSize`] alone, where either has another
/// size than [`Book::SHEET`]; then the archive is left as it was.
#[inline]
pub fn archive_sheet_into(sheet: &[u8], archive: &mut [u8]) -> Result<(), Refusal> {
    // SAFETY: the pointers and the lengths are those of two slices that are borrowed for the whole call, the archive's mutably,
    // so that they do not overlap.
    let refusal = unsafe { ffi::ssp_archive(sheet.as_ptr(), sheet.len(), archive.as_mut_ptr(), archive.len()) };
    Refusal::check(refusal, 0)
}

/// As [`restore_sheet`], into bytes that the caller lends. Refused with [`Refusal::BufferSize`] alone, where either has another
/// size than [`Book::SHEET`]; then the sheet is left as it was.
#[inline]
pub fn restore_sheet_into(archive: &[u8], sheet: &mut [u8]) -> Result<(), Refusal> {
    // SAFETY: the pointers and the lengths are those of two slices that are borrowed for the whole call, the sheet's mutably, so
    // that they do not overlap.
    let refusal = unsafe { ffi::ssp_restore(archive.as_ptr(), archive.len(), sheet.as_mut_ptr(), sheet.len()) };
    Refusal::check(refusal, 0)
}
