//! The exported functions of libssp.a, as `include/ssp.h` declares them.

/// `SSP_INTERFACE` of the header that these declarations follow.
pub const INTERFACE: u32 = 7;

#[repr(C)]
pub struct Booked {
    pub refusal: u32,
    pub record: u32,
}

#[repr(C)]
pub struct Advanced {
    pub refusal: u32,
    pub record: u32,
    pub ticks: u64,
}

#[repr(C)]
pub struct Closed {
    pub refusal: u32,
    pub record: u32,
    pub month: u32,
    pub place: u32,
    pub value: u64,
    pub cost: u64,
    pub flat_rate: u64,
    pub contribution: u64,
    pub liquidation: u64,
    pub lapsed: u64,
    pub balance: i64,
}

#[repr(C)]
pub struct Sums {
    pub refusal: u32,
    pub record: u32,
    pub open_year: u64,
    pub credit: u64,
    pub value: u64,
    pub cost: u64,
    pub flat_rate: u64,
    pub contribution: u64,
    pub liquidation: u64,
    pub lapsed: u64,
    pub balance: i64,
    pub advances: u64,
    pub closed_advances: u64,
}

#[repr(C)]
pub struct Raised {
    pub refusal: u32,
    pub month: u32,
    pub place: u32,
    pub rest1: u32,
    pub rest2: u32,
    pub rest3: u32,
}

#[repr(C)]
pub struct Read {
    pub refusal: u32,
    pub line: u32,
    pub month: u32,
    pub place: u32,
}

#[repr(C)]
pub struct Written {
    pub refusal: u32,
    pub length: u32,
    pub month: u32,
    pub place: u32,
}

#[repr(C)]
pub struct Sun {
    pub refusal: u32,
    pub record: u32,
    pub month: u32,
    pub place: u32,
    pub found: u32,
    pub added: u32,
}

unsafe extern "C" {
    pub fn ssp_interface() -> u32;
    pub fn ssp_fresh(book: *mut u8, len: usize) -> u32;
    pub fn ssp_enrol(
        book: *mut u8,
        len: usize,
        number: u32,
        user_class: u8,
        plant: u8,
        option: u8,
        power: u32,
        year: u16,
        month: u8,
        island: u8,
    ) -> Booked;
    pub fn ssp_elect(book: *mut u8, len: usize, number: u32, option: u8, year: u32, month: u32, day: u32) -> Booked;
    pub fn ssp_charge(book: *mut u8, len: usize, number: u32) -> Booked;
    pub fn ssp_advance(
        book: *mut u8,
        len: usize,
        number: u32,
        year: u32,
        run: u8,
        rate: u64,
        estimate1: u64,
        estimate2: u64,
    ) -> Advanced;
    pub fn ssp_close(book: *mut u8, len: usize, sheet: *const u8, sheet_len: usize) -> Closed;
    pub fn ssp_statement(book: *const u8, len: usize, number: u32) -> Sums;
    pub fn ssp_more_sun(book: *const u8, len: usize, sheet: *const u8, sheet_len: usize, month: u32, band: u32) -> Sun;
    pub fn ssp_archive(sheet: *const u8, sheet_len: usize, archive: *mut u8, archive_len: usize) -> u32;
    pub fn ssp_restore(archive: *const u8, archive_len: usize, sheet: *mut u8, sheet_len: usize) -> u32;
    pub fn ssp_raise(sheet: *mut u8, sheet_len: usize, factor: u32) -> Raised;
    pub fn ssp_read_measures(sheet: *mut u8, sheet_len: usize, text: *const u8, text_len: usize) -> Read;
    pub fn ssp_write_measures(sheet: *const u8, sheet_len: usize, text: *mut u8, text_len: usize) -> Written;
}

#[cfg(test)]
mod tests {
    use std::ptr::{null, null_mut};

    use super::{
        ssp_archive, ssp_charge, ssp_close, ssp_fresh, ssp_more_sun, ssp_raise, ssp_read_measures, ssp_restore, ssp_statement,
        ssp_write_measures,
    };

    /// "With length 0 no byte is read or written and the pointer may be NULL."
    #[test]
    fn null_with_length_0() {
        let mut book = [0; 160];
        // SAFETY: the lengths are those of the array and of nothing at all.
        unsafe {
            assert_eq!(ssp_fresh(null_mut(), 0), 1);
            assert_eq!(ssp_statement(null(), 0, 7).refusal, 1);
            assert_eq!(ssp_close(null_mut(), 0, null(), 0).refusal, 1);
            assert_eq!(ssp_charge(null_mut(), 0, 7).refusal, 1);
            assert_eq!(ssp_fresh(book.as_mut_ptr(), book.len()), 0);
            assert_eq!(ssp_close(book.as_mut_ptr(), book.len(), null(), 0).refusal, 11);
            assert_eq!(ssp_more_sun(null(), 0, null(), 0, 1, 1).refusal, 1);
            assert_eq!(ssp_more_sun(book.as_ptr(), book.len(), null(), 0, 1, 1).refusal, 11);
            assert_eq!(ssp_archive(null(), 0, null_mut(), 0), 27);
            assert_eq!(ssp_restore(null(), 0, null_mut(), 0), 27);
            assert_eq!(ssp_raise(null_mut(), 0, 0).refusal, 11);
            assert_eq!(ssp_read_measures(null_mut(), 0, null(), 0).refusal, 11);
            assert_eq!(ssp_write_measures(null(), 0, null_mut(), 0).refusal, 11);
        }
    }
}
