//! The archive in plain Rust, written from document 02 alone: for tests and benchmarks. The functions are the library's, over the
//! same two slices, and are called as it is.

type Buffer = [u8; 1184];

const HEADER: usize = 32;
const MONTHS: usize = 12;
const COLUMNS: usize = 24;

fn number(bytes: &Buffer, at: usize) -> u32 {
    u32::from_le_bytes([bytes[at], bytes[at + 1], bytes[at + 2], bytes[at + 3]])
}

/// Writes the archive of a sheet; 27 where either has another size.
#[inline(never)]
pub fn archive(sheet: &[u8], archive: &mut [u8]) -> u32 {
    let (Ok(sheet), Ok(archive)) = (<&Buffer>::try_from(sheet), <&mut Buffer>::try_from(archive)) else {
        return 27;
    };
    archive[..HEADER].copy_from_slice(&sheet[..HEADER]);
    for column in 0..COLUMNS {
        let mut before = 0u32;
        for month in 0..MONTHS {
            let here = number(sheet, HEADER + 4 * (COLUMNS * month + column));
            let to = HEADER + 4 * (MONTHS * column + month);
            archive[to..to + 4].copy_from_slice(&here.wrapping_sub(before).to_le_bytes());
            before = here;
        }
    }
    0
}

/// Writes the sheet of an archive; 27 where either has another size.
#[inline(never)]
pub fn restore(archive: &[u8], sheet: &mut [u8]) -> u32 {
    let (Ok(archive), Ok(sheet)) = (<&Buffer>::try_from(archive), <&mut Buffer>::try_from(sheet)) else {
        return 27;
    };
    sheet[..HEADER].copy_from_slice(&archive[..HEADER]);
    for column in 0..COLUMNS {
        let mut sum = 0u32;
        for month in 0..MONTHS {
            sum = sum.wrapping_add(number(archive, HEADER + 4 * (MONTHS * column + month)));
            let to = HEADER + 4 * (COLUMNS * month + column);
            sheet[to..to + 4].copy_from_slice(&sum.to_le_bytes());
        }
    }
    0
}
