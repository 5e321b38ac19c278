//! The raising of injected readings in plain Rust, written from document 02 alone: for tests and benchmarks. The function is the
//! library's, over the same slice.

const SHEET: usize = 1184;
const MOST: u64 = 20_000_000;

/// Refusal, month and place of a 13, and December's rests.
pub type Answer = (u32, u32, u32, [u32; 3]);

fn at(month: usize, place: usize) -> usize {
    32 + 96 * month + 4 * place
}

fn number(sheet: &[u8], at: usize) -> u64 {
    u32::from_le_bytes([sheet[at], sheet[at + 1], sheet[at + 2], sheet[at + 3]]).into()
}

/// Raises the injected readings; a refusal leaves the sheet.
#[inline(never)]
pub fn raise(sheet: &mut [u8], factor: u32) -> Answer {
    let refused = |refusal, month, place| (refusal, month, place, [0; 3]);
    if sheet.len() != SHEET
        || sheet[6] > 1
        || sheet[7] > 1
        || sheet[9..12].iter().chain(&sheet[16..32]).any(|&byte| byte != 0)
        || (0..12).any(|month| number(sheet, at(month, 23)) != 0)
    {
        return refused(11, 0, 0);
    }
    if factor > 200 {
        return refused(26, 0, 0);
    }
    let mut rests = [0; 3];
    let mut raised = [[0; 3]; 12];
    for month in 0..12 {
        for band in 0..3 {
            let thousandths = number(sheet, at(month, 3 + band)) * u64::from(1000 + factor) + rests[band];
            raised[month][band] = thousandths / 1000;
            rests[band] = thousandths % 1000;
            if raised[month][band] > MOST {
                return refused(13, month as u32 + 1, band as u32 + 4);
            }
        }
    }
    for (month, bands) in raised.iter().enumerate() {
        for (band, kwh) in bands.iter().enumerate() {
            let place = at(month, 3 + band);
            sheet[place..place + 4].copy_from_slice(&(*kwh as u32).to_le_bytes());
        }
    }
    (0, 0, 0, rests.map(|rest| rest as u32))
}
