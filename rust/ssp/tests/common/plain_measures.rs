//! The operator's text in plain Rust, written from document 02 alone, by splitting and parsing as std does: for tests and
//! benchmarks. An answer is the refusal with the line, or the month and the place.

use std::io::Write;

const LIMIT: u32 = 20_000_000;

/// Why a text or a sheet is refused.
#[derive(Clone, Copy, Debug, PartialEq, Eq)]
pub enum Refused {
    Size,
    Line(u32),
    Above(u32, u32),
}

fn at(month: usize, place: usize) -> usize {
    32 + 96 * month + 4 * place
}

/// A number without a needless zero; one that 32 bits do not hold is above every limit.
fn number(field: &[u8]) -> Option<u32> {
    if field.is_empty() || !field.iter().all(u8::is_ascii_digit) || (field.len() > 1 && field[0] == b'0') {
        return None;
    }
    Some(std::str::from_utf8(field).ok()?.parse().unwrap_or(u32::MAX))
}

fn numbers(line: &[u8]) -> Option<[u32; 7]> {
    let mut numbers = [0; 7];
    let mut fields = line.split(|&byte| byte == b';');
    for slot in &mut numbers {
        *slot = number(fields.next()?)?;
    }
    fields.next().is_none().then_some(numbers)
}

/// Fills the kWh of a sheet.
#[inline(never)]
pub fn read(sheet: &mut [u8], text: &[u8]) -> Result<(), Refused> {
    if sheet.len() != 1184 {
        return Err(Refused::Size);
    }
    let mut kwh = [[0; 6]; 12];
    let mut rest = text;
    for (month, six) in kwh.iter_mut().enumerate() {
        let wrong = Refused::Line(month as u32 + 1);
        let end = rest.iter().position(|&byte| byte == b'\n').ok_or(wrong)?;
        let line = numbers(&rest[..end]).ok_or(wrong)?;
        if line[0] as usize != month + 1 {
            return Err(wrong);
        }
        if let Some(place) = line[1..].iter().position(|&n| n > LIMIT) {
            return Err(Refused::Above(month as u32 + 1, place as u32 + 1));
        }
        six.copy_from_slice(&line[1..]);
        rest = &rest[end + 1..];
    }
    if !rest.is_empty() {
        return Err(Refused::Line(13));
    }
    for (month, six) in kwh.iter().enumerate() {
        for (place, n) in six.iter().enumerate() {
            sheet[at(month, place)..][..4].copy_from_slice(&n.to_le_bytes());
        }
    }
    Ok(())
}

/// Writes the lines of a sheet, and answers their length.
#[inline(never)]
pub fn write(sheet: &[u8], text: &mut [u8]) -> Result<usize, Refused> {
    if sheet.len() != 1184 || text.len() != 675 {
        return Err(Refused::Size);
    }
    let mut kwh = [[0; 6]; 12];
    for (month, six) in kwh.iter_mut().enumerate() {
        for (place, n) in six.iter_mut().enumerate() {
            *n = u32::from_le_bytes(sheet[at(month, place)..][..4].try_into().expect("four bytes"));
            if *n > LIMIT {
                return Err(Refused::Above(month as u32 + 1, place as u32 + 1));
            }
        }
    }
    let mut out = &mut text[..];
    for (month, six) in kwh.iter().enumerate() {
        let [a, b, c, d, e, f] = six;
        writeln!(out, "{};{a};{b};{c};{d};{e};{f}", month + 1).expect("675 bytes are enough");
    }
    let left = out.len();
    Ok(675 - left)
}
