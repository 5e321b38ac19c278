//! Raw injected readings, beside a plain loop, on sheets and on any bytes; the kept sums; every factor and every size.

mod common;
#[path = "common/plain_losses.rs"]
mod plain_losses;

use common::{Dice, sheet};
use ssp_book::{Book, Place, Refusal, Rests, raise_injected};

type Buffer = [u8; Book::SHEET];

fn at(month: usize, place: usize) -> usize {
    32 + 96 * month + 4 * place
}

fn set(sheet: &mut [u8], month: usize, place: usize, number: u32) {
    sheet[at(month, place)..at(month, place) + 4].copy_from_slice(&number.to_le_bytes());
}

fn injected(sheet: &[u8], month: usize, band: usize) -> u64 {
    let at = at(month, 3 + band);
    u32::from_le_bytes(sheet[at..at + 4].try_into().expect("four bytes")).into()
}

fn above(month: u32, place: u32) -> Result<Rests, Refusal> {
    let place = Place(place);
    Err(Refusal::AboveLimit { month, place })
}

/// The call and the plain one answer alike and leave the same bytes.
fn agrees(bytes: &Buffer, factor: u32) -> Result<Rests, Refusal> {
    let (mut raised, mut plain) = (*bytes, *bytes);
    let said = raise_injected(&mut raised, factor);
    let (refusal, month, place, [f1, f2, f3]) = plain_losses::raise(&mut plain, factor);
    let expected = match refusal {
        0 => Ok(Rests { f1, f2, f3 }),
        11 => Err(Refusal::Sheet),
        26 => Err(Refusal::Factor),
        _ => above(month, place),
    };
    assert_eq!(said, expected);
    assert_eq!(raised, plain);
    if let Ok(rests) = said {
        for (band, rest) in [rests.f1, rests.f2, rests.f3].into_iter().enumerate() {
            let sum = |sheet: &Buffer| (0..12).map(|month| injected(sheet, month, band)).sum::<u64>();
            assert_eq!(1000 * sum(&raised) + u64::from(rest), sum(bytes) * u64::from(1000 + factor));
        }
    }
    said
}

#[test]
fn sheets_and_any_bytes() {
    let mut dice = Dice::of(12);
    let mut accepted = 0;
    for round in 0..20_000 {
        let mut bytes: Buffer = sheet(&mut dice, round, 2013).try_into().expect("a sheet's size");
        // header bytes 8 and 12-15 pass; now and then another byte of the sheet, or a raw reading of any 32 bits
        for byte in [8, 12, 13, 14, 15] {
            bytes[byte] = dice.next() as u8;
        }
        if dice.percent(20) {
            bytes[dice.below(Book::SHEET as u64) as usize] = dice.next() as u8;
        }
        if dice.percent(20) {
            let (month, band) = (dice.below(12) as usize, dice.below(3) as usize);
            set(&mut bytes, month, 3 + band, dice.next() as u32);
        }
        accepted += usize::from(agrees(&bytes, dice.below(220) as u32).is_ok());
        agrees(&std::array::from_fn(|_| dice.next() as u8), dice.next() as u32).expect_err("no sheet");
    }
    assert!(accepted > 5_000, "{accepted} accepted");
    println!("40,000 buffers, {accepted} of them raised");
}

/// "a factor of 0 to 200 thousandths"; of 0 the sheet stays as it is.
#[test]
fn every_factor() {
    let mut dice = Dice::of(200);
    let bytes: Buffer = sheet(&mut dice, 7, 2013).try_into().expect("a sheet's size");
    for factor in (0..=1_000).chain([u32::MAX - 1, u32::MAX]) {
        let said = agrees(&bytes, factor);
        assert_eq!(said == Err(Refusal::Factor), factor > 200);
    }
    let mut same = bytes;
    assert_eq!(raise_injected(&mut same, 0), Ok(Rests::default()));
    assert_eq!(same, bytes);
}

/// The limit is on the raised reading, of all of which the earliest is told; raw readings may be any 32 bits.
#[test]
fn the_limit() {
    let mut bytes = [0; Book::SHEET];
    set(&mut bytes, 3, 4, 16_666_667);
    assert_eq!(agrees(&bytes, 200), Ok(Rests { f1: 0, f2: 400, f3: 0 }));
    set(&mut bytes, 3, 4, 16_666_668);
    assert_eq!(agrees(&bytes, 200), above(4, 5));
    assert!(agrees(&bytes, 199).is_ok());
    for raw in [20_000_001, 3_579_139_413, u32::MAX] {
        set(&mut bytes, 3, 4, raw);
        assert_eq!(agrees(&bytes, 0), above(4, 5));
        assert_eq!(agrees(&bytes, 200), above(4, 5));
    }
    set(&mut bytes, 3, 3, u32::MAX);
    assert_eq!(agrees(&bytes, 0), above(4, 4));
    set(&mut bytes, 2, 5, u32::MAX);
    assert_eq!(agrees(&bytes, 0), above(3, 6));
    // a rest that passes on can lift the next month above the limit
    let mut bytes = [0; Book::SHEET];
    set(&mut bytes, 0, 3, 1);
    set(&mut bytes, 1, 3, 18_181_819);
    assert_eq!(agrees(&bytes, 100), above(2, 4));
    set(&mut bytes, 0, 3, 0);
    assert!(agrees(&bytes, 100).is_ok());
}

/// Refusal 11 for every other size, and then every byte is left.
#[test]
fn every_size() {
    for size in (0..=2 * Book::SHEET).filter(|&size| size != Book::SHEET) {
        let mut bytes = vec![0; size];
        assert_eq!(raise_injected(&mut bytes, 300), Err(Refusal::Sheet));
        assert!(bytes.iter().all(|&byte| byte == 0));
    }
}
