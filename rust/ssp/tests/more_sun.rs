//! How much more sun: the tables of tests/more_sun, whose figures come from programs of other authorship; and random sheets, on
//! which a closing shows that the answer reaches O, that a kWh less does not, and that where there is none a full field does not.

mod common;

use std::fs;
use std::path::PathBuf;

use common::{Dice, sheet};
use ssp_book::{Book, Enrolment, Kwh, Refusal, option};

const LIMIT: u32 = 20_000_000;

fn file(name: &str) -> Vec<u8> {
    let path: PathBuf = [env!("CARGO_MANIFEST_DIR"), "../../tests/more_sun", name].iter().collect();
    fs::read(&path).unwrap_or_else(|error| panic!("{}: {error}", path.display()))
}

#[test]
fn tables() {
    let mut bytes = file("owners.book");
    let book = Book::over(&mut bytes);
    for name in ["day_mean", "zone_mean", "island_bands", "island_mean", "reached", "limits"] {
        let sheet = file(&format!("{name}.sheet"));
        let table = String::from_utf8(file(&format!("{name}.table"))).expect("a text");
        for row in table.lines().skip(1) {
            let (month, cells) = row.trim().split_once(' ').expect("a month and its bands");
            let month = month.parse().expect("a month");
            for (band, cell) in (1..).zip(cells.split_ascii_whitespace()) {
                let added = cell.parse().ok().map(Kwh);
                assert_eq!(
                    book.more_sun(&sheet, month, band),
                    Ok(added),
                    "{name}, month {month}, band {band}"
                );
            }
        }
    }
}

/// The place of an injected field in the sheet.
fn field(month: u32, band: u32) -> std::ops::Range<usize> {
    let at = 32 + 96 * (month as usize - 1) + 4 * (band as usize + 2);
    at..at + 4
}

fn energy(sheet: &[u8], month: u32, band: u32) -> u32 {
    u32::from_le_bytes(sheet[field(month, band)].try_into().expect("4 bytes"))
}

/// Whether C reaches O in a closing of the sheet with another energy in one field.
fn reaches(bytes: &[u8], sheet: &[u8], month: u32, band: u32, energy: u32) -> bool {
    let mut bytes = bytes.to_vec();
    let mut sheet = sheet.to_vec();
    sheet[field(month, band)].copy_from_slice(&energy.to_le_bytes());
    let closed = Book::over(&mut bytes).close(&sheet).expect("a sheet that is closed");
    closed.value >= closed.cost
}

#[test]
fn least_in_a_closing() {
    let mut dice = Dice::of(10);
    let (mut zero, mut found, mut none) = (0, 0, 0);
    for _round in 0..30_000 {
        let mut bytes = [0; 3 * Book::RECORD];
        let mut book = Book::fresh(&mut bytes).expect("a length that fits");
        let user = Enrolment {
            number: 7,
            class: 5,
            plant: 1 + dice.below(2) as u8,
            option: option::CREDIT,
            power: 3000,
            year: 2013,
            month: 1,
            island: dice.below(2) as u8,
        };
        book.enrol(user).expect("a free record");
        let mut sheet = sheet(&mut dice, 7, 2013);
        // as much withdrawn as the sheet's energies allow, or a part of it; then a field of any energy
        let month = 1 + dice.below(12) as u32;
        let band = if sheet[7] == 1 { 1 + dice.below(3) as u32 } else { 1 };
        let own = dice.one_of(&[0, 0, 5, 19_000_000, u64::from(LIMIT)]) as u32;
        if dice.percent(50) {
            sheet[field(month, band)].copy_from_slice(&own.to_le_bytes());
        }
        let before = energy(&sheet, month, band);
        let answer = book.more_sun(&sheet, month, band).expect("a field of the reading");
        match answer {
            Some(Kwh(added)) => {
                assert!(before + added <= LIMIT);
                assert!(reaches(&bytes, &sheet, month, band, before + added), "{added} more reach O");
                if added == 0 {
                    zero += 1;
                } else {
                    found += 1;
                    assert!(
                        !reaches(&bytes, &sheet, month, band, before + added - 1),
                        "{added} is the least"
                    );
                }
            }
            None => {
                none += 1;
                assert!(!reaches(&bytes, &sheet, month, band, LIMIT), "a full field does not reach O");
            }
        }
    }
    assert!(
        zero > 1000 && found > 1000 && none > 1000,
        "{zero}, {found} and {none} are enough of each"
    );
    println!("30,000 fields: {zero} that need nothing, {found} with a least addition, {none} without one");
}

#[test]
fn fields_that_a_reading_has() {
    let mut bytes = file("owners.book");
    let book = Book::over(&mut bytes);
    for (name, bands) in [("reached", 3), ("day_mean", 1)] {
        let sheet = file(&format!("{name}.sheet"));
        for month in [0, 1, 12, 13, 1 + 256, 1 + 65_536, u32::MAX] {
            for band in [0, 1, 2, 3, 4, 1 + 256, 1 + 65_536, u32::MAX] {
                let there = (1..=12).contains(&month) && (1..=bands).contains(&band);
                let answer = book.more_sun(&sheet, month, band);
                assert_eq!(
                    answer == Err(Refusal::NoField),
                    !there,
                    "{name}, month {month}, band {band}: {answer:?}"
                );
            }
        }
    }
}
