//! Sheets for the archive, beside a plain loop, on sheets and on any bytes; both ways back; every size.

mod common;
#[path = "common/plain_archive.rs"]
mod plain_archive;

use common::{Dice, sheet};
use ssp_book::{Book, Refusal, archive_sheet, archive_sheet_into, restore_sheet, restore_sheet_into};

type Buffer = [u8; Book::SHEET];

/// Both calls on the bytes, as a sheet and as an archive.
fn agrees(bytes: &Buffer) {
    let mut plain = [0; Book::SHEET];
    assert_eq!(plain_archive::archive(bytes, &mut plain), 0);
    let archive = archive_sheet(bytes);
    assert_eq!(archive, plain);
    assert_eq!(restore_sheet(&archive), *bytes);

    assert_eq!(plain_archive::restore(bytes, &mut plain), 0);
    let restored = restore_sheet(bytes);
    assert_eq!(restored, plain);
    assert_eq!(archive_sheet(&restored), *bytes);
}

#[test]
fn sheets_and_any_bytes() {
    let mut dice = Dice::of(14);
    for round in 0..20_000 {
        agrees(&std::array::from_fn(|_| dice.next() as u8));
        let number = dice.next() as u32;
        let sheet = sheet(&mut dice, number, 2013 + round as u16 % 87);
        agrees(&sheet.try_into().expect("a sheet's size"));
    }
    for byte in [0, 1, 127, 128, 255] {
        agrees(&[byte; Book::SHEET]);
    }
    println!("40,005 buffers, there and back both ways");
}

/// One bit of the sheet changes the number that it stands in, and the difference after it.
#[test]
fn every_bit_counts() {
    let clear = archive_sheet(&[0; Book::SHEET]);
    for bit in 0..8 * Book::SHEET {
        let mut sheet = [0; Book::SHEET];
        sheet[bit / 8] = 1 << (bit % 8);
        agrees(&sheet);
        assert_ne!(archive_sheet(&sheet), clear);
    }
}

/// Refusal 27 for either size, and then every byte is left.
#[test]
fn every_size() {
    for size in 0..=2 * Book::SHEET {
        for (source, destination) in [(size, Book::SHEET), (Book::SHEET, size), (size, size)] {
            let from = vec![3; source];
            let mut to = vec![5; destination];
            let expected = if (source, destination) == (Book::SHEET, Book::SHEET) {
                Ok(())
            } else {
                Err(Refusal::BufferSize)
            };
            assert_eq!(archive_sheet_into(&from, &mut to), expected);
            if expected.is_err() {
                assert!(
                    to.iter().all(|&byte| byte == 5),
                    "a refusal writes: {source} and {destination} bytes"
                );
            }
            to.fill(5);
            assert_eq!(restore_sheet_into(&from, &mut to), expected);
            if expected.is_err() {
                assert!(
                    to.iter().all(|&byte| byte == 5),
                    "a refusal writes: {source} and {destination} bytes"
                );
            }
        }
    }
}
