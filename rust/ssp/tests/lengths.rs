//! Every length from 0 to 64,160 bytes: a book, or refusal 1 from every call with every byte left.

mod common;
#[path = "common/household.rs"]
mod household;

use common::{Call, Dice, sheet};
use household::household;
use ssp_book::{Book, Day, Order, Refusal, option, run};

const LONGEST: usize = 64_160;

fn calls() -> Vec<Call> {
    let day = Day {
        year: 2013,
        month: 5,
        day: 5,
    };
    let order = Order {
        year: 2013,
        run: run::JUNE,
        rate: 9_000,
        estimates: [4_000, 4_000],
    };
    vec![
        Call::Enrol(household(7)),
        Call::Elect(7, option::LIQUIDATION, day),
        Call::Charge(7),
        Call::Advance(7, order),
        Call::Close(sheet(&mut Dice::of(1), 7, 2013)),
        Call::Statement(7),
    ]
}

#[test]
fn every_length() {
    let calls = calls();
    let garbage: Vec<u8> = (0..LONGEST).map(|at| at as u8 | 1).collect();
    let mut lent = garbage.clone();
    let mut books = 0;
    for length in 0..=LONGEST {
        let bytes = &mut lent[..length];
        if (160..=64_000).contains(&length) && length % 80 == 0 {
            books += 1;
            let book = Book::fresh(bytes).expect("a length that fits");
            assert_eq!(book.statement(7), Err(Refusal::Unknown));
            assert_eq!(bytes[0], 1);
            assert!(bytes[1..].iter().all(|&byte| byte == 0), "a fresh book of {length} bytes");
            bytes.copy_from_slice(&garbage[..length]);
        } else {
            assert_eq!(Book::fresh(bytes).err(), Some(Refusal::Length));
            for call in &calls {
                let answer = call.make(&mut Book::over(bytes));
                assert_eq!(answer, Err(Refusal::Length), "{call:?} at {length} bytes");
            }
            assert!(bytes == &garbage[..length], "a refusal writes at {length} bytes");
        }
    }
    assert_eq!(books, 799);
    println!("{} lengths, {books} of them books", LONGEST + 1);
}

/// The capacity is the length by 80, whatever the longest book holds.
#[test]
fn every_capacity_fills_up() {
    let mut users = 0;
    for records in [2, 3, 10, 100, 800] {
        let mut bytes = vec![0; Book::RECORD * records];
        let mut book = Book::fresh(&mut bytes).expect("a length that fits");
        for record in 1..records as u32 {
            assert_eq!(book.enrol(household(record)), Ok(record));
            users += 1;
        }
        assert_eq!(book.enrol(household(records as u32)), Err(Refusal::Full));
    }
    println!("{users} users enrolled, five books filled");
}

/// An empty sheet is refused like any other of a wrong length.
#[test]
fn empty_sheet() {
    let mut bytes = [0; 160];
    let mut book = Book::fresh(&mut bytes).expect("a length that fits");
    assert_eq!(book.close(&[]), Err(Refusal::Sheet));
}
