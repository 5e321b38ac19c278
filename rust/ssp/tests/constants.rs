//! The crate's constants are the library's: each is used in a call that another value would not pass, and none is changed unseen.

#[path = "common/household.rs"]
mod household;

use household::household;
use ssp_book::{Book, Day, Enrolment, Order, Refusal, Ticks, option, run};

fn order(run: u8) -> Order {
    Order {
        year: 2013,
        run,
        rate: 10_000,
        estimates: [500, 300],
    }
}

/// A book with a user whose plant started in that month of 2013.
fn book_of(bytes: &mut [u8], month: u8) -> Book<'_> {
    let mut book = Book::fresh(bytes).expect("a length that fits");
    book.enrol(Enrolment { month, ..household(7) }).expect("a free record");
    book
}

/// User 7's sheet of 2013: 1 kWh injected a month at a price of 1, so that the value is 12 ticks and the cost 0.
fn year_sheet() -> Vec<u8> {
    let mut sheet = vec![0; Book::SHEET];
    sheet[0] = 7;
    sheet[4..6].copy_from_slice(&2013_u16.to_le_bytes());
    for month in 0..12 {
        let word = |place: usize| 32 + 96 * month + 4 * place;
        sheet[word(3)] = 1;
        sheet[word(14)] = 1;
    }
    sheet
}

#[test]
fn numbers() {
    assert_eq!((option::CREDIT, option::LIQUIDATION), (0, 1));
    assert_eq!((run::JUNE, run::OCTOBER, run::JANUARY), (1, 2, 4));
    assert_eq!((Book::RECORD, Book::SHEET), (80, 1184));
}

/// "First half (months 1–6) in June, second in October": the estimates tell them apart.
#[test]
fn june_and_october() {
    let mut bytes = [0; 8 * Book::RECORD];
    let mut book = book_of(&mut bytes, 1);
    assert_eq!(book.advance(7, order(run::JANUARY)), Err(Refusal::Run));
    assert_eq!(book.advance(7, order(run::JUNE)), Ok(Ticks(5_000_000)));
    assert_eq!(book.advance(7, order(run::OCTOBER)), Ok(Ticks(3_000_000)));
}

/// "9–11, both in January"
#[test]
fn january() {
    let mut bytes = [0; 8 * Book::RECORD];
    let mut book = book_of(&mut bytes, 10);
    assert_eq!(book.advance(7, order(run::JUNE)), Err(Refusal::Run));
    assert_eq!(book.advance(7, order(run::OCTOBER)), Err(Refusal::Run));
    assert_eq!(book.advance(7, order(run::JANUARY)), Ok(Ticks(8_000_000)));
}

/// A year with more value than cost is carried on credit, and paid out in liquidation.
#[test]
fn options() {
    let day = Day {
        year: 2013,
        month: 12,
        day: 31,
    };
    for (elected, credit, liquidation) in [(option::CREDIT, 12, 0), (option::LIQUIDATION, 0, 12)] {
        let mut bytes = [0; 8 * Book::RECORD];
        let mut book = book_of(&mut bytes, 1);
        book.elect(7, elected, day).expect("a day of the window");
        let closed = book.close(&year_sheet()).expect("an open year");
        assert_eq!((closed.value, closed.liquidation), (Ticks(12), Ticks(liquidation)));
        assert_eq!(book.statement(7).map(|stated| stated.credit), Ok(Ticks(credit)));
    }
}

/// A book has at least two records, and a length that is no number of records is refused.
#[test]
fn record() {
    let mut bytes = [0; 3 * Book::RECORD];
    assert!(Book::fresh(&mut bytes[..2 * Book::RECORD]).is_ok());
    for length in [Book::RECORD, 2 * Book::RECORD - 1, 2 * Book::RECORD + 1] {
        assert_eq!(
            Book::fresh(&mut bytes[..length]).err(),
            Some(Refusal::Length),
            "{length} bytes"
        );
    }
    let mut book = Book::fresh(&mut bytes).expect("a length that fits");
    assert_eq!(book.enrol(household(7)), Ok(1));
    assert_eq!(book.enrol(household(8)), Ok(2));
    assert_eq!(
        book.enrol(household(9)),
        Err(Refusal::Full),
        "three records are a head and two users"
    );
}

/// A sheet one byte shorter or longer is none.
#[test]
fn sheet_length() {
    let mut year = year_sheet();
    let mut bytes = [0; 8 * Book::RECORD];
    let mut book = book_of(&mut bytes, 1);
    year.push(0);
    assert_eq!(book.close(&year), Err(Refusal::Sheet));
    assert_eq!(book.close(&year[..Book::SHEET - 1]), Err(Refusal::Sheet));
    assert!(book.close(&year[..Book::SHEET]).is_ok());
}
