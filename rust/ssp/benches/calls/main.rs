//! Nanoseconds a call of the library and of `rust/peer`, an independent implementation, in one run. Each timed call answers 0, but
//! for those that are refused, which have their own rows.

mod books;
#[path = "../../tests/common/household.rs"]
mod household;
#[path = "../../tests/common/plain_archive.rs"]
mod plain_archive;
#[path = "../../tests/common/plain_losses.rs"]
mod plain_losses;
#[path = "../../tests/common/plain_measures.rs"]
mod plain_measures;

use std::hint::black_box;
use std::time::{Duration, Instant};

use books::{LONGEST, Numbers, book_of_entries, book_of_one, book_of_users, damaged, middle_user, sheet};
use ssp_book::{
    Book, Day, Order, Refusal, archive_sheet_into, option, raise_injected, read_measures, restore_sheet_into, run,
    write_measures_into,
};

/// The shortest of 15 rounds, each of as many turns as take 4 ms.
fn nanoseconds(mut turn: impl FnMut()) -> f64 {
    let mut round = |turns: u32| {
        let start = Instant::now();
        for _ in 0..turns {
            turn();
        }
        start.elapsed()
    };
    let mut turns = 1;
    while round(turns) < Duration::from_millis(4) {
        turns *= 2;
    }
    let best = (0..15).map(|_| round(turns)).min().unwrap_or_default();
    best.as_nanos() as f64 / f64::from(turns)
}

fn row(book: &str, call: &str, proved: f64, peer: f64) {
    println!("{book:<30} {call:<10} {proved:>12.0} {peer:>12.0} {:>8.2}", proved / peer);
}

/// A row for each of the four calls. A call that writes gets the book by a copy each time, in both.
fn calls(name: &str, book: &[u8]) {
    let number = middle_user(book);
    let year = peer::statement(book, number).open_year;
    let (mut lent, mut other) = (book.to_vec(), book.to_vec());

    row(
        name,
        "statement",
        nanoseconds(|| {
            assert!(black_box(Book::over(&mut lent).statement(black_box(number))).is_ok());
        }),
        nanoseconds(|| {
            assert_eq!(black_box(peer::statement(&other, black_box(number))).code, 0);
        }),
    );

    let day = Day {
        year: year.into(),
        month: 5,
        day: 5,
    };
    row(
        name,
        "elect",
        nanoseconds(|| {
            lent.copy_from_slice(black_box(book));
            assert!(Book::over(&mut lent).elect(number, option::LIQUIDATION, day).is_ok());
        }),
        nanoseconds(|| {
            other.copy_from_slice(black_box(book));
            assert_eq!(peer::elect(&mut other, number, 1, day.year, 5, 5).code, 0);
        }),
    );

    let order = Order {
        year: year.into(),
        run: run::JUNE,
        rate: 9_000,
        estimates: [4_000, 4_000],
    };
    row(
        name,
        "advance",
        nanoseconds(|| {
            lent.copy_from_slice(black_box(book));
            assert!(Book::over(&mut lent).advance(number, order).is_ok());
        }),
        nanoseconds(|| {
            other.copy_from_slice(black_box(book));
            assert_eq!(peer::advance(&mut other, number, year, 1, 9_000, 4_000, 4_000).code, 0);
        }),
    );

    let sheet = sheet(number, year);
    row(
        name,
        "close",
        nanoseconds(|| {
            lent.copy_from_slice(black_box(book));
            assert!(Book::over(&mut lent).close(black_box(&sheet)).is_ok());
        }),
        nanoseconds(|| {
            other.copy_from_slice(black_box(book));
            assert_eq!(peer::close(&mut other, black_box(&sheet)).code, 0);
        }),
    );
}

fn statement_of(name: &str, book: &[u8]) {
    let number = middle_user(book);
    let mut lent = book.to_vec();
    row(
        name,
        "statement",
        nanoseconds(|| {
            assert!(black_box(Book::over(&mut lent).statement(black_box(number))).is_ok());
        }),
        nanoseconds(|| assert_eq!(black_box(peer::statement(book, black_box(number))).code, 0)),
    );
}

/// A full book's statement, and the refusals of it: 6, and 2 of a book whose last record is damaged.
fn refused(name: &str, book: &[u8]) {
    let number = middle_user(book);
    let mut lent = book.to_vec();
    let accepted = nanoseconds(|| assert!(black_box(Book::over(&mut lent).statement(number)).is_ok()));
    let mut unknown = || black_box(Book::over(&mut lent).statement(0));
    assert_eq!(unknown(), Err(Refusal::Unknown));
    let six = nanoseconds(|| assert!(unknown().is_err()));
    let mut bad = damaged(book);
    let mut unsound = || black_box(Book::over(&mut bad).statement(number));
    assert!(matches!(unsound(), Err(Refusal::Damaged { .. })));
    let two = nanoseconds(|| assert!(unsound().is_err()));
    println!(
        "{name:<30} accepted {accepted:.0}, refusal 6 {six:.0}, refusal 2 {two:.0} ns: at most {:.1} times",
        two.max(six) / accepted
    );
}

/// The archive of a sheet and the way back, beside the same loops in plain Rust.
fn archives(name: &str, sheet: &[u8; Book::SHEET]) {
    let mut archive = [0; Book::SHEET];
    let mut restored = [0; Book::SHEET];
    row(
        name,
        "archive",
        nanoseconds(|| assert!(archive_sheet_into(black_box(&sheet[..]), black_box(&mut archive)).is_ok())),
        nanoseconds(|| assert_eq!(plain_archive::archive(black_box(&sheet[..]), black_box(&mut archive)), 0)),
    );
    row(
        name,
        "restore",
        nanoseconds(|| assert!(restore_sheet_into(black_box(&archive[..]), black_box(&mut restored)).is_ok())),
        nanoseconds(|| assert_eq!(plain_archive::restore(black_box(&archive[..]), black_box(&mut restored)), 0)),
    );
    assert!(restored == *sheet);
}

/// The lines of a sheet and a sheet from its lines, beside plain Rust.
fn measures(name: &str, sheet: &mut [u8; Book::SHEET]) {
    let mut text = [0; Book::MEASURES];
    row(
        name,
        "write",
        nanoseconds(|| assert!(write_measures_into(black_box(&sheet[..]), black_box(&mut text)).is_ok())),
        nanoseconds(|| assert!(plain_measures::write(black_box(&sheet[..]), black_box(&mut text)).is_ok())),
    );
    let length = write_measures_into(&sheet[..], &mut text).expect("a sheet within its limits");
    row(
        name,
        "read",
        nanoseconds(|| assert!(read_measures(black_box(&mut sheet[..]), black_box(&text[..length])).is_ok())),
        nanoseconds(|| assert!(plain_measures::read(black_box(&mut sheet[..]), black_box(&text[..length])).is_ok())),
    );
}

/// The raising of a sheet's injected readings, beside the same loop in plain Rust. Each call gets the sheet by a copy, in both.
fn raises(name: &str, sheet: &[u8; Book::SHEET]) {
    let (mut raised, mut plain) = (*sheet, *sheet);
    row(
        name,
        "raise",
        nanoseconds(|| {
            raised.copy_from_slice(black_box(sheet));
            assert!(raise_injected(black_box(&mut raised[..]), black_box(51)).is_ok());
        }),
        nanoseconds(|| {
            plain.copy_from_slice(black_box(sheet));
            assert_eq!(plain_losses::raise(black_box(&mut plain[..]), black_box(51)).0, 0);
        }),
    );
    assert!(raised == plain);
}

fn main() {
    println!(
        "{:<30} {:<10} {:>12} {:>12} {:>8}",
        "book", "call", "library ns", "peer ns", "ratio"
    );
    calls("798 users", &book_of_users(800, Numbers::Scattered));
    calls("10 users, 788 entries", &book_of_entries(800));
    calls("1 user", &book_of_one(0));
    calls("1 user, 78 entries", &book_of_one(78));
    for records in [100, 200, 400, 800] {
        for order in [
            Numbers::Scattered,
            Numbers::Ascending,
            Numbers::Descending,
            Numbers::Colliding,
            Numbers::CollidingTwice,
        ] {
            let name = format!("{records} records, {}", order.name());
            statement_of(&name, &book_of_users(records, order));
        }
    }

    let mut one_sheet = sheet(1, 2013).try_into().expect("a sheet's size");
    archives("a sheet, beside a plain loop", &one_sheet);
    raises("a sheet, beside a plain loop", &one_sheet);
    measures("measures, beside plain Rust", &mut one_sheet);

    println!();
    refused("798 users", &book_of_users(800, Numbers::Scattered));
    refused("10 users, 788 entries", &book_of_entries(800));

    let bytes = book_of_users(800, Numbers::Scattered);
    let pass = nanoseconds(|| {
        let words = black_box(&bytes[..]).chunks_exact(8);
        let sum = words.fold(0u64, |sum, word| sum ^ word.try_into().map_or(0, u64::from_le_bytes));
        black_box(sum);
    });
    let mut copy = vec![0; LONGEST];
    let copied = nanoseconds(|| black_box(&mut copy).copy_from_slice(black_box(&bytes)));
    println!();
    println!("one plain pass over {LONGEST} bytes, the floor: {pass:.0} ns");
    println!("the copy of {LONGEST} bytes in elect, advance and close, of both: {copied:.0} ns");
    println!("Every book was cleared by fresh before it was filled. Between calls no cache is cleared.");
}
