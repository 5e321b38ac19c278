//! The books that are timed. One record stays free, so that an advance or a closing has room.

use ssp_book::{Book, Order, run};

use crate::household::household;

/// The length of the longest book.
pub const LONGEST: usize = 64_000;

/// In which order the user numbers come.
#[derive(Clone, Copy)]
pub enum Numbers {
    Scattered,
    Ascending,
    Descending,
    /// The library's table of numbers tries places in runs. These numbers share the start of the first run.
    Colliding,
    /// And these share the starts of the first two.
    CollidingTwice,
}

/// How the library's table mixes a number before each run: the upper bits are the start. 800 records have 2,048 places.
fn mixed(number: u32) -> u32 {
    number.wrapping_mul(2_654_435_769).wrapping_add(1)
}

/// The number that is mixed so.
fn unmixed(mixed: u32) -> u32 {
    mixed.wrapping_sub(1).wrapping_mul(0x144c_bc89)
}

impl Numbers {
    pub fn name(self) -> &'static str {
        match self {
            Numbers::Scattered => "scattered",
            Numbers::Ascending => "ascending",
            Numbers::Descending => "descending",
            Numbers::Colliding => "colliding",
            Numbers::CollidingTwice => "colliding twice",
        }
    }

    /// The first numbers, none of them 0 and no two alike.
    fn first(self, count: usize) -> Vec<u32> {
        let all: Box<dyn Iterator<Item = u32>> = match self {
            // each step can be undone, so that different places have different numbers
            Numbers::Scattered => Box::new((1..).map(|at: u32| {
                let mixed = (at ^ at >> 16).wrapping_mul(0x7feb_352d);
                (mixed ^ mixed >> 15).wrapping_mul(0x846c_a68b)
            })),
            Numbers::Ascending => Box::new(1..),
            Numbers::Descending => Box::new((0..u32::MAX).rev()),
            Numbers::Colliding => Box::new((2..).map(unmixed)),
            Numbers::CollidingTwice => {
                let same_starts = (2..1 << 21).filter(|&first| mixed(first) < 1 << 21);
                Box::new(same_starts.map(unmixed))
            }
        };
        let numbers: Vec<u32> = all.take(count).collect();
        assert_eq!(numbers.len(), count, "enough numbers {}", self.name());
        numbers
    }
}

/// A book of so many records, all but the head and the last of them users.
pub fn book_of_users(records: usize, numbers: Numbers) -> Vec<u8> {
    let mut bytes = vec![0; Book::RECORD * records];
    let mut book = Book::fresh(&mut bytes).expect("a length that fits");
    for number in numbers.first(records - 2) {
        book.enrol(household(number)).expect("a free record");
    }
    bytes
}

/// A book with one user, so many entries and a free record: what a call does beside the check of the book shows here.
pub fn book_of_one(entries: usize) -> Vec<u8> {
    let mut bytes = vec![0; Book::RECORD * (entries + 3)];
    let mut book = Book::fresh(&mut bytes).expect("a length that fits");
    book.enrol(household(1)).expect("a free record");
    for entry in 0..entries {
        let year = 2013 + entry as u16 / 3;
        match entry % 3 {
            0 => book.advance(1, order(year, run::JUNE)).map(drop),
            1 => book.advance(1, order(year, run::OCTOBER)).map(drop),
            _ => book.close(&sheet(1, year)).map(drop),
        }
        .expect("an entry that is due");
    }
    bytes
}

/// The book with a byte changed that must be zero, in the last record that is used.
pub fn damaged(book: &[u8]) -> Vec<u8> {
    let mut bytes = book.to_vec();
    let used = usize::from(u16::from_le_bytes([book[0], book[1]]));
    bytes[Book::RECORD * used - 1] = 1;
    bytes
}

fn order(year: u16, run: u8) -> Order {
    Order {
        year: u32::from(year),
        run,
        rate: 9_000,
        estimates: [4_000, 4_000],
    }
}

/// A book of so many records, with 10 users: all but the head, the users and the last of them are entries, two advances and a
/// closing a year.
pub fn book_of_entries(records: u32) -> Vec<u8> {
    let mut bytes = vec![0; Book::RECORD * records as usize];
    let mut book = Book::fresh(&mut bytes).expect("a length that fits");
    for number in 1..=10 {
        book.enrol(household(number)).expect("a free record");
    }
    let most = records - 12;
    let mut entries = 0;
    for year in 2013.. {
        for number in 1..=10 {
            for run in [run::JUNE, run::OCTOBER] {
                book.advance(number, order(year, run)).expect("a run that is due");
            }
            book.close(&sheet(number, year)).expect("a year that is open");
            entries += 3;
            if entries + 3 > most {
                for other in 1..=most - entries {
                    let open = book.statement(other).expect("a user").open_year as u16;
                    book.advance(other, order(open, run::JUNE)).expect("a run that is due");
                }
                return bytes;
            }
        }
    }
    bytes
}

/// The number of the user in the middle of the users' chain.
pub fn middle_user(book: &[u8]) -> u32 {
    let word = |at: usize| u32::from_le_bytes([book[at], book[at + 1], book[at + 2], book[at + 3]]);
    let mut users = Vec::new();
    let mut user = word(4) as usize;
    while user != 0 {
        users.push(word(Book::RECORD * user + 8));
        user = word(Book::RECORD * user) as usize;
    }
    users[users.len() / 2]
}

/// A year sheet by bands, with twelve equal months.
pub fn sheet(number: u32, year: u16) -> Vec<u8> {
    let month: [u32; 24] = [
        120, 90, 80, 250, 110, 40, 7200, 6800, 5100, 6300, 6900, 6400, 4800, 6000, 6600, 3000, 4000, 6000, 7000, 1000, 1200,
        1500, 1900, 0,
    ];
    let mut sheet = Vec::with_capacity(Book::SHEET);
    sheet.extend(number.to_le_bytes());
    sheet.extend(year.to_le_bytes());
    sheet.extend([1, 1]);
    sheet.resize(32, 0);
    for _ in 0..12 {
        sheet.extend(month.iter().flat_map(|number| number.to_le_bytes()));
    }
    sheet
}
