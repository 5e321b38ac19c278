//! Speed is watched: a call's time grows with the records, and the library keeps up with `rust/peer`. Times are the least of many
//! short rounds, and the two sides of a ratio take turns, so that what else the machine does disturbs both alike; the bounds
//! are wide beside that. Nothing but these tests sees where the check of a book gives up its one pass: the answers stay right.

#[path = "../benches/calls/books.rs"]
#[allow(dead_code, reason = "the benchmark uses more of it")]
mod books;
#[path = "common/household.rs"]
mod household;

use std::hint::black_box;
use std::time::{Duration, Instant};

use books::{Numbers, book_of_entries, book_of_users, middle_user, sheet};
use ssp_book::{Book, Day, Order, option, run};

/// A straight line from 100 to 800 records grows eightfold; a square 64-fold.
const MOST_GROWTH: f64 = 24.0;

/// The library and the peer take about the same time. Without its one pass the library takes three times as long.
const MOST_BESIDE_PEER: f64 = 2.0;

/// Numbers chosen to collide in the library's table cost twice as much as any; a walk from one slot took 30 times as long.
const MOST_COLLIDING: f64 = 4.0;

const ROUNDS: usize = 1_000;
const ATTEMPTS: usize = 5;

type Turn<'a> = Box<dyn FnMut() + 'a>;

fn timed(turn: &mut Turn<'_>, turns: u32) -> Duration {
    let start = Instant::now();
    for _ in 0..turns {
        turn();
    }
    start.elapsed()
}

/// How many times the second takes as long as the first. Each is timed for about as long.
fn ratio(mut first: Turn<'_>, mut second: Turn<'_>, turns: [u32; 2]) -> f64 {
    let mut least = [Duration::MAX; 2];
    for _ in 0..ROUNDS {
        least[0] = least[0].min(timed(&mut first, turns[0]));
        least[1] = least[1].min(timed(&mut second, turns[1]));
    }
    (least[1].as_secs_f64() / f64::from(turns[1])) / (least[0].as_secs_f64() / f64::from(turns[0]))
}

/// The least ratio of a few attempts, which ends with the first below the bound.
fn is_below(bound: f64, what: &str, mut attempt: impl FnMut() -> f64) {
    let mut least = f64::INFINITY;
    for _ in 0..ATTEMPTS {
        least = least.min(attempt());
        if least < bound {
            println!("{what}: {least:.1} times, at most {bound}");
            return;
        }
    }
    panic!("{what}: {least:.1} times, and {bound} is the bound");
}

/// A call on a book, accepted each time. A call that writes gets the book by a copy.
fn turn<'a>(call: &str, book: &'a [u8]) -> Turn<'a> {
    let number = middle_user(book);
    let mut lent = book.to_vec();
    let year = Book::over(&mut lent).statement(number).expect("a user").open_year;
    let day = Day {
        year: year as u32,
        month: 5,
        day: 5,
    };
    let order = Order {
        year: year as u32,
        run: run::JUNE,
        rate: 9_000,
        estimates: [4_000, 4_000],
    };
    let sheet = sheet(number, year as u16);
    match call {
        "statement" => Box::new(move || assert!(black_box(Book::over(&mut lent).statement(number)).is_ok())),
        "elect" => Box::new(move || {
            lent.copy_from_slice(black_box(book));
            assert!(Book::over(&mut lent).elect(number, option::LIQUIDATION, day).is_ok());
        }),
        "advance" => Box::new(move || {
            lent.copy_from_slice(black_box(book));
            assert!(Book::over(&mut lent).advance(number, order).is_ok());
        }),
        "close" => Box::new(move || {
            lent.copy_from_slice(black_box(book));
            assert!(Book::over(&mut lent).close(&sheet).is_ok());
        }),
        _ => panic!("no such call: {call}"),
    }
}

fn peer_turn(book: &[u8]) -> Turn<'_> {
    let number = middle_user(book);
    Box::new(move || assert_eq!(black_box(peer::statement(black_box(book), number)).code, 0))
}

/// One test, so that no other runs beside it.
#[test]
fn speed() {
    let users = [100, 800].map(|records| book_of_users(records, Numbers::Scattered));
    let entries = [100, 800].map(book_of_entries);
    for (name, books) in [("users", &users), ("entries", &entries)] {
        for call in ["statement", "elect", "advance", "close"] {
            is_below(MOST_GROWTH, &format!("{call}, 100 to 800 records of {name}"), || {
                ratio(turn(call, &books[0]), turn(call, &books[1]), [16, 2])
            });
        }
        is_below(
            MOST_BESIDE_PEER,
            &format!("statement of 800 records of {name} beside the peer"),
            || ratio(peer_turn(&books[1]), turn("statement", &books[1]), [2, 2]),
        );
    }
    for numbers in [Numbers::Colliding, Numbers::CollidingTwice] {
        let book = book_of_users(800, numbers);
        is_below(
            MOST_COLLIDING,
            &format!("statement of 800 records, {} beside scattered", numbers.name()),
            || ratio(turn("statement", &users[1]), turn("statement", &book), [2, 2]),
        );
    }
}
