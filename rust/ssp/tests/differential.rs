//! The library beside an independent implementation, `rust/peer`: the same answers and the same bytes, call by call, on books
//! that the calls made and on damaged ones.

mod common;

use common::{Answer, Call, Clerk, Dice, damage, has_ticket_bytes, is_of_ticket};
use ssp_book::{Balance, Book, Closing, Place, Refusal, Statement, Ticks};

/// The peer's answer: the refusal's number, and the answer of an accepted call.
fn by_peer(call: &Call, bytes: &mut [u8]) -> (u32, Answer) {
    // the peer's arguments are narrower; what does not fit is beyond every limit
    let narrow = |number: u64| u32::try_from(number).unwrap_or(u32::MAX);
    match call {
        Call::Enrol(u) => {
            let a = peer::enrol(
                bytes, u.number, u.class, u.plant, u.option, u.power, u.year, u.month, u.island,
            );
            (a.code.into(), Answer::Record(a.index))
        }
        Call::Elect(number, option, d) => {
            let a = peer::elect(bytes, *number, *option, d.year, d.month, d.day);
            (a.code.into(), Answer::Nothing)
        }
        Call::Charge(_) => unreachable!("the peer is one of document 01"),
        Call::Advance(number, o) => {
            let year = u16::try_from(o.year).unwrap_or(u16::MAX);
            let [first, second] = o.estimates.map(narrow);
            let a = peer::advance(bytes, *number, year, o.run, narrow(o.rate), first, second);
            (a.code.into(), Answer::Paid(Ticks(a.ticks)))
        }
        Call::Close(sheet) => {
            let a = peer::close(bytes, sheet);
            let closing = Closing {
                value: Ticks(a.c),
                cost: Ticks(a.o),
                flat_rate: Ticks(a.f),
                contribution: Ticks(a.contribution),
                liquidation: Ticks(a.liquidation),
                lapsed: Ticks(a.lapsed),
                balance: Balance(a.balance),
            };
            (a.code.into(), Answer::Closed(closing))
        }
        Call::Statement(number) => {
            let a = peer::statement(bytes, *number);
            let statement = Statement {
                open_year: a.open_year.into(),
                credit: Ticks(a.credit),
                value: Ticks(a.c),
                cost: Ticks(a.o),
                flat_rate: Ticks(a.f),
                contribution: Ticks(a.contribution),
                liquidation: Ticks(a.liquidation),
                lapsed: Ticks(a.lapsed),
                balance: Balance(a.balance),
                advances: Ticks(a.advances),
                closed_advances: Ticks(a.advances_of_closed_years),
            };
            (a.code.into(), Answer::Stated(statement))
        }
    }
}

/// How often each number was answered.
type Count = [usize; 20];

/// Whether a number of a sheet is at fault, and with which refusal: "number above its limit", 13, or "A single reading's filled F2
/// or F3", 19; "where one number has both faults, 13 goes first".
fn fault(sheet: &[u8], month: u32, place: u32) -> Option<u32> {
    let at = 32 + 96 * (month as usize - 1) + 4 * (place as usize - 1);
    let number = u32::from_le_bytes(sheet[at..at + 4].try_into().expect("four bytes"));
    let single = match place {
        2 | 3 => sheet[6] == 0,
        5 | 6 => sheet[7] == 0,
        _ => false,
    };
    match number {
        _ if number > if place <= 6 { 20_000_000 } else { 500_000 } => Some(13),
        1.. if single => Some(19),
        _ => None,
    }
}

/// "The earliest number at fault decides".
fn earliest_fault(sheet: &[u8]) -> Option<(u32, u32, Place)> {
    let places = (1..=12).flat_map(|month| (1..=23).map(move |place| (month, place)));
    places
        .filter_map(|(month, place)| fault(sheet, month, place).map(|number| (number, month, Place(place))))
        .next()
}

/// The peer is one of document 01, where 13 has both meanings of 13 and 19.
fn in_document_01(number: u32) -> u32 {
    if number == 19 { 13 } else { number }
}

/// Makes a call by both on equal books, and leaves the books equal.
fn both(call: &Call, proved: &mut [u8], other: &mut [u8], count: &mut Count) -> bool {
    let faulty = peer::all_faulty(other);
    let answer = call.make(&mut Book::over(proved));
    let (number, others) = by_peer(call, other);
    match answer {
        Ok(answer) => {
            assert_eq!((0, answer), (number, others), "{call:?}");
            count[0] += 1;
        }
        Err(refusal) => {
            assert_eq!(in_document_01(refusal.number()), number, "{call:?}: {refusal}");
            match (refusal, call) {
                (Refusal::Damaged { record }, _) => {
                    assert_eq!(Some(&record), faulty.iter().min(), "{faulty:?} are faulty");
                }
                (Refusal::AboveLimit { month, place } | Refusal::StrayBand { month, place }, Call::Close(sheet)) => {
                    assert_eq!(Some((refusal.number(), month, place)), earliest_fault(sheet), "{call:?}");
                }
                _ => {}
            }
            count[refusal.number() as usize] += 1;
        }
    }
    assert!(proved == other, "the books differ after {call:?}");
    number == 0
}

/// A list of calls from a fresh book, then damaged copies of what it left, with a few calls on each.
fn compare(seed: u64, records: usize, calls: usize, copies: usize, count: &mut Count) {
    let mut dice = Dice::of(seed);
    let mistakes = dice.one_of(&[0, 5, 30]);
    let mut clerk = Clerk::new(seed, mistakes);
    // what stands above the records used is free, so it may be anything
    let mut proved: Vec<u8> = (0..Book::RECORD * records).map(|_| dice.next() as u8).collect();
    let mut other = proved.clone();
    assert!(Book::fresh(&mut proved).is_ok());
    assert_eq!(peer::fresh(&mut other), 0);
    assert!(proved == other, "the fresh books differ");
    for byte in &mut proved[Book::RECORD..] {
        *byte = dice.next() as u8;
    }
    other.copy_from_slice(&proved);
    for _ in 0..calls {
        let call = clerk.next_call();
        if both(&call, &mut proved, &mut other, count) {
            clerk.accepted(&call);
        }
    }
    let left = proved.clone();
    for _ in 0..copies {
        proved.copy_from_slice(&left);
        damage(&mut dice, &mut proved);
        other.copy_from_slice(&proved);
        for _ in 0..4 {
            let call = clerk.next_call();
            // the peer is one of document 01, which knows one open year
            if !has_ticket_bytes(&proved) && !is_of_ticket(&call, &proved) {
                both(&call, &mut proved, &mut other, count);
            }
        }
    }
}

#[test]
fn answers_and_books_are_equal() {
    let mut count = Count::default();
    for seed in 1..=1_500 {
        for records in [2, 7, 30, 110] {
            compare(seed, records, 60, 10, &mut count);
        }
    }
    for seed in 1..=8 {
        compare(1_000 + seed, 800, 600, 40, &mut count);
    }
    let calls: usize = count.iter().sum();
    assert!(calls >= 100_000, "{calls} calls are too few");
    for number in [0].into_iter().chain(2..=14).chain([19]) {
        assert!(count[number] > 0, "{number} was never answered: {count:?}");
    }
    println!("{calls} calls, answers and books equal; answered 0 to 19: {count:?}");
}
