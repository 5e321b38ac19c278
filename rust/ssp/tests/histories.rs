//! Long random lists of calls from a fresh book: the conserved sum holds for each user, what is withheld is what document 02 says,
//! and a refusal leaves every byte.

mod common;

use std::collections::HashMap;

use common::{Answer, Call, Clerk};
use ssp_book::{Book, Refusal};

/// What the accepted calls of one user answered, summed.
#[derive(Default)]
struct Answered {
    value: i128,
    balance: i128,
    advances: i128,
    /// The index of its record, and the yearly charge by its power.
    user: u32,
    charge: u64,
    /// What was charged, and what of it was withheld.
    charged: u64,
    withheld: u64,
}

impl Answered {
    /// "It is withheld, as far as each reaches, from each later positive payment", and its entry keeps it.
    fn withholds(&mut self, book: &Book<'_>, payment: u64) {
        let withheld = book.withheld(self.user).expect("an entry").0;
        assert_eq!(withheld, payment.min(self.charged - self.withheld));
        self.withheld += withheld;
    }

    /// The unpaid rest, "in bytes 56–63 of the user record".
    fn rest(&self, book: &Book<'_>) -> u64 {
        let at = Book::RECORD * self.user as usize + 56;
        u64::from_le_bytes(book.bytes()[at..at + 8].try_into().expect("8 bytes"))
    }
}

/// "15 € up to 3 kW, 30 € up to 20 kW and 45 € above", in ticks.
fn yearly_charge(power: u32) -> u64 {
    match power {
        0..=3_000 => 1_500_000,
        3_001..=20_000 => 3_000_000,
        _ => 4_500_000,
    }
}

fn number_of(call: &Call) -> u32 {
    match call {
        Call::Enrol(user) => user.number,
        Call::Elect(number, ..) | Call::Advance(number, _) | Call::Charge(number) | Call::Statement(number) => *number,
        Call::Close(sheet) => u32::from_le_bytes([sheet[0], sheet[1], sheet[2], sheet[3]]),
    }
}

/// Makes a list of calls on a fresh book and answers how many were accepted.
fn history(seed: u64, mistakes: u64, records: usize, calls: usize) -> usize {
    let mut bytes = vec![0; Book::RECORD * records];
    let mut book = Book::fresh(&mut bytes).expect("a length that fits");
    let mut clerk = Clerk::of_tickets(seed, mistakes);
    let mut answered: HashMap<u32, Answered> = HashMap::new();
    let mut before = book.bytes().to_vec();
    let mut accepted = 0;
    for at in 0..calls {
        let call = clerk.next_call();
        match call.make(&mut book) {
            Ok(answer) => {
                accepted += 1;
                clerk.accepted(&call);
                let sums = answered.entry(number_of(&call)).or_default();
                match answer {
                    Answer::Closed(year) => {
                        sums.value += i128::from(year.value.0);
                        sums.balance += i128::from(year.balance.0);
                        sums.withholds(&book, u64::try_from(year.balance.0).unwrap_or(0) + year.liquidation.0);
                    }
                    Answer::Paid(ticks) => {
                        sums.advances += i128::from(ticks.0);
                        sums.withholds(&book, ticks.0);
                    }
                    Answer::Stated(_) => assert!(book.bytes() == before, "a statement writes"),
                    Answer::Record(user) => {
                        match call {
                            Call::Enrol(details) => (sums.user, sums.charge) = (user, yearly_charge(details.power)),
                            _ => sums.charged += sums.charge,
                        }
                        assert_eq!(user, sums.user);
                    }
                    Answer::Nothing => {}
                }
                before.copy_from_slice(book.bytes());
            }
            Err(refusal) => {
                let never = matches!(refusal, Refusal::Length | Refusal::Damaged { .. });
                assert!(!never, "seed {seed}, call {at}: {refusal}");
                assert!(book.bytes() == before, "seed {seed}, call {at}: a refusal writes");
            }
        }
    }
    for number in clerk.numbers() {
        let stated = book.statement(number).expect("a user that was enrolled");
        let sums = &answered[&number];
        assert_eq!(i128::from(stated.value.0), sums.value);
        assert_eq!(i128::from(stated.balance.0), sums.balance);
        assert_eq!(i128::from(stated.advances.0), sums.advances);
        assert_eq!(stated.conserved_sum(), sums.value, "seed {seed}, user {number}");
        assert_eq!(sums.charged, sums.withheld + sums.rest(&book), "seed {seed}, user {number}");
    }
    accepted
}

#[test]
fn conserved_sum_holds() {
    let (mut calls, mut accepted) = (0, 0);
    for seed in 1..=120 {
        for (mistakes, records, length) in [(0, 60, 120), (10, 160, 400), (40, 160, 400)] {
            calls += length;
            accepted += history(seed, mistakes, records, length);
        }
    }
    println!("{calls} calls, {accepted} accepted");
}

#[test]
fn longest_book() {
    let (mut calls, mut accepted) = (0, 0);
    for seed in 1..=5 {
        calls += 3_000;
        accepted += history(2_000 + seed, 2, 800, 3_000);
    }
    println!("{calls} calls on books of 800 records, {accepted} accepted");
}
