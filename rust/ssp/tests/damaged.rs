//! Damaged books are ordinary input: every byte of a small book set otherwise, and books of any bytes.

mod common;

use common::{Clerk, Dice, clear_ticket_bytes, has_ticket_bytes};
use ssp_book::{Book, Refusal};

/// Refused with 2 and the smallest record that the peer finds faulty, or sound for both; nothing is written.
fn judged(bytes: &mut [u8]) -> bool {
    let faulty = peer::all_faulty(bytes);
    match Book::over(bytes).statement(0) {
        Err(Refusal::Unknown) => assert!(faulty.is_empty(), "{faulty:?} are faulty"),
        Err(Refusal::Damaged { record }) => {
            assert_eq!(Some(&record), faulty.iter().min(), "{faulty:?} are faulty");
        }
        answer => panic!("the statement of number 0: {answer:?}"),
    }
    faulty.is_empty()
}

#[test]
fn every_byte() {
    let mut bytes = vec![0; 16 * Book::RECORD];
    let mut book = Book::fresh(&mut bytes).expect("a length that fits");
    let mut clerk = Clerk::new(5, 0);
    for _ in 0..40 {
        let call = clerk.next_call();
        if call.make(&mut book).is_ok() {
            clerk.accepted(&call);
        }
    }
    assert!(judged(&mut bytes), "the calls leave a sound book");
    let (mut sound, mut books) = (0, 0);
    for at in 0..bytes.len() {
        let right = bytes[at];
        for wrong in [0, 1, 2, 3, 4, 5, 127, 255, right ^ 1, right ^ 128, right.wrapping_add(1)] {
            bytes[at] = wrong;
            // the peer is one of document 01, which has no such bytes
            if !has_ticket_bytes(&bytes) {
                sound += usize::from(judged(&mut bytes));
                books += 1;
            }
        }
        bytes[at] = right;
    }
    println!("{books} books with one byte changed, {sound} of them sound");
}

#[test]
fn any_bytes() {
    let mut books = 0;
    for seed in 1..=2_000 {
        let mut dice = Dice::of(seed);
        let records = 2 + dice.below(40);
        let small = dice.percent(50);
        let mut bytes: Vec<u8> = (0..records * Book::RECORD as u64)
            .map(|_| if small { dice.below(5) as u8 } else { dice.next() as u8 })
            .collect();
        bytes[..4].copy_from_slice(&(dice.below(records + 2) as u32).to_le_bytes());
        clear_ticket_bytes(&mut bytes);
        let before = bytes.clone();
        judged(&mut bytes);
        let mut clerk = Clerk::new(seed, 50);
        for _ in 0..3 {
            let refused = clerk.next_call().make(&mut Book::over(&mut bytes));
            assert!(refused.is_ok() || bytes == before, "a refusal writes");
            books += 1;
            bytes.copy_from_slice(&before);
        }
    }
    println!("{books} calls on books of any bytes");
}
