//! The scripts of calls of tests/vectors, whose answers come from programs of other authorship.

use std::fmt::Write as _;
use std::fs;
use std::path::PathBuf;
use std::str::{FromStr, SplitAsciiWhitespace};

use ssp_book::{Book, Closing, Day, Enrolment, Order, Refusal, Statement};

fn vector(name: &str) -> String {
    let path: PathBuf = [env!("CARGO_MANIFEST_DIR"), "../../tests/vectors", name].iter().collect();
    fs::read_to_string(&path).unwrap_or_else(|error| panic!("{}: {error}", path.display()))
}

/// The words of a line, each as the number that is asked for.
struct Words<'a>(SplitAsciiWhitespace<'a>);

impl Words<'_> {
    fn number<T: FromStr<Err: std::fmt::Debug>>(&mut self) -> T {
        self.0.next().expect("a number").parse().expect("a number")
    }

    /// Bytes in hexadecimal; none where the line ends.
    fn bytes(&mut self) -> Vec<u8> {
        let digits = self.0.next().unwrap_or("");
        (0..digits.len() / 2)
            .map(|at| u8::from_str_radix(&digits[2 * at..2 * at + 2], 16).expect("two digits"))
            .collect()
    }
}

/// The line for an answer: 0 and the values, or the refusal's number and as many zeros; the record alone after a 2, month and
/// place alone after a 13 or 19.
fn line<T>(answer: Result<T, Refusal>, values: usize, shown: impl Fn(T) -> String) -> String {
    match answer {
        Ok(values) => format!("0{}\n", shown(values)),
        Err(Refusal::Damaged { record }) => format!("2 {record}\n"),
        Err(refusal @ (Refusal::AboveLimit { month, place } | Refusal::StrayBand { month, place })) => {
            format!("{} {month} {}\n", refusal.number(), place.0)
        }
        Err(refusal) => format!("{}{}\n", refusal.number(), " 0".repeat(values)),
    }
}

fn closing(c: Closing) -> String {
    format!(
        " {} {} {} {} {} {} {}",
        c.value.0, c.cost.0, c.flat_rate.0, c.contribution.0, c.liquidation.0, c.lapsed.0, c.balance.0
    )
}

fn statement(s: Statement) -> String {
    format!(
        " {} {} {} {} {} {} {} {} {} {} {}",
        s.open_year,
        s.credit.0,
        s.value.0,
        s.cost.0,
        s.flat_rate.0,
        s.contribution.0,
        s.liquidation.0,
        s.lapsed.0,
        s.balance.0,
        s.advances.0,
        s.closed_advances.0
    )
}

/// Number, open year and credit of each user, the newest first: the chain by its bytes, the figures by the statement.
fn listing(book: &Book<'_>) -> String {
    match book.statement(0) {
        Err(refusal @ (Refusal::Length | Refusal::Damaged { .. })) => {
            format!("refused {}\n", refusal.number())
        }
        _ => {
            let word = |at: usize| u32::from_le_bytes(book.bytes()[at..at + 4].try_into().expect("4 bytes"));
            let mut out = String::new();
            let mut user = word(4) as usize;
            while user != 0 {
                let number = word(Book::RECORD * user + 8);
                let stated = book.statement(number).expect("a user of the book");
                writeln!(out, "{number} {} {}", stated.open_year, stated.credit.0).expect("a string takes all");
                user = word(Book::RECORD * user) as usize;
            }
            out
        }
    }
}

fn call(command: &str, words: &mut Words<'_>, bytes: &mut [u8]) -> String {
    if command == "fresh" {
        return line(Book::fresh(bytes), 0, |_| String::new());
    }
    let mut book = Book::over(bytes);
    match command {
        "enrol" => {
            let user = Enrolment {
                number: words.number(),
                class: words.number(),
                plant: words.number(),
                option: words.number(),
                power: words.number(),
                year: words.number(),
                month: words.number(),
                island: words.number(),
            };
            line(book.enrol(user), 1, |record| format!(" {record}"))
        }
        "elect" => {
            let (number, option) = (words.number(), words.number());
            let day = Day {
                year: words.number(),
                month: words.number(),
                day: words.number(),
            };
            line(book.elect(number, option, day), 0, |()| String::new())
        }
        "advance" => {
            let number = words.number();
            let order = Order {
                year: words.number(),
                run: words.number(),
                rate: words.number(),
                estimates: [words.number(), words.number()],
            };
            line(book.advance(number, order), 1, |ticks| format!(" {}", ticks.0))
        }
        "charge" => line(book.charge(words.number()), 1, |record| format!(" {record}")),
        "close" => line(book.close(&words.bytes()), 7, closing),
        "statement" => line(book.statement(words.number()), 11, statement),
        "list" => listing(&book),
        "dump" => {
            let digits: String = bytes.iter().map(|byte| format!("{byte:02x}")).collect();
            format!("{digits}\n")
        }
        _ => panic!("no such call: {command}"),
    }
}

fn replay(name: &str) {
    let script = vector(&format!("{name}.in"));
    let expected = vector(&format!("{name}.out"));
    let mut bytes = Vec::new();
    let mut answers = String::new();
    let mut calls = 0;
    for (at, text) in script.lines().enumerate() {
        let mut words = Words(text.split_ascii_whitespace());
        match words.0.next().expect("a call") {
            "new" => bytes = vec![0; words.number()],
            "load" => bytes = words.bytes(),
            command => {
                answers.push_str(&call(command, &mut words, &mut bytes));
                assert!(
                    expected.starts_with(&answers),
                    "{name}.in:{}: {command} answers otherwise",
                    at + 1
                );
                calls += 1;
            }
        }
    }
    assert_eq!(answers, expected);
    println!("{name}: {calls} calls answered as in the vectors");
}

#[test]
fn history() {
    replay("history");
}

#[test]
fn refusals() {
    replay("refusals");
}

#[test]
fn damaged() {
    replay("damaged");
}

#[test]
fn years() {
    replay("years");
}

#[test]
fn limits() {
    replay("limits");
}
