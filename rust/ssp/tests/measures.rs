//! The grid operator's text, beside plain Rust: texts that are right and texts with every kind of fault, sheets of any bytes, what
//! was written read back, every size; and the shapes that document 02 names.

mod common;
#[path = "common/plain_measures.rs"]
mod plain_measures;

use common::{Dice, sheet};
use plain_measures::Refused;
use ssp_book::{Book, Refusal, read_measures, write_measures, write_measures_into};

fn told(refusal: Refusal) -> Refused {
    match refusal {
        Refusal::Sheet => Refused::Size,
        Refusal::Line { line } => Refused::Line(line),
        Refusal::AboveLimit { month, place } => Refused::Above(month, place.0),
        other => panic!("{other}"),
    }
}

/// A text with these numbers, and its lines.
fn text(kwh: impl Fn(usize, usize) -> String) -> Vec<String> {
    (0..12)
        .map(|month| {
            let six: Vec<_> = (0..6).map(|place| kwh(month, place)).collect();
            format!("{};{}\n", month + 1, six.join(";"))
        })
        .collect()
}

fn zeros() -> Vec<String> {
    text(|_, _| "0".to_owned())
}

/// Both readers on the same sheet.
fn agrees(bytes: &[u8], text: &[u8]) -> Result<(), Refused> {
    let (mut ours, mut theirs) = (bytes.to_vec(), bytes.to_vec());
    let read = read_measures(&mut ours, text).map_err(told);
    assert_eq!(
        read,
        plain_measures::read(&mut theirs, text),
        "{:?}",
        String::from_utf8_lossy(text)
    );
    assert_eq!(ours, theirs);
    if read.is_err() {
        assert_eq!(ours, bytes, "a refusal leaves the sheet");
    }
    read
}

fn spoil(dice: &mut Dice, text: &mut Vec<u8>) {
    let at = dice.below(text.len() as u64 + 1) as usize;
    match dice.below(9) {
        0 => text.truncate(at),
        1 => {
            text.pop();
        }
        2 if at < text.len() => {
            text.remove(at);
        }
        3 if at < text.len() => text[at] = dice.next() as u8,
        4 => text.extend_from_slice([&b"\n"[..], b"0", b"13;0;0;0;0;0;0\n", b"\r\n"][dice.below(4) as usize]),
        5 => {
            let lines: Vec<_> = text.split_inclusive(|&byte| byte == b'\n').map(<[u8]>::to_vec).collect();
            let left_out = dice.below(lines.len() as u64 + 1) as usize;
            let twice = dice.below(lines.len() as u64 + 1) as usize;
            *text = lines
                .iter()
                .enumerate()
                .flat_map(|(k, line)| line.repeat(usize::from(k != left_out) + usize::from(k == twice)))
                .collect();
        }
        6 => drop(text.splice(at..at, std::iter::repeat_n(b'9', dice.below(120) as usize))),
        _ => text.insert(at, dice.one_of(b"0;\n\r -+1\0".map(u64::from).as_ref()) as u8),
    }
}

#[test]
fn texts_right_and_wrong() {
    let mut dice = Dice::of(2);
    let mut taken = 0;
    for round in 0..60_000 {
        let largest = dice.one_of(&[20_000_000, 20_000_000, 1000, 20_000_200]);
        let numbers: Vec<_> = (0..72)
            .map(|_| (dice.below(largest + 1) >> dice.one_of(&[0, 0, 10, 24])).to_string())
            .collect();
        let mut bytes = text(|month, place| numbers[6 * month + place].clone()).concat().into_bytes();
        for _ in 0..dice.one_of(&[0, 1, 1, 2, 3]) {
            spoil(&mut dice, &mut bytes);
        }
        let number = dice.next() as u32;
        let sheet = sheet(&mut dice, number, 2013 + round as u16 % 87);
        taken += u32::from(agrees(&sheet, &bytes).is_ok());
    }
    assert!(taken > 5_000, "{taken} texts were taken");
    println!("60,000 texts, of which {taken} are taken");
}

/// Sheets of any bytes, and what was written read back into another sheet.
#[test]
fn written_and_read_back() {
    let mut dice = Dice::of(675);
    let mut written = 0;
    for _ in 0..30_000 {
        let mut from: [u8; Book::SHEET] = std::array::from_fn(|_| dice.next() as u8);
        if dice.percent(80) {
            for k in 0..72 {
                let n = dice.below(20_000_001) as u32 >> dice.one_of(&[0, 0, 10, 24]);
                from[32 + 96 * (k / 6) + 4 * (k % 6)..][..4].copy_from_slice(&n.to_le_bytes());
            }
        }
        let rest: [u8; Book::MEASURES] = std::array::from_fn(|_| dice.next() as u8);
        let (mut ours, mut theirs) = (rest, rest);
        let length = write_measures_into(&from, &mut ours).map_err(told);
        assert_eq!(length, plain_measures::write(&from, &mut theirs));
        assert_eq!(ours, theirs);
        let Ok(length) = length else {
            assert_eq!(ours, rest, "a refusal leaves the text");
            continue;
        };
        assert_eq!(ours[length..], rest[length..], "the rest stays");
        let mut to: [u8; Book::SHEET] = std::array::from_fn(|_| dice.next() as u8);
        read_measures(&mut to, &ours[..length]).expect("what was written");
        assert_eq!(write_measures(&to).expect("the same kWh").as_bytes(), &ours[..length]);
        written += 1;
    }
    assert!(written > 20_000);
    println!("{written} sheets, written and read back");
}

#[test]
fn shapes() {
    let at = |line: usize, with: &str| {
        let mut lines = zeros();
        lines[line - 1] = with.to_owned();
        agrees(&[0; Book::SHEET], lines.concat().as_bytes())
    };
    assert_eq!(at(1, "1;0;0;0;0;0;0\n"), Ok(()));
    assert_eq!(at(7, "7;1;2;3;4;5;20000000\n"), Ok(()));
    for line in [
        "",
        "\n",
        "7\n",
        "7;0;0;0;0;0\n",
        "7;0;0;0;0;0;0;0\n",
        "7;0;0;0;0;0;0",
        "7;0;0;0;0;0;0;\n",
        ";0;0;0;0;0;0\n",
        "07;0;0;0;0;0;0\n",
        "6;0;0;0;0;0;0\n",
        "7;00;0;0;0;0;0\n",
        "7;01;0;0;0;0;0\n",
        "7;+1;0;0;0;0;0\n",
        "7;-1;0;0;0;0;0\n",
        "7; 1;0;0;0;0;0\n",
        "7;1 ;0;0;0;0;0\n",
        "7;;0;0;0;0;0\n",
        "7;0;0;0;0;0;0\r\n",
        "7,0,0,0,0,0,0\n",
        "7;0x1;0;0;0;0;0\n",
        "7;1.0;0;0;0;0;0\n",
        "7;00;0;0;0;0;99999999\n",
    ] {
        assert_eq!(at(7, line), Err(Refused::Line(7)), "{line:?}");
    }
    assert_eq!(at(7, "7;0;0;20000001;0;0;99999999\n"), Err(Refused::Above(7, 3)));
    assert_eq!(
        at(7, &format!("7;0;0;0;0;0;{}\n", "9".repeat(100))),
        Err(Refused::Above(7, 6))
    );
    // a number that 32 or 64 bits would take for a small one
    assert_eq!(at(7, "7;4294967296;0;0;0;0;0\n"), Err(Refused::Above(7, 1)));
    assert_eq!(at(7, "7;0;18446744073709551617;0;0;0;0\n"), Err(Refused::Above(7, 2)));
    // a month that 32 or 64 bits would take for 7
    assert_eq!(at(7, "4294967303;0;0;0;0;0;0\n"), Err(Refused::Line(7)));
    assert_eq!(at(7, "18446744073709551623;0;0;0;0;0;0\n"), Err(Refused::Line(7)));

    let whole = zeros().concat();
    let read = |text: &str| agrees(&[7; Book::SHEET], text.as_bytes());
    assert_eq!(read(&whole), Ok(()));
    assert_eq!(read(""), Err(Refused::Line(1)));
    for after in ["\n", " ", "\0", "13;0;0;0;0;0;0\n"] {
        assert_eq!(read(&format!("{whole}{after}")), Err(Refused::Line(13)));
    }
    for line in 1..=12 {
        assert_eq!(read(&zeros()[..line - 1].concat()), Err(Refused::Line(line as u32)));
    }
    // the earlier line goes first, in one line 17
    let pair = |first: &str, second: &str| read(&format!("{first}{second}{}", zeros()[2..].concat()));
    assert_eq!(pair("1;0;0;0;0;0\n", "2;20000001;0;0;0;0;0\n"), Err(Refused::Line(1)));
    assert_eq!(pair("1;20000001;0;0;0;0;0\n", "2;0;0;0;0;0\n"), Err(Refused::Above(1, 1)));
    assert_eq!(pair("1;20000001;0;0;0;0;00\n", "2;0;0;0;0;0;0\n"), Err(Refused::Line(1)));
}

#[test]
fn every_size() {
    let text = zeros().concat();
    for size in 0..2 * Book::SHEET {
        let expected = if size == Book::SHEET { Ok(()) } else { Err(Refused::Size) };
        assert_eq!(agrees(&vec![9; size], text.as_bytes()), expected);
        let length = write_measures_into(&vec![0; size], &mut [1; Book::MEASURES]).map_err(told);
        assert_eq!(length, expected.map(|()| text.len()));
        let mut room = vec![1; size];
        let length = write_measures_into(&[0; Book::SHEET], &mut room).map_err(told);
        assert_eq!(length.is_ok(), size == Book::MEASURES, "{size}");
    }
    // the largest numbers need all the room
    let mut full = [0; Book::SHEET];
    read_measures(&mut full, self::text(|_, _| "20000000".to_owned()).concat()).expect("at the limit");
    assert_eq!(write_measures(&full).expect("at the limit").len(), Book::MEASURES);
}
