//! Each refusal is provoked from the library: its number, its name and its text.

#[path = "common/household.rs"]
mod household;

use household::household;
use ssp_book::{Book, Day, Enrolment, Order, Place, Refusal, option, run};

const DAY: Day = Day {
    year: 2013,
    month: 12,
    day: 31,
};

const ORDER: Order = Order {
    year: 2013,
    run: run::JUNE,
    rate: 10_000,
    estimates: [500, 70],
};

/// The sheet of a year without energy, with one number of its first month set.
fn sheet(number: u32, year: u16, place: usize, value: u32) -> Vec<u8> {
    let mut sheet = vec![0; Book::SHEET];
    sheet[..4].copy_from_slice(&number.to_le_bytes());
    sheet[4..6].copy_from_slice(&year.to_le_bytes());
    sheet[32 + 4 * place..36 + 4 * place].copy_from_slice(&value.to_le_bytes());
    sheet
}

/// A call on a book of three records with user 7, and how it is refused.
fn refused(call: impl FnOnce(&mut Book<'_>) -> Option<Refusal>) -> Refusal {
    let mut bytes = [0; 3 * Book::RECORD];
    let mut book = Book::fresh(&mut bytes).expect("a length that fits");
    book.enrol(household(7)).expect("a free record");
    call(&mut book).expect("a call that is refused")
}

/// The refusal has the number and the text, and its name is the one that the crate documents.
fn is(refusal: Refusal, name: Refusal, number: u32, text: &str) {
    assert_eq!(refusal, name);
    assert_eq!(refusal.number(), number);
    assert_eq!(refusal.to_string(), text);
}

#[test]
fn length() {
    let refusal = Book::fresh(&mut [0; 81]).expect_err("no length of a book");
    is(
        refusal,
        Refusal::Length,
        1,
        "the book's length is not a multiple of 80 from 160 to 64,000",
    );
}

#[test]
fn damaged() {
    let mut bytes = [0; 8 * Book::RECORD];
    let mut book = Book::fresh(&mut bytes).expect("a length that fits");
    for number in 1..=6 {
        book.enrol(household(number)).expect("a free record");
    }
    bytes[5 * Book::RECORD + 79] = 1;
    let refusal = Book::over(&mut bytes)
        .statement(1)
        .expect_err("a record with a byte that must be zero");
    is(
        refusal,
        Refusal::Damaged { record: 5 },
        2,
        "the book is damaged: record 5 is faulty",
    );
}

#[test]
fn full() {
    let refusal = refused(|book| {
        book.enrol(household(8)).expect("the last free record");
        book.enrol(household(9)).err()
    });
    is(refusal, Refusal::Full, 3, "the book is full");
}

#[test]
fn number() {
    for number in [0, 7] {
        let refusal = refused(|book| book.enrol(household(number)).err());
        is(refusal, Refusal::Number, 4, "the user number is 0, or a user has it already");
    }
}

#[test]
fn detail() {
    let user = household(8);
    for wrong in [
        Enrolment { class: 12, ..user },
        Enrolment { plant: 18, ..user },
        Enrolment { option: 2, ..user },
        Enrolment { power: 200_001, ..user },
        Enrolment { year: 2100, ..user },
        Enrolment { month: 13, ..user },
        Enrolment { island: 2, ..user },
    ] {
        let refusal = refused(|book| book.enrol(wrong).err());
        is(refusal, Refusal::Detail, 5, "a detail of the enrolment is out of its range");
    }
}

#[test]
fn unknown() {
    let refusal = refused(|book| book.statement(8).err());
    is(refusal, Refusal::Unknown, 6, "no user has the number");
}

#[test]
fn day() {
    let text = "there is no such day or option";
    let refusal = refused(|book| book.elect(7, option::CREDIT, Day { day: 32, ..DAY }).err());
    is(refusal, Refusal::Day, 7, text);
    is(refused(|book| book.elect(7, 2, DAY).err()), Refusal::Day, 7, text);
}

#[test]
fn window() {
    let refusal = refused(|book| book.elect(7, option::CREDIT, Day { year: 2012, ..DAY }).err());
    is(
        refusal,
        Refusal::Window,
        8,
        "the day is outside the election's window, or the open year is 2100",
    );
}

#[test]
fn charge() {
    let text = "the open year is charged already, or is above 2099";
    let twice = |book: &mut Book<'_>| {
        book.charge(7).expect("a year that is not charged");
        book.charge(7).err()
    };
    is(refused(twice), Refusal::Charge, 16, text);
    let mut bytes = [0; 3 * Book::RECORD];
    let mut book = Book::fresh(&mut bytes).expect("a length that fits");
    book.enrol(Enrolment {
        year: 2099,
        ..household(8)
    })
    .expect("a free record");
    book.close(&sheet(8, 2099, 0, 0)).expect("a year that is open");
    is(book.charge(8).expect_err("open year 2100"), Refusal::Charge, 16, text);
}

#[test]
fn run_of_advances() {
    let text = "the year is not open or is above 2099, or the run is none, is not due or was made";
    for wrong in [
        Order { year: 2012, ..ORDER },
        Order { year: 2015, ..ORDER },
        Order { run: 3, ..ORDER },
        Order {
            run: run::JANUARY,
            ..ORDER
        },
        Order {
            year: 2014,
            run: run::JANUARY,
            ..ORDER
        },
    ] {
        is(refused(|book| book.advance(7, wrong).err()), Refusal::Run, 9, text);
    }
    let twice = |book: &mut Book<'_>| {
        book.advance(7, ORDER).expect("a run that is due");
        book.advance(7, ORDER).err()
    };
    is(refused(twice), Refusal::Run, 9, text);
}

#[test]
fn order() {
    for wrong in [
        Order { rate: 500_001, ..ORDER },
        Order {
            estimates: [360_000_001, 0],
            ..ORDER
        },
        Order {
            estimates: [0, 360_000_001],
            ..ORDER
        },
    ] {
        let refusal = refused(|book| book.advance(7, wrong).err());
        is(
            refusal,
            Refusal::Order,
            10,
            "the rate is above 500,000 or an estimate above 360,000,000 kWh",
        );
    }
}

#[test]
fn sheet_of_another_form() {
    for wrong in [vec![0; Book::SHEET - 1], sheet(7, 2013, 23, 1)] {
        let refusal = refused(|book| book.close(&wrong).err());
        is(
            refusal,
            Refusal::Sheet,
            11,
            "the sheet's length, header or a zero word is wrong",
        );
    }
}

#[test]
fn sheet_year() {
    let refusal = refused(|book| book.close(&sheet(7, 2014, 0, 0)).err());
    is(
        refusal,
        Refusal::SheetYear,
        12,
        "the sheet's year is not open or is above 2099",
    );
}

#[test]
fn above_limit() {
    for (place, number, words) in [
        (0, 20_000_001, "month 1: withdrawn F1 is above 20,000,000 kWh"),
        (1, 20_000_001, "month 1: withdrawn F2 is above 20,000,000 kWh"),
        (6, 500_001, "month 1: PUN F1 is above 500,000"),
    ] {
        let refusal = refused(|book| book.close(&sheet(7, 2013, place, number)).err());
        let expected = Refusal::AboveLimit {
            month: 1,
            place: Place(place as u32 + 1),
        };
        is(refusal, expected, 13, words);
    }
}

#[test]
fn stray_band() {
    for (place, words) in [
        (1, "month 1: withdrawn F2 is filled, but the reading is single"),
        (5, "month 1: injected F3 is filled, but the reading is single"),
    ] {
        let refusal = refused(|book| book.close(&sheet(7, 2013, place, 1)).err());
        let expected = Refusal::StrayBand {
            month: 1,
            place: Place(place as u32 + 1),
        };
        is(refusal, expected, 19, words);
    }
}

#[test]
fn domestic_month() {
    let refusal = refused(|book| book.close(&sheet(7, 2013, 0, 4_000_001)).err());
    is(
        refusal,
        Refusal::DomesticMonth,
        14,
        "a domestic user withdrew more than 4,000,000 kWh in a month",
    );
}

/// A newer library may refuse for a reason that the crate has no name for.
#[test]
fn other() {
    assert_eq!(Refusal::Other(99).number(), 99);
    assert_eq!(Refusal::Other(99).to_string(), "refusal 99");
}

#[test]
fn buffer_size() {
    use ssp_book::{archive_sheet_into, restore_sheet_into};
    let text = "a buffer is not of a sheet's 1,184 bytes";
    let (whole, short) = ([0; Book::SHEET], [0; Book::SHEET - 1]);
    for refusal in [
        archive_sheet_into(&whole, &mut short.clone()),
        archive_sheet_into(&short, &mut whole.clone()),
        restore_sheet_into(&whole, &mut short.clone()),
        restore_sheet_into(&short, &mut whole.clone()),
    ] {
        is(refusal.expect_err("another size"), Refusal::BufferSize, 27, text);
    }
}

#[test]
fn factor() {
    let mut sheet = [0; Book::SHEET];
    let refusal = ssp_book::raise_injected(&mut sheet, 201).expect_err("a larger factor");
    is(refusal, Refusal::Factor, 26, "the factor is above 200 thousandths");
}

#[test]
fn line() {
    use ssp_book::{read_measures, write_measures};
    let mut sheet = [0; Book::SHEET];
    let line = "line 1: not seven numbers with semicolons, the first of them 1";
    let refusal = read_measures(&mut sheet, "1;0;0;0;0;0\n").expect_err("six numbers");
    is(refusal, Refusal::Line { line: 1 }, 17, line);
    let text: String = (1..=13).map(|month| format!("{month};0;0;0;0;0;0\n")).collect();
    let refusal = read_measures(&mut sheet, text).expect_err("thirteen lines");
    is(
        refusal,
        Refusal::Line { line: 13 },
        17,
        "line 13: the text goes on behind its twelfth line",
    );

    let refusal = read_measures(&mut sheet, "1;0;20000001;0;0;0;0\n").expect_err("a kWh above the limit");
    let above = Refusal::AboveLimit {
        month: 1,
        place: Place(2),
    };
    is(refusal, above, 13, "month 1: withdrawn F2 is above 20,000,000 kWh");
    sheet[39] = 255;
    is(
        write_measures(&sheet).expect_err("the same kWh"),
        above,
        13,
        "month 1: withdrawn F2 is above 20,000,000 kWh",
    );
    let refusal = read_measures(&mut sheet[1..], "").expect_err("a byte too few");
    is(
        refusal,
        Refusal::Sheet,
        11,
        "the sheet's length, header or a zero word is wrong",
    );
}

#[test]
fn no_field() {
    let text = "the month is not 1 to 12, or the band is none of the injected reading";
    for (month, band) in [(0, 1), (13, 1), (1, 0), (1, 2)] {
        let refusal = refused(|book| book.more_sun(&sheet(7, 2013, 0, 0), month, band).err());
        is(refusal, Refusal::NoField, 23, text);
    }
    // 11, 6, 13 and 19 go before it, and neither 12, 14 nor 3 is asked
    for (sheet, number) in [
        (vec![0; 1183], 11),
        (sheet(8, 2013, 0, 0), 6),
        (sheet(7, 2013, 22, 500_001), 13),
        (sheet(7, 2013, 4, 1), 19),
        (sheet(7, 2100, 0, 4_000_001), 23),
    ] {
        assert_eq!(refused(|book| book.more_sun(&sheet, 0, 4).err()).number(), number);
    }
}
