//! Random lists of calls of a fixed seed, and what the calls answer.
#![allow(dead_code, reason = "each test uses a part")]

use ssp_book::{Book, Closing, Day, Enrolment, Order, Refusal, Statement, Ticks};

/// A xorshift generator: the same numbers on every machine.
pub struct Dice(u64);

impl Dice {
    pub fn of(seed: u64) -> Dice {
        Dice(seed.wrapping_mul(0x9e37_79b9_7f4a_7c15) | 1)
    }

    pub fn next(&mut self) -> u64 {
        self.0 ^= self.0 << 13;
        self.0 ^= self.0 >> 7;
        self.0 ^= self.0 << 17;
        self.0.wrapping_mul(0x2545_f491_4f6c_dd1d) >> 8
    }

    pub fn below(&mut self, bound: u64) -> u64 {
        self.next() % bound
    }

    pub fn percent(&mut self, chance: u64) -> bool {
        self.below(100) < chance
    }

    pub fn one_of(&mut self, choices: &[u64]) -> u64 {
        choices[self.below(choices.len() as u64) as usize]
    }
}

#[derive(Clone, Debug)]
pub enum Call {
    Enrol(Enrolment),
    Elect(u32, u8, Day),
    Charge(u32),
    Advance(u32, Order),
    Close(Vec<u8>),
    Statement(u32),
}

#[derive(Clone, Copy, Debug, PartialEq, Eq)]
pub enum Answer {
    Record(u32),
    Nothing,
    Paid(Ticks),
    Closed(Closing),
    Stated(Statement),
}

impl Call {
    pub fn make(&self, book: &mut Book<'_>) -> Result<Answer, Refusal> {
        match self {
            Call::Enrol(user) => book.enrol(*user).map(Answer::Record),
            Call::Elect(number, option, day) => book.elect(*number, *option, *day).map(|()| Answer::Nothing),
            Call::Charge(number) => book.charge(*number).map(Answer::Record),
            Call::Advance(number, order) => book.advance(*number, *order).map(Answer::Paid),
            Call::Close(sheet) => book.close(sheet).map(Answer::Closed),
            Call::Statement(number) => book.statement(*number).map(Answer::Stated),
        }
    }
}

/// A year sheet: the header, then in each month six energies and seventeen prices and rates.
pub fn sheet(dice: &mut Dice, number: u32, year: u16) -> Vec<u8> {
    let by_bands = [dice.below(2) as u8, dice.below(2) as u8];
    let most_kwh = dice.one_of(&[0, 40, 900, 900, 60_000, 1_400_000, 20_000_000]);
    let most_price = dice.one_of(&[0, 30, 9_000, 9_000, 500_000]);
    let mut sheet = Vec::with_capacity(Book::SHEET);
    sheet.extend(number.to_le_bytes());
    sheet.extend(year.to_le_bytes());
    sheet.extend(by_bands);
    sheet.resize(32, 0);
    for _month in 0..12 {
        for series in 0..24 {
            let number = match series {
                1 | 2 if by_bands[0] == 0 => 0,
                4 | 5 if by_bands[1] == 0 => 0,
                0..=5 => dice.below(most_kwh + 1),
                6..=22 => dice.below(most_price + 1),
                _ => 0,
            };
            sheet.extend((number as u32).to_le_bytes());
        }
    }
    sheet
}

fn spoil(dice: &mut Dice, sheet: &mut Vec<u8>) {
    let word = 32 + 4 * dice.below(288) as usize;
    match dice.below(5) {
        0 => sheet.truncate(dice.below(1184) as usize),
        1 => sheet.push(0),
        2 => sheet[dice.below(32) as usize] ^= 1 << dice.below(8),
        3 => sheet[word] ^= 1,
        _ => sheet[word + 3] = dice.one_of(&[1, 2, 128, 255]) as u8,
    }
}

struct User {
    number: u32,
    open_year: u16,
}

/// Whoever makes the calls: knows the users enrolled and their open years, and errs at times.
pub struct Clerk {
    pub dice: Dice,
    mistakes: u64,
    /// Whether it makes what tickets added: runs of the later open year too, and charges.
    tickets: bool,
    users: Vec<User>,
}

impl Clerk {
    pub fn new(seed: u64, mistakes: u64) -> Clerk {
        Clerk {
            dice: Dice::of(seed),
            mistakes,
            tickets: false,
            users: Vec::new(),
        }
    }

    /// One who orders runs of both open years (ticket 6), and charges (ticket 1).
    pub fn of_tickets(seed: u64, mistakes: u64) -> Clerk {
        Clerk {
            tickets: true,
            ..Clerk::new(seed, mistakes)
        }
    }

    pub fn numbers(&self) -> impl Iterator<Item = u32> + '_ {
        self.users.iter().map(|user| user.number)
    }

    fn errs(&mut self) -> bool {
        let chance = self.mistakes;
        self.dice.percent(chance)
    }

    /// A number and its open year.
    fn somebody(&mut self) -> (u32, u16) {
        if self.users.is_empty() || self.errs() {
            let number = self.dice.one_of(&[0, 1, 2, 3, 77, u64::from(u32::MAX)]);
            return (number as u32, 2013);
        }
        let user = &self.users[self.dice.below(self.users.len() as u64) as usize];
        (user.number, user.open_year)
    }

    pub fn next_call(&mut self) -> Call {
        if self.tickets && self.dice.percent(10) {
            return Call::Charge(self.somebody().0);
        }
        match self.dice.below(20) {
            0..=2 => Call::Enrol(self.enrolment()),
            3..=4 => self.election(),
            5..=9 => self.order(),
            10..=17 => Call::Close(self.closing()),
            _ => Call::Statement(self.somebody().0),
        }
    }

    fn enrolment(&mut self) -> Enrolment {
        let dice = &mut self.dice;
        let mut user = Enrolment {
            number: 1 + dice.below(60) as u32,
            class: 1 + dice.below(11) as u8,
            plant: 1 + dice.below(17) as u8,
            option: dice.below(2) as u8,
            power: dice.one_of(&[1, 3_000, 20_000, 20_001, 77_777, 200_000]) as u32,
            year: dice.one_of(&[2013, 2013, 2014, 2040, 2095, 2099]) as u16,
            month: 1 + dice.below(12) as u8,
            island: dice.below(2) as u8,
        };
        if self.errs() {
            let dice = &mut self.dice;
            match dice.below(8) {
                0 => user.number = 0,
                1 => user.class = dice.one_of(&[0, 12, 255]) as u8,
                2 => user.plant = dice.one_of(&[0, 18, 255]) as u8,
                3 => user.option = dice.one_of(&[2, 255]) as u8,
                4 => user.power = dice.one_of(&[0, 200_001, u64::from(u32::MAX)]) as u32,
                5 => user.year = dice.one_of(&[0, 2012, 2100, 65_535]) as u16,
                6 => user.month = dice.one_of(&[0, 13, 255]) as u8,
                _ => user.island = dice.one_of(&[2, 255]) as u8,
            }
        }
        user
    }

    fn election(&mut self) -> Call {
        let (number, open_year) = self.somebody();
        let open_year = u64::from(open_year);
        let mistaken = self.errs();
        let dice = &mut self.dice;
        let mut option = dice.below(2);
        let mut day = [open_year, 1 + dice.below(12), 1 + dice.below(28)];
        if mistaken {
            let far = u64::from(u32::MAX);
            match dice.below(4) {
                0 => option = dice.one_of(&[2, 255]),
                1 => day[0] = dice.one_of(&[0, 1900, 2000, open_year - 1, open_year + 1, far]),
                2 => day[1] = dice.one_of(&[0, 1, 2, 13, far]),
                _ => day[2] = dice.one_of(&[0, 29, 30, 31, 32, far]),
            }
        }
        let [year, month, day] = day.map(|number| number as u32);
        Call::Elect(number, option as u8, Day { year, month, day })
    }

    fn order(&mut self) -> Call {
        let (number, open_year) = self.somebody();
        let mistaken = self.errs();
        let later = self.tickets && self.dice.percent(40);
        let dice = &mut self.dice;
        let mut order = Order {
            year: u32::from(open_year) + u32::from(later),
            run: dice.one_of(&[1, 2, 2, 4]) as u8,
            rate: dice.one_of(&[0, 1, 900, 9_000, 500_000]),
            estimates: [0, 1].map(|_| dice.one_of(&[0, 166, 167, 4_000, 90_000, 360_000_000])),
        };
        if mistaken {
            match dice.below(5) {
                0 => order.year = dice.one_of(&[0, 2012, 2100, 65_536 + 2013]) as u32,
                1 => order.run = dice.one_of(&[0, 3, 5, 8, 255]) as u8,
                2 => order.rate = dice.one_of(&[500_001, 1 << 32, u64::MAX]),
                half => {
                    order.estimates[half as usize - 3] = dice.one_of(&[360_000_001, 1 << 32, u64::MAX]);
                }
            }
        }
        Call::Advance(number, order)
    }

    fn closing(&mut self) -> Vec<u8> {
        let (number, open_year) = self.somebody();
        let other_year = self.errs();
        let spoilt = self.errs();
        let dice = &mut self.dice;
        let year = if other_year {
            dice.one_of(&[0, 2012, 2100, u64::from(open_year) + 1]) as u16
        } else {
            open_year
        };
        let mut sheet = sheet(dice, number, year);
        if spoilt {
            spoil(dice, &mut sheet);
        }
        sheet
    }

    /// Takes note of a call that was accepted.
    pub fn accepted(&mut self, call: &Call) {
        match call {
            Call::Enrol(user) => self.users.push(User {
                number: user.number,
                open_year: user.year,
            }),
            Call::Close(sheet) => {
                let number = u32::from_le_bytes([sheet[0], sheet[1], sheet[2], sheet[3]]);
                for user in &mut self.users {
                    if user.number == number {
                        user.open_year += 1;
                    }
                }
            }
            _ => {}
        }
    }
}

/// The records that a book uses, as far as it has them.
fn used_records(bytes: &[u8]) -> impl Iterator<Item = &[u8]> {
    let used = u32::from_le_bytes([bytes[0], bytes[1], bytes[2], bytes[3]]);
    bytes.chunks_exact(Book::RECORD).take(used as usize).skip(1)
}

/// The bytes of a record that tickets 1 and 6 give a meaning: document 01, which `rust/peer` follows, wants zeros there.
fn ticket_bytes(record: &[u8]) -> Vec<usize> {
    match record[4] {
        1 => (27..29).chain(56..72).collect(),
        2 => (68..78).collect(),
        3 => (68..76).collect(),
        _ => Vec::new(),
    }
}

/// Whether a book has anything of a ticket.
pub fn has_ticket_bytes(bytes: &[u8]) -> bool {
    used_records(bytes).any(|record| ticket_bytes(record).into_iter().any(|at| record[at] != 0))
}

/// Makes a book one of document 01 in this respect.
pub fn clear_ticket_bytes(bytes: &mut [u8]) {
    for record in bytes.chunks_exact_mut(Book::RECORD).skip(1) {
        for at in ticket_bytes(record) {
            record[at] = 0;
        }
    }
}

/// Whether a call is one of a ticket: a charge, or a run of the later open year of some user of the book.
pub fn is_of_ticket(call: &Call, bytes: &[u8]) -> bool {
    let Call::Advance(number, order) = call else {
        return matches!(call, Call::Charge(_));
    };
    used_records(bytes).any(|user| {
        let open_year = u16::from_le_bytes([user[24], user[25]]);
        user[4] == 1 && user[8..12] == number.to_le_bytes() && order.year == u32::from(open_year) + 1
    })
}

/// Damages some of the records that are used, or copies one over another.
pub fn damage(dice: &mut Dice, bytes: &mut [u8]) {
    let used = u64::from(u32::from_le_bytes([bytes[0], bytes[1], bytes[2], bytes[3]]));
    for _ in 0..dice.one_of(&[1, 1, 1, 2, 3]) {
        let record = Book::RECORD * dice.below(used) as usize;
        let byte = record + dice.below(Book::RECORD as u64) as usize;
        let pointer = record + dice.one_of(&[0, 4, 8, 12, 64]) as usize;
        match dice.below(5) {
            0 => bytes[byte] ^= 1 << dice.below(8),
            1 => bytes[byte] = dice.next() as u8,
            2 => bytes[pointer] = dice.below(used + 1) as u8,
            3 => bytes[record + dice.one_of(&[4, 5, 6, 7, 20, 22, 24, 26]) as usize] ^= 1,
            _ => {
                let other = Book::RECORD * dice.below(used) as usize;
                bytes.copy_within(other..other + Book::RECORD, record);
            }
        }
    }
}
