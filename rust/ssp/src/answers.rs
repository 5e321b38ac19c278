//! What accepted calls answer.

use std::fmt;

use crate::amount::{Balance, Ticks};
use crate::ffi;

/// The sums of a year that was closed. Its [`Display`](fmt::Display) is one sum a line, in euro.
#[derive(Clone, Copy, Debug, PartialEq, Eq)]
pub struct Closing {
    /// C, of the energy injected.
    pub value: Ticks,
    /// O, of the energy withdrawn.
    pub cost: Ticks,
    /// F, the flat-rate part for the energy exchanged.
    pub flat_rate: Ticks,
    /// What is due for the year.
    pub contribution: Ticks,
    /// Paid out beside it, in a year of liquidation.
    pub liquidation: Ticks,
    /// The credit that ended, in a year of liquidation.
    pub lapsed: Ticks,
    /// Contribution less the year's advances.
    pub balance: Balance,
}

/// A user's account: sums over all closed years and all advances. Its [`Display`](fmt::Display) is one sum a line, in euro.
#[derive(Clone, Copy, Debug, PartialEq, Eq)]
pub struct Statement {
    /// The year that is closed next.
    pub open_year: u64,
    /// The credit that stands.
    pub credit: Ticks,
    /// C, of the energy injected.
    pub value: Ticks,
    /// O, of the energy withdrawn.
    pub cost: Ticks,
    /// F, the flat-rate parts.
    pub flat_rate: Ticks,
    /// What was due for the closed years.
    pub contribution: Ticks,
    /// Paid out beside it, in years of liquidation.
    pub liquidation: Ticks,
    /// The credit that ended, in years of liquidation.
    pub lapsed: Ticks,
    /// Contributions less the advances of their years.
    pub balance: Balance,
    /// The advances of all years, the two open ones included.
    pub advances: Ticks,
    /// The advances of the closed years.
    pub closed_advances: Ticks,
}

impl Statement {
    /// Advances of closed years plus balances, less flat-rate parts, plus liquidations, plus lapsed credit, plus standing
    /// credit, in ticks. On a book that the calls made from a fresh one it is the value of all injected energy, `value`.
    pub fn conserved_sum(&self) -> i128 {
        i128::from(self.closed_advances.0) + i128::from(self.balance.0) - i128::from(self.flat_rate.0)
            + i128::from(self.liquidation.0)
            + i128::from(self.lapsed.0)
            + i128::from(self.credit.0)
    }
}

impl From<ffi::Closed> for Closing {
    fn from(closed: ffi::Closed) -> Closing {
        Closing {
            value: Ticks(closed.value),
            cost: Ticks(closed.cost),
            flat_rate: Ticks(closed.flat_rate),
            contribution: Ticks(closed.contribution),
            liquidation: Ticks(closed.liquidation),
            lapsed: Ticks(closed.lapsed),
            balance: Balance(closed.balance),
        }
    }
}

impl From<ffi::Sums> for Statement {
    fn from(sums: ffi::Sums) -> Statement {
        Statement {
            open_year: sums.open_year,
            credit: Ticks(sums.credit),
            value: Ticks(sums.value),
            cost: Ticks(sums.cost),
            flat_rate: Ticks(sums.flat_rate),
            contribution: Ticks(sums.contribution),
            liquidation: Ticks(sums.liquidation),
            lapsed: Ticks(sums.lapsed),
            balance: Balance(sums.balance),
            advances: Ticks(sums.advances),
            closed_advances: Ticks(sums.closed_advances),
        }
    }
}

/// One name and one value a line, the values aligned to the right.
fn lines(f: &mut fmt::Formatter<'_>, rows: &[(&str, &dyn fmt::Display)]) -> fmt::Result {
    for (at, (name, value)) in rows.iter().enumerate() {
        let end = if at + 1 == rows.len() { "" } else { "\n" };
        write!(f, "{name:<24}{value:>24}{end}")?;
    }
    Ok(())
}

impl fmt::Display for Closing {
    fn fmt(&self, f: &mut fmt::Formatter<'_>) -> fmt::Result {
        lines(
            f,
            &[
                ("value injected", &self.value),
                ("purchase cost", &self.cost),
                ("flat-rate part", &self.flat_rate),
                ("contribution", &self.contribution),
                ("liquidation", &self.liquidation),
                ("lapsed credit", &self.lapsed),
                ("balance", &self.balance),
            ],
        )
    }
}

impl fmt::Display for Statement {
    fn fmt(&self, f: &mut fmt::Formatter<'_>) -> fmt::Result {
        lines(
            f,
            &[
                ("open year", &self.open_year),
                ("credit", &self.credit),
                ("value injected", &self.value),
                ("purchase cost", &self.cost),
                ("flat-rate part", &self.flat_rate),
                ("contribution", &self.contribution),
                ("liquidation", &self.liquidation),
                ("lapsed credit", &self.lapsed),
                ("balance", &self.balance),
                ("advances", &self.advances),
                ("advances of closed years", &self.closed_advances),
            ],
        )
    }
}

#[cfg(test)]
mod tests {
    use super::{Closing, Statement};
    use crate::amount::{Balance, Ticks};
    use crate::ffi;

    /// Each field has a value of its own, so that none can stand for another.
    fn closed() -> ffi::Closed {
        ffi::Closed {
            refusal: 0,
            record: 0,
            month: 0,
            place: 0,
            value: 100_001,
            cost: 200_002,
            flat_rate: 300_003,
            contribution: 400_004,
            liquidation: 500_005,
            lapsed: 600_006,
            balance: -700_007,
        }
    }

    fn sums() -> ffi::Sums {
        ffi::Sums {
            refusal: 0,
            record: 0,
            open_year: 2014,
            credit: 100_001,
            value: 200_002,
            cost: 300_003,
            flat_rate: 400_004,
            contribution: 500_005,
            liquidation: 600_006,
            lapsed: 700_007,
            balance: -800_008,
            advances: 900_009,
            closed_advances: 1_000_010,
        }
    }

    #[test]
    fn fields_of_a_closing() {
        let expected = Closing {
            value: Ticks(100_001),
            cost: Ticks(200_002),
            flat_rate: Ticks(300_003),
            contribution: Ticks(400_004),
            liquidation: Ticks(500_005),
            lapsed: Ticks(600_006),
            balance: Balance(-700_007),
        };
        assert_eq!(Closing::from(closed()), expected);
    }

    #[test]
    fn fields_of_a_statement() {
        let expected = Statement {
            open_year: 2014,
            credit: Ticks(100_001),
            value: Ticks(200_002),
            cost: Ticks(300_003),
            flat_rate: Ticks(400_004),
            contribution: Ticks(500_005),
            liquidation: Ticks(600_006),
            lapsed: Ticks(700_007),
            balance: Balance(-800_008),
            advances: Ticks(900_009),
            closed_advances: Ticks(1_000_010),
        };
        assert_eq!(Statement::from(sums()), expected);
    }

    #[test]
    fn rows_of_a_closing() {
        let rows = [
            "value injected                         1.00001 €",
            "purchase cost                          2.00002 €",
            "flat-rate part                         3.00003 €",
            "contribution                           4.00004 €",
            "liquidation                            5.00005 €",
            "lapsed credit                          6.00006 €",
            "balance                               -7.00007 €",
        ];
        assert_eq!(Closing::from(closed()).to_string(), rows.join("\n"));
    }

    #[test]
    fn rows_of_a_statement() {
        let rows = [
            "open year                                   2014",
            "credit                                 1.00001 €",
            "value injected                         2.00002 €",
            "purchase cost                          3.00003 €",
            "flat-rate part                         4.00004 €",
            "contribution                           5.00005 €",
            "liquidation                            6.00006 €",
            "lapsed credit                          7.00007 €",
            "balance                               -8.00008 €",
            "advances                               9.00009 €",
            "advances of closed years              10.00010 €",
        ];
        assert_eq!(Statement::from(sums()).to_string(), rows.join("\n"));
    }

    /// "advances of closed years plus balances, less flat-rate parts, plus liquidations, plus lapsed credit, plus standing credit"
    #[test]
    fn terms_of_the_conserved_sum() {
        let none = Statement {
            open_year: 2014,
            credit: Ticks(0),
            value: Ticks(0),
            cost: Ticks(0),
            flat_rate: Ticks(0),
            contribution: Ticks(0),
            liquidation: Ticks(0),
            lapsed: Ticks(0),
            balance: Balance(0),
            advances: Ticks(0),
            closed_advances: Ticks(0),
        };
        let most = i128::from(u64::MAX);
        for (term, expected) in [
            (
                Statement {
                    credit: Ticks(u64::MAX),
                    ..none
                },
                most,
            ),
            (
                Statement {
                    value: Ticks(u64::MAX),
                    ..none
                },
                0,
            ),
            (
                Statement {
                    cost: Ticks(u64::MAX),
                    ..none
                },
                0,
            ),
            (
                Statement {
                    flat_rate: Ticks(u64::MAX),
                    ..none
                },
                -most,
            ),
            (
                Statement {
                    contribution: Ticks(u64::MAX),
                    ..none
                },
                0,
            ),
            (
                Statement {
                    liquidation: Ticks(u64::MAX),
                    ..none
                },
                most,
            ),
            (
                Statement {
                    lapsed: Ticks(u64::MAX),
                    ..none
                },
                most,
            ),
            (
                Statement {
                    balance: Balance(i64::MIN),
                    ..none
                },
                i128::from(i64::MIN),
            ),
            (
                Statement {
                    advances: Ticks(u64::MAX),
                    ..none
                },
                0,
            ),
            (
                Statement {
                    closed_advances: Ticks(u64::MAX),
                    ..none
                },
                most,
            ),
        ] {
            assert_eq!(term.conserved_sum(), expected, "{term:?}");
        }
    }
}
