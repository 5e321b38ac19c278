//! Amounts of money, exact, shown in euro.

use std::fmt;

/// Ticks in a euro.
const EURO: u64 = 100_000;

/// An amount in ticks of 0.00001 €.
///
/// ```
/// use ssp_book::Ticks;
///
/// assert_eq!(Ticks(123_456_789).to_string(), "1234.56789 €");
/// assert_eq!(format!("{:>14}", Ticks(1)), "     0.00001 €");
/// ```
#[derive(Clone, Copy, Debug, Default, PartialEq, Eq, PartialOrd, Ord, Hash)]
pub struct Ticks(pub u64);

/// A signed amount in ticks of 0.00001 €.
///
/// ```
/// use ssp_book::Balance;
///
/// assert_eq!(Balance(-4_524_000).to_string(), "-45.24000 €");
/// assert_eq!(Balance(i64::MIN).to_string(), "-92233720368547.75808 €");
/// ```
#[derive(Clone, Copy, Debug, Default, PartialEq, Eq, PartialOrd, Ord, Hash)]
pub struct Balance(pub i64);

fn euro(f: &mut fmt::Formatter<'_>, sign: &str, ticks: u64) -> fmt::Result {
    f.pad(&format!("{sign}{}.{:05} €", ticks / EURO, ticks % EURO))
}

impl fmt::Display for Ticks {
    fn fmt(&self, f: &mut fmt::Formatter<'_>) -> fmt::Result {
        euro(f, "", self.0)
    }
}

impl fmt::Display for Balance {
    fn fmt(&self, f: &mut fmt::Formatter<'_>) -> fmt::Result {
        euro(f, if self.0 < 0 { "-" } else { "" }, self.0.unsigned_abs())
    }
}

#[cfg(test)]
mod tests {
    use super::{Balance, Ticks};

    #[test]
    fn five_decimals() {
        for (ticks, text) in [
            (0, "0.00000 €"),
            (1, "0.00001 €"),
            (99_999, "0.99999 €"),
            (100_000, "1.00000 €"),
            (1_500_000, "15.00000 €"),
            (u64::MAX, "184467440737095.51615 €"),
        ] {
            assert_eq!(Ticks(ticks).to_string(), text);
        }
    }

    #[test]
    fn signs() {
        for (ticks, text) in [
            (0, "0.00000 €"),
            (-1, "-0.00001 €"),
            (-100_000, "-1.00000 €"),
            (i64::MAX, "92233720368547.75807 €"),
            (i64::MIN, "-92233720368547.75808 €"),
        ] {
            assert_eq!(Balance(ticks).to_string(), text);
        }
    }
}
