//! Energy in whole kWh.

use std::fmt;

/// Whole kWh of a year sheet's field.
///
/// ```
/// assert_eq!(ssp_book::Kwh(20_000_000).to_string(), "20000000 kWh");
/// ```
#[derive(Clone, Copy, Debug, Default, PartialEq, Eq, PartialOrd, Ord, Hash)]
pub struct Kwh(pub u32);

impl fmt::Display for Kwh {
    fn fmt(&self, f: &mut fmt::Formatter<'_>) -> fmt::Result {
        f.pad(&format!("{} kWh", self.0))
    }
}
