//! Where a number of a year sheet stands.

use std::fmt;

/// The names of a month's 24 numbers, in their order.
const NAMES: [&str; 24] = [
    "withdrawn F1",
    "withdrawn F2",
    "withdrawn F3",
    "injected F1",
    "injected F2",
    "injected F3",
    "PUN F1",
    "PUN F2",
    "PUN F3",
    "PUN mean",
    "zone F1",
    "zone F2",
    "zone F3",
    "zone mean",
    "zone mean of hours 8–20",
    "net rate of tier 1",
    "net rate of tier 2",
    "net rate of tier 3",
    "net rate of tier 4",
    "system rate of tier 1",
    "system rate of tier 2",
    "system rate of tier 3",
    "system rate of tier 4",
    "zero word",
];

/// One of the 24 numbers of a month of a year sheet, counted from 1 as `enum ssp_place` of `include/ssp.h` counts them. Its
/// [`Display`](fmt::Display) is its name: `injected F2`.
#[derive(Clone, Copy, Debug, PartialEq, Eq, PartialOrd, Ord, Hash)]
pub struct Place(pub u32);

impl Place {
    /// Whether it is energy: the limit of such a number is 20,000,000 kWh, that of every other 0.00001 € times 500,000 per kWh.
    pub fn is_energy(self) -> bool {
        (1..=6).contains(&self.0)
    }
}

impl fmt::Display for Place {
    fn fmt(&self, f: &mut fmt::Formatter<'_>) -> fmt::Result {
        match NAMES.get((self.0 as usize).wrapping_sub(1)) {
            Some(name) => f.write_str(name),
            None => write!(f, "place {}", self.0),
        }
    }
}

#[cfg(test)]
mod tests {
    use super::Place;

    #[test]
    fn names() {
        let name = |place| Place(place).to_string();
        assert_eq!([name(1), name(5), name(10)], ["withdrawn F1", "injected F2", "PUN mean"]);
        assert_eq!(
            [name(15), name(19), name(20)],
            ["zone mean of hours 8–20", "net rate of tier 4", "system rate of tier 1"]
        );
        assert_eq!([name(24), name(0), name(25)], ["zero word", "place 0", "place 25"]);
    }

    #[test]
    fn energies() {
        for place in 0..=25 {
            assert_eq!(Place(place).is_energy(), place != 0 && place < 7, "place {place}");
        }
    }
}
