//! A household's enrolment, for tests and benchmarks.

use ssp_book::{Enrolment, option};

pub fn household(number: u32) -> Enrolment {
    Enrolment {
        number,
        class: 2,
        plant: 1,
        option: option::CREDIT,
        power: 3_000,
        year: 2013,
        month: 1,
        island: 0,
    }
}
