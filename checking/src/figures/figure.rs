//! A case worked by hand, and what its calls are made of.

use crate::call::Call;
use cepnhoy::{Allocated, Reading, Registration, UNITS};

/// A case: its calls, and what the allocation after them gives.
#[derive(Clone)]
pub struct Figure {
    pub name: &'static str,
    pub calls: Vec<Call>,
    pub numbers: Vec<u64>,
    pub answer: Allocated,
    pub volumes: Vec<(usize, i64)>,
}

pub const SMART: u64 = 1;
pub const IMPORT: u64 = 0;
pub const EXPORT: u64 = 1;
pub const CODE_A: u64 = 0;
pub const CODE_E0: u64 = 7;
pub const ENERGISED: u64 = 2;

pub fn figure(name: &'static str, calls: Vec<Call>, answer: Allocated, volumes: &[(usize, i64)]) -> Figure {
    Figure { name, numbers: vec![0; calls.len()], calls, answer, volumes: volumes.to_vec() }
}

pub fn weight(class: u64, thousandths: u64) -> Call {
    Call::Weight { class, thousandths }
}

pub fn meter(mpan: u64, segment: u64, direction: u64, base: u64, llf: u64) -> Call {
    meter_of(ENERGISED, mpan, segment, direction, base, llf)
}

pub fn meter_of(status: u64, mpan: u64, segment: u64, direction: u64, base: u64, llf: u64) -> Call {
    Call::Register {
        mpan,
        registration: Registration {
            segment,
            direction,
            status,
            base,
            flag: 0,
            additional: 0,
            category: 0,
            llf,
            network: 0,
            tariff: 0,
        },
    }
}

pub fn reading(mpan: u64, issue: u64, quality: u64, consumption: u64) -> Call {
    Call::Reading { mpan, reading: Reading { issue, quality, consumption } }
}

pub fn refused(number: u64) -> Allocated {
    Allocated {
        number,
        unallocated: 0,
        weighted: 0,
        actual: 0,
        estimated: 0,
        defaulted: 0,
        idle: 0,
        droppings: [0; UNITS],
    }
}

pub fn accepted(unallocated: i64, weighted: i64, actual: u64) -> Allocated {
    Allocated { unallocated, weighted, actual, ..refused(0) }
}

/// The answer, with these droppings of units.
pub fn dropping(answer: Allocated, droppings: &[(usize, i64)]) -> Allocated {
    let mut answer = answer;
    for &(unit, thousandths) in droppings {
        answer.droppings[unit] = thousandths;
    }
    answer
}
