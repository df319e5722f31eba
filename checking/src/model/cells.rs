//! From meters to cells.

use std::collections::BTreeMap;

use cepnhoy::{Reading, Registration, CATEGORIES, CLASSES};

/// What an allocation looks at: the settings, and each meter's registration with its reading in force.
#[derive(Clone, Debug, PartialEq, Eq)]
pub struct Contents {
    pub weights: [u64; CLASSES],
    pub shapes: [Option<u64>; CATEGORIES],
    pub tolerance: u64,
    pub take_wh: Option<i64>,
    pub meters: Vec<(Registration, Option<Reading>)>,
}

/// Where a meter's energy comes from, and how many Wh. A default has none while its shape is missing.
#[derive(Clone, Copy, Debug, PartialEq, Eq)]
pub enum Energy {
    Actual(u64),
    Estimated(u64),
    Defaulted(Option<u64>),
    Idle,
}

/// The flag of each quality code (document 01).
const FLAGS: [&str; 21] = [
    "A", "A1", "A2", "A3", "AAE1", "AAE2", "AAE3", "E0", "E1", "E2", "E3", "E4", "E5", "E6", "E7", "E8", "E9", "ZE",
    "ZE1", "ZE2", "ZE3",
];

/// The flags under document 000's heading "Actual UTC Period Level Consumption Data and Estimates based on Actual Data", which the
/// network code follows (document 02, request 2). They are also the ones that ECS1008 lets a de-energised meter have.
const ACTUAL_FLAGS: [&str; 9] = ["A", "A1", "A2", "A3", "AAE1", "AAE2", "AAE3", "E2", "E6"];

fn is_actual(reading: &Reading) -> bool {
    ACTUAL_FLAGS.contains(&FLAGS[reading.quality as usize])
}

pub fn energy_of(registration: &Registration, reading: Option<&Reading>, shapes: &[Option<u64>; CATEGORIES]) -> Energy {
    match (registration.status, reading) {
        (1 | 2, Some(reading)) if is_actual(reading) => Energy::Actual(reading.consumption),
        (2, Some(reading)) => Energy::Estimated(reading.consumption),
        (2, None) => Energy::Defaulted(shapes[registration.category as usize]),
        _ => Energy::Idle,
    }
}

/// The energy of each meter.
pub fn energies_of(contents: &Contents) -> Vec<Energy> {
    let meters = contents.meters.iter();
    meters.map(|(registration, reading)| energy_of(registration, reading.as_ref(), &contents.shapes)).collect()
}

/// The unit that carries a meter's energy.
pub fn unit_of(registration: &Registration) -> usize {
    let unit = if registration.flag == 1 { registration.additional } else { registration.base };
    unit as usize
}

/// Only the cells that something was put into, by unit and class, in thousandths of a Wh, consumption and losses alike.
pub type Cells = BTreeMap<(usize, usize), i128>;

pub fn is_loss(class: usize) -> bool {
    class % 2 == 1
}

pub fn is_export(class: usize) -> bool {
    class / 4 % 2 == 1
}

pub fn is_estimate(class: usize) -> bool {
    class / 2 % 2 == 1
}

/// The unit and the consumption class that a meter's energy goes to, and the energy in Wh; none if there is none.
pub fn cell_of(registration: &Registration, energy: Energy) -> Option<(usize, usize, u64)> {
    let (wh, estimate) = match energy {
        Energy::Actual(wh) => (wh, 0),
        Energy::Estimated(wh) | Energy::Defaulted(Some(wh)) => (wh, 1),
        Energy::Defaulted(None) | Energy::Idle => return None,
    };
    let class = 8 * registration.segment + 4 * registration.direction + 2 * estimate;
    Some((unit_of(registration), class as usize, wh))
}

pub fn loss_thousandths(registration: &Registration, wh: u64) -> i128 {
    (i128::from(registration.llf) - 1_000) * i128::from(wh)
}

/// To the nearest Wh, halves away from zero.
pub fn nearest_wh(thousandths: i128) -> i128 {
    thousandths.signum() * ((thousandths.abs() + 500) / 1_000)
}

pub fn cells_of(contents: &Contents, energies: &[Energy]) -> Cells {
    let mut cells = Cells::new();
    for ((registration, _), energy) in contents.meters.iter().zip(energies) {
        if let Some((unit, class, wh)) = cell_of(registration, *energy) {
            *cells.entry((unit, class)).or_default() += 1_000 * i128::from(wh);
            *cells.entry((unit, class + 1)).or_default() += loss_thousandths(registration, wh);
        }
    }
    cells
}
