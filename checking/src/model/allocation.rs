//! From cells to volumes.

use crate::model::cells::{cells_of, energies_of, is_export, nearest_wh, Cells, Contents, Energy};
use crate::model::droppings::{droppings_by_unit, metered_by_unit, unrounded_by_unit};
use crate::model::fraction::Fraction;
use crate::model::slice::{cells_in, counts_in, waiting_in};
use cepnhoy::{Allocated, CATEGORIES, CLASSES, UNITS};

/// n in Wh and a in thousandths of a Wh, of one unit.
#[derive(Clone, Copy, Debug, Default, PartialEq, Eq)]
pub struct UnitSums {
    pub net_wh: i128,
    pub weighted: i128,
}

/// What an allocation works from, beside the settings.
#[derive(Clone, Debug)]
pub struct Gathered {
    pub cells: Cells,
    /// Of each unit, import less export, in thousandths of a Wh.
    pub exact_losses: [i128; UNITS],
    /// Actual, estimated, defaulted, idle.
    pub counts: [u64; 4],
    /// Whether defaulted meters wait whose shape is missing.
    pub lacks_shape: bool,
}

impl Gathered {
    /// From the meters, as an allocation worked before there was a slice.
    pub fn of_meters(contents: &Contents) -> Gathered {
        let energies = energies_of(contents);
        let count = |wanted: fn(&Energy) -> bool| energies.iter().filter(|energy| wanted(energy)).count() as u64;
        Gathered {
            cells: cells_of(contents, &energies),
            exact_losses: metered_by_unit(contents, &energies).map(|metered| metered.loss_thousandths),
            counts: [
                count(|energy| matches!(energy, Energy::Actual(_))),
                count(|energy| matches!(energy, Energy::Estimated(_))),
                count(|energy| matches!(energy, Energy::Defaulted(_))),
                count(|energy| matches!(energy, Energy::Idle)),
            ],
            lacks_shape: energies.contains(&Energy::Defaulted(None)),
        }
    }

    /// As a slice within its limits reads, with these shapes.
    pub fn of_slice(words: &[i64], shapes: &[Option<u64>; CATEGORIES]) -> Gathered {
        let cells = cells_in(words);
        let mut waiting = waiting_in(words).zip(shapes);
        Gathered {
            exact_losses: unrounded_by_unit(&cells),
            cells,
            counts: counts_in(words),
            lacks_shape: waiting.any(|(meters, shape)| meters > 0 && shape.is_none()),
        }
    }
}

/// What the cells come to, before the Take plays a part.
#[derive(Clone, Debug)]
pub struct Sums {
    pub gathered: Gathered,
    pub units: [UnitSums; UNITS],
    pub net_wh: i128,
    pub weighted: i128,
}

impl Sums {
    pub fn of(gathered: Gathered, weights: &[u64; CLASSES]) -> Sums {
        let units = unit_sums(&gathered.cells, weights);
        Sums {
            gathered,
            units,
            net_wh: units.iter().map(|unit| unit.net_wh).sum(),
            weighted: units.iter().map(|unit| unit.weighted).sum(),
        }
    }

    pub fn of_meters(contents: &Contents) -> Sums {
        Sums::of(Gathered::of_meters(contents), &contents.weights)
    }

    /// What an accepted allocation gives as droppings.
    pub fn droppings(&self) -> [i64; UNITS] {
        droppings_by_unit(&self.gathered.exact_losses, &self.gathered.cells)
    }
}

fn unit_sums(cells: &Cells, weights: &[u64; CLASSES]) -> [UnitSums; UNITS] {
    let mut units = [UnitSums::default(); UNITS];
    for (&(unit, class), &thousandths) in cells {
        // "every cell rounded by the loss rule": one of consumption too, which calls leave at whole Wh.
        let wh = nearest_wh(thousandths);
        let sums = &mut units[unit];
        sums.net_wh += if is_export(class) { -wh } else { wh };
        sums.weighted += wh * i128::from(weights[class]);
    }
    units
}

/// A unit's exact share: whole Wh, rounded down, and the fraction above them.
#[derive(Clone, Copy, Debug)]
pub struct Share {
    pub whole_wh: i128,
    pub fraction: Fraction,
}

/// The exact shares n + U × a / W.
fn shares_of(units: &[UnitSums; UNITS], unallocated: i128, weighted: i128) -> [Share; UNITS] {
    units.map(|unit| {
        let numerator = unit.net_wh * weighted + unallocated * unit.weighted;
        let (whole_wh, fraction) = Fraction::split(numerator, weighted);
        Share { whole_wh, fraction }
    })
}

/// The sum of the shares, which must be whole.
fn shares_total(shares: &[Share; UNITS]) -> i128 {
    let mut total_wh = 0;
    let mut fraction = Fraction::ZERO;
    for share in shares {
        let (carried_wh, rest) = fraction.plus(&share.fraction);
        total_wh += share.whole_wh + carried_wh;
        fraction = rest;
    }
    assert!(fraction.is_zero(), "the shares add up to whole Wh");
    total_wh
}

/// The units in the order in which the Wh still lacking go to them.
pub fn order_served(shares: &[Share; UNITS]) -> Vec<usize> {
    let mut order: Vec<usize> = (0..UNITS).collect();
    order.sort_by(|&x, &y| {
        let larger_first = shares[y].fraction.cmp(&shares[x].fraction);
        larger_first.then(x.cmp(&y))
    });
    order
}

/// How an accepted allocation was worked.
#[derive(Clone, Debug)]
pub struct Workings {
    pub unallocated: i128,
    pub shares: [Share; UNITS],
    pub lacking_wh: usize,
    pub volumes: [i64; UNITS],
}

fn apportion(take_wh: i128, shares: [Share; UNITS], unallocated: i128) -> Workings {
    assert_eq!(shares_total(&shares), take_wh, "the shares add up to the Take");
    let mut volumes = shares.map(|share| share.whole_wh);
    let lacking = take_wh - volumes.iter().sum::<i128>();
    let lacking_wh = usize::try_from(lacking).expect("the whole parts are at most the shares");
    for &unit in order_served(&shares).iter().take(lacking_wh) {
        volumes[unit] += 1;
    }
    Workings {
        unallocated,
        shares,
        lacking_wh,
        volumes: volumes.map(|wh| i64::try_from(wh).expect("a volume fits 64 bits")),
    }
}

/// An allocation: the answer, and the workings if it was accepted and if sums were worked at all.
#[derive(Clone, Debug)]
pub struct Allocation {
    pub answer: Allocated,
    pub sums: Option<Sums>,
    pub workings: Option<Workings>,
}

impl Allocation {
    pub fn refused(number: u64, sums: Option<Sums>) -> Allocation {
        let answer = Allocated {
            number,
            unallocated: 0,
            weighted: 0,
            actual: 0,
            estimated: 0,
            defaulted: 0,
            idle: 0,
            droppings: [0; UNITS],
        };
        Allocation { answer, sums, workings: None }
    }

    /// The volume slice afterwards.
    pub fn volumes_after(&self, before: &[i64]) -> Vec<i64> {
        let mut after = before.to_vec();
        if let Some(workings) = &self.workings {
            after[..UNITS].copy_from_slice(&workings.volumes);
        }
        after
    }
}

/// Whether the size of U × 1,000,000 is above g × W.
pub fn passes_tolerance(unallocated: i128, weighted: i128, g: u64) -> bool {
    unallocated.abs() * 1_000_000 > i128::from(g) * weighted
}

/// Allocates a well-formed book from what was gathered. Causes are looked at from the lowest number up.
pub fn allocate(contents: &Contents, gathered: Gathered, volume_words: usize) -> Allocation {
    if volume_words < UNITS {
        return Allocation::refused(7, None);
    }
    let Some(take_wh) = contents.take_wh else {
        return Allocation::refused(8, None);
    };
    let sums = Sums::of(gathered, &contents.weights);
    if sums.gathered.lacks_shape {
        return Allocation::refused(9, Some(sums));
    }
    if sums.weighted < 1 {
        return Allocation::refused(10, Some(sums));
    }
    let take_wh = i128::from(take_wh);
    let unallocated = take_wh - sums.net_wh;
    if passes_tolerance(unallocated, sums.weighted, contents.tolerance) {
        return Allocation::refused(11, Some(sums));
    }
    let shares = shares_of(&sums.units, unallocated, sums.weighted);
    Allocation {
        answer: accepted_answer(&sums, unallocated),
        workings: Some(apportion(take_wh, shares, unallocated)),
        sums: Some(sums),
    }
}

fn accepted_answer(sums: &Sums, unallocated: i128) -> Allocated {
    let [actual, estimated, defaulted, idle] = sums.gathered.counts;
    Allocated {
        number: 0,
        unallocated: i64::try_from(unallocated).expect("U fits 64 bits"),
        weighted: i64::try_from(sums.weighted).expect("W fits 64 bits"),
        actual,
        estimated,
        defaulted,
        idle,
        droppings: sums.droppings(),
    }
}
