//! An allocation: from the slice of running cells to the units. Of the rows nothing is used, they are only tested.

use super::cells::{Pairs, Words};
use super::rows::is_formed;
use super::{ACCEPTED, SHAPE_MISSING, TAKE_UNSET, TOLERANCE_EXCEEDED, VOLUMES_SHORT, WEIGHTED_BELOW_ONE};
use cepnhoy::{Allocated, AllocationAnswer, Settings, CATEGORIES, CLASSES, TAKE_FLAG_SET, UNITS};

/// By unit: n in Wh, a in thousandths of a Wh, and what rounding the loss cells dropped, import less export.
struct Sums {
    nets: [i64; UNITS],
    weighted: [i64; UNITS],
    droppings: [i64; UNITS],
}

pub fn refused(number: u64) -> Allocated {
    Allocated {
        number,
        unallocated: 0,
        weighted: 0,
        actual: 0,
        estimated: 0,
        defaulted: 0,
        idle: 0,
        droppings: [0; UNITS],
    }
}

#[inline(never)]
pub fn allocate(settings: Settings, rows: &[u64], cells: &[i64], volumes: &mut [i64]) -> AllocationAnswer {
    let answer = match Words::tested(cells, || is_formed(&settings, rows)) {
        Ok(words) => allocate_formed(&settings, words, volumes),
        Err(number) => refused(number),
    };
    AllocationAnswer { answer, settings }
}

/// Whether meters wait in a category whose shape is missing.
fn lacks_shape(waiting: &[i64; CATEGORIES], shapes: &[u32; CATEGORIES]) -> bool {
    waiting.iter().zip(shapes).fold(false, |lacks, (&meters, &shape)| lacks | ((meters > 0) & (shape == u32::MAX)))
}

/// Halves go away from zero.
fn nearest(thousandths: i64) -> i64 {
    (thousandths + if thousandths < 0 { -500 } else { 500 }) / 1_000
}

/// Cells in pairs, energy and its losses: the sign of a pair is that of its direction, and what was dropped is worked once for all
/// pairs.
#[inline(never)]
fn sum_up(units: &[Pairs; UNITS], weights: &[u32; CLASSES]) -> Sums {
    let mut sums = Sums { nets: [0; UNITS], weighted: [0; UNITS], droppings: [0; UNITS] };
    for (unit, pairs) in units.iter().enumerate() {
        let (mut energy, mut exact, mut rounded) = (0, 0, 0);
        let pairs = pairs.iter().zip(weights.as_chunks::<2>().0);
        for (pair, (&[used, loss], &[weight, loss_weight])) in pairs.enumerate() {
            let sign = if pair & 2 == 0 { 1 } else { -1 };
            let (wh, loss_wh) = (nearest(used), nearest(loss));
            energy += sign * wh;
            exact += sign * loss;
            rounded += sign * loss_wh;
            sums.weighted[unit] += wh * i64::from(weight) + loss_wh * i64::from(loss_weight);
        }
        sums.nets[unit] = energy + rounded;
        sums.droppings[unit] = exact - 1_000 * rounded;
    }
    sums
}

pub fn allocate_formed(settings: &Settings, words: Words, volumes: &mut [i64]) -> Allocated {
    let Some(volumes) = volumes.first_chunk_mut::<UNITS>() else {
        return refused(VOLUMES_SHORT);
    };
    if settings.take_set != TAKE_FLAG_SET {
        return refused(TAKE_UNSET);
    }
    if lacks_shape(words.waiting, &settings.shapes) {
        return refused(SHAPE_MISSING);
    }
    let Sums { nets, weighted, droppings } = sum_up(words.units, &settings.weights);
    let u = settings.take_wh - nets.iter().sum::<i64>();
    let w = weighted.iter().sum::<i64>();
    if w < 1 {
        return refused(WEIGHTED_BELOW_ONE);
    }
    if u.unsigned_abs() * 1_000_000 > u64::from(settings.tolerance) * w as u64 {
        return refused(TOLERANCE_EXCEEDED);
    }
    apportion(settings.take_wh, u, w, &nets, &weighted, volumes);
    let [actual, estimated, defaulted, idle] = words.counts.map(|count| count as u64);
    Allocated { number: ACCEPTED, unallocated: u, weighted: w, actual, estimated, defaulted, idle, droppings }
}

fn apportion(take: i64, u: i64, w: i64, nets: &[i64; UNITS], weighted: &[i64; UNITS], volumes: &mut [i64; UNITS]) {
    let mut order = [(0i64, 0usize); UNITS];
    for unit in 0..UNITS {
        let product = i128::from(u) * i128::from(weighted[unit]);
        let floor = product.div_euclid(i128::from(w));
        volumes[unit] = nets[unit] + floor as i64;
        order[unit] = (-((product - floor * i128::from(w)) as i64), unit);
    }
    let lack = (take - volumes.iter().sum::<i64>()) as usize;
    order.sort_unstable();
    for &(_, unit) in &order[..lack] {
        volumes[unit] += 1;
    }
}
