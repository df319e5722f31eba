//! Cases of the running cells (document 02, request 4): what calls leave in a slice, and what a slice filled by hand is allocated as.

use super::figure::{
    accepted, dropping, meter, meter_of, reading, refused, weight, CODE_A, CODE_E0, EXPORT, IMPORT, SMART,
};
use crate::call::Call;
use crate::model::slice::WORDS;
use cepnhoy::{Allocated, SHAPE_MISSING};

/// A word of the slice that is not 0, or a volume.
type Word = (usize, i64);

/// The slice as it is lent, the calls with their numbers, the slice afterwards, and the allocation.
pub struct CellsFigure {
    pub name: &'static str,
    pub filled: Vec<Word>,
    pub calls: Vec<Call>,
    pub numbers: Vec<u64>,
    pub left: Vec<Word>,
    pub answer: Allocated,
    pub volumes: Vec<Word>,
}

const FIRST: u64 = 1_200_000_000_002;
const SECOND: u64 = 1_300_000_000_007;
const DE_ENERGISED: u64 = 1;

/// Words of the slice, and its limits.
const ACTUAL: usize = 768;
const ESTIMATED: usize = 769;
const DEFAULTED: usize = 770;
const IDLE: usize = 771;
const WAITING: usize = 772;
const SIZES_MOST: i64 = 1_310_720_000_000_000;
const NUMBER_MOST: i64 = 4_294_967_295;

/// All words of a slice.
pub fn slice_of(words: &[Word]) -> Vec<i64> {
    let mut slice = vec![0; WORDS];
    for &(place, word) in words {
        slice[place] = word;
    }
    slice
}

/// From a slice at 0; no Take is set, so the allocation is refused with 8.
fn kept(name: &'static str, calls: Vec<Call>, left: &[Word]) -> CellsFigure {
    let numbers = vec![0; calls.len()];
    CellsFigure {
        name,
        filled: Vec::new(),
        calls,
        numbers,
        left: left.to_vec(),
        answer: refused(8),
        volumes: Vec::new(),
    }
}

fn shape(wh: u64) -> Call {
    Call::Shape { category: 0, wh }
}

/// An import meter of unit 0 that loses 50 thousandths of its energy, and an export meter of unit 1 that gains as much. Both wait in
/// category 0.
fn two_waiting() -> Vec<Call> {
    vec![meter(FIRST, SMART, IMPORT, 0, 1_050), meter(SECOND, SMART, EXPORT, 1, 950)]
}

fn two_waiting_then(calls: &[Call]) -> Vec<Call> {
    [two_waiting(), calls.to_vec()].concat()
}

/// Classes 10 and 11 of unit 0, classes 14 and 15 of unit 1.
fn kept_by_shapes() -> Vec<CellsFigure> {
    let waiting = [(DEFAULTED, 2), (WAITING, 2)];
    let with = |cells: [Word; 4]| [&cells[..], &waiting].concat();
    vec![
        kept("two meters wait without a shape", two_waiting(), &waiting),
        kept(
            "their shape",
            two_waiting_then(&[shape(40)]),
            &with([(10, 40_000), (11, 2_000), (38, 40_000), (39, -2_000)]),
        ),
        kept(
            "another shape",
            two_waiting_then(&[shape(40), shape(50)]),
            &with([(10, 50_000), (11, 2_500), (38, 50_000), (39, -2_500)]),
        ),
        kept("a shape missing again", two_waiting_then(&[shape(40), shape(SHAPE_MISSING)]), &waiting),
    ]
}

/// The first meter gets an estimate of 90 Wh; de-energised it is idle, since the estimate isn't used then.
fn kept_by_readings() -> Vec<CellsFigure> {
    let estimate = reading(FIRST, 1, CODE_E0, 90);
    let de_energised = meter_of(DE_ENERGISED, FIRST, SMART, IMPORT, 0, 1_050);
    let second = [(38, 40_000), (39, -2_000), (DEFAULTED, 1), (WAITING, 1)];
    let with = |words: &[Word]| [words, &second].concat();
    let read = [meter(FIRST, SMART, IMPORT, 2, 1_050), reading(FIRST, 1, CODE_A, 10)];
    let moved = [&read[..], &[meter(FIRST, SMART, IMPORT, 31, 1_000)]].concat();
    vec![
        kept("a reading and its losses", read.to_vec(), &[(56, 10_000), (57, 500), (ACTUAL, 1)]),
        kept("a meter moved to another unit", moved, &[(752, 10_000), (ACTUAL, 1)]),
        kept(
            "a first reading",
            two_waiting_then(&[shape(40), estimate]),
            &with(&[(10, 90_000), (11, 4_500), (ESTIMATED, 1)]),
        ),
        kept("a meter de-energised", two_waiting_then(&[shape(40), estimate, de_energised]), &with(&[(IDLE, 1)])),
    ]
}

/// Half a Wh away from zero, in cells of energy too, of which nothing is dropped: 1.5 Wh are 2 and -0.5 Wh of losses are -1, so unit 0 has
/// 1 Wh; 2.499 Wh exported are 2. U is 3 Wh of 3 Wh of weight, as much as the tolerance allows.
fn rounded_by_hand() -> CellsFigure {
    let filled = [(8, 1_500), (9, -500), (36, 2_499), (ACTUAL, 7), (ESTIMATED, 8), (DEFAULTED, 9), (IDLE, NUMBER_MOST)];
    let counts = Allocated { estimated: 8, defaulted: 9, idle: NUMBER_MOST as u64, ..accepted(3, 3_000, 7) };
    CellsFigure {
        name: "cells filled by hand",
        filled: filled.to_vec(),
        calls: vec![weight(8, 1_000), weight(9, 1_000), weight(12, 1_000), Call::Take { wh: 2 }],
        numbers: vec![0; 4],
        left: filled.to_vec(),
        answer: dropping(counts, &[(0, 500)]),
        volumes: vec![(0, 2)],
    }
}

/// A cell of energy below 0, at a half: -1 Wh beside 2 Wh.
fn energy_below_zero() -> CellsFigure {
    let filled = [(0, -500), (8, 2_000)];
    CellsFigure {
        name: "energy below 0",
        filled: filled.to_vec(),
        calls: vec![weight(0, 1_000), weight(8, 1_000), Call::Take { wh: 1 }],
        numbers: vec![0; 3],
        left: filled.to_vec(),
        answer: accepted(0, 1_000, 0),
        volumes: vec![(0, 1)],
    }
}

/// A waiting number without a meter: refused until the shape is there, of 0 Wh.
fn waiting_by_hand() -> Vec<CellsFigure> {
    let filled = [(8, 1_000), (835, 1)];
    let calls = vec![weight(8, 1_000), Call::Take { wh: 1 }];
    let shaped = [calls.clone(), vec![Call::Shape { category: 63, wh: 0 }]].concat();
    let figure = |name, calls: Vec<Call>, answer, volumes: &[Word]| CellsFigure {
        name,
        filled: filled.to_vec(),
        numbers: vec![0; calls.len()],
        calls,
        left: filled.to_vec(),
        answer,
        volumes: volumes.to_vec(),
    };
    vec![
        figure("a waiting number, no shape", calls, refused(9), &[]),
        figure("a waiting number, its shape there", shaped, accepted(0, 1_000, 0), &[(0, 1)]),
    ]
}

/// A meter of unit 0 without losses, which waits.
fn waiting() -> Call {
    meter(FIRST, SMART, IMPORT, 0, 1_000)
}

/// At the limit of the sizes nothing can be added. Where a cell is below 0, energy added to it takes its size down before it takes it
/// up: 1 Wh and 2 Wh stay within the limit, 3 Wh do not. And a count at its most has no room for a meter.
fn limits() -> Vec<CellsFigure> {
    let waits = [(DEFAULTED, 1), (WAITING, 1)];
    let figure = |name, filled: &[Word], calls: Vec<Call>, numbers: &[u64], left: &[Word]| CellsFigure {
        name,
        filled: filled.to_vec(),
        calls,
        numbers: numbers.to_vec(),
        left: left.to_vec(),
        answer: refused(8),
        volumes: Vec::new(),
    };
    let near = SIZES_MOST - 1_000;
    vec![
        figure(
            "sizes at their limit",
            &[(8, SIZES_MOST)],
            vec![waiting(), shape(1), shape(0)],
            &[0, 1, 0],
            &[&[(8, SIZES_MOST)], &waits[..]].concat(),
        ),
        figure(
            "sizes that fall and rise",
            &[(8, near), (10, -1_000)],
            vec![waiting(), shape(1), shape(3), shape(2)],
            &[0, 0, 1, 0],
            &[&[(8, near), (10, 1_000)], &waits[..]].concat(),
        ),
        figure("a count at its most", &[(DEFAULTED, NUMBER_MOST)], vec![waiting()], &[1], &[(DEFAULTED, NUMBER_MOST)]),
        figure(
            "a waiting number at its most",
            &[(WAITING, NUMBER_MOST)],
            vec![waiting(), weight(0, 5)],
            &[1, 0],
            &[(WAITING, NUMBER_MOST)],
        ),
    ]
}

pub fn figures() -> Vec<CellsFigure> {
    let mut all = kept_by_shapes();
    all.extend(kept_by_readings());
    all.extend([rounded_by_hand(), energy_below_zero()]);
    all.extend(waiting_by_hand());
    all.extend(limits());
    all
}
