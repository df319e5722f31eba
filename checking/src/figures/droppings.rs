//! Cases of what rounding drops of losses (document 02, request 3). But for those that say so, the Take is what the meters come to, so
//! that a volume is the unit's energy with its rounded losses.

use super::figure::{
    accepted, dropping, figure, meter, reading, refused, weight, Figure, CODE_A, CODE_E0, EXPORT, IMPORT, SMART,
};
use crate::call::Call;
use cepnhoy::{Allocated, CLASSES};

/// Segment, quality, direction, unit, LLF and Wh.
type Meter = (u64, u64, u64, u64, u64, u64);

fn smart(direction: u64, unit: u64, llf: u64, wh: u64) -> Meter {
    (SMART, CODE_A, direction, unit, llf, wh)
}

/// One weight for all classes, meters with a reading each, and the Take.
fn calls(thousandths: u64, meters: &[Meter], take_wh: i64) -> Vec<Call> {
    let mut calls: Vec<Call> = (0..CLASSES as u64).map(|class| weight(class, thousandths)).collect();
    for (mpan, &(segment, quality, direction, unit, llf, wh)) in (1_000_000_000_000..).zip(meters) {
        calls.push(meter(mpan, segment, direction, unit, llf));
        calls.push(reading(mpan, 1, quality, wh));
    }
    calls.push(Call::Take { wh: take_wh });
    calls
}

/// A half Wh of losses, of 10 Wh of unit 0: 1 Wh after rounding, which drops -500.
fn half_above() -> [Meter; 1] {
    [smart(IMPORT, 0, 1_050, 10)]
}

/// Exported, a half drops as it does imported (cases 6 and 7), and is subtracted.
fn exported_halves() -> Vec<Figure> {
    let exported = |llf| [smart(EXPORT, 31, llf, 10)];
    vec![
        figure(
            "half above 0, exported",
            calls(1_000, &exported(1_050), -11),
            dropping(accepted(0, 11_000, 1), &[(31, 500)]),
            &[(31, -11)],
        ),
        figure(
            "half below 0, exported",
            calls(1_000, &exported(950), -9),
            dropping(accepted(0, 9_000, 1), &[(31, -500)]),
            &[(31, -9)],
        ),
    ]
}

/// Imported losses of 481 thousandths are 0 Wh and drop 481; exported ones of 609 are 1 Wh and drop -391. 481 + 391 are 872, and
/// 1,000 × (0 - 1) + 872 are the exact 481 - 609.
fn import_and_export() -> Figure {
    let meters = [smart(IMPORT, 3, 1_037, 13), smart(EXPORT, 3, 1_021, 29)];
    let answer = dropping(accepted(0, 43_000, 2), &[(3, 872)]);
    figure("import and export of one unit", calls(1_000, &meters, -17), answer, &[(3, -17)])
}

/// Losses of 499, 501, -499 and -501 thousandths.
fn beside_a_half() -> Figure {
    let meters =
        [smart(IMPORT, 0, 1_499, 1), smart(IMPORT, 1, 1_501, 1), smart(IMPORT, 2, 501, 1), smart(IMPORT, 3, 833, 3)];
    let answer = dropping(accepted(0, 6_000, 4), &[(0, 499), (1, -499), (2, -499), (3, 499)]);
    figure("beside a half", calls(1_000, &meters, 6), answer, &[(0, 1), (1, 2), (2, 1), (3, 2)])
}

/// Two halves of one unit, of an actual and of an estimated reading, so that each is rounded by itself. (In one cell, case 8, they
/// drop nothing.)
fn two_cells() -> Figure {
    let meters = [(SMART, CODE_A, IMPORT, 5, 1_050, 10), (SMART, CODE_E0, IMPORT, 5, 1_050, 10)];
    let answer = Allocated { estimated: 1, ..dropping(accepted(0, 22_000, 1), &[(5, -1_000)]) };
    figure("two cells of one unit", calls(1_000, &meters, 22), answer, &[(5, 22)])
}

/// A half in each of the twelve loss cells of unit 7.
fn twelve_halves(import_llf: u64, export_llf: u64) -> Vec<Meter> {
    let mut meters = Vec::new();
    for segment in 0..3 {
        for quality in [CODE_A, CODE_E0] {
            meters.push((segment, quality, IMPORT, 7, import_llf, 10));
            meters.push((segment, quality, EXPORT, 7, export_llf, 10));
        }
    }
    meters
}

/// Six cells come to 11 Wh and six to 9, losses included. All that is dropped has one sign once export is subtracted.
fn most_dropped() -> Vec<Figure> {
    let answer = Allocated { estimated: 6, ..accepted(0, 120_000, 6) };
    vec![
        figure(
            "-6,000 thousandths",
            calls(1_000, &twelve_halves(1_050, 950), 12),
            dropping(answer, &[(7, -6_000)]),
            &[(7, 12)],
        ),
        figure(
            "6,000 thousandths",
            calls(1_000, &twelve_halves(950, 1_050), -12),
            dropping(answer, &[(7, 6_000)]),
            &[(7, -12)],
        ),
    ]
}

/// The Take moves volumes and no droppings: U is 1 Wh. Refused, there are none, with g = 0 (11) or all weights 0 (10).
fn takes_and_refusals() -> Vec<Figure> {
    let one_over = calls(1_000, &half_above(), 12);
    let refused_for_tolerance = [one_over.clone(), vec![Call::Tolerance { g: 0 }]].concat();
    vec![
        figure("a Wh to allocate", one_over, dropping(accepted(1, 11_000, 1), &[(0, -500)]), &[(0, 12)]),
        figure("a half, tolerance passed", refused_for_tolerance, refused(11), &[]),
        figure("a half, no weights", calls(0, &half_above(), 11), refused(10), &[]),
    ]
}

/// Energy is in whole Wh: without losses nothing is dropped.
fn no_losses() -> Figure {
    let meters = [smart(IMPORT, 0, 1_000, 1_777), smart(EXPORT, 1, 1_000, 501)];
    figure("no losses", calls(1_000, &meters, 1_276), accepted(0, 2_278_000, 2), &[(0, 1_777), (1, -501)])
}

pub fn figures() -> Vec<Figure> {
    let single = vec![import_and_export(), beside_a_half(), two_cells(), no_losses()];
    [exported_halves(), single, most_dropped(), takes_and_refusals()].concat()
}
