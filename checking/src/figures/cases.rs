//! The cases of document 01, and those of E2 and E6.

use super::figure::{
    accepted, dropping, figure, meter, meter_of, reading, refused, weight, Figure, CODE_A, CODE_E0, ENERGISED, EXPORT,
    IMPORT, SMART,
};
use crate::call::Call;
use cepnhoy::Allocated;

const MPANS: [u64; 3] = [1_200_000_000_002, 1_300_000_000_007, 1_400_000_000_001];
const ADVANCED: u64 = 2;
const CODE_E1: u64 = 8;
const CODE_E2: u64 = 9;
const CODE_E5: u64 = 12;
const CODE_E6: u64 = 13;
const DE_ENERGISED: u64 = 1;

fn weights() -> Vec<Call> {
    vec![weight(8, 1_000), weight(9, 1_000)]
}

/// Three units, 100 Wh each, Take 301.
fn three_units(tolerance: Option<u64>) -> Vec<Call> {
    let mut calls = weights();
    for (unit, mpan) in MPANS.into_iter().enumerate() {
        calls.push(meter(mpan, SMART, IMPORT, unit as u64, 1_000));
        calls.push(reading(mpan, 1, CODE_A, 100));
    }
    calls.push(Call::Take { wh: 301 });
    calls.extend(tolerance.map(|g| Call::Tolerance { g }));
    calls
}

fn import_and_export(take_wh: i64) -> Vec<Call> {
    let mut calls = weights();
    calls.extend([
        weight(20, 500),
        meter(MPANS[0], SMART, IMPORT, 0, 1_050),
        meter(MPANS[1], ADVANCED, EXPORT, 1, 1_000),
        reading(MPANS[0], 1, CODE_A, 1_000),
        reading(MPANS[1], 1, CODE_A, 400),
        Call::Take { wh: take_wh },
    ]);
    calls
}

/// Meters of unit 0 with 10 Wh each; the Take is what they come to, so that the volume shows the rounded loss. Two in one cell come to
/// a whole Wh, which drops nothing.
fn ten_wh_each(meters: usize, llf: u64, take_wh: i64) -> Vec<Call> {
    let mut calls = weights();
    for mpan in MPANS.into_iter().take(meters) {
        calls.push(meter(mpan, SMART, IMPORT, 0, llf));
        calls.push(reading(mpan, 1, CODE_A, 10));
    }
    calls.push(Call::Take { wh: take_wh });
    calls
}

fn late_estimate() -> Figure {
    let mut calls = weights();
    calls.extend([
        meter(MPANS[0], SMART, IMPORT, 0, 1_000),
        Call::Take { wh: 100 },
        reading(MPANS[0], 5, CODE_A, 100),
        reading(MPANS[0], 4, CODE_E0, 90),
    ]);
    let mut late = figure("case 10", calls, accepted(0, 100_000, 1), &[(0, 100)]);
    *late.numbers.last_mut().expect("it has calls") = 5;
    late
}

/// Unit 0: 100 Wh of a code, LLF 1,050, which come to 105 Wh in the classes that have a weight. Unit 1: 40 Wh of the code below it.
fn meters_of_codes(status: u64, [code, below]: [u64; 2], take_wh: i64) -> Vec<Call> {
    let mut calls = weights();
    calls.extend([
        meter_of(status, MPANS[0], SMART, IMPORT, 0, 1_050),
        meter_of(status, MPANS[1], SMART, IMPORT, 1, 1_000),
        reading(MPANS[0], 1, code, 100),
        reading(MPANS[1], 1, below, 40),
        Call::Take { wh: take_wh },
    ]);
    calls
}

/// U is 1 Wh. The meter with the code below is estimated.
fn energised(name: &'static str, codes: [u64; 2]) -> Figure {
    let answer = Allocated { estimated: 1, ..accepted(1, 105_000, 1) };
    figure(name, meters_of_codes(ENERGISED, codes, 146), answer, &[(0, 106), (1, 40)])
}

/// U is 1 Wh. The meter with the code below is idle.
fn de_energised(name: &'static str, codes: [u64; 2]) -> Figure {
    let answer = Allocated { idle: 1, ..accepted(1, 105_000, 1) };
    figure(name, meters_of_codes(DE_ENERGISED, codes, 106), answer, &[(0, 106)])
}

pub fn figures() -> Vec<Figure> {
    let thirds = [(0, 101), (1, 100), (2, 100)];
    let one_over = accepted(1, 300_000, 3);
    vec![
        figure("case 1", three_units(None), one_over, &thirds),
        figure("case 2", three_units(Some(4)), one_over, &thirds),
        figure("case 3", three_units(Some(3)), refused(11), &[]),
        figure("case 4", import_and_export(700), accepted(50, 1_250_000, 2), &[(0, 1_092), (1, -392)]),
        figure("case 5", import_and_export(649), accepted(-1, 1_250_000, 2), &[(0, 1_049), (1, -400)]),
        figure("case 6", ten_wh_each(1, 1_050, 11), dropping(accepted(0, 11_000, 1), &[(0, -500)]), &[(0, 11)]),
        figure("case 7", ten_wh_each(1, 950, 9), dropping(accepted(0, 9_000, 1), &[(0, 500)]), &[(0, 9)]),
        figure("case 8", ten_wh_each(2, 1_050, 21), accepted(0, 21_000, 2), &[(0, 21)]),
        figure("case 9", vec![Call::Take { wh: 0 }], refused(10), &[]),
        late_estimate(),
        energised("case 11", [CODE_E2, CODE_E1]),
        de_energised("case 12", [CODE_E2, CODE_E1]),
        energised("case 13", [CODE_E6, CODE_E5]),
        de_energised("case 14", [CODE_E6, CODE_E5]),
    ]
}
