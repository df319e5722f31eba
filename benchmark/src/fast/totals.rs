//! Totals by tariff: one pass that looks for a missing shape, since a refused call writes nothing, and one that adds up.

use super::cells::{source, ACTUAL, DEFAULTED, IDLE};
use super::rows::{is_formed, used, Row};
use super::words::NETWORK_MOST;
use super::{ACCEPTED, BOOK_ILL_FORMED, OUT_OF_RANGE, SHAPE_MISSING, TOTALS_SHORT};
use cepnhoy::{Answer, Settings, CATEGORIES, TARIFFS, TOTALS_WORDS};

/// The bits of word 1 that hold direction and network.
const CHARGED_TO: u64 = 1 << 2 | NETWORK_MOST << 33;

const OF_TARIFF: usize = TOTALS_WORDS / TARIFFS;

#[inline(never)]
pub fn totals(settings: Settings, rows: &[u64], direction: u64, network: u64, totals: &mut [u64]) -> Answer {
    let number = if is_formed(&settings, rows) {
        let rows = used(rows, settings.meters);
        totals_formed(rows, &settings.shapes, direction, network, totals)
    } else {
        BOOK_ILL_FORMED
    };
    Answer { number, settings }
}

fn totals_formed(rows: &[Row], shapes: &[u32; CATEGORIES], direction: u64, network: u64, totals: &mut [u64]) -> u64 {
    if direction > 1 || network > NETWORK_MOST {
        return OUT_OF_RANGE;
    }
    let Some(totals) = totals.first_chunk_mut::<TOTALS_WORDS>() else {
        return TOTALS_SHORT;
    };
    if rows.iter().any(|row| lacks_shape(row, shapes)) {
        return SHAPE_MISSING;
    }
    totals.fill(0);
    add_up(rows, shapes, direction << 2 | network << 33, totals.as_chunks_mut().0);
    ACCEPTED
}

fn shape(registration: u64, shapes: &[u32; CATEGORIES]) -> u32 {
    shapes[(registration >> 16 & 63) as usize]
}

/// An energised meter without a reading, whose shape is missing.
fn lacks_shape(&[_, registration, reading]: &Row, shapes: &[u32; CATEGORIES]) -> bool {
    (reading == 0) & (registration >> 3 & 3 == 2) && shape(registration, shapes) == u32::MAX
}

fn add_up(rows: &[Row], shapes: &[u32; CATEGORIES], charged_to: u64, totals: &mut [[u64; OF_TARIFF]]) {
    for &[_, registration, reading] in rows {
        if registration & CHARGED_TO != charged_to {
            continue;
        }
        let from = source(registration, reading);
        let wh = match from {
            IDLE => continue,
            DEFAULTED => shape(registration, shapes).into(),
            _ => reading & 0xff_ffff,
        };
        let of_tariff = &mut totals[(registration >> 39 & 1_023) as usize];
        of_tariff[usize::from(from != ACTUAL)] += wh;
        let de_energised = registration >> 3 & 3 == 1;
        of_tariff[2 + usize::from(de_energised)] += 1;
    }
}
