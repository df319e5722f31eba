//! The calls that write rows or cells, each on a book that it tests first.

use super::cells::{Kept, Part};
use super::rows::{capacity, is_formed, place, used, used_mut};
use super::words::{
    in_range, is_mpan, quality_allowed, reading_in_range, reading_word, registration_word, shape_in_range,
};
use super::{ACCEPTED, BOOK_ILL_FORMED, ISSUE_NOT_ABOVE, METER_UNKNOWN, NO_ROOM, OUT_OF_RANGE, QUALITY_REFUSED};
use cepnhoy::{Answer, Reading, Registration, Settings, ROW_WORDS};

#[inline(never)]
pub fn register(
    mut settings: Settings,
    rows: &mut [u64],
    cells: &mut [i64],
    mpan: u64,
    registration: Registration,
) -> Answer {
    let number = match Kept::tested(cells, || is_formed(&settings, rows)) {
        Ok(mut kept) => store_registration(&mut settings, rows, &mut kept, mpan, &registration),
        Err(number) => number,
    };
    Answer { number, settings }
}

#[inline(never)]
pub fn record_reading(settings: Settings, rows: &mut [u64], cells: &mut [i64], mpan: u64, reading: Reading) -> Answer {
    let number = match Kept::tested(cells, || is_formed(&settings, rows)) {
        Ok(mut kept) => store_reading(&settings, rows, &mut kept, mpan, &reading),
        Err(number) => number,
    };
    Answer { number, settings }
}

#[inline(never)]
pub fn set_shape(mut settings: Settings, rows: &[u64], cells: &mut [i64], category: u64, wh: u64) -> Answer {
    let number = match Kept::tested(cells, || is_formed(&settings, rows)) {
        Ok(_) if !shape_in_range(category, wh) => OUT_OF_RANGE,
        Ok(mut kept) => {
            let shape = &mut settings.shapes[category as usize];
            if kept.reshape(used(rows, settings.meters), category, *shape, wh as u32) {
                *shape = wh as u32;
                ACCEPTED
            } else {
                BOOK_ILL_FORMED
            }
        }
        Err(number) => number,
    };
    Answer { number, settings }
}

fn store_registration(
    settings: &mut Settings,
    rows: &mut [u64],
    kept: &mut Kept,
    mpan: u64,
    registration: &Registration,
) -> u64 {
    if !is_mpan(mpan) || !in_range(registration) {
        return OUT_OF_RANGE;
    }
    let word = registration_word(registration);
    let Settings { meters, shapes, .. } = settings;
    match place(used(rows, *meters), mpan) {
        Ok(at) => {
            let row = &mut used_mut(rows, *meters)[at];
            if !kept.replace(&Part::of(row[1], row[2], shapes), &Part::of(word, row[2], shapes)) {
                return BOOK_ILL_FORMED;
            }
            row[1] = word;
        }
        Err(_) if *meters >= capacity(rows) => return NO_ROOM,
        Err(at) => {
            if !kept.add(&Part::of(word, 0, shapes)) {
                return BOOK_ILL_FORMED;
            }
            rows.copy_within(ROW_WORDS * at..ROW_WORDS * *meters, ROW_WORDS * (at + 1));
            rows[ROW_WORDS * at..ROW_WORDS * (at + 1)].copy_from_slice(&[mpan, word, 0]);
            *meters += 1;
        }
    }
    ACCEPTED
}

fn store_reading(settings: &Settings, rows: &mut [u64], kept: &mut Kept, mpan: u64, reading: &Reading) -> u64 {
    if !is_mpan(mpan) || !reading_in_range(reading) {
        return OUT_OF_RANGE;
    }
    if !quality_allowed(reading) {
        return QUALITY_REFUSED;
    }
    let rows = used_mut(rows, settings.meters);
    let Ok(at) = place(rows, mpan) else {
        return METER_UNKNOWN;
    };
    let [_, registration, held] = rows[at];
    if reading.issue <= held >> 32 {
        return ISSUE_NOT_ABOVE;
    }
    let word = reading_word(reading);
    let shapes = &settings.shapes;
    if !kept.replace(&Part::of(registration, held, shapes), &Part::of(registration, word, shapes)) {
        return BOOK_ILL_FORMED;
    }
    rows[at][2] = word;
    ACCEPTED
}
