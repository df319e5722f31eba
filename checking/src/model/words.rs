//! The words of a row, read and written as digits in mixed bases, lowest field first, so that no bit is masked away:
//! the last field takes all that is left, and a stray bit shows as a field out of range.

use crate::call::{reading_arguments, registration_arguments};
use crate::model::ranges::{all_in_range, quality_refused};
use cepnhoy::{Reading, Registration};

/// Of word 1: segment, direction, status, base, flag, additional, category, LLF, network; the tariff takes the rest.
const REGISTRATION_BASES: [u64; 9] = [4, 2, 4, 32, 2, 32, 64, 2_048, 64];

/// Of word 2: consumption, then quality with the three bits above it, which no code reaches; the issue takes the rest.
const CONSUMPTION_BASE: u64 = 16_777_216;
const QUALITY_BASE: u64 = 256;

pub fn registration_word(r: &Registration) -> u64 {
    let digits = [r.segment, r.direction, r.status, r.base, r.flag, r.additional, r.category, r.llf, r.network];
    let lowest_last = digits.iter().zip(REGISTRATION_BASES).rev();
    lowest_last.fold(r.tariff, |above, (digit, base)| above * base + digit)
}

pub fn registration_of(word: u64) -> Registration {
    let mut rest = word;
    let digits = REGISTRATION_BASES.map(|base| {
        let digit = rest % base;
        rest /= base;
        digit
    });
    let [segment, direction, status, base, flag, additional, category, llf, network] = digits;
    Registration { segment, direction, status, base, flag, additional, category, llf, network, tariff: rest }
}

pub fn reading_word(r: &Reading) -> u64 {
    (r.issue * QUALITY_BASE + r.quality) * CONSUMPTION_BASE + r.consumption
}

pub fn reading_of(word: u64) -> Reading {
    let above = word / CONSUMPTION_BASE;
    Reading { issue: above / QUALITY_BASE, quality: above % QUALITY_BASE, consumption: word % CONSUMPTION_BASE }
}

/// The registration in a word 1 that an accepted call could have written.
pub fn written_registration(word: u64) -> Option<Registration> {
    let registration = registration_of(word);
    all_in_range(&registration_arguments(&registration)).then_some(registration)
}

/// The reading in a word 2 that accepted calls could have written, or that there is none; nothing if they could not.
pub fn written_reading(word: u64) -> Option<Option<Reading>> {
    if word == 0 {
        return Some(None);
    }
    let reading = reading_of(word);
    let written = all_in_range(&reading_arguments(&reading)) && !quality_refused(&reading);
    written.then_some(Some(reading))
}
