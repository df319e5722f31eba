//! The rows in the lent slice.

use super::words::{is_mpan, is_reading, is_registration};
use cepnhoy::{Settings, ROW_WORDS, TAKE_FLAG_SET, TAKE_FLAG_UNSET};

pub const METERS_MOST: usize = 65_536;

pub type Row = [u64; ROW_WORDS];

pub fn capacity(rows: &[u64]) -> usize {
    (rows.len() / ROW_WORDS).min(METERS_MOST)
}

pub fn used(rows: &[u64], meters: usize) -> &[Row] {
    rows[..ROW_WORDS * meters].as_chunks().0
}

pub fn used_mut(rows: &mut [u64], meters: usize) -> &mut [Row] {
    rows[..ROW_WORDS * meters].as_chunks_mut().0
}

/// Rows that rise are all MPANs if the first and the last are.
fn rows_formed(rows: &[Row]) -> bool {
    let (Some(first), Some(last)) = (rows.first(), rows.last()) else {
        return true;
    };
    if !is_mpan(first[0]) || !is_mpan(last[0]) {
        return false;
    }
    let mut before = 0;
    rows.iter().all(|&[mpan, registration, reading]| {
        let rises = before < mpan;
        before = mpan;
        rises && is_registration(registration) && is_reading(reading)
    })
}

fn settings_formed(s: &Settings) -> bool {
    let take_formed = match s.take_set {
        TAKE_FLAG_UNSET => s.take_wh == 0,
        TAKE_FLAG_SET => (-5_000_000_000..=5_000_000_000).contains(&s.take_wh),
        _ => false,
    };
    let weights = s.weights.iter().fold(true, |formed, &w| formed & (w <= 1_000));
    let shapes = s.shapes.iter().fold(true, |formed, &wh| formed & ((wh <= 10_000_000) | (wh == u32::MAX)));
    weights & shapes & take_formed & (s.tolerance <= 1_000)
}

pub fn is_formed(settings: &Settings, rows: &[u64]) -> bool {
    settings.meters <= capacity(rows) && settings_formed(settings) && rows_formed(used(rows, settings.meters))
}

/// Where a row stands or is to stand. Lists are often in order, so the end is tried first.
pub fn place(rows: &[Row], mpan: u64) -> Result<usize, usize> {
    if rows.last().is_none_or(|last| last[0] < mpan) {
        return Err(rows.len());
    }
    let at = rows.partition_point(|row| row[0] < mpan);
    match rows.get(at) {
        Some(row) if row[0] == mpan => Ok(at),
        _ => Err(at),
    }
}
