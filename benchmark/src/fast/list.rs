//! A whole list of calls: the book and the cells are tested once. New meters' rows are gathered behind the others in a run of their own
//! and merged when the run is long, so that a list in any order moves few rows.

use super::allocation::{allocate_formed, refused};
use super::cells::{Kept, Part};
use super::rows::{capacity, is_formed, place, used_mut, Row};
use super::words::{
    in_range, is_mpan, quality_allowed, reading_in_range, reading_word, registration_word, shape_in_range,
};
use super::{
    ACCEPTED, BOOK_ILL_FORMED, ISSUE_NOT_ABOVE, LIST_MISSHAPEN, METER_UNKNOWN, NO_ROOM, OUT_OF_RANGE, QUALITY_REFUSED,
};
use cepnhoy::{
    AllocationAnswer, Answer, Reading, Registration, Settings, CALL_WORDS, CATEGORIES, CLASSES, KIND_READING,
    KIND_REGISTER, KIND_SHAPE, KIND_TAKE, KIND_TOLERANCE, KIND_WEIGHT, ROW_WORDS, TAKE_FLAG_SET, TAKE_FLAG_UNSET,
};

/// How long the run of new rows may grow.
const RUN: usize = 512;

type CallWords = [u64; CALL_WORDS];

type Shapes = [u32; CATEGORIES];

/// Rows in two rising runs: `old` of them, and the new ones behind. Readings are often in order too, so the row behind the last one
/// found, `next`, is looked at before any search.
struct Runs<'a> {
    rows: &'a mut [Row],
    old: usize,
    meters: usize,
    next: usize,
}

impl Runs<'_> {
    fn find(&self, mpan: u64) -> Result<usize, usize> {
        match place(&self.rows[..self.old], mpan) {
            Ok(at) => Ok(at),
            Err(_) => match place(&self.rows[self.old..self.meters], mpan) {
                Ok(at) => Ok(self.old + at),
                Err(at) => Err(self.old + at),
            },
        }
    }

    #[inline(always)]
    fn find_known(&mut self, mpan: u64) -> Option<usize> {
        let at = match self.rows[..self.meters].get(self.next) {
            Some(row) if row[0] == mpan => self.next,
            _ => self.find(mpan).ok()?,
        };
        self.next = at + 1;
        Some(at)
    }

    fn register(&mut self, shapes: &Shapes, kept: &mut Kept, mpan: u64, registration: &Registration) -> u64 {
        if !is_mpan(mpan) || !in_range(registration) {
            return OUT_OF_RANGE;
        }
        let word = registration_word(registration);
        match self.find(mpan) {
            Ok(at) => {
                let [_, held, reading] = self.rows[at];
                if !kept.replace(&Part::of(held, reading, shapes), &Part::of(word, reading, shapes)) {
                    return BOOK_ILL_FORMED;
                }
                self.rows[at][1] = word;
            }
            Err(_) if self.meters == self.rows.len() => return NO_ROOM,
            Err(at) => {
                if !kept.add(&Part::of(word, 0, shapes)) {
                    return BOOK_ILL_FORMED;
                }
                self.rows.copy_within(at..self.meters, at + 1);
                self.rows[at] = [mpan, word, 0];
                self.meters += 1;
                if self.meters - self.old == RUN {
                    self.merge();
                }
            }
        }
        ACCEPTED
    }

    fn record(&mut self, shapes: &Shapes, kept: &mut Kept, mpan: u64, reading: &Reading) -> u64 {
        if !is_mpan(mpan) || !reading_in_range(reading) {
            return OUT_OF_RANGE;
        }
        if !quality_allowed(reading) {
            return QUALITY_REFUSED;
        }
        let Some(at) = self.find_known(mpan) else {
            return METER_UNKNOWN;
        };
        let [_, registration, held] = self.rows[at];
        if reading.issue <= held >> 32 {
            return ISSUE_NOT_ABOVE;
        }
        let word = reading_word(reading);
        if !kept.replace(&Part::of(registration, held, shapes), &Part::of(registration, word, shapes)) {
            return BOOK_ILL_FORMED;
        }
        self.rows[at][2] = word;
        ACCEPTED
    }

    /// From the back: each new row goes above the old rows below it, which move up together. Nothing moves if all new ones are above.
    fn merge(&mut self) {
        if self.rows[..self.meters]
            .get(self.old)
            .is_none_or(|new| place(&self.rows[..self.old], new[0]) == Err(self.old))
        {
            self.old = self.meters;
            return;
        }
        let mut held = [[0; ROW_WORDS]; RUN];
        let new = self.meters - self.old;
        held[..new].copy_from_slice(&self.rows[self.old..self.meters]);
        let mut left = self.old;
        for (below, row) in held[..new].iter().enumerate().rev() {
            let at = self.rows[..left].partition_point(|old| old[0] < row[0]);
            self.rows.copy_within(at..left, at + below + 1);
            self.rows[at + below] = *row;
            left = at;
        }
        self.old = self.meters;
    }
}

fn set(settings: &mut Settings, rows: &[Row], kept: &mut Kept, call: &CallWords) -> u64 {
    let [kind, first, second, ..] = *call;
    match kind {
        KIND_SHAPE if shape_in_range(first, second) => {
            let shape = &mut settings.shapes[first as usize];
            if !kept.reshape(rows, first, *shape, second as u32) {
                return BOOK_ILL_FORMED;
            }
            *shape = second as u32;
        }
        KIND_WEIGHT if first < CLASSES as u64 && second <= 1_000 => settings.weights[first as usize] = second as u32,
        KIND_TOLERANCE if first <= 1_000 => settings.tolerance = first as u32,
        KIND_TAKE if (-5_000_000_000..=5_000_000_000).contains(&(first as i64)) => {
            settings.take_wh = first as i64;
            settings.take_set = TAKE_FLAG_SET;
        }
        _ => return OUT_OF_RANGE,
    }
    ACCEPTED
}

fn registration(call: &CallWords) -> Registration {
    let [_, _, segment, direction, status, base, flag, additional, category, llf, network, tariff] = *call;
    Registration { segment, direction, status, base, flag, additional, category, llf, network, tariff }
}

fn make_each(settings: &mut Settings, rows: &mut [u64], kept: &mut Kept, calls: &[CallWords], numbers: &mut [u64]) {
    let room = capacity(rows);
    let mut runs = Runs { rows: used_mut(rows, room), old: settings.meters, meters: settings.meters, next: 0 };
    for (call, number) in calls.iter().zip(numbers) {
        let shapes = &settings.shapes;
        *number = match call[0] {
            KIND_REGISTER => runs.register(shapes, kept, call[1], &registration(call)),
            KIND_READING => {
                let reading = Reading { issue: call[2], quality: call[3], consumption: call[4] };
                runs.record(shapes, kept, call[1], &reading)
            }
            _ => set(settings, &runs.rows[..runs.meters], kept, call),
        };
    }
    runs.merge();
    settings.meters = runs.meters;
}

/// Makes the calls and gives the slice as they left it; or the number for which none was made. That of a misshapen list is in no word
/// of the numbers, any other in each.
fn make_list<'a>(
    settings: &mut Settings,
    rows: &mut [u64],
    cells: &'a mut [i64],
    calls: &[u64],
    numbers: &mut [u64],
) -> Result<Kept<'a>, u64> {
    let (calls, []) = calls.as_chunks::<CALL_WORDS>() else {
        return Err(LIST_MISSHAPEN);
    };
    let Some(numbers) = numbers.get_mut(..calls.len()) else {
        return Err(LIST_MISSHAPEN);
    };
    let mut kept = Kept::tested(cells, || is_formed(settings, rows)).inspect_err(|number| numbers.fill(*number))?;
    make_each(settings, rows, &mut kept, calls, numbers);
    Ok(kept)
}

#[inline(never)]
pub fn make_calls(
    mut settings: Settings,
    rows: &mut [u64],
    cells: &mut [i64],
    calls: &[u64],
    numbers: &mut [u64],
) -> Answer {
    let number = match make_list(&mut settings, rows, cells, calls, numbers) {
        Err(LIST_MISSHAPEN) => LIST_MISSHAPEN,
        _ => ACCEPTED,
    };
    Answer { number, settings }
}

#[inline(never)]
pub fn settle_list(
    rows: &mut [u64],
    cells: &mut [i64],
    calls: &[u64],
    numbers: &mut [u64],
    volumes: &mut [i64],
) -> AllocationAnswer {
    let mut settings = Settings {
        meters: 0,
        weights: [0; CLASSES],
        shapes: [u32::MAX; CATEGORIES],
        tolerance: 1_000,
        take_set: TAKE_FLAG_UNSET,
        take_wh: 0,
    };
    let answer = match make_list(&mut settings, rows, cells, calls, numbers) {
        Ok(kept) => allocate_formed(&settings, kept.words(), volumes),
        Err(number) => refused(number),
    };
    AllocationAnswer { answer, settings }
}
