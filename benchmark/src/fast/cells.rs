//! The slice of running cells: the test of its limits, and the changes that calls make in it.

use super::rows::Row;
use super::words::llf;
use super::{BOOK_ILL_FORMED, CELLS_SHORT};
use cepnhoy::{CATEGORIES, CELL_SIZES_MAX, CELL_WORDS, CLASSES, UNITS};

/// Where a meter's energy comes from, as the four counts are numbered.
pub const ACTUAL: usize = 0;
pub const ESTIMATED: usize = 1;
pub const DEFAULTED: usize = 2;
pub const IDLE: usize = 3;

/// How many counts there are.
const SOURCES: usize = 4;

/// The actual codes, which are also those that a de-energised meter uses: 0 to 6, E2 (9) and E6 (13).
const ACTUAL_CODES: u32 = 0x7f | 1 << 9 | 1 << 13;

/// The bits of word 1 that hold status and category, and an energised meter's status there.
const WAITS: u64 = 3 << 3 | 63 << 16;
const ENERGISED: u64 = 2 << 3;

/// A cell of energy and that of its losses. A unit has twelve such pairs, one for each two classes.
pub type Pair = [i64; 2];
pub type Pairs = [Pair; CLASSES / 2];

pub fn source(registration: u64, reading: u64) -> usize {
    let actual = ACTUAL_CODES >> (reading >> 24 & 31) & 1 == 1;
    match registration >> 3 & 3 {
        2 if reading == 0 => DEFAULTED,
        // Without a branch: no processor can guess which readings are estimated.
        2 => usize::from(!actual),
        1 if reading != 0 && actual => ACTUAL,
        _ => IDLE,
    }
}

fn unit(registration: u64) -> usize {
    let shift = if registration >> 10 & 1 == 1 { 11 } else { 5 };
    (registration >> shift & 31) as usize
}

/// Which of its unit's pairs a meter's energy is in.
fn pair(registration: u64, from: usize) -> usize {
    (4 * (registration & 3) + (registration >> 1 & 2)) as usize + usize::from(from != ACTUAL)
}

fn category(registration: u64) -> usize {
    (registration >> 16 & 63) as usize
}

/// How much of a meter's energy its losses are, in thousandths.
fn loss_factor(registration: u64) -> i64 {
    llf(registration) as i64 - 1_000
}

/// What a shape counts for: 0 Wh if it is missing.
fn shape_wh(shape: u32) -> i64 {
    if shape == u32::MAX {
        0
    } else {
        i64::from(shape)
    }
}

/// A meter as the slice has it.
pub struct Part {
    unit: usize,
    pair: usize,
    wh: i64,
    loss_factor: i64,
    from: usize,
    category: usize,
}

impl Part {
    #[inline(always)]
    pub fn of(registration: u64, reading: u64, shapes: &[u32; CATEGORIES]) -> Part {
        let from = source(registration, reading);
        let category = category(registration);
        let wh = match from {
            ACTUAL | ESTIMATED => (reading & 0xff_ffff) as i64,
            DEFAULTED => shape_wh(shapes[category]),
            _ => 0,
        };
        Part {
            unit: unit(registration),
            pair: pair(registration, from),
            wh,
            loss_factor: loss_factor(registration),
            from,
            category,
        }
    }
}

/// The words of a slice that mean something, by what they are.
#[derive(Clone, Copy)]
pub struct Words<'a> {
    pub units: &'a [Pairs; UNITS],
    pub counts: &'a [i64; SOURCES],
    pub waiting: &'a [i64; CATEGORIES],
}

impl Words<'_> {
    fn of(cells: &[i64]) -> Option<Words<'_>> {
        let (cells, rest) = cells.split_first_chunk::<CELL_WORDS>()?;
        let (counts, rest) = rest.split_first_chunk()?;
        let units = cells.as_chunks().0.as_chunks().0.first_chunk()?;
        Some(Words { units, counts, waiting: rest.first_chunk()? })
    }

    /// As `of`, if the slice is long enough and passes no limit, and the book is well formed; else the number to refuse with.
    pub fn tested(cells: &[i64], is_formed: impl FnOnce() -> bool) -> Result<Words<'_>, u64> {
        let words = Words::of(cells).ok_or(CELLS_SHORT)?;
        let within = sizes(words.units).is_some() && are_counts(words.counts) && are_counts(words.waiting);
        if within && is_formed() {
            Ok(words)
        } else {
            Err(BOOK_ILL_FORMED)
        }
    }
}

/// What the sizes of the cells add up to, or nothing if they pass the limit. A cell of 2^51 or more passes it alone; below, the sum
/// cannot pass 64 bits.
fn sizes(units: &[Pairs; UNITS]) -> Option<u64> {
    let cells = units.as_flattened().as_flattened();
    let (sum, bits) = cells.iter().fold((0u64, 0), |(sum, bits), cell| {
        let size = cell.unsigned_abs();
        (sum.wrapping_add(size), bits | size)
    });
    (bits >> 51 == 0 && sum <= CELL_SIZES_MAX).then_some(sum)
}

/// Whether all are from 0 to 4,294,967,295.
fn are_counts(words: &[i64]) -> bool {
    words.iter().fold(0, |bits, word| bits | *word as u64) >> 32 == 0
}

/// A slice that was tested, kept up while calls are made. The sizes of its cells are below their limit by `room` at least. A change takes
/// its energy from that twice, since losses are no larger than the energy they are of; only where nothing is left are the sizes added up
/// again.
pub struct Kept<'a> {
    units: &'a mut [Pairs; UNITS],
    counts: &'a mut [i64; SOURCES],
    waiting: &'a mut [i64; CATEGORIES],
    room: i64,
}

impl Kept<'_> {
    fn unmeasured(cells: &mut [i64]) -> Option<Kept<'_>> {
        let (cells, rest) = cells.split_first_chunk_mut::<CELL_WORDS>()?;
        let (counts, rest) = rest.split_first_chunk_mut()?;
        let units = cells.as_chunks_mut().0.as_chunks_mut().0.first_chunk_mut()?;
        Some(Kept { units, counts, waiting: rest.first_chunk_mut()?, room: 0 })
    }

    /// As `Words::tested`, for a slice that will be written.
    pub fn tested(cells: &mut [i64], is_formed: impl FnOnce() -> bool) -> Result<Kept<'_>, u64> {
        let mut kept = Kept::unmeasured(cells).ok_or(CELLS_SHORT)?;
        let within = kept.measure() && are_counts(kept.counts) && are_counts(kept.waiting);
        if within && is_formed() {
            Ok(kept)
        } else {
            Err(BOOK_ILL_FORMED)
        }
    }

    pub fn words(&self) -> Words<'_> {
        Words { units: self.units, counts: self.counts, waiting: self.waiting }
    }

    /// Adds the sizes up, and tells whether they are within their limit. If not, the last change has to be undone; room is then put at 0,
    /// and there may be more.
    #[inline(never)]
    fn measure(&mut self) -> bool {
        let sizes = sizes(self.units);
        self.room = sizes.map_or(0, |sizes| (CELL_SIZES_MAX - sizes) as i64);
        sizes.is_some()
    }

    /// Adds the part so many times, which is once or minus once.
    #[inline(always)]
    fn put(&mut self, part: &Part, times: i64) {
        let [energy, losses] = &mut self.units[part.unit][part.pair];
        let wh = times * part.wh;
        *energy += 1_000 * wh;
        *losses += part.loss_factor * wh;
        self.counts[part.from] += times;
        if part.from == DEFAULTED {
            self.waiting[part.category] += times;
        }
    }

    #[inline(always)]
    fn counts_fit(&self, part: &Part) -> bool {
        are_counts(&[self.counts[part.from], self.waiting[part.category]])
    }

    #[inline(always)]
    fn sizes_fit(&mut self, wh: i64) -> bool {
        self.room -= 2 * 1_000 * wh;
        self.room >= 0 || self.measure()
    }

    /// A new meter's part is added, or nothing if a limit would be passed.
    #[inline(always)]
    pub fn add(&mut self, part: &Part) -> bool {
        self.put(part, 1);
        let fits = self.counts_fit(part) && self.sizes_fit(part.wh);
        if !fits {
            self.put(part, -1);
        }
        fits
    }

    /// A meter's part is replaced, or not if a limit would be passed then.
    #[inline(always)]
    pub fn replace(&mut self, before: &Part, after: &Part) -> bool {
        self.put(before, -1);
        self.put(after, 1);
        let counts_fit = self.counts_fit(before) && self.counts_fit(after);
        let fits = counts_fit && self.sizes_fit(before.wh + after.wh);
        if !fits {
            self.put(after, -1);
            self.put(before, 1);
        }
        fits
    }

    /// Another shape for all meters that wait in a category, or nothing if a limit would be passed then. Where no meter waits, no cell
    /// changes, and none is looked at.
    pub fn reshape(&mut self, rows: &[Row], category: u64, from: u32, to: u32) -> bool {
        let wh = shape_wh(to) - shape_wh(from);
        let waits = ENERGISED | category << 16;
        let is_waiting = |row: &&Row| row[1] & WAITS == waits && row[2] == 0;
        let Some(first) = rows.iter().position(|row| is_waiting(&row)) else {
            return true;
        };
        let waiting = || rows[first..].iter().filter(is_waiting);
        waiting().for_each(|row| self.shift(row[1], wh));
        let fits = self.measure();
        if !fits {
            waiting().for_each(|row| self.shift(row[1], -wh));
        }
        fits
    }

    fn shift(&mut self, registration: u64, wh: i64) {
        let [energy, losses] = &mut self.units[unit(registration)][pair(registration, DEFAULTED)];
        *energy += 1_000 * wh;
        *losses += loss_factor(registration) * wh;
    }
}
