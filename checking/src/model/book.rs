//! A book by the second method: a map from MPANs to meters, with every reading kept.

use std::collections::BTreeMap;

use crate::call::{Argument, Call};
use crate::model::allocation::{allocate, Allocation, Gathered};
use crate::model::cells::Contents;
use crate::model::ranges::{call_in_range, capacity, in_range, quality_refused, SHAPE_MISSING};
use crate::model::words::{reading_word, registration_word, written_reading, written_registration};
use cepnhoy::{Reading, Registration, Settings, CATEGORIES, CLASSES, ROW_WORDS};

#[derive(Clone, Debug)]
pub struct Meter {
    pub registration: Registration,
    /// All readings since the registration that causes 2 and 3 allow, in the order in which they came.
    pub readings: Vec<Reading>,
}

impl Meter {
    /// Of the highest issue, the reading that came first.
    pub fn reading_in_force(&self) -> Option<&Reading> {
        let highest = self.readings.iter().map(|reading| reading.issue).max()?;
        self.readings.iter().find(|reading| reading.issue == highest)
    }
}

#[derive(Clone, Debug)]
pub struct Book {
    /// The row slice as it was lent first. What the used rows cover of it is not seen again.
    lent_words: Vec<u64>,
    meters: BTreeMap<u64, Meter>,
    weights: [u64; CLASSES],
    shapes: [Option<u64>; CATEGORIES],
    tolerance: u64,
    take_wh: Option<i64>,
}

/// What a shape call's Wh stand for: a shape, or that it is missing.
pub fn shape_held(wh: u64) -> Option<u64> {
    (i128::from(wh) != SHAPE_MISSING).then_some(wh)
}

impl Book {
    pub fn fresh(lent_words: Vec<u64>) -> Book {
        Book {
            lent_words,
            meters: BTreeMap::new(),
            weights: [0; CLASSES],
            shapes: [None; CATEGORIES],
            tolerance: 1_000,
            take_wh: None,
        }
    }

    /// The book that settings and rows stand for, or none if it isn't well formed.
    pub fn read(settings: &Settings, rows: &[u64]) -> Option<Book> {
        if settings.meters > capacity(rows.len()) {
            return None;
        }
        Some(Book {
            lent_words: rows.to_vec(),
            meters: read_meters(settings.meters, rows)?,
            weights: read_weights(settings)?,
            shapes: read_shapes(settings)?,
            tolerance: read_tolerance(settings)?,
            take_wh: read_take(settings)?,
        })
    }

    pub fn capacity(&self) -> usize {
        capacity(self.lent_words.len())
    }

    pub fn is_full(&self) -> bool {
        self.meters.len() == self.capacity()
    }

    pub fn meter(&self, mpan: u64) -> Option<&Meter> {
        self.meters.get(&mpan)
    }

    pub fn shape(&self, category: u64) -> Option<u64> {
        self.shapes[category as usize]
    }

    pub fn mpans(&self) -> Vec<u64> {
        self.meters.keys().copied().collect()
    }

    /// The settings as the library holds them.
    pub fn settings(&self) -> Settings {
        let shape = |wh: Option<u64>| wh.map_or(SHAPE_MISSING as u32, |wh| wh as u32);
        Settings {
            meters: self.meters.len(),
            weights: self.weights.map(|thousandths| thousandths as u32),
            shapes: self.shapes.map(shape),
            tolerance: self.tolerance as u32,
            take_set: u32::from(self.take_wh.is_some()),
            take_wh: self.take_wh.unwrap_or(0),
        }
    }

    /// The row slice as the library holds it: the used rows, and then the words as they were lent.
    pub fn words(&self) -> Vec<u64> {
        let mut words = self.lent_words.clone();
        for (row, (mpan, meter)) in words.chunks_exact_mut(ROW_WORDS).zip(&self.meters) {
            row[0] = *mpan;
            row[1] = registration_word(&meter.registration);
            row[2] = meter.reading_in_force().map_or(0, reading_word);
        }
        words
    }

    /// All causes to refuse a call that apply now.
    pub fn causes(&self, call: &Call) -> Vec<u64> {
        let mut causes = vec![(2, !call_in_range(call))];
        match call {
            Call::Register { mpan, .. } => {
                let is_new = self.meter(*mpan).is_none();
                causes.push((6, is_new && self.is_full()));
            }
            Call::Reading { mpan, reading } => {
                let meter = self.meter(*mpan);
                let held = meter.and_then(Meter::reading_in_force);
                let not_above = held.is_some_and(|held| reading.issue <= held.issue);
                causes.push((3, quality_refused(reading)));
                causes.push((4, meter.is_none()));
                causes.push((5, not_above));
            }
            _ => {}
        }
        let applying = causes.into_iter().filter(|(_, applies)| *applies);
        applying.map(|(number, _)| number).collect()
    }

    /// The number that a call would give now: the lowest cause that applies, or acceptance.
    fn number(&self, call: &Call) -> u64 {
        self.causes(call).into_iter().min().unwrap_or(0)
    }

    /// Makes a call, and gives its number.
    pub fn make(&mut self, call: &Call) -> u64 {
        let number = self.number(call);
        match (*call, number) {
            (Call::Register { mpan, registration }, 0) => self.register(mpan, registration),
            // One of too low an issue is kept as well: which reading counts is decided when it is asked for.
            (Call::Reading { mpan, reading }, 0 | 5) => self.keep_reading(mpan, reading),
            (_, 0) => self.replace_setting(call),
            _ => {}
        }
        number
    }

    fn register(&mut self, mpan: u64, registration: Registration) {
        let unread = Meter { registration, readings: Vec::new() };
        let meter = self.meters.entry(mpan).or_insert(unread);
        meter.registration = registration;
    }

    fn keep_reading(&mut self, mpan: u64, reading: Reading) {
        let meter = self.meters.get_mut(&mpan).expect("the meter is known");
        meter.readings.push(reading);
    }

    fn replace_setting(&mut self, call: &Call) {
        match *call {
            Call::Shape { category, wh } => self.shapes[category as usize] = shape_held(wh),
            Call::Weight { class, thousandths } => self.weights[class as usize] = thousandths,
            Call::Tolerance { g } => self.tolerance = g,
            Call::Take { wh } => self.take_wh = Some(wh),
            _ => unreachable!("{call} replaces no setting"),
        }
    }

    pub fn contents(&self) -> Contents {
        let meters = self.meters.values();
        Contents {
            weights: self.weights,
            shapes: self.shapes,
            tolerance: self.tolerance,
            take_wh: self.take_wh,
            meters: meters.map(|meter| (meter.registration, meter.reading_in_force().copied())).collect(),
        }
    }

    /// The book as it would be if nothing refused the call; none for one that would change no row and no shape.
    pub fn forced(&self, call: &Call) -> Option<Book> {
        let mut book = self.clone();
        match *call {
            Call::Register { mpan, registration } => book.register(mpan, registration),
            Call::Reading { mpan, reading } => book.meters.get_mut(&mpan)?.readings = vec![reading],
            Call::Shape { category, wh } => *book.shapes.get_mut(category as usize)? = shape_held(wh),
            _ => return None,
        }
        Some(book)
    }

    /// The allocation worked from the meters, as it was before there was a slice of running cells.
    pub fn allocate(&self, volume_words: usize) -> Allocation {
        let contents = self.contents();
        allocate(&contents, Gathered::of_meters(&contents), volume_words)
    }
}

fn read_meters(count: usize, rows: &[u64]) -> Option<BTreeMap<u64, Meter>> {
    let mut meters = BTreeMap::new();
    let mut highest = None;
    for row in rows.chunks_exact(ROW_WORDS).take(count) {
        let mpan = row[0];
        let rises = highest.is_none_or(|highest| highest < mpan);
        if !rises || !in_range(Argument::RegisterMpan, mpan.into()) {
            return None;
        }
        let meter = Meter {
            registration: written_registration(row[1])?,
            readings: written_reading(row[2])?.into_iter().collect(),
        };
        meters.insert(mpan, meter);
        highest = Some(mpan);
    }
    Some(meters)
}

fn read_weights(settings: &Settings) -> Option<[u64; CLASSES]> {
    let weights = settings.weights.map(u64::from);
    let is_weight = |&thousandths: &u64| in_range(Argument::WeightThousandths, thousandths.into());
    weights.iter().all(is_weight).then_some(weights)
}

fn read_shapes(settings: &Settings) -> Option<[Option<u64>; CATEGORIES]> {
    let shapes = settings.shapes.map(u64::from);
    let is_shape = |&wh: &u64| in_range(Argument::ShapeWh, wh.into());
    shapes.iter().all(is_shape).then_some(shapes.map(shape_held))
}

fn read_tolerance(settings: &Settings) -> Option<u64> {
    let g = u64::from(settings.tolerance);
    in_range(Argument::Tolerance, g.into()).then_some(g)
}

/// The Take, if its flag says that it is set; while it is unset its value must be 0. Nobody writes another flag than these two.
fn read_take(settings: &Settings) -> Option<Option<i64>> {
    let wh = settings.take_wh;
    match settings.take_set {
        0 => (wh == 0).then_some(None),
        1 => in_range(Argument::Take, wh.into()).then_some(Some(wh)),
        _ => None,
    }
}
