//! What a list of calls means, read off the list, without making a single call.

use crate::call::Call;
use crate::model::book::shape_held;
use crate::model::cells::Contents;
use crate::model::ranges::{call_in_range, quality_refused};
use cepnhoy::{Reading, Registration, CATEGORIES, CLASSES};

/// A meter that the list has the book hold.
#[derive(Clone, Debug, PartialEq, Eq)]
pub struct MeantMeter {
    pub mpan: u64,
    pub registration: Registration,
    pub reading: Option<Reading>,
}

/// What a list means: the settings, and the meters in order of MPAN.
#[derive(Clone, Debug)]
pub struct Meaning {
    pub weights: [u64; CLASSES],
    pub shapes: [Option<u64>; CATEGORIES],
    pub tolerance: u64,
    pub take_wh: Option<i64>,
    pub meters: Vec<MeantMeter>,
}

impl Meaning {
    pub fn of(capacity: usize, calls: &[Call]) -> Meaning {
        let in_range: Vec<&Call> = calls.iter().filter(|call| call_in_range(call)).collect();
        Meaning {
            weights: std::array::from_fn(|class| meant_weight(&in_range, class as u64)),
            shapes: std::array::from_fn(|category| meant_shape(&in_range, category as u64)),
            tolerance: last(&in_range, tolerance_set).unwrap_or(1_000),
            take_wh: last(&in_range, take_set),
            meters: meant_meters(capacity, &in_range),
        }
    }

    pub fn contents(&self) -> Contents {
        let meters = self.meters.iter();
        Contents {
            weights: self.weights,
            shapes: self.shapes,
            tolerance: self.tolerance,
            take_wh: self.take_wh,
            meters: meters.map(|meter| (meter.registration, meter.reading)).collect(),
        }
    }
}

/// What the last call says of which something can be said.
fn last<T>(calls: &[&Call], said: impl Fn(&Call) -> Option<T>) -> Option<T> {
    calls.iter().rev().find_map(|call| said(call))
}

fn meant_weight(calls: &[&Call], wanted: u64) -> u64 {
    let set = last(calls, |call| match *call {
        Call::Weight { class, thousandths } if class == wanted => Some(thousandths),
        _ => None,
    });
    set.unwrap_or(0)
}

fn meant_shape(calls: &[&Call], wanted: u64) -> Option<u64> {
    let set = last(calls, |call| match *call {
        Call::Shape { category, wh } if category == wanted => Some(wh),
        _ => None,
    });
    set.and_then(shape_held)
}

fn tolerance_set(call: &Call) -> Option<u64> {
    match *call {
        Call::Tolerance { g } => Some(g),
        _ => None,
    }
}

fn take_set(call: &Call) -> Option<i64> {
    match *call {
        Call::Take { wh } => Some(wh),
        _ => None,
    }
}

/// The calls of one MPAN, each with its place in the list, from its first registration on.
struct History<'a> {
    mpan: u64,
    calls: Vec<(usize, &'a Call)>,
}

impl History<'_> {
    fn first_registered(&self) -> usize {
        self.calls[0].0
    }

    fn meter(&self) -> MeantMeter {
        let mut registrations = self.calls.iter().filter_map(|(_, call)| match call {
            Call::Register { registration, .. } => Some(*registration),
            _ => None,
        });
        let mut readings: Vec<Reading> = self
            .calls
            .iter()
            .filter_map(|(_, call)| match call {
                Call::Reading { reading, .. } if !quality_refused(reading) => Some(*reading),
                _ => None,
            })
            .collect();
        // The sort keeps equal issues in the order of the list, so that the first is the earlier of equals.
        readings.sort_by_key(|reading| std::cmp::Reverse(reading.issue));
        MeantMeter {
            mpan: self.mpan,
            registration: registrations.next_back().expect("a history begins with one"),
            reading: readings.first().copied(),
        }
    }
}

fn mpan_of(call: &Call) -> Option<u64> {
    match *call {
        Call::Register { mpan, .. } | Call::Reading { mpan, .. } => Some(mpan),
        _ => None,
    }
}

/// The calls grouped by MPAN, by sorting; MPANs without a registration have no history.
fn histories<'a>(calls: &[&'a Call]) -> Vec<History<'a>> {
    let mut by_mpan: Vec<(u64, usize, &Call)> =
        calls.iter().enumerate().filter_map(|(place, call)| Some((mpan_of(call)?, place, *call))).collect();
    by_mpan.sort_by_key(|&(mpan, place, _)| (mpan, place));
    by_mpan
        .chunk_by(|x, y| x.0 == y.0)
        .map(|group| History {
            mpan: group[0].0,
            calls: group
                .iter()
                .map(|&(_, place, call)| (place, call))
                .skip_while(|(_, call)| !matches!(call, Call::Register { .. }))
                .collect(),
        })
        .filter(|history| !history.calls.is_empty())
        .collect()
}

/// The first different MPANs with a register call, up to capacity, in order of MPAN.
fn meant_meters(capacity: usize, calls: &[&Call]) -> Vec<MeantMeter> {
    let mut accepted = histories(calls);
    accepted.sort_by_key(History::first_registered);
    accepted.truncate(capacity);
    accepted.sort_by_key(|history| history.mpan);
    accepted.iter().map(History::meter).collect()
}
