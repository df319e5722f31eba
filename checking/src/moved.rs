//! Readings moved about in a list: what the list means stays, so the allocation must stay.

use std::collections::{BTreeMap, VecDeque};

use crate::call::{list_words, Call};
use crate::check::Case;
use crate::compare::{at, same_allocated, same_settings, same_words, Checked};
use crate::model::ranges::{call_in_range, capacity};
use crate::model::slice::WORDS;
use crate::model::Meaning;
use crate::random::Random;
use crate::reach::Reach;
use crate::situation::Situation;
use cepnhoy::AllocationAnswer;

/// Where the first in-range registration of each meter stands.
fn first_registrations(calls: &[Call]) -> BTreeMap<u64, usize> {
    let mut first = BTreeMap::new();
    for (place, call) in calls.iter().enumerate() {
        if let Call::Register { mpan, .. } = call {
            if call_in_range(call) {
                first.entry(*mpan).or_insert(place);
            }
        }
    }
    first
}

/// The list with its readings moved. Each that stands behind its meter's first in-range registration stays behind it, those
/// of a meter and an issue keep their order, and no other call moves.
pub fn moved_readings(calls: &[Call], random: &mut Random) -> Vec<Call> {
    let first = first_registrations(calls);
    let mut placed: Vec<(usize, u64, Call)> = Vec::with_capacity(calls.len());
    for (place, call) in calls.iter().enumerate() {
        let registered = meter_and_issue(call).and_then(|(mpan, _)| first.get(&mpan));
        let moved = match registered {
            Some(&registered) if registered < place => {
                let after = random.between(registered as u64, calls.len() as u64) as usize;
                // Behind the call that stands at that place.
                (after, 1 + random.below(u64::MAX), *call)
            }
            _ => (place, 0, *call),
        };
        placed.push(moved);
    }
    placed.sort_by_key(|&(place, behind, _)| (place, behind));
    let mut moved: Vec<Call> = placed.into_iter().map(|(_, _, call)| call).collect();
    keep_order_of_equals(calls, &mut moved);
    moved
}

fn meter_and_issue(call: &Call) -> Option<(u64, u64)> {
    match call {
        Call::Reading { mpan, reading } => Some((*mpan, reading.issue)),
        _ => None,
    }
}

/// Puts the readings of each meter and issue, where they stand now, into the order that they had.
fn keep_order_of_equals(calls: &[Call], moved: &mut [Call]) {
    let mut in_order: BTreeMap<(u64, u64), VecDeque<Call>> = BTreeMap::new();
    for call in calls {
        if let Some(key) = meter_and_issue(call) {
            in_order.entry(key).or_default().push_back(*call);
        }
    }
    for call in moved {
        if let Some(equals) = meter_and_issue(call).and_then(|key| in_order.get_mut(&key)) {
            *call = equals.pop_front().expect("both lists have the same readings");
        }
    }
}

/// What a settled list leaves and gives, from a slice at 0.
struct Settled {
    answer: AllocationAnswer,
    cells: Vec<i64>,
    volumes: Vec<i64>,
}

fn settle(rows: &[u64], calls: &[Call], random: &mut Random) -> Settled {
    let mut rows = rows.to_vec();
    let mut cells = vec![0; WORDS];
    let mut numbers = vec![0; calls.len()];
    let mut volumes = vec![0; cepnhoy::UNITS];
    let call_words = list_words(calls, random);
    let answer = cepnhoy::settle_list(&mut rows, &mut cells, &call_words, &mut numbers, &mut volumes);
    Settled { answer, cells, volumes }
}

/// Settles a list and the same with its readings moved, on slices of equal lengths and other words.
pub fn check_moved(case: &Case, reach: &mut Reach) -> Checked {
    let random = &mut Random::part(case.seed, 6);
    let moved = moved_readings(&case.calls, random);
    let room = capacity(case.rows.len());
    assert_eq!(
        Meaning::of(room, &moved).contents(),
        Meaning::of(room, &case.calls).contents(),
        "the mover keeps what the list means"
    );
    let other_rows = random.words(case.rows.len());
    let before = settle(&case.rows, &case.calls, random);
    let after = settle(&other_rows, &moved, random);
    let accepted = before.answer.answer.number == 0;
    reach.note_if(Situation::MovedAccepted, accepted && moved != case.calls);
    let outcome = same_allocated(&after.answer.answer, &before.answer.answer)
        .and_then(|()| same_settings(&after.answer.settings, &before.answer.settings))
        .and_then(|()| same_words("cells", &after.cells, &before.cells))
        .and_then(|()| same_words("volumes", &after.volumes, &before.volumes));
    at(|| in_words(&moved), outcome)
}

fn in_words(moved: &[Call]) -> String {
    let lines: Vec<String> = moved.iter().map(|call| format!("    {call}\n")).collect();
    format!(
        "with the readings moved (here \"library\" is the moved list, \"model\" the list before):\n{}  ",
        lines.concat()
    )
}
