//! Random lists of calls: some near document 01's cases, some at the ends of every range, some out of it.

use crate::call::Call;
use crate::cells::random_slice;
use crate::check::Case;
use crate::entry::Entry;
use crate::model::allocation::{Gathered, Sums};
use crate::model::ranges::{call_in_range, capacity};
use crate::model::slice::{sum_over, WORDS};
use crate::model::words::{reading_word, registration_word};
use crate::model::{Book, Running};
use crate::profile::{random_number, Profile};
use crate::random::Random;
use cepnhoy::{Reading, Registration};

/// A call for a book with these meters, often at or past the end of a range.
pub fn random_call_on(mpans: &[u64], entry: Entry, random: &mut Random) -> Call {
    let mut profile = Profile::random(mpans.to_vec(), random);
    profile.mpans.extend(random_mpans(2, random));
    profile.edge_percent = 25;
    profile.spoiled_percent = 25;
    profile.call(entry, random)
}

/// Different MPANs: some at the ends of the range, some side by side, some anywhere.
pub fn random_mpans(count: usize, random: &mut Random) -> Vec<u64> {
    let (least, most) = (1_000_000_000_000, 9_999_999_999_999);
    let start = random.between(least, most - 1_000);
    let mut mpans = Vec::with_capacity(count);
    while mpans.len() < count {
        let mpan = match random.index(8) {
            0 => *random.pick(&[least, least + 1, most - 1, most]),
            1..=3 => start + random.below(1_000),
            _ => random.between(least, most),
        };
        if !mpans.contains(&mpan) {
            mpans.push(mpan);
        }
    }
    mpans
}

/// The words of a row slice: nothing is promised of them. They are random, or the rows of an earlier half hour.
fn random_rows(words: usize, random: &mut Random) -> Vec<u64> {
    match random.index(4) {
        0 => vec![0; words],
        1 => stale_rows(words, random),
        _ => random.words(words),
    }
}

/// Rows in order that a well-formed book could have, so that a call which looks past the last used row is misled.
fn stale_rows(words: usize, random: &mut Random) -> Vec<u64> {
    let mut mpan = random.between(1_000_000_000_000, 9_000_000_000_000);
    let mut rows = Vec::with_capacity(words + 2);
    while rows.len() < words {
        mpan += random.between(1, 1_000);
        let registration = Registration {
            segment: 1,
            direction: 0,
            status: 2,
            base: random.below(32),
            flag: 0,
            additional: 0,
            category: random.below(64),
            llf: 1_000,
            network: random_number(63, random),
            tariff: random_number(1_023, random),
        };
        let reading = Reading { issue: random.between(1, 4_294_967_295), quality: 0, consumption: 100 };
        rows.extend([mpan, registration_word(&registration), reading_word(&reading)]);
    }
    rows.truncate(words);
    rows
}

fn random_row_words(random: &mut Random) -> usize {
    match random.index(20) {
        0 => random.index(9),
        1..=12 => random.index(40),
        13..=18 => random.index(130),
        _ => random.index(400),
    }
}

/// How many words a random volume slice has: mostly enough.
pub fn random_volume_words(random: &mut Random) -> usize {
    match random.percent(85) {
        true => random.between(32, 40) as usize,
        false => random.index(41),
    }
}

/// A random list of calls, most of them ending in an allocation that is accepted.
pub fn random_case(random: &mut Random) -> Case {
    let row_words = random_row_words(random);
    let rows = random_rows(row_words, random);
    let cells = random_slice(random);
    let room = capacity(row_words);
    let mpan_count = 1 + random.index(room + room / 4 + 2);
    let profile = Profile::random(random_mpans(mpan_count, random), random);
    let mut calls = random_list(&profile, random);
    if random.percent(90) {
        aim_take(&rows, &cells, &mut calls, random);
    }
    for _ in 0..random.index(3) {
        calls.push(profile.any_call(15, random));
    }
    let volume_words = random_volume_words(random);
    Case { rows, cells, calls, volumes: random.signed_words(volume_words), seed: random.word() }
}

fn random_list(profile: &Profile, random: &mut Random) -> Vec<Call> {
    let count = profile.mpans.len() * (1 + random.index(5)) + random.index(12);
    // Registrations thin out along the list, so that most readings find their meter.
    let mut calls: Vec<Call> =
        (0..count).map(|place| profile.any_call(60 - (50 * place / count) as u64, random)).collect();
    aim_readings(&mut calls, random);
    let mut setting_calls = profile.weight_calls(random);
    if random.percent(80) {
        setting_calls.extend(profile.shape_calls(0, random));
    }
    // Anywhere in the list, though mostly at its start, so that little comes before a setting is made.
    for call in setting_calls {
        let place = match random.percent(70) {
            true => 0,
            false => random.index(calls.len() + 1),
        };
        calls.insert(place, call);
    }
    calls
}

/// Gives most readings that are too early for their meter to one that was registered before them.
fn aim_readings(calls: &mut [Call], random: &mut Random) {
    let mut registered = Vec::new();
    for call in calls {
        match call {
            Call::Register { mpan, .. } => registered.push(*mpan),
            Call::Reading { mpan, .. } => {
                let early = !registered.contains(mpan);
                if early && !registered.is_empty() && random.percent(70) {
                    *mpan = *random.pick(&registered);
                }
            }
            _ => {}
        }
    }
}

/// The slice within its limits that calls leave if none of them is refused for it: its words, with what the meters come to added.
fn added_up(cells: &[i64], book: &Book) -> Vec<i64> {
    let sums = sum_over(&book.contents());
    cells.iter().zip(sums).map(|(word, sum)| word + i64::try_from(sum).expect("what meters come to fits")).collect()
}

/// A Take that the tolerance just allows, just refuses, or allows amply, for a book with these cells; none if it isn't in range.
pub fn aimed_take(book: &Book, gathered: Gathered, random: &mut Random) -> Option<Call> {
    let contents = book.contents();
    let sums = Sums::of(gathered, &contents.weights);
    let most = (i128::from(contents.tolerance) * sums.weighted.max(0) / 1_000_000) as i64;
    let within = random.between_signed(-most, most);
    let unallocated = *random.pick(&[0, 1, -1, most, most + 1, -most, -most - 1, within, within]);
    let call = Call::Take { wh: i64::try_from(sums.net_wh + i128::from(unallocated)).ok()? };
    call_in_range(&call).then_some(call)
}

/// Adds a Take that is aimed at what the calls come to.
fn aim_take(rows: &[u64], cells: &[i64], calls: &mut Vec<Call>, random: &mut Random) {
    if Running::cause_of_cells(cells).is_some() {
        return;
    }
    let mut book = Book::fresh(rows.to_vec());
    for call in calls.iter() {
        book.make(call);
    }
    let gathered = Gathered::of_slice(&added_up(cells, &book), &book.contents().shapes);
    if let Some(call) = aimed_take(&book, gathered, random) {
        // Earlier than at the end, another Take may come after it, and allocations on the way find one set.
        let place = match random.percent(30) {
            true => calls.len(),
            false => random.index(calls.len() + 1),
        };
        calls.insert(place, call);
    }
}

/// Calls for so many meters in the order in which a period file has them: Take, tolerance, weights, shapes, meters, readings.
pub fn random_calls_in_order(meters: usize, random: &mut Random) -> Vec<Call> {
    let profile = Profile::random(random_mpans(meters + 1, random), random);
    let mut calls = Vec::new();
    if random.percent(40) {
        calls.push(profile.call(Entry::Tolerance, random));
    }
    calls.extend(profile.weight_calls(random));
    add_calls(&mut calls, &profile, Entry::Weight, 3, random);
    calls.extend(profile.shape_calls(5, random));
    add_calls(&mut calls, &profile, Entry::Shape, 3, random);
    for &mpan in &profile.mpans[..meters] {
        let registration = profile.registration(random);
        calls.push(Call::Register { mpan, registration });
    }
    add_calls(&mut calls, &profile, Entry::Register, 3, random);
    add_calls(&mut calls, &profile, Entry::Reading, 3 * meters, random);
    // The Take is aimed at what the others come to, and stands first.
    if random.percent(90) {
        aim_take(&[0; 3 * 512], &[0; WORDS], &mut calls, random);
        calls.sort_by_key(|call| !matches!(call, Call::Take { .. }));
    }
    calls
}

/// Adds up to so many random calls of one kind.
fn add_calls(calls: &mut Vec<Call>, profile: &Profile, entry: Entry, most: usize, random: &mut Random) {
    for _ in 0..random.index(most + 1) {
        calls.push(profile.call(entry, random));
    }
}
