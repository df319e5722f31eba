//! Slices aimed at one call, so that it just meets a limit or just passes it.

use super::cells_in_words;
use super::fill::lengthened;
use super::limits::{Kind, Limit};
use super::observe::{note_behind, note_limits};
use super::reach::Way;
use crate::books::random_mpans;
use crate::call::Call;
use crate::check::{check_listed, check_single};
use crate::compare::{at, Checked};
use crate::entry::Entry;
use crate::lent::Lent;
use crate::model::book::Meter;
use crate::model::ranges::capacity;
use crate::model::slice::{within_limits, CELLS, NUMBER_MOST, SIZES_MOST, WORDS};
use crate::model::{Book, Running};
use crate::profile::Profile;
use crate::random::Random;
use crate::reach::Reach;
use cepnhoy::{Reading, Registration, ROW_WORDS};

/// How often a call is drawn until one meets the limit wanted.
const TRIES: usize = 6;

/// A call of each kind that changes cells, with a slice that is aimed at it.
pub fn check_aimed(book: &Book, random: &mut Random, reach: &mut Reach) -> Checked {
    for &kind in Kind::ALL {
        let limit = *random.pick(kind.limits());
        let passed = random.percent(50);
        let book = match kind {
            Kind::NewMeter => roomy(book, random),
            _ => book.clone(),
        };
        let aimed = (0..TRIES).find_map(|_| aimed_call(&book, kind, limit, passed, random));
        if let Some((running, call)) = aimed {
            let place = || format!("{call} on {}", cells_in_words(&running.cells));
            at(place, check_one(&running, &call, random, reach))?;
        }
    }
    Ok(())
}

fn check_one(running: &Running, call: &Call, random: &mut Random, reach: &mut Reach) -> Checked {
    let entry = Entry::single(call).expect("the call has an entry point");
    check_single(&mut Lent::of(running), &mut running.clone(), entry, call, reach)?;
    check_in_list(running, call, random, reach)?;
    check_behind(running, call, random, reach)
}

/// The call in a list, with another before it and others behind.
fn check_in_list(running: &Running, call: &Call, random: &mut Random, reach: &mut Reach) -> Checked {
    let weight = Call::Weight { class: random.below(24), thousandths: random.below(1_001) };
    let mut calls = vec![weight, *call, weight];
    let profile = Profile::random(with_others(running.book.mpans(), random), random);
    calls.extend((0..random.index(4)).map(|_| profile.any_call(30, random)));
    let mut after = running.clone();
    let mut numbers = Vec::new();
    for call in &calls {
        let before = after.book.clone();
        let attempt = after.attempt(call);
        numbers.push(attempt.number());
        note_limits(reach, Way::Listed, &before, call, &attempt);
    }
    let lines: Vec<String> = calls.iter().map(|call| format!("    {call}\n")).collect();
    let outcome = check_listed(&mut Lent::of(running), &calls, &numbers, Some(&after), random, reach);
    at(|| format!("in the list\n{}  ", lines.concat()), outcome)
}

/// The call with another cause to refuse it, which is looked at before the limits.
fn check_behind(running: &Running, call: &Call, random: &mut Random, reach: &mut Reach) -> Checked {
    let (running, call) = spoiled(running, call, random);
    let entry = Entry::single(&call).expect("the call has an entry point");
    note_behind(reach, &running, &call);
    at(|| format!("as {call}"), check_single(&mut Lent::of(&running), &mut running.clone(), entry, &call, reach))
}

fn spoiled(running: &Running, call: &Call, random: &mut Random) -> (Running, Call) {
    let mut running = running.clone();
    let mut call = *call;
    match &mut call {
        Call::Register { mpan, registration } => {
            if running.book.meter(*mpan).is_none() && random.percent(60) {
                running.book = full(&running.book);
            } else {
                registration.network = 64;
            }
        }
        Call::Reading { mpan, reading } => {
            let held = running.book.meter(*mpan).and_then(Meter::reading_in_force);
            match (held, random.index(3)) {
                (Some(held), 0) => reading.issue = held.issue,
                (_, 1) => reading.quality = 14,
                _ => reading.consumption = 10_000_001,
            }
        }
        Call::Shape { wh, .. } => *wh = 10_000_001,
        _ => {}
    }
    (running, call)
}

/// The book on a slice that has no room for another meter.
fn full(book: &Book) -> Book {
    let (settings, rows) = (book.settings(), book.words());
    Book::read(&settings, &rows[..ROW_WORDS * settings.meters]).expect("a shorter slice leaves it well formed")
}

/// The book on a slice with room for a few meters more.
fn roomy(book: &Book, random: &mut Random) -> Book {
    let (settings, mut rows) = (book.settings(), book.words());
    if settings.meters == capacity(rows.len()) {
        rows.extend(random.words(2 * ROW_WORDS));
    }
    Book::read(&settings, &rows).expect("a longer slice leaves it well formed")
}

fn with_others(mut mpans: Vec<u64>, random: &mut Random) -> Vec<u64> {
    mpans.extend(random_mpans(2, random));
    mpans
}

/// A call that nothing but a limit refuses, and a slice that it brings to the limit, or one past.
fn aimed_call(book: &Book, kind: Kind, limit: Limit, passed: bool, random: &mut Random) -> Option<(Running, Call)> {
    let call = drawn_call(book, kind, random)?;
    if !book.causes(&call).is_empty() {
        return None;
    }
    let by = Running::of(book.clone()).change(&call)?.by;
    let cells = aimed_slice(&by, limit, passed, random)?;
    Some((Running { book: book.clone(), cells: lengthened(cells, random) }, call))
}

fn drawn_call(book: &Book, kind: Kind, random: &mut Random) -> Option<Call> {
    let profile = Profile::random(with_others(book.mpans(), random), random);
    let energised = |r: Registration| Registration { status: 2, ..r };
    let mut registration = profile.registration(random);
    if random.percent(50) {
        registration = energised(registration);
    }
    let mpans = book.mpans();
    let known = (!mpans.is_empty()).then(|| *random.pick(&mpans));
    match kind {
        Kind::NewMeter => {
            let mpan = random_mpans(1, random)[0];
            book.meter(mpan).is_none().then_some(Call::Register { mpan, registration })
        }
        Kind::KnownMeter => Some(Call::Register { mpan: known?, registration }),
        Kind::Reading => Some(reading_of(book, known?, &profile, random)),
        Kind::Shape => Some(Call::Shape { category: category_of(book, random), wh: profile.shape_wh(15, random) }),
    }
}

/// A reading above the one held.
fn reading_of(book: &Book, mpan: u64, profile: &Profile, random: &mut Random) -> Call {
    let held = book.meter(mpan).and_then(Meter::reading_in_force).map_or(0, |held| held.issue);
    Call::Reading { mpan, reading: Reading { issue: held + 1, ..profile.reading(random) } }
}

/// The category of a meter that waits, if there is one.
fn category_of(book: &Book, random: &mut Random) -> u64 {
    let contents = book.contents();
    let waiting =
        contents.meters.iter().filter(|(registration, reading)| registration.status == 2 && reading.is_none());
    let categories: Vec<u64> = waiting.map(|(registration, _)| registration.category).collect();
    match categories.is_empty() {
        true => random.below(64),
        false => *random.pick(&categories),
    }
}

/// A slice within its limits that this change brings just to one of them, or one past it; none if the change cannot.
fn aimed_slice(by: &[i128], limit: Limit, passed: bool, random: &mut Random) -> Option<Vec<i64>> {
    let mut before = base_slice(by, random);
    let past = i128::from(passed);
    match limit {
        Limit::Sizes => aim_sizes(&mut before, by, SIZES_MOST + past, random)?,
        Limit::CountMost | Limit::WaitingMost => {
            let place = place_changed(by, limit, 1, random)?;
            before[place] = NUMBER_MOST - by[place] + past;
        }
        Limit::CountLeast | Limit::WaitingLeast => {
            let place = place_changed(by, limit, -1, random)?;
            before[place] = -by[place] - past;
        }
    }
    let after: Vec<i128> = before.iter().zip(by).map(|(word, by)| word + by).collect();
    let as_wanted = within_limits(&before) && within_limits(&after) != passed;
    as_wanted.then(|| before.iter().map(|word| i64::try_from(*word).expect("a word within its limits fits")).collect())
}

/// A place of the limit's numbers that the change moves in this direction.
fn place_changed(by: &[i128], limit: Limit, direction: i128, random: &mut Random) -> Option<usize> {
    let places: Vec<usize> = limit.places().filter(|place| by[*place].signum() == direction).collect();
    (!places.is_empty()).then(|| *random.pick(&places))
}

/// A slice to start from: cells small or 0, also where the change falls, and numbers that no change takes past a limit.
fn base_slice(by: &[i128], random: &mut Random) -> Vec<i128> {
    let mut words = vec![0; WORDS];
    for _ in 0..random.index(6) {
        words[random.index(CELLS)] = i128::from(random.between_signed(-1_000_000, 1_000_000));
    }
    for place in (0..CELLS).filter(|place| by[*place] != 0) {
        // Sizes fall where a cell is taken back to 0 or toward it.
        words[place] = *random.pick(&[0, 0, -by[place], -by[place] / 2, 3]);
    }
    for word in &mut words[CELLS..] {
        *word = i128::from(random.between(1_000, 2_000));
    }
    words
}

/// Puts what lacks to this total into a cell that the change moves away from 0, or into any other.
fn aim_sizes(before: &mut [i128], by: &[i128], total: i128, random: &mut Random) -> Option<()> {
    let changed: Vec<usize> = (0..CELLS).filter(|place| by[*place] != 0).collect();
    if changed.is_empty() {
        return None;
    }
    let place = match random.percent(70) {
        true => *random.pick(&changed),
        false => random.index(CELLS),
    };
    before[place] = 0;
    let others: i128 = (0..CELLS).filter(|other| *other != place).map(|other| (before[other] + by[other]).abs()).sum();
    let sign = if by[place] < 0 { -1 } else { 1 };
    before[place] = sign * (total - others) - by[place];
    Some(())
}
