//! Large books made as one list, with meters in any order: at the limit of 65,536 meters, and about as large as the part in which
//! the library gathers a list's new rows before it merges them.

use crate::call::Call;
use crate::check::{check_allocation, check_call, check_lists, Case, Expected};
use crate::compare::{at, Checked};
use crate::droppings::check_reconciled;
use crate::lent::Lent;
use crate::model::ranges::METERS_MOST;
use crate::model::slice::{sizes, SIZES_MOST, WORDS};
use crate::model::Running;
use crate::moved::check_moved;
use crate::random::Random;
use crate::reach::Reach;
use crate::situation::Situation;
use crate::totals::{check_sums, check_totals, random_asked};
use cepnhoy::{Reading, Registration, CLASSES, ROW_WORDS, SHAPE_MISSING};

/// How many new rows the library gathers before it merges them (`two_parts::LATER_MAX`).
const GATHERED_MOST: usize = 512;

/// What all meters of a large book have in common.
#[derive(Clone, Copy)]
enum Load {
    /// Every number as large as it can be, so that U × a passes 10^27.
    Most,
    Mixed,
}

fn registration(load: Load, random: &mut Random) -> Registration {
    match load {
        Load::Most => Registration {
            segment: 1,
            direction: 0,
            status: 2,
            // Few meters beside unit 7, whose product is the largest.
            base: if random.percent(99) { 7 } else { random.below(32) },
            flag: 0,
            additional: 0,
            category: random.below(64),
            llf: 2_000,
            // One total of nearly all energy, which passes 32 bits.
            network: 63,
            tariff: if random.percent(99) { 1_023 } else { random.below(1_024) },
        },
        Load::Mixed => Registration {
            segment: random.below(3),
            direction: random.below(2),
            status: random.between(1, 2),
            base: random.below(32),
            flag: 0,
            additional: 0,
            category: random.below(64),
            llf: random.between(500, 2_000),
            // On four networks, so that every tariff of each has meters where there are many.
            network: *random.pick(&[0, 1, 62, 63]),
            tariff: random.below(1_024),
        },
    }
}

fn reading(load: Load, random: &mut Random) -> Reading {
    Reading {
        issue: random.between(1, 4_294_967_295),
        quality: random.below(14),
        consumption: match load {
            Load::Most => 10_000_000,
            Load::Mixed => random.below(10_000_001),
        },
    }
}

/// In any order; each with a few different from the next, so that new ones fit between.
fn mpans(count: usize, random: &mut Random) -> Vec<u64> {
    let mut mpan = 1_000_000_000_000;
    let mut mpans = Vec::with_capacity(count);
    for _ in 0..count {
        mpan += random.between(2, 100_000_000);
        mpans.push(mpan);
    }
    random.shuffle(&mut mpans);
    mpans
}

/// The most that a shape may be, for every category.
fn first_shapes() -> impl Iterator<Item = Call> {
    (0..64).map(|category| Call::Shape { category, wh: 10_000_000 })
}

/// Puts shapes between the other calls, while meters wait in either part of the rows, and the first ones again at the end.
fn add_shapes(calls: &mut Vec<Call>, random: &mut Random) {
    for _ in 0..8 {
        let any = random.below(10_000_001);
        let call = Call::Shape { category: random.below(64), wh: *random.pick(&[any, any, SHAPE_MISSING]) };
        let place = random.index(calls.len() + 1);
        calls.insert(place, call);
    }
    calls.extend(first_shapes());
}

/// The categories in which the meters of the first and the last row wait.
const ENDS: [u64; 2] = [0, 63];

/// Another shape for the meters of the first and the last row.
fn shapes_of_ends(random: &mut Random) -> Vec<Call> {
    ENDS.map(|category| Call::Shape { category, wh: random.below(10_000_000) }).to_vec()
}

/// The meters of the first and the last row wait for a reading at the end, so that a shape call shows that leaves out a row at either
/// end: no reading of theirs stays in the list, and they are registered once more.
fn add_waiting(calls: &mut Vec<Call>, mpans: &[u64], load: Load, random: &mut Random) {
    let ends = [mpans.iter().min(), mpans.iter().max()].map(|mpan| *mpan.expect("a large book has meters"));
    calls.retain(|call| !matches!(call, Call::Reading { mpan, .. } if ends.contains(mpan)));
    for (mpan, category) in ends.into_iter().zip(ENDS) {
        let registration = Registration { status: 2, category, ..registration(load, random) };
        calls.push(Call::Register { mpan, registration });
    }
}

/// One meter more than there is room for, most with readings, and a few late or repeated ones.
fn large_case(row_words: usize, load: Load, random: &mut Random) -> Case {
    let room = (row_words / ROW_WORDS).min(METERS_MOST);
    let mpans = mpans(room + 1, random);
    let mut calls: Vec<Call> = (0..CLASSES as u64)
        .map(|class| Call::Weight {
            class,
            thousandths: match load {
                Load::Most => 1_000,
                Load::Mixed => random.between(1, 1_000),
            },
        })
        .collect();
    calls.extend(first_shapes());
    calls.extend(mpans.iter().map(|&mpan| Call::Register { mpan, registration: registration(load, random) }));
    for _ in 0..room + room / 8 {
        calls.push(Call::Reading { mpan: *random.pick(&mpans), reading: reading(load, random) });
    }
    add_waiting(&mut calls, &mpans[..room], load, random);
    add_shapes(&mut calls, random);
    if let Load::Mixed = load {
        // Not of a book with the most energy, whose sizes are to end at their limit.
        calls.extend(shapes_of_ends(random));
    }
    // With every weight at 1,000 the tolerance allows U from -n to n, so that any Take from 0 on is accepted.
    calls.push(Call::Take { wh: random.between_signed(0, 5_000_000_000) });
    let mut cells = vec![0; WORDS];
    cells.extend(random.signed_words(3));
    Case { rows: random.words(row_words), cells, calls, volumes: random.signed_words(33), seed: random.word() }
}

/// Full books: one as large as a book can be, in a slice that just fits it and in a longer one, and one that is a meter smaller; and
/// books that fill the part of new rows, just miss it, pass it by one, and fill it several times.
pub fn large_cases(random: &mut Random) -> Vec<Case> {
    let most = ROW_WORDS * METERS_MOST;
    let longer = most + 1 + random.index(9);
    let part = ROW_WORDS * GATHERED_MOST;
    let mut sizes = vec![(most - 1, Load::Mixed), (most, Load::Mixed), (longer, Load::Most)];
    for row_words in [part - ROW_WORDS, part, part + ROW_WORDS, 2 * part, 2 * part + ROW_WORDS, 7 * part + 1] {
        sizes.push((row_words, Load::Mixed));
    }
    sizes.into_iter().map(|(row_words, load)| large_case(row_words, load, random)).collect()
}

/// Checks a case made as one list, and with its readings moved; then some of its calls again, one by one, on the book reached.
pub fn check_large(case: &Case, reach: &mut Reach) -> Checked {
    let expected = Expected::at_once(case);
    note_capacity(reach, &expected, case.rows.len());
    note_sizes(reach, &expected.running);
    note_shapes(reach, &case.calls);
    check_lists(case, &expected, reach)?;
    check_moved(case, reach)?;
    check_reconciled(&expected.running.book, reach)?;
    check_calls_again(case, expected.running, reach)
}

/// A full book with the most energy and the most losses stands at the limit of the sizes.
fn note_sizes(reach: &mut Reach, running: &Running) {
    reach.note_if(Situation::SizesMostByCalls, sizes(&running.cells) == SIZES_MOST);
}

/// Notes a shape among the registrations, when new rows have been merged and others have not.
fn note_shapes(reach: &mut Reach, calls: &[Call]) {
    let mut registered = 0;
    for (call, next) in calls.iter().zip(calls.iter().skip(1)) {
        registered += usize::from(matches!(call, Call::Register { .. }));
        let between = matches!((call, next), (Call::Shape { .. }, Call::Register { .. }));
        reach.note_if(Situation::ShapeBehindMerge, between && registered > GATHERED_MOST);
    }
}

fn note_capacity(reach: &mut Reach, expected: &Expected, row_words: usize) {
    let most = ROW_WORDS * METERS_MOST;
    let met_no_room = expected.running.book.is_full() && expected.numbers.contains(&6);
    reach.note_if(Situation::CapacityJustBelowMost, met_no_room && row_words == most - 1);
    reach.note_if(Situation::CapacityMost, met_no_room && row_words == most);
    reach.note_if(Situation::SlicePastCapacity, met_no_room && row_words > most);
}

fn check_calls_again(case: &Case, mut running: Running, reach: &mut Reach) -> Checked {
    let random = &mut Random::part(case.seed, 7);
    let mut lent = Lent::of(&running);
    let mut calls: Vec<Call> = (0..case.calls.len().min(20)).map(|_| *random.pick(&case.calls)).collect();
    // Most meters that are without a reading wait in some category or other.
    calls.push(Call::Shape { category: random.below(64), wh: random.below(10_000_001) });
    calls.extend(shapes_of_ends(random));
    for call in &calls {
        let number = running.make(call);
        at(|| format!("after the list, {call}"), check_call(&mut lent, call, number, Some(&running)))?;
    }
    check_allocation(&mut lent, Some(&running), &case.volumes, reach)?;
    let book = &running.book;
    for _ in 0..8 {
        let asked = random_asked(&book.contents(), random);
        at(|| format!("{asked}"), check_totals(&mut lent, Some(book), &asked, random, reach))?;
    }
    check_sums(&mut lent, book, reach)
}
