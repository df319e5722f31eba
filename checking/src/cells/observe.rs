//! Which situations a call met with its slice of running cells, seen from the second method's side.

use super::limits::{just_met, just_passed, Kind};
use super::reach::Way;
use crate::call::Call;
use crate::model::allocation::{Allocation, Workings};
use crate::model::book::{shape_held, Meter};
use crate::model::cells::{cell_of, energies_of, energy_of, is_loss, unit_of, Contents, Energy};
use crate::model::running::Attempt;
use crate::model::slice::{
    cells_in, counts_in, numbers_outside, sizes, sum_over, waiting_in, within_limits, CELLS, NUMBER_MOST, SIZES_MOST,
    WAITING, WORDS,
};
use crate::model::{Book, Running};
use crate::observe::note_shares;
use crate::reach::Reach;
use crate::situation::Situation;
use cepnhoy::CATEGORIES;

/// Notes a single call on a well-formed book, with whatever slice it was lent.
pub fn note_kept(reach: &mut Reach, before: &Running, call: &Call, after: &Running, attempt: &Attempt) {
    note_lent(reach, &before.cells, attempt.number());
    note_limits(reach, Way::Alone, &before.book, call, attempt);
    if attempt.number() != 0 {
        return;
    }
    match call {
        Call::Register { mpan, .. } => note_registered(reach, before, after, *mpan),
        Call::Reading { mpan, .. } => note_read(reach, before, after, *mpan),
        Call::Shape { category, wh } => note_shape(reach, &before.book, *category, shape_held(*wh)),
        _ => reach.note_if(Situation::SettingBesideFilled, !before.is_sum()),
    }
}

/// Notes the slice of a call: its length, and which limit it passes by itself.
pub fn note_lent(reach: &mut Reach, cells: &[i64], number: u64) {
    reach.cells.note_length(cells.len());
    if cells.len() < WORDS {
        return;
    }
    reach.note_if(Situation::CellsWords836, number == 0 && cells.len() == WORDS);
    reach.note_if(Situation::CellsWords837, number == 0 && cells.len() == WORDS + 1);
    reach.note_if(Situation::CellsLonger, number == 0 && cells.len() > WORDS + 100);
    let total = sizes(cells);
    let outside = numbers_outside(cells);
    reach.note_if(Situation::SizesMost, number == 0 && total == SIZES_MOST);
    reach.note_if(Situation::SizesPast, total == SIZES_MOST + 1 && outside.is_empty());
    let in_64_bits = total as u64;
    reach.note_if(Situation::SizesWrapped, total > u64::MAX.into() && i128::from(in_64_bits) <= SIZES_MOST);
    reach.note_if(Situation::CellLeast, cells[..CELLS].contains(&i64::MIN));
    if let ([place], true) = (&outside[..], total <= SIZES_MOST) {
        let number = i128::from(cells[*place]);
        let situation = match (*place < WAITING, number) {
            (true, -1) => Situation::CountBelow,
            (false, -1) => Situation::WaitingBelow,
            (true, _) => Situation::CountPast,
            (false, _) => Situation::WaitingPast,
        };
        reach.note_if(situation, number == -1 || number == NUMBER_MOST + 1);
    }
}

/// Notes the limits that a call just meets or passes, where nothing else refuses it.
pub fn note_limits(reach: &mut Reach, way: Way, before: &Book, call: &Call, attempt: &Attempt) {
    let (Some(kind), Some(change)) = (Kind::of(before, call), &attempt.change) else {
        return;
    };
    if attempt.number() == 0 {
        just_met(change).into_iter().for_each(|limit| reach.cells.note_limit(way, kind, limit, false));
        let moved = change.by[..CELLS].iter().any(|by| *by != 0);
        let at_most = |words: &[i128]| sizes(words) == SIZES_MOST;
        reach.note_if(Situation::MovedAtMost, moved && at_most(&change.before) && at_most(&change.after));
    } else if let Some(limit) = just_passed(change) {
        reach.cells.note_limit(way, kind, limit, true);
    }
}

/// Notes a call with another cause that would also pass a limit: the other cause is given.
pub fn note_behind(reach: &mut Reach, running: &Running, call: &Call) {
    let passes = running.is_formed() && running.change(call).is_some_and(|change| !within_limits(&change.after));
    let situation = match running.book.causes(call).first() {
        Some(2) => Situation::LimitBehind2,
        Some(3) => Situation::LimitBehind3,
        Some(5) => Situation::LimitBehind5,
        Some(6) => Situation::LimitBehind6,
        _ => return,
    };
    reach.note_if(situation, passes);
}

fn energy_in(book: &Book, meter: &Meter) -> Energy {
    let shapes: [Option<u64>; CATEGORIES] = std::array::from_fn(|category| book.shape(category as u64));
    energy_of(&meter.registration, meter.reading_in_force(), &shapes)
}

fn is_default(energy: Energy) -> bool {
    matches!(energy, Energy::Defaulted(_))
}

/// Notes what another registration of a known meter changed.
fn note_registered(reach: &mut Reach, before: &Running, after: &Running, mpan: u64) {
    let new = after.book.meter(mpan).expect("it was registered");
    let is = energy_in(&after.book, new);
    let Some(old) = before.book.meter(mpan) else {
        reach.note_if(Situation::NewMeterWaits, is_default(is));
        return;
    };
    let was = energy_in(&before.book, old);
    let (from, to) = (cell_of(&old.registration, was), cell_of(&new.registration, is));
    if let (Some((old_unit, old_class, wh)), Some((new_unit, new_class, _))) = (from, to) {
        reach.note_if(Situation::UnitMoved, wh > 0 && old_unit != new_unit);
        reach.note_if(Situation::ClassMoved, wh > 0 && old_class != new_class);
        let same_cell = (old_unit, old_class) == (new_unit, new_class);
        reach.note_if(Situation::LossesMoved, wh > 0 && same_cell && old.registration.llf != new.registration.llf);
    }
    let category_moved = old.registration.category != new.registration.category;
    match (was, is) {
        (Energy::Defaulted(_), Energy::Idle) => reach.note(Situation::WaitingStopped),
        (Energy::Idle, Energy::Defaulted(_)) => reach.note(Situation::WaitingStarted),
        (Energy::Defaulted(x), Energy::Defaulted(y)) => {
            reach.note_if(Situation::WaitingMoved, category_moved && x != y);
        }
        (Energy::Actual(_) | Energy::Estimated(_), Energy::Idle) => reach.note(Situation::ReadingDropped),
        (Energy::Idle, Energy::Actual(_) | Energy::Estimated(_)) => reach.note(Situation::ReadingTakenUp),
        _ => {}
    }
}

/// Notes what a reading changed.
fn note_read(reach: &mut Reach, before: &Running, after: &Running, mpan: u64) {
    let energy = |running: &Running| energy_in(&running.book, running.book.meter(mpan).expect("the meter is known"));
    match (energy(before), energy(after)) {
        (Energy::Defaulted(None), _) => reach.note(Situation::FirstReadingWithoutShape),
        (Energy::Defaulted(Some(_)), _) => reach.note(Situation::FirstReading),
        (Energy::Actual(_), Energy::Estimated(_)) => reach.note(Situation::ActualToEstimated),
        (Energy::Estimated(_), Energy::Actual(_)) => reach.note(Situation::EstimatedToActual),
        (Energy::Idle, Energy::Idle) => reach.note(Situation::ReadingWithoutChange),
        _ => {}
    }
}

/// How many meters of a category wait, and of how many units.
fn waiting_meters(contents: &Contents, category: u64) -> (usize, usize) {
    let meters = contents.meters.iter().zip(energies_of(contents));
    let waiting = meters.filter(|((r, _), energy)| r.category == category && is_default(*energy));
    let mut units: Vec<usize> = waiting.map(|((r, _), _)| unit_of(r)).collect();
    let count = units.len();
    units.sort_unstable();
    units.dedup();
    (count, units.len())
}

/// Notes what another shape changed.
fn note_shape(reach: &mut Reach, before: &Book, category: u64, shape: Option<u64>) {
    let (meters, units) = waiting_meters(&before.contents(), category);
    let changed = before.shape(category).unwrap_or(0) != shape.unwrap_or(0);
    reach.note_if(Situation::ShapeForNone, meters == 0 && changed);
    reach.note_if(Situation::ShapeForOne, meters == 1 && changed);
    reach.note_if(Situation::ShapeForSeveral, units > 1 && changed);
    reach.note_if(Situation::ShapeFirstForWaiting, meters > 0 && changed && before.shape(category).is_none());
    reach.note_if(Situation::ShapeMissingForWaiting, meters > 0 && changed && shape.is_none());
}

/// Notes the numbers of a list by its slice.
pub fn note_listed_cells(reach: &mut Reach, cells: &[i64], numbers: &[u64]) {
    match Running::cause_of_cells(cells) {
        Some(13) => reach.note_if(Situation::ListShort, numbers.len() > 1),
        Some(_) => reach.note_if(Situation::ListPastLimit, numbers.len() > 1),
        None => {
            let refused = numbers.iter().position(|number| *number == 1);
            let went_on = refused.is_some_and(|place| numbers[place..].contains(&0));
            reach.note_if(Situation::ListWentOn, went_on);
        }
    }
}

/// Notes an allocation of a slice within its limits that isn't what the meters come to.
pub fn note_filled(reach: &mut Reach, running: &Running, allocation: &Allocation) {
    let contents = running.book.contents();
    let rows = sum_over(&contents);
    let lacks_by_rows = energies_of(&contents).contains(&Energy::Defaulted(None));
    let number = allocation.answer.number;
    let nobody_waits = rows[WAITING..].iter().all(|meters| *meters == 0);
    reach.note_if(Situation::FilledNineAlone, number == 9 && nobody_waits);
    if let (Some(sums), Some(workings)) = (&allocation.sums, &allocation.workings) {
        reach.note_if(Situation::FilledNoNine, lacks_by_rows);
        note_filled_cells(reach, running, workings);
        note_filled_numbers(reach, running, &contents);
        note_shares(reach, sums, workings);
        reach.note_if(Situation::FilledRowsEmpty, contents.meters.is_empty());
    }
}

fn note_filled_cells(reach: &mut Reach, running: &Running, workings: &Workings) {
    let cells = cells_in(&running.cells);
    for (_, &cell) in cells.iter().filter(|((_, class), _)| !is_loss(*class)) {
        match (cell.signum(), cell.abs() % 1_000) {
            (1, 499) => reach.note(Situation::EnergyBeforeHalfAbove),
            (1, 500) => reach.note(Situation::EnergyHalfAbove),
            (1, 501) => reach.note(Situation::EnergyPastHalfAbove),
            (-1, 499) => reach.note(Situation::EnergyBeforeHalfBelow),
            (-1, 500) => reach.note(Situation::EnergyHalfBelow),
            (-1, 501) => reach.note(Situation::EnergyPastHalfBelow),
            _ => {}
        }
    }
    let total: i128 = cells.values().map(|cell| cell.abs()).sum();
    reach.note_if(Situation::FilledSizesMost, total == SIZES_MOST);
    reach.note_if(Situation::FilledOneCellMost, total == SIZES_MOST && cells.len() == 1);
    reach.note_if(Situation::FilledAllCells, cells.len() == CELLS);
    reach.note_if(Situation::FilledUnallocated, workings.unallocated != 0);
    let later = running.cells[WORDS..].iter();
    reach.note_if(Situation::FilledLaterWords, later.clone().any(|word| i128::from(word.unsigned_abs()) > SIZES_MOST));
}

fn note_filled_numbers(reach: &mut Reach, running: &Running, contents: &Contents) {
    let counts = counts_in(&running.cells);
    reach.note_if(Situation::FilledCountMost, counts.iter().any(|count| i128::from(*count) == NUMBER_MOST));
    reach.note_if(Situation::FilledCountsOther, counts.iter().sum::<u64>() != contents.meters.len() as u64);
    let waiting = waiting_in(&running.cells).any(|meters| meters > 0);
    reach.note_if(Situation::FilledWaiting, waiting);
}
