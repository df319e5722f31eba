//! Which situations a call or an allocation met, seen from the second method's side.

use crate::call::Call;
use crate::cells::note_filled;
use crate::droppings::note_droppings;
use crate::model::allocation::{order_served, passes_tolerance, Allocation, Gathered, Sums, Workings};
use crate::model::book::shape_held;
use crate::model::cells::{cell_of, energies_of, is_loss, loss_thousandths, nearest_wh, Cells, Contents, Energy};
use crate::model::running::Attempt;
use crate::model::{Book, Running};
use crate::reach::Reach;
use crate::situation::Situation;
use cepnhoy::{Reading, Registration, UNITS};

/// Notes a call on a well-formed book, given the book before it.
pub fn note_call(reach: &mut Reach, before: &Running, call: &Call, attempt: &Attempt) {
    reach.note_causes(&attempt.causes);
    if !before.is_formed() {
        // The number says nothing of the arguments.
        return;
    }
    let (before, number) = (&before.book, attempt.number());
    reach.note_boundaries(&call.arguments());
    match *call {
        Call::Register { mpan, registration } => {
            let known = before.meter(mpan).is_some();
            reach.note_if(Situation::KnownMeterInFullBook, number == 0 && known && before.is_full());
            note_registration(reach, &registration, number);
        }
        Call::Reading { mpan, reading } => {
            note_reading(reach, before, mpan, &reading, number);
        }
        Call::Shape { category, wh } if number == 0 => {
            reach.note_if(Situation::ShapeBackToMissing, before.shape(category).is_some() && shape_held(wh).is_none())
        }
        _ => {}
    }
}

fn note_registration(reach: &mut Reach, r: &Registration, number: u64) {
    let additional = number == 0 && r.flag == 1 && r.additional != r.base;
    reach.note_if(Situation::AdditionalUnitUsed, additional);
    reach.note_if(Situation::AdditionalUnitZero, additional && r.additional == 0);
}

fn note_reading(reach: &mut Reach, before: &Book, mpan: u64, reading: &Reading, number: u64) {
    if let Some(held) = before.meter(mpan).and_then(|meter| meter.reading_in_force()) {
        let issue = reading.issue;
        reach.note_if(Situation::IssueBelowHeld, number == 5 && issue + 1 == held.issue);
        reach.note_if(Situation::IssueEqualHeld, number == 5 && issue == held.issue && reading != held);
        reach.note_if(Situation::IssueAboveHeld, number == 0 && issue == held.issue + 1);
    }
    let is_ze = (17..=20).contains(&reading.quality);
    reach.note_if(Situation::ZeWithoutEnergy, number == 0 && is_ze && reading.consumption == 0);
    reach.note_if(Situation::ZeWithEnergy, number == 3 && is_ze && reading.consumption == 1);
    reach.note_if(Situation::EstimateWithEnergy, number == 0 && reading.quality == 16 && reading.consumption > 0);
}

/// Notes what a whole list held: readings too early, and those for a meter that met a full book.
pub fn note_list(reach: &mut Reach, calls: &[Call], numbers: &[u64], book: &Book) {
    let mut early = Vec::new();
    let mut no_room = Vec::new();
    for (call, number) in calls.iter().zip(numbers) {
        match (call, number) {
            (Call::Reading { mpan, .. }, 4) => {
                reach.note_if(Situation::RefusedForRoomThenRead, no_room.contains(mpan));
                early.push(*mpan);
            }
            (Call::Register { mpan, .. }, 0) => {
                reach.note_if(Situation::EarlyReadingThenRegistered, early.contains(mpan));
            }
            (Call::Register { mpan, .. }, 6) => no_room.push(*mpan),
            _ => {}
        }
    }
    let words = book.words().len();
    reach.note_if(Situation::RowSliceEmpty, words == 0);
    reach.note_if(Situation::RowSliceOneOver, words > 1 && words % 3 == 1 && book.is_full());
    reach.note_if(Situation::RowSliceTwoOver, words > 2 && words % 3 == 2 && book.is_full());
}

/// Notes an allocation of a well-formed book, with whatever slice it was lent.
pub fn note_allocation(reach: &mut Reach, running: &Running, allocation: &Allocation, volume_words: usize) {
    let contents = &running.book.contents();
    reach.note_causes(&allocation_causes(running, contents, volume_words));
    if !running.is_formed() {
        return;
    }
    match volume_words {
        0 => reach.note(Situation::VolumeWords0),
        31 => reach.note(Situation::VolumeWords31),
        32 => reach.note(Situation::VolumeWords32),
        33 => reach.note(Situation::VolumeWords33),
        40 => reach.note(Situation::VolumeWords40),
        _ => {}
    }
    if !running.is_sum() {
        note_filled(reach, running, allocation);
        return;
    }
    if let Some(sums) = &allocation.sums {
        note_sums(reach, contents, sums, allocation.answer.number);
        note_droppings(reach, sums, allocation.answer.number);
    }
    if let (Some(sums), Some(workings)) = (&allocation.sums, &allocation.workings) {
        note_meters(reach, contents);
        note_losses(reach, contents, &sums.gathered.cells);
        note_shares(reach, sums, workings);
        note_take(reach, contents);
    }
}

/// All causes that apply to an allocation. Those from 9 on are of the slice; of one that is short or passes a limit, as if it were what
/// the meters come to.
fn allocation_causes(running: &Running, contents: &Contents, volume_words: usize) -> Vec<u64> {
    let first = Running::cause_of_cells(&running.cells);
    let gathered = match first {
        None => Gathered::of_slice(&running.cells, &contents.shapes),
        Some(_) => Gathered::of_meters(contents),
    };
    let sums = Sums::of(gathered, &contents.weights);
    let passes = |take_wh: i64| passes_tolerance(i128::from(take_wh) - sums.net_wh, sums.weighted, contents.tolerance);
    let causes = [
        (7, volume_words < UNITS),
        (8, contents.take_wh.is_none()),
        (9, sums.gathered.lacks_shape),
        (10, sums.weighted < 1),
        (11, sums.weighted >= 1 && contents.take_wh.is_some_and(passes)),
    ];
    let applying = causes.into_iter().filter(|(_, applies)| *applies);
    first.into_iter().chain(applying.map(|(number, _)| number)).collect()
}

/// Notes a call on a book that isn't well formed, as if it were well formed and empty, with the number given.
pub fn note_call_on_ill_formed(reach: &mut Reach, call: &Call, number: u64) {
    let mut causes = Book::fresh(Vec::new()).causes(call);
    causes.extend([1, number]);
    reach.note_causes(&causes);
}

fn note_sums(reach: &mut Reach, contents: &Contents, sums: &Sums, number: u64) {
    reach.note_if(Situation::WeightedBelowZero, number == 10 && sums.weighted < 0);
    reach.note_if(Situation::WeightedZero, number == 10 && sums.weighted == 0 && !sums.gathered.cells.is_empty());
    reach.note_if(Situation::WeightedOne, number == 0 && sums.weighted == 1);
    let Some(take_wh) = contents.take_wh else {
        return;
    };
    let unallocated = (i128::from(take_wh) - sums.net_wh).abs();
    let most = i128::from(contents.tolerance) * sums.weighted;
    reach.note_if(Situation::ToleranceMet, number == 0 && unallocated > 0 && unallocated * 1_000_000 == most);
    reach.note_if(Situation::TolerancePassed, number == 11 && (unallocated - 1) * 1_000_000 <= most);
}

fn note_meters(reach: &mut Reach, contents: &Contents) {
    for ((registration, reading), energy) in contents.meters.iter().zip(energies_of(contents)) {
        let quality = reading.map(|reading| reading.quality);
        let actual = matches!(energy, Energy::Actual(_));
        let estimated = matches!(energy, Energy::Estimated(_));
        let idle = energy == Energy::Idle;
        reach
            .note_if(Situation::DefaultExported, matches!(energy, Energy::Defaulted(_)) && registration.direction == 1);
        reach.note_if(Situation::ZeroReadingHeld, energy == Energy::Actual(0) && quality == Some(0));
        match (registration.status, quality) {
            (2, Some(9)) => reach.note_if(Situation::EnergisedE2, actual),
            (2, Some(13)) => reach.note_if(Situation::EnergisedE6, actual),
            (2, Some(8)) => reach.note_if(Situation::EnergisedE1, estimated),
            (2, Some(10)) => reach.note_if(Situation::EnergisedE3, estimated),
            (2, Some(12)) => reach.note_if(Situation::EnergisedE5, estimated),
            (1, Some(0..=6)) => reach.note_if(Situation::DeEnergisedActual, actual),
            (1, Some(9)) => reach.note_if(Situation::DeEnergisedE2, actual),
            (1, Some(13)) => reach.note_if(Situation::DeEnergisedE6, actual),
            (1, Some(_)) => reach.note_if(Situation::DeEnergisedOther, idle),
            (0, Some(_)) => reach.note_if(Situation::DisconnectedRead, idle),
            _ => {}
        }
    }
}

fn note_losses(reach: &mut Reach, contents: &Contents, cells: &Cells) {
    let rounded_each = losses_rounded_each(contents);
    let losses = cells.iter().filter(|((_, class), _)| is_loss(*class));
    for (cell, &thousandths) in losses {
        reach.note_if(Situation::LossNegative, thousandths < 0);
        reach.note_if(Situation::LossRoundedOnce, rounded_each.get(cell) != Some(&nearest_wh(thousandths)));
    }
}

/// The loss cells as they would be if each meter's loss were rounded by itself.
fn losses_rounded_each(contents: &Contents) -> Cells {
    let mut cells = Cells::new();
    for ((registration, _), energy) in contents.meters.iter().zip(energies_of(contents)) {
        if let Some((unit, class, wh)) = cell_of(registration, energy) {
            let loss_wh = nearest_wh(loss_thousandths(registration, wh));
            *cells.entry((unit, class + 1)).or_default() += loss_wh;
        }
    }
    cells
}

pub fn note_shares(reach: &mut Reach, sums: &Sums, workings: &Workings) {
    let lacking = workings.lacking_wh;
    reach.note_if(Situation::LackingSome, lacking > 0);
    reach.note_if(Situation::LackingMany, lacking >= 8);
    if lacking > 0 && lacking < UNITS {
        let order = order_served(&workings.shares);
        let last_served = workings.shares[order[lacking - 1]].fraction;
        let first_unserved = workings.shares[order[lacking]].fraction;
        reach.note_if(Situation::TieAtTheCut, last_served == first_unserved);
    }
    for (unit, share) in sums.units.iter().zip(&workings.shares) {
        let product = (workings.unallocated * unit.weighted).abs();
        reach.note_if(Situation::ShareNegative, share.whole_wh < 0 && !share.fraction.is_zero());
        reach.note_if(Situation::UnitWeightedNegative, unit.weighted < 0);
        reach.note_if(Situation::ProductPast64Bits, product > u64::MAX.into());
        reach.note_if(Situation::ProductPast27Digits, product > 1_000_000_000_000_000_000_000_000_000);
    }
}

fn note_take(reach: &mut Reach, contents: &Contents) {
    reach.note_if(Situation::TakeZero, contents.take_wh == Some(0));
    reach.note_if(Situation::TakeNegative, contents.take_wh.is_some_and(|wh| wh < 0));
}
