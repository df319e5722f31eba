//! What rounding drops of losses: which situations an allocation met, and the library's droppings reconciled with the meters.

use crate::call::Call;
use crate::compare::{at, same, same_words, Checked};
use crate::lent::Lent;
use crate::model::allocation::Sums;
use crate::model::cells::{energies_of, is_loss, Cells};
use crate::model::droppings::{dropped_by_direction, dropped_thousandths, metered_by_unit, Metered};
use crate::model::{Book, Running};
use crate::reach::Reach;
use crate::situation::Situation;
use cepnhoy::{Allocated, UNITS};

/// A unit has twelve loss cells, and each drops 500 thousandths at most.
const DROPPINGS_MOST: i64 = 6_000;

/// Notes what the loss cells drop, or would drop if the allocation were accepted.
pub fn note_droppings(reach: &mut Reach, sums: &Sums, number: u64) {
    match number {
        0 => {
            note_cells(reach, &sums.gathered.cells);
            note_units(reach, &sums.gathered.cells);
        }
        10 => reach.note_if(Situation::DroppingsWeightedRefused, sums.droppings() != [0; UNITS]),
        11 => reach.note_if(Situation::DroppingsToleranceRefused, sums.droppings() != [0; UNITS]),
        _ => {}
    }
}

fn note_cells(reach: &mut Reach, cells: &Cells) {
    for (_, &cell) in cells.iter().filter(|((_, class), _)| is_loss(*class)) {
        match (cell.signum(), dropped_thousandths(cell)) {
            (1, 499) => reach.note(Situation::LossBeforeHalfAbove),
            (1, -500) => reach.note(Situation::LossHalfAbove),
            (1, -499) => reach.note(Situation::LossPastHalfAbove),
            (-1, -499) => reach.note(Situation::LossBeforeHalfBelow),
            (-1, 500) => reach.note(Situation::LossHalfBelow),
            (-1, 499) => reach.note(Situation::LossPastHalfBelow),
            _ => {}
        }
    }
}

fn note_units(reach: &mut Reach, cells: &Cells) {
    for [import, export] in dropped_by_direction(cells) {
        let droppings = import - export;
        reach.note_if(Situation::DroppingsAbove, droppings > 0);
        reach.note_if(Situation::DroppingsBelow, droppings < 0);
        reach.note_if(Situation::DroppingsPastOneCell, droppings.abs() > 500);
        reach.note_if(Situation::DroppingsBothWays, import != 0 && export != 0);
        reach.note_if(Situation::DroppingsCancel, import != 0 && droppings == 0);
    }
}

/// Reconciles a book's losses from what the library answers, with nothing rounded here: the Take is set to what the units come to
/// by themselves, so that U is 0 and a volume is the unit's energy with its rounded losses.
pub fn check_reconciled(book: &Book, reach: &mut Reach) -> Checked {
    let mut lent = Lent::of(&Running::of(book.clone()));
    let mut volumes = [0; UNITS];
    let before = lent.allocate(&mut volumes).answer;
    if before.number != 0 {
        return Ok(());
    }
    let take = Call::Take { wh: lent.settings.take_wh - before.unallocated };
    if lent.make(&take) != Some(0) {
        // The units come to more than a Take may be.
        return Ok(());
    }
    let after = lent.allocate(&mut volumes).answer;
    reach.note_if(Situation::DroppingsReconciled, after.droppings != [0; UNITS]);
    let contents = book.contents();
    let metered = metered_by_unit(&contents, &energies_of(&contents));
    at(|| format!("reconciled with {take}"), check_answers(&before, &after, &metered, &volumes))
}

fn check_answers(before: &Allocated, after: &Allocated, metered: &[Metered; UNITS], volumes: &[i64; UNITS]) -> Checked {
    same("number", after.number, 0)?;
    same("U", after.unallocated, 0)?;
    same_words("droppings, which the Take plays no part in", &after.droppings, &before.droppings)?;
    check_units(metered, &after.droppings, volumes)
}

/// For each unit 1,000 × rounded losses + droppings are the exact losses of its meters, and droppings have their limit.
fn check_units(metered: &[Metered; UNITS], droppings: &[i64; UNITS], volumes: &[i64; UNITS]) -> Checked {
    for (unit, metered) in metered.iter().enumerate() {
        let rounded_wh = i128::from(volumes[unit]) - metered.energy_wh;
        let losses = 1_000 * rounded_wh + i128::from(droppings[unit]);
        same(&format!("losses of unit {unit} with droppings"), losses, metered.loss_thousandths)?;
        let within = (-DROPPINGS_MOST..=DROPPINGS_MOST).contains(&droppings[unit]);
        same(&format!("droppings of unit {unit} within their limit"), within, true)?;
    }
    Ok(())
}
