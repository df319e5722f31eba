//! What rounding the loss cells drops (document 02, request 3). A unit's droppings are its exact losses less its rounded ones. The
//! exact losses are those of its meters, added up meter by meter without any cell, or, of a slice filled by hand, its loss cells. Cell by
//! cell, from the thousandths above a whole Wh, droppings must come to the same.

use crate::model::cells::{cell_of, is_export, is_loss, loss_thousandths, nearest_wh, Cells, Contents, Energy};
use cepnhoy::{Registration, UNITS};

/// What the meters of a unit come to, import less export, with nothing rounded.
#[derive(Clone, Copy, Debug, Default, PartialEq, Eq)]
pub struct Metered {
    pub energy_wh: i128,
    pub loss_thousandths: i128,
}

impl Metered {
    fn add(&mut self, registration: &Registration, wh: u64) {
        let sign = if registration.direction == 1 { -1 } else { 1 };
        self.energy_wh += sign * i128::from(wh);
        self.loss_thousandths += sign * loss_thousandths(registration, wh);
    }
}

pub fn metered_by_unit(contents: &Contents, energies: &[Energy]) -> [Metered; UNITS] {
    let mut units = [Metered::default(); UNITS];
    for ((registration, _), energy) in contents.meters.iter().zip(energies) {
        if let Some((unit, _, wh)) = cell_of(registration, *energy) {
            units[unit].add(registration, wh);
        }
    }
    units
}

/// What rounding one loss cell drops: rounded down, what stood above the whole Wh; rounded up, what lacked to it, which is below 0.
pub fn dropped_thousandths(cell: i128) -> i128 {
    let above = cell.rem_euclid(1_000);
    // A half goes away from zero, so only below zero does it go down.
    let rounded_down = above < 500 || (above == 500 && cell < 0);
    if rounded_down {
        above
    } else {
        above - 1_000
    }
}

/// The sum, over the loss cells of each unit and direction (0 import, 1 export), of what is asked of a cell.
fn by_unit_and_direction(cells: &Cells, of_cell: fn(i128) -> i128) -> [[i128; 2]; UNITS] {
    let mut units = [[0; 2]; UNITS];
    for (&(unit, class), &thousandths) in cells.iter().filter(|((_, class), _)| is_loss(*class)) {
        units[unit][usize::from(is_export(class))] += of_cell(thousandths);
    }
    units
}

/// What the loss cells of each unit drop, import and export apart.
pub fn dropped_by_direction(cells: &Cells) -> [[i128; 2]; UNITS] {
    by_unit_and_direction(cells, dropped_thousandths)
}

/// The loss cells of each unit, unrounded, import less export.
pub fn unrounded_by_unit(cells: &Cells) -> [i128; UNITS] {
    by_unit_and_direction(cells, |thousandths| thousandths).map(|[import, export]| import - export)
}

/// The droppings of each unit, import less export, from its exact losses.
pub fn droppings_by_unit(exact: &[i128; UNITS], cells: &Cells) -> [i64; UNITS] {
    let rounded_wh = by_unit_and_direction(cells, nearest_wh);
    let dropped = dropped_by_direction(cells);
    std::array::from_fn(|unit| {
        let [import_wh, export_wh] = rounded_wh[unit];
        let droppings = exact[unit] - 1_000 * (import_wh - export_wh);
        let [import_dropped, export_dropped] = dropped[unit];
        assert_eq!(droppings, import_dropped - export_dropped, "unit {unit}: by its exact losses and cell by cell");
        i64::try_from(droppings).expect("droppings fit 64 bits")
    })
}

#[cfg(test)]
mod tests {
    use super::dropped_thousandths;
    use crate::model::cells::nearest_wh;

    /// A loss cell, what it is rounded to, and what that drops.
    const ROUNDED: [(i128, i128, i128); 15] = [
        (0, 0, 0),
        (1, 0, 1),
        (499, 0, 499),
        (500, 1, -500),
        (501, 1, -499),
        (999, 1, -1),
        (1_000, 1, 0),
        (1_500, 2, -500),
        (2_499, 2, 499),
        (-1, 0, -1),
        (-499, 0, -499),
        (-500, -1, 500),
        (-501, -1, 499),
        (-1_000, -1, 0),
        (-2_500, -3, 500),
    ];

    #[test]
    fn cells_rounded() {
        for (cell, wh, dropped) in ROUNDED {
            assert_eq!((nearest_wh(cell), dropped_thousandths(cell)), (wh, dropped), "{cell}");
        }
    }
}
