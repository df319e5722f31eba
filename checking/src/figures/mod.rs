//! Figures worked by hand, through the library and through the second method: the cases of document 01, of E2 and E6, of droppings and
//! of running cells, and totals.

mod cases;
mod cells;
mod droppings;
mod figure;

use crate::call::Call;
use crate::check::{check_case, Case, Expected};
use crate::compare::{at, same, same_allocated, same_words, Checked, AGAINST_FIGURES};
use crate::lent::Lent;
use crate::model::slice::WORDS;
use crate::reach::Reach;
use crate::settle::format;
use crate::totals::check_figure as check_totals_figure;
use cells::{slice_of, CellsFigure};
use cepnhoy::{Allocated, ROW_WORDS, UNITS};
use figure::Figure;

/// The most meters of a case.
const METERS_MOST: usize = 12;

/// The period file of document 01 and what it prints.
pub const EXAMPLE_INPUT: &str = "\
take=301
tolerance=1000
weight=8,1000
weight=9,1000
meter=1200000000002,1,0,2,0,-,0,1000,0,0
meter=1300000000007,1,0,2,1,-,0,1000,0,0
meter=1400000000001,1,0,2,2,-,0,1000,0,0
reading=1200000000002,1,0,100
reading=1300000000007,1,0,100
reading=1400000000001,1,0,100
";

pub const EXAMPLE_OUTPUT: &str = "\
status=0
actual=3
estimated=0
defaulted=0
idle=0
unallocated=1
weighted=300000
volume=0,101
volume=1,100
volume=2,100
";

/// Checks every figure; gives how many there are.
pub fn check_figures(reach: &mut Reach) -> Result<usize, crate::compare::Failure> {
    let figures = [cases::figures(), droppings::figures()].concat();
    for figure in &figures {
        at(|| String::from(figure.name), check_figure(figure, reach))?;
    }
    let cells_figures = cells::figures();
    for figure in &cells_figures {
        at(|| String::from(figure.name), check_cells_figure(figure, reach))?;
    }
    at(|| String::from("the example of settle"), check_example())?;
    at(|| String::from("totals worked by hand"), check_totals_figure(reach))?;
    Ok(figures.len() + cells_figures.len() + 2)
}

fn case_of(calls: &[Call], cells: Vec<i64>) -> Case {
    let rows = vec![0; ROW_WORDS * METERS_MOST];
    Case { rows, cells, calls: calls.to_vec(), volumes: vec![0; UNITS], seed: 1 }
}

fn check_figure(figure: &Figure, reach: &mut Reach) -> Checked {
    let case = case_of(&figure.calls, vec![0; WORDS]);
    let expected = Expected::of(&case);
    let outcome = same_words("numbers", &expected.numbers, &figure.numbers)
        .and_then(|()| check_allocated(&expected, &figure.answer, &figure.volumes));
    at(|| String::from(AGAINST_FIGURES), outcome)?;
    // The library is held to the model, which was just held to the figures.
    check_case(&case, reach)
}

fn check_cells_figure(figure: &CellsFigure, reach: &mut Reach) -> Checked {
    let case = case_of(&figure.calls, slice_of(&figure.filled));
    let expected = Expected::of(&case);
    let outcome = same_words("numbers", &expected.numbers, &figure.numbers)
        .and_then(|()| same_words("cells", &expected.running.cells, &slice_of(&figure.left)))
        .and_then(|()| check_allocated(&expected, &figure.answer, &figure.volumes));
    at(|| String::from(AGAINST_FIGURES), outcome)?;
    check_case(&case, reach)
}

fn check_allocated(expected: &Expected, answer: &Allocated, worked: &[(usize, i64)]) -> Checked {
    let allocation = expected.running.allocate(UNITS);
    let mut volumes = vec![0; UNITS];
    for &(unit, wh) in worked {
        volumes[unit] = wh;
    }
    same_allocated(&allocation.answer, answer)?;
    same_words("volumes", &allocation.volumes_after(&[0; UNITS]), &volumes)
}

/// The example's calls through the library, and its text through the second implementation of the format.
fn check_example() -> Checked {
    let printed = format::output_of(EXAMPLE_INPUT.as_bytes());
    let printed = String::from_utf8_lossy(&printed);
    at(|| String::from(AGAINST_FIGURES), same("text", printed.as_ref(), EXAMPLE_OUTPUT))?;
    let mut lent = Lent::fresh(&vec![0; format::ROW_WORDS_LENT], &[0; WORDS]);
    for line in EXAMPLE_INPUT.lines() {
        let call = format::call_of(line.as_bytes()).expect("the example is in form");
        same(line, lent.make(&call).expect("it has an entry point"), 0)?;
    }
    let mut volumes = vec![0; UNITS];
    let given = lent.allocate(&mut volumes);
    let text = format::allocation_text(&given.answer, &volumes);
    same("text", text.as_str(), EXAMPLE_OUTPUT)
}
