//! The library's time divided by Rust's: a row for each operation, with a mark for each number of meters, on a linear scale around 1.

use super::svg::{area, bold, level, mark, page, place, text, upright, Anchor, Stroke};
use super::svg::{INDENT, LABELLED, LIBRARY_COLOUR, RUST_COLOUR};
use crate::measure::Measured;
use crate::written::grouped;

const HEADING: &str = "The library's time divided by Rust's";
const EXPLANATION: &str =
    "The scale is linear. At 1.00 both take the same time; at 0.50 the library takes half as long as Rust.";

const WIDTH: f64 = 900.0;
/// Where the numbers of meters end, and where the scale begins and ends; beyond its ends there is room for a mark's value.
const METERS: f64 = 324.0;
const LEFT: f64 = 370.0;
const RIGHT: f64 = WIDTH - 50.0;
/// Above the first row: which side is which, and the labels of the scale.
const SIDES: f64 = 8.0;
const LABELS: f64 = 28.0;
const TOP: f64 = 42.0;
/// Between two marks of an operation, and between the rows of two operations.
const STEP: f64 = 16.0;
const GAP: f64 = 8.0;

const FASTER_AREA: &str = "#edf3fa";
const SLOWER_AREA: &str = "#fcf0e8";
const EQUAL_COLOUR: &str = "#222";
const EQUAL: Stroke = Stroke { colour: EQUAL_COLOUR, width: 2.0 };
const BETWEEN_ROWS: Stroke = Stroke { colour: "white", width: 2.0 };

/// The tenths that the scale spans: at least two on each side of 1.
struct Scale {
    least: i32,
    most: i32,
}

impl Scale {
    fn of(all: &[Measured]) -> Scale {
        let tenths = || all.iter().map(|m| 10.0 * m.ratio());
        Scale { least: tenths().fold(8.0, f64::min).floor() as i32, most: tenths().fold(12.0, f64::max).ceil() as i32 }
    }

    fn x(&self, ratio: f64) -> f64 {
        place(10.0 * ratio, (self.least.into(), self.most.into()), (LEFT, RIGHT))
    }

    /// Every tenth, or fewer if those would stand too close; 1 has a label of its own.
    fn labelled(&self) -> impl Iterator<Item = f64> {
        let span = self.most - self.least;
        let every = [1, 5, 10, 50].into_iter().find(|every| span <= 12 * every).unwrap_or(100);
        (self.least..=self.most).filter(move |tenths| tenths % every == 0 && *tenths != 10).map(|t| f64::from(t) / 10.0)
    }
}

fn sides(scale: &Scale, bottom: f64) -> String {
    let equal = scale.x(1.0);
    [
        area((LEFT, TOP), (equal, bottom), FASTER_AREA),
        area((equal, TOP), (RIGHT, bottom), SLOWER_AREA),
        bold(Anchor::End, (equal - 10.0, SIDES), "← faster than Rust"),
        bold(Anchor::Start, (equal + 10.0, SIDES), "slower →"),
    ]
    .concat()
}

fn ratio_lines(scale: &Scale, bottom: f64) -> String {
    let line = |ratio: f64, stroke| upright(scale.x(ratio), (TOP - 4.0, bottom + 4.0), stroke);
    let ends = [LABELS, bottom + TOP - LABELS];
    let labelled = scale.labelled().map(|ratio| {
        let labels = ends.map(|y| text(Anchor::Middle, (scale.x(ratio), y), &format!("{ratio:.1}")));
        line(ratio, &LABELLED) + &labels.concat()
    });
    let equal = ends.map(|y| bold(Anchor::Middle, (scale.x(1.0), y), "1.00"));
    labelled.collect::<String>() + &line(1.0, &EQUAL) + &equal.concat()
}

/// Where a mark's value stands, and the mark's colour: by the two decimals that are shown.
fn side(ratio: f64) -> (Anchor, f64, &'static str) {
    match (100.0 * ratio).round() {
        hundredths if hundredths < 100.0 => (Anchor::End, -9.0, LIBRARY_COLOUR),
        hundredths if hundredths > 100.0 => (Anchor::Start, 9.0, RUST_COLOUR),
        _ => (Anchor::Start, 9.0, EQUAL_COLOUR),
    }
}

fn one_mark(m: &Measured, scale: &Scale, y: f64) -> String {
    let (anchor, beside, colour) = side(m.ratio());
    let x = scale.x(m.ratio());
    [
        text(Anchor::End, (METERS, y), &grouped(m.meters)),
        level(y, (scale.x(1.0), x), &Stroke { colour, width: 3.0 }),
        mark((x, y), 4.5, colour),
        text(anchor, (x + beside, y), &format!("{:.2}", m.ratio())),
    ]
    .concat()
}

fn row_height(of_one: &[Measured]) -> f64 {
    of_one.len() as f64 * STEP + GAP
}

fn row(of_one: &[Measured], scale: &Scale, top: f64) -> String {
    let name = bold(Anchor::Start, (INDENT, top + row_height(of_one) / 2.0), of_one[0].name);
    let y = |number: usize| top + (GAP + STEP) / 2.0 + number as f64 * STEP;
    let marks: String = of_one.iter().enumerate().map(|(number, m)| one_mark(m, scale, y(number))).collect();
    name + &marks
}

fn columns() -> String {
    bold(Anchor::Start, (INDENT, LABELS), "operation") + &bold(Anchor::End, (METERS, LABELS), "meters")
}

/// `all` has the sizes of each operation one after the other.
pub fn svg(all: &[Measured]) -> String {
    let scale = Scale::of(all);
    let mut rows = String::new();
    let mut lines = String::new();
    let mut bottom = TOP;
    for of_one in all.chunk_by(|a, b| a.name == b.name) {
        rows += &row(of_one, &scale, bottom);
        bottom += row_height(of_one);
        lines += &level(bottom, (LEFT, RIGHT), &BETWEEN_ROWS);
    }
    let drawn = [sides(&scale, bottom), lines, columns(), ratio_lines(&scale, bottom), rows].concat();
    page((WIDTH, bottom + TOP), HEADING, EXPLANATION, &drawn)
}
