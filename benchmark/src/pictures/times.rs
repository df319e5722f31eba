//! Time against meters, a panel for each operation, both scales logarithmic.

use std::iter::successors;

use super::svg::{bold, joined, level, mark, moved, page, place, text, upright, Anchor, Point, Stroke};
use super::svg::{FINE, INDENT, LABELLED, LIBRARY_COLOUR, RUST_COLOUR};
use crate::measure::{Measured, SIZES};
use crate::written::{grouped, seconds};

const HEADING: &str = "Time against meters, for each operation";
const EXPLANATION: &str =
    "Both scales are logarithmic: meters across, a line for each power of two; time upwards, a labelled line for each power of ten.";

const PANEL_WIDTH: f64 = 300.0;
const PANEL_HEIGHT: f64 = 210.0;
const COLUMNS: usize = 3;
/// Within a panel: room for the title above, the times at the left and the numbers of meters below.
const LEFT: f64 = 62.0;
const TOP: f64 = 32.0;
const RIGHT: f64 = PANEL_WIDTH - 32.0;
const BOTTOM: f64 = PANEL_HEIGHT - 40.0;

/// Rust's curve is drawn first and is wider, so that both are seen where they are one on the other.
const RUST: Stroke = Stroke { colour: RUST_COLOUR, width: 4.4 };
const LIBRARY: Stroke = Stroke { colour: LIBRARY_COLOUR, width: 1.8 };

/// The powers of ten of a second that a panel spans.
struct Scale {
    least: i32,
    most: i32,
}

impl Scale {
    fn of(panel: &[Measured]) -> Scale {
        let times = || panel.iter().flat_map(|m| [m.library, m.rust]);
        let least = times().fold(f64::INFINITY, f64::min).log10().floor() as i32;
        let most = times().fold(0.0, f64::max).log10().ceil() as i32;
        Scale { least, most: most.max(least + 1) }
    }

    fn y(&self, time: f64) -> f64 {
        place(time.log10(), (self.least.into(), self.most.into()), (BOTTOM, TOP))
    }
}

fn x(meters: usize) -> f64 {
    let power = |n: usize| (n as f64).log2();
    place(power(meters), (power(SIZES[0]), power(SIZES[2])), (LEFT, RIGHT))
}

fn time_lines(scale: &Scale) -> String {
    let powers: Vec<f64> = (scale.least..=scale.most).map(|power| 10f64.powi(power)).collect();
    let line = |time: f64, stroke| level(scale.y(time), (LEFT, RIGHT), stroke);
    let between = powers[1..].iter().flat_map(|power| [0.2 * power, 0.5 * power]);
    let fine: String = between.map(|time| line(time, &FINE)).collect();
    let labelled = powers.iter().map(|time| {
        let label = seconds(*time).replace(".00", "").replace(".0", "");
        line(*time, &LABELLED) + &text(Anchor::End, (LEFT - 6.0, scale.y(*time)), &label)
    });
    fine + &labelled.collect::<String>()
}

fn meters_lines() -> String {
    let line = |meters: usize, stroke| upright(x(meters), (TOP, BOTTOM), stroke);
    let powers_of_two = successors(Some(SIZES[0]), |meters| Some(2 * meters)).take_while(|meters| *meters <= SIZES[2]);
    let fine: String = powers_of_two.map(|meters| line(meters, &FINE)).collect();
    let label = |meters: usize| text(Anchor::Middle, (x(meters), BOTTOM + 18.0), &grouped(meters));
    let labelled = SIZES.into_iter().map(|meters| line(meters, &LABELLED) + &label(meters));
    fine + &labelled.collect::<String>()
}

fn marks_joined(points: &[Point], stroke: &Stroke) -> String {
    let marks: String = points.iter().map(|point| mark(*point, 1.6 + 0.8 * stroke.width, stroke.colour)).collect();
    joined(points, stroke) + &marks
}

fn curve(panel: &[Measured], scale: &Scale, stroke: &Stroke, time: fn(&Measured) -> f64) -> String {
    let points: Vec<Point> = panel.iter().map(|m| (x(m.meters), scale.y(time(m)))).collect();
    marks_joined(&points, stroke)
}

fn panel(of_one: &[Measured]) -> String {
    let scale = Scale::of(of_one);
    [
        bold(Anchor::Start, (INDENT, 14.0), of_one[0].name),
        meters_lines(),
        time_lines(&scale),
        curve(of_one, &scale, &RUST, |m| m.rust),
        curve(of_one, &scale, &LIBRARY, |m| m.library),
    ]
    .concat()
}

fn key() -> String {
    let entry = |y: f64, stroke: &Stroke, words: &str| {
        let (start, end) = (2.0 * INDENT, 2.0 * INDENT + 32.0);
        marks_joined(&[(start, y), (end, y)], stroke) + &text(Anchor::Start, (end + INDENT, y), words)
    };
    let note = |y: f64, words: &str| text(Anchor::Start, (2.0 * INDENT, y), words);
    [
        entry(46.0, &LIBRARY, "proved library"),
        entry(70.0, &RUST, "Rust"),
        note(102.0, "across: meters, logarithmic (base 2)"),
        note(124.0, "up: time, logarithmic (base 10)"),
        note(146.0, "each panel has its own range of times"),
    ]
    .concat()
}

fn in_grid(number: usize, drawn: &str) -> String {
    moved(((number % COLUMNS) as f64 * PANEL_WIDTH, (number / COLUMNS) as f64 * PANEL_HEIGHT), drawn)
}

/// `all` has the sizes of each operation one after the other.
pub fn svg(all: &[Measured]) -> String {
    let panels = all.chunk_by(|a, b| a.name == b.name).map(panel);
    let parts: Vec<String> = panels.chain([key()]).collect();
    let size = (COLUMNS as f64 * PANEL_WIDTH, parts.len().div_ceil(COLUMNS) as f64 * PANEL_HEIGHT);
    let drawn: String = parts.iter().enumerate().map(|(number, part)| in_grid(number, part)).collect();
    page(size, HEADING, EXPLANATION, &drawn)
}
