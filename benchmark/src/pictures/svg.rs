//! What the pictures share: the page with its heading, places on a scale, texts, lines, marks and colours.

pub const LIBRARY_COLOUR: &str = "#1f5fa8";
pub const RUST_COLOUR: &str = "#e0752a";

const FONT_SIZE: f64 = 13.0;
/// From the left edge to the texts that begin there.
pub const INDENT: f64 = 12.0;
/// For the heading and the explanation below it, above all that is drawn.
const HEAD: f64 = 56.0;

pub struct Stroke {
    pub colour: &'static str,
    pub width: f64,
}

/// A line of a scale that has a label, and one that has none.
pub const LABELLED: Stroke = Stroke { colour: "#bbb", width: 1.0 };
pub const FINE: Stroke = Stroke { colour: "#e8e8e8", width: 1.0 };

#[derive(Clone, Copy)]
pub enum Anchor {
    Start,
    Middle,
    End,
}

pub type Point = (f64, f64);
/// Two ends: of a scale, or of a line across or upwards.
pub type Ends = (f64, f64);

/// Where a value stands between two places, on a scale with these values at its ends.
pub fn place(value: f64, values: Ends, places: Ends) -> f64 {
    places.0 + (value - values.0) / (values.1 - values.0) * (places.1 - places.0)
}

fn styled(anchor: Anchor, (x, y): Point, style: &str, words: &str) -> String {
    let anchor = match anchor {
        Anchor::Start => "start",
        Anchor::Middle => "middle",
        Anchor::End => "end",
    };
    let base = y + 0.35 * FONT_SIZE;
    format!("<text x='{x:.1}' y='{base:.1}' text-anchor='{anchor}'{style}>{words}</text>\n")
}

/// The point is at the middle of the text's height.
pub fn text(anchor: Anchor, at: Point, words: &str) -> String {
    styled(anchor, at, "", words)
}

pub fn bold(anchor: Anchor, at: Point, words: &str) -> String {
    styled(anchor, at, " font-weight='bold'", words)
}

pub fn level(y: f64, (left, right): Ends, stroke: &Stroke) -> String {
    joined(&[(left, y), (right, y)], stroke)
}

pub fn upright(x: f64, (top, bottom): Ends, stroke: &Stroke) -> String {
    joined(&[(x, top), (x, bottom)], stroke)
}

pub fn joined(points: &[Point], stroke: &Stroke) -> String {
    let Stroke { colour, width } = stroke;
    let path: Vec<String> = points.iter().map(|(x, y)| format!("{x:.1},{y:.1}")).collect();
    format!("<polyline points='{}' fill='none' stroke='{colour}' stroke-width='{width}'/>\n", path.join(" "))
}

pub fn mark((x, y): Point, radius: f64, colour: &str) -> String {
    format!("<circle cx='{x:.1}' cy='{y:.1}' r='{radius:.1}' fill='{colour}'/>\n")
}

pub fn area((left, top): Point, (right, bottom): Point, colour: &str) -> String {
    let (width, height) = (right - left, bottom - top);
    format!("<rect x='{left:.1}' y='{top:.1}' width='{width:.1}' height='{height:.1}' fill='{colour}'/>\n")
}

pub fn moved((left, top): Point, drawn: &str) -> String {
    format!("<g transform='translate({left},{top})'>\n{drawn}</g>\n")
}

/// A whole picture: what is drawn, below its heading and explanation, on white.
pub fn page((width, below): Point, heading: &str, explanation: &str, drawn: &str) -> String {
    let height = HEAD + below;
    format!(
        "<svg xmlns='http://www.w3.org/2000/svg' viewBox='0 0 {width} {height}' font-family='sans-serif' font-size='{FONT_SIZE}'>\n\
         {}{}{}{}</svg>\n",
        area((0.0, 0.0), (width, height), "white"),
        bold(Anchor::Start, (INDENT, 16.0), heading),
        text(Anchor::Start, (INDENT, 36.0), explanation),
        moved((0.0, HEAD), drawn),
    )
}
