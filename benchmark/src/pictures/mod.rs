//! The two pictures of docs/BENCHMARKS.md, drawn as SVG.

mod ratios;
mod svg;
mod times;

use crate::measure::Measured;

pub struct Picture {
    pub file: &'static str,
    /// What it shows, for whoever does not see it.
    pub shows: &'static str,
    /// The measured times in the order of operations, each with its sizes.
    pub draw: fn(&[Measured]) -> String,
}

pub const ALL: [Picture; 2] = [
    Picture {
        file: "benchmark-ratios.svg",
        shows: "The library's time divided by Rust's, for each operation and number of meters",
        draw: ratios::svg,
    },
    Picture {
        file: "benchmarks.svg",
        shows: "Time against meters, for each operation, both on logarithmic scales",
        draw: times::svg,
    },
];
