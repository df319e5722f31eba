//! Times of both sides, taken in turn, and their medians.

use std::time::{Duration, Instant};

use crate::operations::{Operation, Outcome};
use crate::sides::{Side, LIBRARY, RUST};

/// The numbers of meters that every operation is measured at.
pub const SIZES: [usize; 3] = [1_024, 8_192, 65_536];

pub struct Measured {
    pub name: &'static str,
    pub meters: usize,
    /// Seconds for one call, or for the whole list.
    pub library: f64,
    pub rust: f64,
}

impl Measured {
    pub fn ratio(&self) -> f64 {
        self.library / self.rust
    }
}

/// How often an operation is timed, by how long a run of it takes.
fn repeats(once: Duration) -> usize {
    match once.as_millis() {
        0..=20 => 101,
        21..=200 => 21,
        201..=2_000 => 7,
        _ => 3,
    }
}

fn timed(operation: &Operation, side: &Side) -> (Duration, Outcome) {
    let mut outcome = operation.prepare();
    let start = Instant::now();
    operation.run(side, &mut outcome);
    (start.elapsed(), outcome)
}

fn median(mut times: Vec<Duration>) -> f64 {
    times.sort_unstable();
    times[times.len() / 2].as_secs_f64()
}

/// The first runs warm both sides and are not counted. Every run's outcome is compared: a difference ends the program.
pub fn measure(operation: &Operation, meters: usize) -> Measured {
    operation.assert_accepted();
    let once = timed(operation, &LIBRARY).0;
    timed(operation, &RUST);
    let mut library = Vec::new();
    let mut rust = Vec::new();
    for _ in 0..repeats(once) {
        let (time, given) = timed(operation, &LIBRARY);
        let (rust_time, expected) = timed(operation, &RUST);
        assert!(given == expected, "{} at {meters} meters: the two sides differ", operation.name);
        library.push(time);
        rust.push(rust_time);
    }
    let calls = operation.calls as f64;
    Measured { name: operation.name, meters, library: median(library) / calls, rust: median(rust) / calls }
}
