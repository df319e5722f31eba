//! The table, as it is printed and as it stands in docs/BENCHMARKS.md.

use std::process::Command;

use crate::measure::Measured;
use crate::pictures;
use crate::written::{grouped, seconds};

/// Everything between these lines is written anew by each run; the rest of the document is kept.
const START: &str = "<!-- figures: written by the benchmark -->";
const END: &str = "<!-- end of figures -->";

pub fn line(m: &Measured) -> String {
    format!(
        "{:36} {:>7} {:>9} {:>9} {:>6.2}",
        m.name,
        grouped(m.meters),
        seconds(m.library),
        seconds(m.rust),
        m.ratio()
    )
}

fn first_line(program: &str, argument: &str) -> String {
    let unknown = || format!("{program}: unknown");
    let Ok(output) = Command::new(program).arg(argument).output() else {
        return unknown();
    };
    let text = String::from_utf8_lossy(&output.stdout);
    text.lines().next().map_or_else(unknown, str::to_string)
}

fn processor() -> String {
    let described = Command::new("lscpu").output().map(|output| output.stdout).unwrap_or_default();
    let text = String::from_utf8_lossy(&described);
    let name = text.lines().find_map(|line| line.strip_prefix("Model name:"));
    name.map_or_else(|| "unknown".to_string(), |name| name.trim().to_string())
}

fn machine() -> String {
    let count = std::thread::available_parallelism().map_or(0, usize::from);
    format!(
        "Machine: {}, {count} processors. Rust: {}, `--release` with `opt-level = 3`, `lto` and one codegen unit. Library: `{}`, \
         `scripts/build library`. Both for any x86-64 processor.\n",
        processor(),
        first_line("rustc", "--version"),
        first_line("rt", "version"),
    )
}

fn times(all: &[Measured]) -> String {
    let mut text = String::from("| operation | meters | library | Rust | ratio |\n|---|---:|---:|---:|---:|\n");
    for m in all {
        let (library, rust) = (seconds(m.library), seconds(m.rust));
        text += &format!("| {} | {} | {library} | {rust} | {:.2} |\n", m.name, grouped(m.meters), m.ratio());
    }
    text
}

/// How many times longer the library takes with eight times as many meters.
fn growth(all: &[Measured]) -> String {
    let mut text = String::from("| operation | 1,024 to 8,192 meters | 8,192 to 65,536 meters |\n|---|---:|---:|\n");
    for of_one in all.chunk_by(|a, b| a.name == b.name) {
        let times: Vec<f64> = of_one.iter().map(|m| m.library).collect();
        if let [small, middle, large] = times[..] {
            text += &format!("| {} | × {:.1} | × {:.1} |\n", of_one[0].name, middle / small, large / middle);
        }
    }
    text
}

/// In the order of operations, each with its sizes.
pub fn by_operation(all: Vec<Measured>) -> Vec<Measured> {
    let mut names: Vec<&str> = Vec::new();
    for m in &all {
        if !names.contains(&m.name) {
            names.push(m.name);
        }
    }
    let mut all = all;
    all.sort_by_key(|m| (names.iter().position(|name| *name == m.name), m.meters));
    all
}

fn embedded() -> String {
    pictures::ALL.iter().map(|picture| format!("![{}]({})\n\n", picture.shows, picture.file)).collect()
}

fn figures(all: &[Measured]) -> String {
    format!("{START}\n{}\n{}\n{}{}{END}", machine(), times(all), embedded(), growth(all))
}

/// Puts the figures into the document in place of the last ones.
pub fn into_document(document: &str, all: &[Measured]) -> Result<String, String> {
    let missing = "the document has no place for the figures";
    let (before, rest) = document.split_once(START).ok_or(missing)?;
    let (_, after) = rest.split_once(END).ok_or(missing)?;
    Ok(format!("{before}{}{after}", figures(all)))
}
