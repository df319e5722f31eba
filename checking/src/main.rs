//! The command line of the checking program; `--help` prints it.

use std::env;
use std::path::PathBuf;
use std::process::ExitCode;

use checking::compare::Failure;
use checking::figures::check_figures;
use checking::reach::Reach;
use checking::run::{check_book, check_large_books, check_lengths};
use checking::settle::drive::{check_settle, Runs};

const USAGE: &str = "\
checking: compares the proved library with a second method on random books
  --seed N       the seed of the run (default 20240401)
  --books N      how many random books (default 80000); with 0 only the program settle is run
  --only K       only the random book of this number, to look at a failure again
  --settle PATH  also run the program settle on random period files
  --files N      how many period files (default 1500)
  --quiet        no tables of what was reached; a failure is printed all the same
  --help         print this
Exit status: 0 all agree; 1 something differs or was never reached; 2 bad usage.
A run of a few hundred books or files may not reach everything.";

struct Options {
    seed: u64,
    books: u64,
    only: Option<u64>,
    settle: Option<PathBuf>,
    files: u64,
    quiet: bool,
}

impl Options {
    fn of(words: impl Iterator<Item = String>) -> Result<Options, String> {
        let mut options =
            Options { seed: 20_240_401, books: 80_000, only: None, settle: None, files: 1_500, quiet: false };
        let mut words = words;
        while let Some(word) = words.next() {
            match word.as_str() {
                "--seed" => options.seed = number_after(&word, &mut words)?,
                "--books" => options.books = number_after(&word, &mut words)?,
                "--only" => options.only = Some(number_after(&word, &mut words)?),
                "--settle" => options.settle = Some(PathBuf::from(value_after(&word, &mut words)?)),
                "--files" => options.files = number_after(&word, &mut words)?,
                "--quiet" => options.quiet = true,
                _ => return Err(format!("{word} is unknown")),
            }
        }
        if options.books == 0 && options.settle.is_none() {
            return Err("--books 0 goes with --settle: else nothing is checked".into());
        }
        Ok(options)
    }
}

fn value_after(word: &str, words: &mut impl Iterator<Item = String>) -> Result<String, String> {
    words.next().ok_or(format!("{word} needs a value"))
}

fn number_after(word: &str, words: &mut impl Iterator<Item = String>) -> Result<u64, String> {
    let value = value_after(word, words)?;
    value.parse().map_err(|_| format!("{word} {value}: no number"))
}

fn main() -> ExitCode {
    if env::args().any(|word| word == "--help") {
        println!("{USAGE}");
        return ExitCode::SUCCESS;
    }
    let options = match Options::of(env::args().skip(1)) {
        Ok(options) => options,
        Err(fault) => {
            eprintln!("{fault}\n{USAGE}");
            return ExitCode::from(2);
        }
    };
    println!("checking with seed {}", options.seed);
    let outcome = match options.only {
        Some(index) => check_only(&options, index),
        None => check_all(&options),
    };
    match outcome {
        Ok(()) => ExitCode::SUCCESS,
        Err(Failure(words)) => {
            println!("FAILED (seed {}): {words}", options.seed);
            ExitCode::FAILURE
        }
    }
}

fn check_only(options: &Options, index: u64) -> Result<(), Failure> {
    check_book(options.seed, index, &mut Reach::default())?;
    println!("book {index} agrees (seed {})", options.seed);
    Ok(())
}

fn check_all(options: &Options) -> Result<(), Failure> {
    if options.books > 0 {
        check_books(options)?;
    }
    let runs = run_settle(options)?;
    if !options.quiet {
        println!("\n{}", runs.as_ref().map_or(String::new(), Runs::table));
    }
    all_reached(runs.iter().flat_map(Runs::missing).collect())
}

fn check_books(options: &Options) -> Result<(), Failure> {
    // What the figures meet does not count: the random books must meet it all themselves.
    let figures = check_figures(&mut Reach::default())?;
    println!("document 01, E2 and E6, droppings, running cells, and totals worked by hand: {figures} figures agree");
    let reach = &mut Reach::default();
    for index in 0..options.books {
        check_book(options.seed, index, reach)?;
    }
    check_lengths(options.seed, reach)?;
    check_large_books(options.seed, reach)?;
    if !options.quiet {
        println!("\n{}", reach.table());
    }
    all_reached(reach.missing())?;
    println!(
        "checked {} books, {} calls on damaged books, all agree (seed {})",
        options.books, reach.damaged_calls, options.seed
    );
    Ok(())
}

fn all_reached(missing: Vec<String>) -> Result<(), Failure> {
    match missing.is_empty() {
        true => Ok(()),
        false => Err(Failure(format!("never reached: {}", missing.join("; ")))),
    }
}

fn run_settle(options: &Options) -> Result<Option<Runs>, Failure> {
    let Some(program) = &options.settle else {
        if !options.quiet {
            println!("settle is not driven: give its path with --settle");
        }
        return Ok(None);
    };
    let runs = check_settle(program, options.seed, options.files)?;
    println!("settle: {} period files agree", options.files);
    Ok(Some(runs))
}
