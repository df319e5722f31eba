//! Times the proved library beside a Rust version written for speed: in one process, on the same inputs, in turn. Every outcome is
//! compared as it runs. `--help` prints the command line.

mod fast;
mod inputs;
mod measure;
mod operations;
mod pictures;
mod report;
mod sides;
mod written;

use std::env;
use std::fs;
use std::path::{Path, PathBuf};
use std::process::ExitCode;

use inputs::Random;
use measure::{measure, Measured, SIZES};

const USAGE: &str = "\
benchmark: times the proved library beside a Rust version, at 1,024, 8,192 and 65,536 meters, and prints a table
It writes no file unless --docs asks for it.
  --docs FOLDER  also write the figures into FOLDER/BENCHMARKS.md, and its pictures benchmarks.svg and benchmark-ratios.svg
  --only WORDS   only the operations whose names have these words in them
  --most N       only up to N meters
  --help         print this
Exit status: 0 done, both sides always agreed; 2 bad usage, or the document cannot be written.";

/// Every run draws the same half hours.
const SEED: u64 = 20_240_401;

#[derive(Default)]
struct Options {
    docs: Option<PathBuf>,
    only: Option<String>,
    most: Option<usize>,
}

impl Options {
    fn of(mut words: impl Iterator<Item = String>) -> Result<Options, String> {
        let mut options = Options::default();
        while let Some(word) = words.next() {
            let value = words.next().ok_or(format!("{word} needs a value, or is unknown"))?;
            match word.as_str() {
                "--docs" => options.docs = Some(PathBuf::from(value)),
                "--only" => options.only = Some(value),
                "--most" => options.most = Some(value.parse().map_err(|_| format!("{word} {value}: no number"))?),
                _ => return Err(format!("{word} is unknown")),
            }
        }
        if options.docs.is_some() && (options.only.is_some() || options.most.is_some()) {
            return Err("the document has all operations at all sizes: --docs goes without --only and --most".into());
        }
        Ok(options)
    }

    fn wants(&self, name: &str) -> bool {
        self.only.as_ref().is_none_or(|words| name.contains(words.as_str()))
    }
}

fn measure_all(options: &Options) -> Vec<Measured> {
    let mut all = Vec::new();
    println!("{:36} {:>7} {:>9} {:>9} {:>6}", "operation", "meters", "library", "Rust", "ratio");
    for meters in SIZES.into_iter().filter(|meters| *meters <= options.most.unwrap_or(usize::MAX)) {
        for operation in operations::all(meters, &mut Random(SEED)) {
            if options.wants(operation.name) {
                let measured = measure(&operation, meters);
                println!("{}", report::line(&measured));
                all.push(measured);
            }
        }
    }
    report::by_operation(all)
}

fn write(path: &Path, text: &str) -> Result<(), String> {
    fs::write(path, text).map_err(|fault| format!("{}: {fault}", path.display()))?;
    println!("written: {}", path.display());
    Ok(())
}

/// The page that the figures go into, as it stands in its folder.
struct Page {
    folder: PathBuf,
    text: String,
}

impl Page {
    const FILE: &str = "BENCHMARKS.md";

    fn of(folder: &Path) -> Result<Page, String> {
        let path = folder.join(Page::FILE);
        let text = fs::read_to_string(&path).map_err(|fault| format!("{}: {fault}", path.display()))?;
        Ok(Page { folder: folder.to_path_buf(), text })
    }

    fn write(&self, all: &[Measured]) -> Result<(), String> {
        write(&self.folder.join(Page::FILE), &report::into_document(&self.text, all)?)?;
        pictures::ALL.iter().try_for_each(|picture| write(&self.folder.join(picture.file), &(picture.draw)(all)))
    }
}

fn run() -> Result<(), String> {
    let options = Options::of(env::args().skip(1))?;
    // Read before measuring, so that a wrong folder is told at once and not after some minutes.
    let page = options.docs.as_deref().map(Page::of).transpose()?;
    let all = measure_all(&options);
    page.map_or(Ok(()), |page| page.write(&all))
}

fn main() -> ExitCode {
    if env::args().any(|word| word == "--help") {
        println!("{USAGE}");
        return ExitCode::SUCCESS;
    }
    match run() {
        Ok(()) => ExitCode::SUCCESS,
        Err(fault) => {
            eprintln!("{fault}\n{USAGE}");
            ExitCode::from(2)
        }
    }
}
