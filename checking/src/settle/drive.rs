//! Runs of the program `settle` on period files, through pipes.

use std::io::{Read, Write};
use std::path::Path;
use std::process::{self, Child, ChildStdin, ChildStdout, Command, Stdio};
use std::sync::mpsc;
use std::time::Duration;
use std::{env, fs, thread};

use crate::compare::Failure;
use crate::figures::{EXAMPLE_INPUT, EXAMPLE_OUTPUT};
use crate::random::Random;
use crate::settle::files::{random_file, FileDamage, PeriodFile};
use crate::settle::format::output_of;
use crate::shrink::smallest;

/// A program that has not ended by then never will.
const LONGEST_RUN: Duration = Duration::from_secs(20);

/// Writes the input in pieces of odd sizes, so that the program's reads end anywhere.
fn feed(mut stdin: ChildStdin, input: Vec<u8>, mut random: Random) {
    let piece_most = *random.pick(&[1, 3, 7, 81, 1_000, 65_537]);
    // Waiting now and then lets the program read what it has; waiting always would take too long.
    let waits = random.percent(30);
    let mut rest = &input[..];
    while !rest.is_empty() {
        let size = rest.len().min(1 + random.index(piece_most));
        // The program may end before it has read all, after a line out of form.
        if stdin.write_all(&rest[..size]).is_err() {
            return;
        }
        rest = &rest[size..];
        if waits && random.percent(5) {
            thread::sleep(Duration::from_micros(100));
        }
    }
}

/// Reads all output, in pieces of odd sizes too.
fn drain(mut stdout: ChildStdout, piece: usize) -> Vec<u8> {
    let mut output = Vec::new();
    let mut buffer = vec![0; piece];
    while let Ok(count) = stdout.read(&mut buffer) {
        if count == 0 {
            break;
        }
        output.extend_from_slice(&buffer[..count]);
    }
    output
}

fn start(program: &Path, stdin: Stdio) -> Result<Child, Failure> {
    let mut command = Command::new(program);
    let command = command.stdin(stdin).stdout(Stdio::piped()).stderr(Stdio::null());
    command.spawn().map_err(|error| Failure(format!("{} does not start: {error}", program.display())))
}

/// Starts the program on a regular file with the input.
fn start_on_file(program: &Path, input: &[u8]) -> Result<Child, Failure> {
    let path = env::temp_dir().join(format!("cepnhoy-checking-{}", process::id()));
    let opened = fs::write(&path, input).and_then(|()| fs::File::open(&path));
    let _ = fs::remove_file(&path);
    let file = opened.map_err(|error| Failure(format!("{}: {error}", path.display())))?;
    start(program, Stdio::from(file))
}

/// Starts the program on a pipe, and feeds it the input.
fn start_on_pipe(program: &Path, input: &[u8], random: &Random) -> Result<Child, Failure> {
    let mut child = start(program, Stdio::piped())?;
    let stdin = child.stdin.take().expect("stdin is a pipe");
    let (input, feeding) = (input.to_vec(), random.clone());
    thread::spawn(move || feed(stdin, input, feeding));
    Ok(child)
}

/// What the program prints for an input.
fn run(program: &Path, input: &[u8], random: &mut Random) -> Result<Vec<u8>, Failure> {
    let mut child = match random.percent(10) {
        true => start_on_file(program, input)?,
        false => start_on_pipe(program, input, random)?,
    };
    let stdout = child.stdout.take().expect("stdout is a pipe");
    let piece = *random.pick(&[1, 13, 4_096]);
    let (sender, receiver) = mpsc::channel();
    thread::spawn(move || sender.send(drain(stdout, piece)));
    let output = receiver.recv_timeout(LONGEST_RUN);
    if output.is_err() {
        let _ = child.kill();
    }
    let status = child.wait().map_err(|error| Failure(error.to_string()))?;
    match (output, status.code()) {
        (Ok(output), Some(_)) => Ok(output),
        (Ok(_), None) => Err(Failure(format!("settle was ended by a signal: {status}\n"))),
        (Err(_), _) => Err(Failure(format!("settle did not end within {LONGEST_RUN:?}\n"))),
    }
}

/// The difference between what the program prints and what it must print, if there is one.
fn difference(program: &Path, input: &[u8], wanted: &[u8], seed: u64) -> Option<Failure> {
    match run(program, input, &mut Random::new(seed)) {
        Err(failure) => Some(failure),
        Ok(output) if output == wanted => None,
        Ok(output) => {
            Some(Failure(format!("settle printed\n{}but the model prints\n{}", in_lines(&output), in_lines(wanted))))
        }
    }
}

fn in_lines(bytes: &[u8]) -> String {
    let lines = bytes.split_inclusive(|byte| *byte == b'\n');
    lines.map(|line| format!("    {}\n", line.escape_ascii())).collect()
}

/// The refusals that a line's call can have, and the statuses that the allocation can have: the program lends 32 volume words
/// with a book of its own, so 1 and 7 never come.
const REFUSALS: [&str; 5] = ["2", "3", "4", "5", "6"];
const STATUSES: [&str; 5] = ["0", "8", "9", "10", "11"];

/// How often each damage was done, and what the program had to print.
#[derive(Default)]
pub struct Runs {
    damages: Vec<u64>,
    out_of_form: u64,
    refusals: [u64; REFUSALS.len()],
    statuses: [u64; STATUSES.len()],
}

impl Runs {
    fn note(&mut self, damage: FileDamage, output: &[u8]) {
        self.damages.resize(FileDamage::ALL.len(), 0);
        self.damages[damage as usize] += 1;
        for line in String::from_utf8_lossy(output).lines() {
            match line.split_once('=') {
                Some(("line", _)) => self.out_of_form += 1,
                Some(("status", status)) => count_in(&STATUSES, &mut self.statuses, status),
                Some(("refused", of)) => {
                    let number = of.split(',').nth(1).unwrap_or_default();
                    count_in(&REFUSALS, &mut self.refusals, number);
                }
                _ => {}
            }
        }
    }

    /// How often each was met, with its words.
    fn counts(&self) -> Vec<(u64, String)> {
        let files = FileDamage::ALL.iter().map(|damage| format!("period files with {}", damage.words()));
        let refusals = REFUSALS.iter().map(|number| format!("lines refused with {number}"));
        let statuses = STATUSES.iter().map(|number| format!("files with status={number}"));
        let mut counts = vec![(self.out_of_form, String::from("files with a line out of form"))];
        counts.extend(self.statuses.iter().copied().zip(statuses));
        counts.extend(self.refusals.iter().copied().zip(refusals));
        counts.extend(self.damages.iter().copied().zip(files));
        counts
    }

    /// What was never met.
    pub fn missing(&self) -> Vec<String> {
        let never = self.counts().into_iter().filter(|(count, _)| *count == 0);
        never.map(|(_, words)| words).collect()
    }

    pub fn table(&self) -> String {
        let lines = self.counts().into_iter().map(|(count, words)| format!("{count:>9}  {words}\n"));
        format!("\nWhat settle was run on, and what it had to print\n{}", lines.collect::<String>())
    }
}

fn count_in(names: &[&str; 5], counts: &mut [u64; 5], name: &str) {
    if let Some(index) = names.iter().position(|other| *other == name) {
        counts[index] += 1;
    }
}

/// Runs the program on document 01's example and on random files, and compares every byte printed.
pub fn check_settle(program: &Path, seed: u64, files: u64) -> Result<Runs, Failure> {
    let example = (EXAMPLE_INPUT.as_bytes(), EXAMPLE_OUTPUT.as_bytes());
    if let Some(Failure(words)) = difference(program, example.0, example.1, seed) {
        return Err(Failure(format!("on document 01's example, {words}")));
    }
    let mut runs = Runs::default();
    for index in 0..files {
        let random = &mut Random::part(seed ^ 0x5e77_1e00, index);
        let (file, damage) = random_file(index, random);
        let input = file.bytes();
        let wanted = output_of(&input);
        runs.note(damage, &wanted);
        let feeding = random.word();
        if let Some(failure) = difference(program, &input, &wanted, feeding) {
            return Err(cut_down(program, &file, failure, feeding, index));
        }
    }
    Ok(runs)
}

/// The failure with the fewest lines that still show it.
fn cut_down(program: &Path, file: &PeriodFile, failure: Failure, feeding: u64, index: u64) -> Failure {
    let with_lines = |lines: &[Vec<u8>]| PeriodFile { lines: lines.to_vec(), last_line_ends: file.last_line_ends };
    let (lines, Failure(words)) = smallest(&file.lines, failure, |lines| {
        let input = with_lines(lines).bytes();
        difference(program, &input, &output_of(&input), feeding)
    });
    Failure(format!(
        "period file {index}: {words}the smallest file found, {} lines:\n{}",
        lines.len(),
        in_lines(&with_lines(&lines).bytes())
    ))
}
