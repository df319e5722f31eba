//! A run over many random books, and the report of the first failure.

use std::fmt::Write;

use crate::books::random_case;
use crate::cells::cells_in_words;
use crate::check::{check_case, check_lists, Case, Expected};
use crate::compare::{settings_in_words, Checked, Failure};
use crate::damage::Damage;
use crate::large::{check_large, large_cases};
use crate::model::slice::WORDS;
use crate::model::Book;
use crate::moved::check_moved;
use crate::probe::{check_damaged, check_length};
use crate::random::Random;
use crate::reach::Reach;
use crate::shrink::smallest;

/// How many times each book is damaged.
const DAMAGES_PER_BOOK: usize = 6;

/// Only the list of a large book can be longer than this after it was cut down.
const CALLS_PRINTED: usize = 400;

/// Checks the random book of this number. A failure is cut down and put into words.
pub fn check_book(seed: u64, index: u64, reach: &mut Reach) -> Checked {
    let random = &mut Random::part(seed, index);
    let case = random_case(random);
    let damages: Vec<Damage> = (0..DAMAGES_PER_BOOK).map(|_| Damage::random(random)).collect();
    let name = format!("book {index}");
    report(&name, &case, |case| check_case(case, reach))?;
    report(&name, &case, |case| check_moved(case, reach))?;
    for damage in &damages {
        report(&name, &case, |case| check_damaged(&reached(case), damage, reach))?;
    }
    Ok(())
}

/// The book that the calls reach from a slice at 0.
fn reached(case: &Case) -> Book {
    let mut book = Book::fresh(case.rows.clone());
    for call in &case.calls {
        book.make(call);
    }
    book
}

/// How many words more than a cell slice has to have are tried.
const WORDS_PAST: usize = 4;

/// Checks every call with a cell slice of each length: all that are too short, the shortest that is not, and a few longer ones.
pub fn check_lengths(seed: u64, reach: &mut Reach) -> Checked {
    for words in 0..=WORDS + WORDS_PAST {
        let random = &mut Random::part(seed, u64::MAX - 1 - words as u64);
        let case = Case { cells: vec![0; words], ..random_case(random) };
        let name = format!("cell slice of {words} words");
        report(&name, &case, |case| check_lists(case, &Expected::of(case), reach))?;
        report(&name, &case, |case| check_length(&reached(case), words, &mut random.clone(), reach))?;
    }
    Ok(())
}

/// Checks books at the limit of meters.
pub fn check_large_books(seed: u64, reach: &mut Reach) -> Checked {
    for case in large_cases(&mut Random::part(seed, u64::MAX)) {
        report("large book", &case, |case| check_large(case, reach))?;
    }
    Ok(())
}

/// Runs a check on a case; on a failure, cuts the list down while it fails, and puts what is left into words.
fn report(name: &str, case: &Case, mut check: impl FnMut(&Case) -> Checked) -> Checked {
    let Err(failure) = check(case) else {
        return Ok(());
    };
    let with_calls = |calls: &[_]| Case { calls: calls.to_vec(), ..case.clone() };
    let (calls, failure) = smallest(&case.calls, failure, |calls| check(&with_calls(calls)).err());
    let (mut cut, mut failure) = (with_calls(&calls), failure);
    let zero_rows = |case: &Case| Case { rows: vec![0; case.rows.len()], ..case.clone() };
    let zero_cells = |case: &Case| Case { cells: vec![0; case.cells.len()], ..case.clone() };
    for simpler in [&zero_rows as &dyn Fn(&Case) -> Case, &zero_cells] {
        if let Err(still) = check(&simpler(&cut)) {
            (cut, failure) = (simpler(&cut), still);
        }
    }
    Err(in_words(name, &cut, failure))
}

fn in_words(name: &str, case: &Case, Failure(what): Failure) -> Failure {
    let mut words = format!("{name}: {what}\n");
    let lent = match case.rows.iter().all(|word| *word == 0) {
        true => String::from("all 0"),
        false => format!("at first {:?}", &case.rows[..case.rows.len().min(400)]),
    };
    let _ = writeln!(words, "row slice: {} words, {lent}", case.rows.len());
    let _ = writeln!(words, "cell slice: {}", cells_in_words(&case.cells));
    let _ = writeln!(words, "volume slice: {} words", case.volumes.len());
    let count = case.calls.len();
    let _ = writeln!(words, "the smallest list found, {count} calls, and the numbers that they must give:");
    // Call by call a large book would take hours.
    let expected = if case.starts_at_zero() { Expected::at_once(case) } else { Expected::of(case) };
    for (place, (call, number)) in case.calls.iter().zip(&expected.numbers).enumerate().take(CALLS_PRINTED) {
        let _ = writeln!(words, "  {:>3}  {call}  -> {number}", place + 1);
    }
    if count > CALLS_PRINTED {
        let _ = writeln!(words, "  and {} more", count - CALLS_PRINTED);
    }
    let settings = settings_in_words(&expected.running.book.settings());
    let _ = write!(words, "settings that they must leave: {settings}");
    Failure(words)
}
