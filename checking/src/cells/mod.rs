//! The slice of running cells against the second method: slices filled by hand, of every length and at their limits, calls that just
//! meet a limit or pass it, and allocations of what a slice reads.

mod aim;
mod fill;
mod limits;
mod observe;
mod reach;

pub use fill::{
    lengthened, numbers_at, outside_slice, random_slice, short_slice, sizes_at, within_slice, wrapped_slice,
};
pub use observe::{note_filled, note_kept, note_lent, note_listed_cells};
pub use reach::CellsReach;

use crate::books::{aimed_take, random_volume_words};
use crate::call::Call;
use crate::check::{check_allocation, check_single};
use crate::compare::{at, Checked};
use crate::entry::Entry;
use crate::lent::Lent;
use crate::model::allocation::Gathered;
use crate::model::{Book, Running};
use crate::random::Random;
use crate::reach::Reach;
use cepnhoy::CLASSES;

/// Slices filled by hand, on a book that calls reached.
pub fn check_cells(book: &Book, random: &mut Random, reach: &mut Reach) -> Checked {
    aim::check_aimed(book, random, reach)?;
    match random.percent(60) {
        true => check_filled(book, random, reach),
        false => Ok(()),
    }
}

/// Allocates a slice as it reads, with a Take that is aimed at it.
fn check_filled(book: &Book, random: &mut Random, reach: &mut Reach) -> Checked {
    let mut running = Running { book: book.clone(), cells: lengthened(within_slice(random), random) };
    let cells = running.cells.clone();
    let mut lent = Lent::of(&running);
    let place = || format!("on a slice filled by hand, {}", cells_in_words(&cells));
    if random.percent(60) {
        for class in 0..CLASSES as u64 {
            let thousandths = *random.pick(&[1, 500, 999, 1_000, 1_000]);
            let call = Call::Weight { class, thousandths };
            at(place, check_single(&mut lent, &mut running, Entry::Weight, &call, reach))?;
        }
    }
    let gathered = Gathered::of_slice(&cells, &running.book.contents().shapes);
    if let Some(call) = aimed_take(&running.book, gathered, random) {
        at(place, check_single(&mut lent, &mut running, Entry::Take, &call, reach))?;
    }
    let volume_words = random_volume_words(random);
    let volumes = random.signed_words(volume_words);
    at(place, check_allocation(&mut lent, Some(&running), &volumes, reach))
}

/// How many words a slice has, and those that are not 0.
pub fn cells_in_words(cells: &[i64]) -> String {
    let others = cells.iter().enumerate().filter(|(_, word)| **word != 0);
    let words: Vec<String> = others.map(|(place, word)| format!("[{place}]={word}")).collect();
    format!("{} cells, {}", cells.len(), if words.is_empty() { String::from("all 0") } else { words.join(" ") })
}
