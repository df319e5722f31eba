//! The words of the slice of running cells (document 02, request 4): what stands where, what the meters of a book come to there, and
//! the limits.

use crate::model::cells::{cell_of, energy_of, loss_thousandths, Cells, Contents, Energy};

/// "a cell slice shorter than 836 words": 32 by 24 cells, four counts, and a number for each of 64 categories.
pub const WORDS: usize = 836;
pub const CELLS: usize = 768;
pub const COUNTS: usize = 4;
pub const WAITING: usize = CELLS + COUNTS;

const CLASSES_OF_UNIT: usize = 24;

pub const SIZES_MOST: i128 = 1_310_720_000_000_000;
pub const NUMBER_MOST: i128 = 4_294_967_295;

/// Where the cell of a unit and class stands: "by unit and then class".
pub fn place_of(unit: usize, class: usize) -> usize {
    CLASSES_OF_UNIT * unit + class
}

/// The cells other than 0.
pub fn cells_in(words: &[i64]) -> Cells {
    let cells = words[..CELLS].iter().enumerate().filter(|(_, word)| **word != 0);
    cells.map(|(place, word)| ((place / CLASSES_OF_UNIT, place % CLASSES_OF_UNIT), i128::from(*word))).collect()
}

/// The four counts of a slice within its limits.
pub fn counts_in(words: &[i64]) -> [u64; COUNTS] {
    std::array::from_fn(|count| u64::try_from(words[CELLS + count]).expect("a count is at least 0"))
}

/// The waiting numbers, by category.
pub fn waiting_in(words: &[i64]) -> impl Iterator<Item = i64> + '_ {
    words[WAITING..WORDS].iter().copied()
}

/// The sum over the meters, word by word. A missing shape is 0 Wh.
pub fn sum_over(contents: &Contents) -> Vec<i128> {
    let mut sum = vec![0; WORDS];
    for (registration, reading) in &contents.meters {
        let energy = energy_of(registration, reading.as_ref(), &contents.shapes);
        if let Some((unit, class, wh)) = cell_of(registration, energy) {
            sum[place_of(unit, class)] += 1_000 * i128::from(wh);
            sum[place_of(unit, class + 1)] += loss_thousandths(registration, wh);
        }
        let count = match energy {
            Energy::Actual(_) => 0,
            Energy::Estimated(_) => 1,
            Energy::Defaulted(_) => 2,
            Energy::Idle => 3,
        };
        sum[CELLS + count] += 1;
        if count == 2 {
            sum[WAITING + registration.category as usize] += 1;
        }
    }
    sum
}

/// A word of a slice, as it is lent or as it would be.
pub trait Word: Into<i128> + Copy {}

impl Word for i64 {}
impl Word for i128 {}

/// The sizes of the cells, added up.
pub fn sizes<W: Word>(words: &[W]) -> i128 {
    words[..CELLS].iter().map(|word| (*word).into().abs()).sum()
}

/// The places of counts and waiting numbers that are outside 0 to 4,294,967,295.
pub fn numbers_outside<W: Word>(words: &[W]) -> Vec<usize> {
    (CELLS..WORDS).filter(|place| !(0..=NUMBER_MOST).contains(&words[*place].into())).collect()
}

/// Whether the first 836 words pass no limit.
pub fn within_limits<W: Word>(words: &[W]) -> bool {
    sizes(words) <= SIZES_MOST && numbers_outside(words).is_empty()
}

/// The first 836 words of a slice that has them.
pub fn words_of(slice: &[i64]) -> Option<Vec<i128>> {
    let words = slice.get(..WORDS)?;
    Some(words.iter().map(|word| i128::from(*word)).collect())
}
