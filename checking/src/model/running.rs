//! A book with its slice of running cells (document 02, request 4).

use crate::call::Call;
use crate::model::allocation::{allocate, Allocation, Gathered};
use crate::model::slice::{sum_over, within_limits, words_of, WORDS};
use crate::model::Book;

#[derive(Clone, Debug)]
pub struct Running {
    pub book: Book,
    /// The slice as it is lent, of any length, with any words.
    pub cells: Vec<i64>,
}

/// What becomes of a slice if a book changes: the first 836 words before, what each changes by, and what they would be.
#[derive(Clone, Debug)]
pub struct Change {
    pub before: Vec<i128>,
    pub by: Vec<i128>,
    pub after: Vec<i128>,
}

impl Change {
    /// "every call adds the change in the sum over the rows". The sums are worked from all meters, before and after.
    fn of(before: Vec<i128>, from: &Book, to: &Book) -> Change {
        let sums = sum_over(&from.contents()).into_iter().zip(sum_over(&to.contents()));
        let by: Vec<i128> = sums.map(|(old, new)| new - old).collect();
        let after = before.iter().zip(&by).map(|(word, by)| word + by).collect();
        Change { before, by, after }
    }
}

/// How a call went.
pub struct Attempt {
    /// All causes to refuse it that applied, in the order in which they are looked at. Where there are others, the last one, that the call
    /// would pass a limit, is not among them: it is about what a call leaves that nothing else refuses.
    pub causes: Vec<u64>,
    /// What it changed, or would have changed if a limit had not refused it; none if something else did, or if it is a call that changes
    /// no cells.
    pub change: Option<Change>,
}

impl Attempt {
    pub fn number(&self) -> u64 {
        self.causes.first().copied().unwrap_or(0)
    }
}

impl Running {
    /// With the slice that calls have left if nobody else wrote it, and if it was no longer than it has to be.
    pub fn of(book: Book) -> Running {
        let sum = sum_over(&book.contents());
        let word = |word| i64::try_from(word).expect("what meters come to fits 64 bits");
        Running { cells: sum.into_iter().map(word).collect(), book }
    }

    /// Refusal 13, and 1 for the slice.
    pub fn cause_of_cells(cells: &[i64]) -> Option<u64> {
        if cells.len() < WORDS {
            return Some(13);
        }
        (!within_limits(cells)).then_some(1)
    }

    pub fn is_formed(&self) -> bool {
        Running::cause_of_cells(&self.cells).is_none()
    }

    /// Whether the slice is what the meters come to.
    pub fn is_sum(&self) -> bool {
        words_of(&self.cells).is_some_and(|words| words == sum_over(&self.book.contents()))
    }

    /// What a call would change if nothing refused it; none without a slice of 836 words, and for a call that changes no meter.
    pub fn change(&self, call: &Call) -> Option<Change> {
        let made = self.book.forced(call)?;
        Some(Change::of(words_of(&self.cells)?, &self.book, &made))
    }

    /// Makes a call, and tells how it went.
    pub fn attempt(&mut self, call: &Call) -> Attempt {
        let mut causes: Vec<u64> = Running::cause_of_cells(&self.cells).into_iter().collect();
        let is_formed = causes.is_empty();
        causes.extend(self.book.causes(call));
        if !is_formed {
            return Attempt { causes, change: None };
        }
        let mut made = self.book.clone();
        if made.make(call) != 0 {
            self.book = made;
            return Attempt { causes, change: None };
        }
        if matches!(call, Call::Weight { .. } | Call::Tolerance { .. } | Call::Take { .. }) {
            // The sum over the rows depends on none of these.
            self.book = made;
            return Attempt { causes, change: None };
        }
        let words = words_of(&self.cells).expect("the slice is long enough");
        let change = Change::of(words, &self.book, &made);
        if within_limits(&change.after) {
            for (word, after) in self.cells.iter_mut().zip(&change.after) {
                *word = i64::try_from(*after).expect("words within the limits fit 64 bits");
            }
            self.book = made;
        } else {
            causes.push(1);
        }
        Attempt { causes, change: Some(change) }
    }

    /// Makes a call, and gives its number.
    pub fn make(&mut self, call: &Call) -> u64 {
        self.attempt(call).number()
    }

    pub fn allocate(&self, volume_words: usize) -> Allocation {
        if let Some(number) = Running::cause_of_cells(&self.cells) {
            return Allocation::refused(number, None);
        }
        let contents = self.book.contents();
        let gathered = Gathered::of_slice(&self.cells[..WORDS], &contents.shapes);
        allocate(&contents, gathered, volume_words)
    }
}
