//! A book on the library's side: the settings as they were last returned, and the slices that are lent with them.

use crate::call::Call;
use crate::compare::{same_settings, same_words, Checked, Failure};
use crate::model::Running;
use cepnhoy::{AllocationAnswer, Answer, Settings};

/// How many words stand before and after a lent slice, to see that a call keeps to its slice.
const GUARD_WORDS: usize = 4;

/// A slice to lend, between guard words.
#[derive(Clone, Debug)]
pub struct Guarded<T> {
    words: Vec<T>,
    guard: T,
}

impl<T: Copy + PartialEq> Guarded<T> {
    pub fn new(contents: &[T], guard: T) -> Guarded<T> {
        let mut words = vec![guard; GUARD_WORDS];
        words.extend_from_slice(contents);
        words.extend([guard; GUARD_WORDS]);
        Guarded { words, guard }
    }

    pub fn contents(&self) -> &[T] {
        &self.words[GUARD_WORDS..self.words.len() - GUARD_WORDS]
    }

    pub fn lend(&mut self) -> &mut [T] {
        let end = self.words.len() - GUARD_WORDS;
        &mut self.words[GUARD_WORDS..end]
    }

    pub fn check_guards(&self, what: &str) -> Checked {
        let (before, rest) = self.words.split_at(GUARD_WORDS);
        let after = &rest[rest.len() - GUARD_WORDS..];
        if before.iter().chain(after).all(|word| *word == self.guard) {
            return Ok(());
        }
        Err(Failure(format!("a word beside the {what} slice changed")))
    }
}

#[derive(Clone, Debug)]
pub struct Lent {
    pub settings: Settings,
    pub rows: Guarded<u64>,
    pub cells: Guarded<i64>,
}

/// What a book must be after a call.
pub struct Afterwards {
    settings: Settings,
    rows: Vec<u64>,
    cells: Vec<i64>,
}

impl Lent {
    pub fn new(settings: Settings, rows: &[u64], cells: &[i64]) -> Lent {
        // A guard that would be a good MPAN, so that a search that reads too far would find it, and one that is a good count.
        Lent { settings, rows: Guarded::new(rows, 5_555_555_555_555), cells: Guarded::new(cells, 55) }
    }

    pub fn fresh(rows: &[u64], cells: &[i64]) -> Lent {
        Lent::new(cepnhoy::fresh(), rows, cells)
    }

    /// The book that the second method has.
    pub fn of(running: &Running) -> Lent {
        Lent::new(running.book.settings(), &running.book.words(), &running.cells)
    }

    /// The book as the second method has it, or as it is now if there is none.
    pub fn afterwards(&self, running: Option<&Running>) -> Afterwards {
        match running {
            Some(Running { book, cells }) => {
                Afterwards { settings: book.settings(), rows: book.words(), cells: cells.clone() }
            }
            None => Afterwards {
                settings: self.settings,
                rows: self.rows.contents().to_vec(),
                cells: self.cells.contents().to_vec(),
            },
        }
    }

    /// Compares settings, rows and cells, and looks at the words beside the slices.
    pub fn check(&self, after: &Afterwards) -> Checked {
        same_settings(&self.settings, &after.settings)?;
        same_words("rows", self.rows.contents(), &after.rows)?;
        same_words("cells", self.cells.contents(), &after.cells)?;
        self.rows.check_guards("row")?;
        self.cells.check_guards("cell")
    }

    /// Makes a call through its own entry point and keeps the settings returned. A kind that no call has, has no entry point.
    pub fn make(&mut self, call: &Call) -> Option<u64> {
        let settings = self.settings;
        let (rows, cells) = (self.rows.lend(), self.cells.lend());
        let answer = match *call {
            Call::Register { mpan, registration } => cepnhoy::register(settings, rows, cells, mpan, registration),
            Call::Reading { mpan, reading } => cepnhoy::record_reading(settings, rows, cells, mpan, reading),
            Call::Shape { category, wh } => cepnhoy::set_shape(settings, rows, cells, category, wh),
            Call::Weight { class, thousandths } => cepnhoy::set_weight(settings, rows, cells, class, thousandths),
            Call::Tolerance { g } => cepnhoy::set_tolerance(settings, rows, cells, g),
            Call::Take { wh } => cepnhoy::set_take(settings, rows, cells, wh),
            Call::Unknown { .. } => return None,
        };
        Some(self.keep(answer))
    }

    pub fn make_calls(&mut self, call_words: &[u64], numbers: &mut [u64]) -> u64 {
        let settings = self.settings;
        let answer = cepnhoy::make_calls(settings, self.rows.lend(), self.cells.lend(), call_words, numbers);
        self.keep(answer)
    }

    /// Settles a list from the fresh settings, whatever those of this book are.
    pub fn settle_list(&mut self, call_words: &[u64], numbers: &mut [u64], volumes: &mut [i64]) -> AllocationAnswer {
        let answer = cepnhoy::settle_list(self.rows.lend(), self.cells.lend(), call_words, numbers, volumes);
        self.settings = answer.settings;
        answer
    }

    pub fn allocate(&mut self, volumes: &mut [i64]) -> AllocationAnswer {
        let answer = cepnhoy::allocate(self.settings, self.rows.contents(), self.cells.contents(), volumes);
        self.settings = answer.settings;
        answer
    }

    pub fn totals(&mut self, direction: u64, network: u64, totals: &mut [u64]) -> u64 {
        let answer = cepnhoy::totals(self.settings, self.rows.contents(), direction, network, totals);
        self.keep(answer)
    }

    fn keep(&mut self, answer: Answer) -> u64 {
        self.settings = answer.settings;
        answer.number
    }
}
