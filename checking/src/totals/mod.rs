//! The totals call against the second method: on random and damaged books, its sums over a whole book, and a book worked by hand.

mod asked;
mod figure;
mod observe;
mod reach;
mod whole;

pub use asked::random_asked;
pub use figure::check_figure;
pub use reach::TotalsReach;
pub use whole::{check_book_totals, check_sums};

use crate::compare::{same, same_words, Checked};
use crate::entry::Entry;
use crate::lent::{Guarded, Lent};
use crate::model::totals::{Asked, Totals};
use crate::model::Book;
use crate::random::Random;
use crate::reach::Reach;

/// Works out totals of a book, or of one that is ill formed if there is none.
pub fn check_totals(
    lent: &mut Lent,
    book: Option<&Book>,
    asked: &Asked,
    random: &mut Random,
    reach: &mut Reach,
) -> Checked {
    let wanted = wanted(book, asked, reach);
    reach.note_number(Entry::Totals, wanted.number);
    let after = lent.afterwards(None);
    let words_before = random.words(asked.words);
    let mut lent_totals = Guarded::new(&words_before, u64::MAX);
    let given = lent.totals(asked.direction, asked.network, lent_totals.lend());
    same("number", given, wanted.number)?;
    lent.check(&after)?;
    same_words("totals", lent_totals.contents(), &wanted.slice_after(&words_before))?;
    lent_totals.check_guards("totals")
}

fn wanted(book: Option<&Book>, asked: &Asked, reach: &mut Reach) -> Totals {
    let Some(book) = book else {
        return Totals::refused(1);
    };
    let contents = book.contents();
    let totals = Totals::of(&contents, asked);
    observe::note_totals(reach, &contents, asked, &totals);
    totals
}
