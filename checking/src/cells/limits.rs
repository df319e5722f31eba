//! Which limits the change of a call just meets or just passes.

use crate::call::Call;
use crate::model::running::Change;
use crate::model::slice::{numbers_outside, sizes, CELLS, NUMBER_MOST, SIZES_MOST, WAITING, WORDS};
use crate::model::Book;
use crate::named::named;

named! {
    /// The calls that change cells.
    Kind {
        NewMeter => "new meter",
        KnownMeter => "known meter",
        Reading => "reading",
        Shape => "shape",
    }
}

named! {
    Limit {
        Sizes => "sizes",
        CountMost => "a count, at most",
        CountLeast => "a count, at least",
        WaitingMost => "a waiting number, at most",
        WaitingLeast => "a waiting number, at least",
    }
}

impl Kind {
    pub fn of(book: &Book, call: &Call) -> Option<Kind> {
        match call {
            Call::Register { mpan, .. } if book.meter(*mpan).is_some() => Some(Kind::KnownMeter),
            Call::Register { .. } => Some(Kind::NewMeter),
            Call::Reading { .. } => Some(Kind::Reading),
            Call::Shape { .. } => Some(Kind::Shape),
            _ => None,
        }
    }

    /// The limits that such a call can meet: a new meter takes nothing away, a reading lets no meter wait, and a shape changes no number.
    pub fn limits(self) -> &'static [Limit] {
        match self {
            Kind::NewMeter => &[Limit::Sizes, Limit::CountMost, Limit::WaitingMost],
            Kind::KnownMeter => Limit::ALL,
            Kind::Reading => &[Limit::Sizes, Limit::CountMost, Limit::CountLeast, Limit::WaitingLeast],
            Kind::Shape => &[Limit::Sizes],
        }
    }
}

impl Limit {
    /// The limit of the number at a place, at its most or its least.
    fn of_number(place: usize, most: bool) -> Limit {
        match (place < WAITING, most) {
            (true, true) => Limit::CountMost,
            (true, false) => Limit::CountLeast,
            (false, true) => Limit::WaitingMost,
            (false, false) => Limit::WaitingLeast,
        }
    }

    /// The places of the numbers that it is of; none for the sizes.
    pub fn places(self) -> std::ops::Range<usize> {
        match self {
            Limit::Sizes => 0..0,
            Limit::CountMost | Limit::CountLeast => CELLS..WAITING,
            Limit::WaitingMost | Limit::WaitingLeast => WAITING..WORDS,
        }
    }
}

/// The one limit that the change passes, by one.
pub fn just_passed(change: &Change) -> Option<Limit> {
    let total = sizes(&change.after);
    match numbers_outside(&change.after)[..] {
        [] => (total == SIZES_MOST + 1).then_some(Limit::Sizes),
        [place] if total <= SIZES_MOST => match change.after[place] {
            -1 => Some(Limit::of_number(place, false)),
            number => (number == NUMBER_MOST + 1).then_some(Limit::of_number(place, true)),
        },
        _ => None,
    }
}

/// The limits that the change brings words to, without passing any.
pub fn just_met(change: &Change) -> Vec<Limit> {
    let mut met = Vec::new();
    let cells_change = change.by[..CELLS].iter().any(|by| *by != 0);
    if cells_change && sizes(&change.after) == SIZES_MOST {
        met.push(Limit::Sizes);
    }
    for place in (CELLS..WORDS).filter(|place| change.by[*place] != 0) {
        match change.after[place] {
            0 => met.push(Limit::of_number(place, false)),
            NUMBER_MOST => met.push(Limit::of_number(place, true)),
            _ => {}
        }
    }
    met
}
