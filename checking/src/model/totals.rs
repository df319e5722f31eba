//! The totals call (document 02, request 1): the meters of a direction and an embedded network are picked out, and of these, for
//! each tariff, those that have it.

use std::fmt;

use crate::call::Argument;
use crate::model::cells::{energy_of, Contents, Energy};
use crate::model::ranges::all_in_range;
use cepnhoy::Registration;

/// "a tariff (0 to 1,023)", and "four [..] words for each tariff".
const TARIFFS: u64 = 1_024;
pub const WORDS: usize = 4_096;

const DE_ENERGISED: u64 = 1;
const ENERGISED: u64 = 2;

/// What a totals call is made with, beside the book.
#[derive(Clone, Copy, Debug)]
pub struct Asked {
    pub direction: u64,
    pub network: u64,
    /// How many words the totals slice has.
    pub words: usize,
}

impl Asked {
    pub fn arguments(&self) -> [(Argument, i128); 2] {
        [(Argument::TotalsDirection, self.direction.into()), (Argument::TotalsNetwork, self.network.into())]
    }

    pub fn is_of(&self, registration: &Registration) -> bool {
        registration.direction == self.direction && registration.network == self.network
    }
}

impl fmt::Display for Asked {
    fn fmt(&self, f: &mut fmt::Formatter) -> fmt::Result {
        write!(f, "totals direction={} network={} with {} words", self.direction, self.network, self.words)
    }
}

/// Every meter with its energy.
pub fn energies(contents: &Contents) -> impl Iterator<Item = (&Registration, Energy)> {
    contents.meters.iter().map(move |(registration, reading)| {
        let energy = energy_of(registration, reading.as_ref(), &contents.shapes);
        (registration, energy)
    })
}

/// All causes that apply to a totals call on a well-formed book, in the order in which they are looked at: 12 comes after 2, and 9
/// is last.
pub fn totals_causes(contents: &Contents, asked: &Asked) -> Vec<u64> {
    let causes = [
        (2, !all_in_range(&asked.arguments())),
        (12, asked.words < WORDS),
        (9, energies(contents).any(|(_, energy)| energy == Energy::Defaulted(None))),
    ];
    let applying = causes.into_iter().filter(|(_, applies)| *applies);
    applying.map(|(number, _)| number).collect()
}

fn actual_wh(energy: Energy) -> u64 {
    match energy {
        Energy::Actual(wh) => wh,
        _ => 0,
    }
}

fn other_wh(energy: Energy) -> u64 {
    match energy {
        Energy::Estimated(wh) => wh,
        Energy::Defaulted(wh) => wh.expect("a book with a default that lacks its shape is refused"),
        Energy::Actual(_) | Energy::Idle => 0,
    }
}

/// Actual Wh, other Wh, and how many meters not idle are energised and de-energised.
fn added_up(meters: &[(&Registration, Energy)]) -> [u64; 4] {
    let wh = |of: fn(Energy) -> u64| meters.iter().map(|(_, energy)| of(*energy)).sum();
    let in_use = meters.iter().filter(|(_, energy)| *energy != Energy::Idle);
    let count = |status| in_use.clone().filter(|(registration, _)| registration.status == status).count() as u64;
    [wh(actual_wh), wh(other_wh), count(ENERGISED), count(DE_ENERGISED)]
}

fn totals_of(contents: &Contents, asked: &Asked) -> Vec<u64> {
    let asked_for: Vec<_> = energies(contents).filter(|(registration, _)| asked.is_of(registration)).collect();
    let of_tariff = |tariff| -> Vec<_> { asked_for.iter().copied().filter(|(r, _)| r.tariff == tariff).collect() };
    (0..TARIFFS).flat_map(|tariff| added_up(&of_tariff(tariff))).collect()
}

/// What a totals call gives: its number, and the words of all tariffs if it was accepted.
#[derive(Clone, Debug)]
pub struct Totals {
    pub number: u64,
    pub words: Option<Vec<u64>>,
}

impl Totals {
    pub fn refused(number: u64) -> Totals {
        Totals { number, words: None }
    }

    /// On a well-formed book.
    pub fn of(contents: &Contents, asked: &Asked) -> Totals {
        match totals_causes(contents, asked).first() {
            Some(number) => Totals::refused(*number),
            None => Totals { number: 0, words: Some(totals_of(contents, asked)) },
        }
    }

    /// The totals slice afterwards.
    pub fn slice_after(&self, before: &[u64]) -> Vec<u64> {
        let mut after = before.to_vec();
        if let Some(words) = &self.words {
            after[..WORDS].copy_from_slice(words);
        }
        after
    }
}
