//! Which situations a totals call met, seen from the second method's side.

use std::collections::BTreeMap;

use crate::model::cells::{Contents, Energy};
use crate::model::totals::{energies, totals_causes, Asked, Totals};
use crate::reach::Reach;
use crate::situation::Situation;
use cepnhoy::Registration;

/// Notes a totals call on a well-formed book.
pub fn note_totals(reach: &mut Reach, contents: &Contents, asked: &Asked, totals: &Totals) {
    reach.note_boundaries(&asked.arguments());
    reach.totals.note_causes(&totals_causes(contents, asked));
    note_length(reach, asked.words);
    if totals.number == 9 {
        note_lacking(reach, contents, asked);
    }
    if let Some(words) = &totals.words {
        reach.totals.note_accepted(asked, words);
        note_words(reach, contents, words);
        note_meters(reach, contents, asked);
        note_tariffs(reach, contents, asked);
    }
}

fn note_length(reach: &mut Reach, words: usize) {
    match words {
        0 => reach.note(Situation::TotalsWords0),
        4_095 => reach.note(Situation::TotalsWords4095),
        4_096 => reach.note(Situation::TotalsWords4096),
        4_097 => reach.note(Situation::TotalsWords4097),
        _ => {}
    }
}

/// Notes where the meters are that lack their shape: refusal 9 is for any meter of the book.
fn note_lacking(reach: &mut Reach, contents: &Contents, asked: &Asked) {
    let lacking = energies(contents).filter(|(_, energy)| *energy == Energy::Defaulted(None));
    let places: Vec<(bool, bool)> =
        lacking.map(|(r, _)| (r.direction == asked.direction, r.network == asked.network)).collect();
    let all_are = |place| places.iter().all(|other| *other == place);
    reach.note_if(Situation::TotalsLackOtherDirection, all_are((false, true)));
    reach.note_if(Situation::TotalsLackOtherNetwork, all_are((true, false)));
    reach.note_if(Situation::TotalsLackOtherBoth, all_are((false, false)));
}

fn note_words(reach: &mut Reach, contents: &Contents, words: &[u64]) {
    let all_zero = words.iter().all(|word| *word == 0);
    reach.note_if(Situation::TotalsAllZero, all_zero && !contents.meters.is_empty());
    let mut wh = words.chunks_exact(4).flat_map(|of_tariff| &of_tariff[..2]);
    reach.note_if(Situation::TotalsPast32Bits, wh.any(|wh| *wh > u32::MAX.into()));
}

/// Notes what meters the totals are of.
fn note_meters(reach: &mut Reach, contents: &Contents, asked: &Asked) {
    let qualities = contents.meters.iter().map(|(_, reading)| reading.map(|reading| reading.quality));
    for ((registration, energy), quality) in energies(contents).zip(qualities).filter(|((r, _), _)| asked.is_of(r)) {
        let situation = match (energy, registration.status, quality) {
            (Energy::Idle, _, _) => Situation::TotalsIdle,
            (Energy::Actual(0) | Energy::Estimated(0) | Energy::Defaulted(Some(0)), _, _) => Situation::TotalsNoWh,
            (Energy::Actual(_), 1, Some(9)) => Situation::TotalsDeEnergisedE2,
            (Energy::Actual(_), 1, Some(13)) => Situation::TotalsDeEnergisedE6,
            (Energy::Actual(_), 1, _) => Situation::TotalsDeEnergisedActual,
            (Energy::Actual(_), _, Some(9)) => Situation::TotalsE2,
            (Energy::Actual(_), _, Some(13)) => Situation::TotalsE6,
            (Energy::Actual(_), _, _) => Situation::TotalsActual,
            (Energy::Estimated(_), _, _) => Situation::TotalsEstimated,
            (Energy::Defaulted(_), _, _) => Situation::TotalsDefaulted,
        };
        reach.note(situation);
    }
}

/// How many meters in use have each tariff, of those that pass a test.
fn by_tariff(contents: &Contents, test: impl Fn(&Registration) -> bool) -> BTreeMap<u64, usize> {
    let mut counts = BTreeMap::new();
    for (registration, _) in energies(contents).filter(|(r, energy)| *energy != Energy::Idle && test(r)) {
        *counts.entry(registration.tariff).or_default() += 1;
    }
    counts
}

/// Notes tariffs that several meters share, and those that meters have which must not be in these totals.
fn note_tariffs(reach: &mut Reach, contents: &Contents, asked: &Asked) {
    let asked_for = by_tariff(contents, |r| asked.is_of(r));
    let other_direction = by_tariff(contents, |r| r.direction != asked.direction && r.network == asked.network);
    let other_network = by_tariff(contents, |r| r.direction == asked.direction && r.network != asked.network);
    let shared_with = |others: &BTreeMap<u64, usize>| asked_for.keys().any(|tariff| others.contains_key(tariff));
    reach.note_if(Situation::TotalsTariffShared, asked_for.values().any(|count| *count > 1));
    reach.note_if(Situation::TotalsTariffOtherDirection, shared_with(&other_direction));
    reach.note_if(Situation::TotalsTariffOtherNetwork, shared_with(&other_network));
}
