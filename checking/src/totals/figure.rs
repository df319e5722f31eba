//! A small book whose totals were worked by hand, through the library and through the second method.

use super::check_totals;
use crate::call::Call;
use crate::compare::{at, same, same_words, Checked, AGAINST_FIGURES};
use crate::lent::Lent;
use crate::model::totals::{Asked, Totals, WORDS};
use crate::model::{Book, Running};
use crate::random::Random;
use crate::reach::Reach;
use cepnhoy::{Reading, Registration};

const IMPORT: u64 = 0;
const EXPORT: u64 = 1;
const DISCONNECTED: u64 = 0;
const DE_ENERGISED: u64 = 1;
const ENERGISED: u64 = 2;
const CODE_A: u64 = 0;
const CODE_E0: u64 = 7;
const CODE_E2: u64 = 9;
const CODE_E6: u64 = 13;

/// Direction, status, network, tariff, and the reading's quality and Wh if there is one. The shape of all is 40 Wh.
type Meter = (u64, u64, u64, u64, Option<(u64, u64)>);

const METERS: [Meter; 12] = [
    (IMPORT, ENERGISED, 7, 5, Some((CODE_A, 1_000))),
    (IMPORT, ENERGISED, 7, 5, None),
    (IMPORT, ENERGISED, 7, 5, Some((CODE_E2, 20))),
    (IMPORT, ENERGISED, 7, 5, Some((CODE_E6, 300))),
    (IMPORT, DE_ENERGISED, 7, 5, Some((CODE_E2, 9))),
    (IMPORT, DE_ENERGISED, 7, 5, Some((CODE_E6, 4_000))),
    (IMPORT, DE_ENERGISED, 7, 5, Some((CODE_A, 3))),
    (IMPORT, DE_ENERGISED, 7, 5, Some((CODE_E0, 500))),
    (IMPORT, DISCONNECTED, 7, 5, Some((CODE_A, 11))),
    (IMPORT, ENERGISED, 7, 1_023, Some((CODE_A, 0))),
    (EXPORT, ENERGISED, 7, 5, Some((CODE_A, 400))),
    (IMPORT, ENERGISED, 0, 5, Some((CODE_E0, 70))),
];

/// A tariff with its four words; those of all other tariffs are 0.
type Charged = (usize, [u64; 4]);

/// Direction and network, and the tariffs with their words.
const FIGURES: [(u64, u64, &[Charged]); 4] = [
    (IMPORT, 7, &[(5, [5_332, 40, 4, 3]), (1_023, [0, 0, 1, 0])]),
    (EXPORT, 7, &[(5, [400, 0, 1, 0])]),
    (IMPORT, 0, &[(5, [0, 70, 1, 0])]),
    (EXPORT, 0, &[]),
];

fn calls() -> Vec<Call> {
    let mut calls = vec![Call::Shape { category: 0, wh: 40 }];
    for (mpan, (direction, status, network, tariff, read)) in (1_000_000_000_000..).zip(METERS) {
        let registration = Registration {
            segment: 1,
            direction,
            status,
            base: 0,
            flag: 0,
            additional: 0,
            category: 0,
            llf: 1_000,
            network,
            tariff,
        };
        calls.push(Call::Register { mpan, registration });
        let reading = |(quality, consumption)| Reading { issue: 1, quality, consumption };
        calls.extend(read.map(|read| Call::Reading { mpan, reading: reading(read) }));
    }
    calls
}

/// Holds the second method to the figures, and the library to the second method.
pub fn check_figure(reach: &mut Reach) -> Checked {
    let mut book = Book::fresh(vec![0; 3 * METERS.len()]);
    for call in calls() {
        same("number", book.make(&call), 0)?;
    }
    for (direction, network, charged) in FIGURES {
        let asked = Asked { direction, network, words: WORDS };
        at(|| format!("{asked}"), check_one(&book, &asked, charged, reach))?;
    }
    Ok(())
}

fn check_one(book: &Book, asked: &Asked, charged: &[Charged], reach: &mut Reach) -> Checked {
    let mut words = vec![0; WORDS];
    for (tariff, of_tariff) in charged {
        words[4 * tariff..4 * tariff + 4].copy_from_slice(of_tariff);
    }
    let worked = Totals::of(&book.contents(), asked).slice_after(&[u64::MAX; WORDS]);
    at(|| String::from(AGAINST_FIGURES), same_words("totals", &worked, &words))?;
    let mut lent = Lent::of(&Running::of(book.clone()));
    check_totals(&mut lent, Some(book), asked, &mut Random::new(1), reach)
}
