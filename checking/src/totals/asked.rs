//! What random totals calls ask for.

use crate::model::cells::Contents;
use crate::model::totals::{Asked, WORDS};
use crate::profile::{random_number, value_outside};
use crate::random::Random;

/// A totals call on a book: mostly for the direction and network of one of its meters, with a slice that is long enough. Now and
/// then one of the two is out of range, or the slice is too short, or both.
pub fn random_asked(contents: &Contents, random: &mut Random) -> Asked {
    let mut asked =
        Asked { direction: random.below(2), network: random_number(63, random), words: random_words(random) };
    if !contents.meters.is_empty() && random.percent(75) {
        let (registration, _) = random.pick(&contents.meters);
        asked.network = registration.network;
        if random.percent(80) {
            asked.direction = registration.direction;
        }
    }
    if random.percent(12) {
        spoil(&mut asked, random);
    }
    asked
}

/// How many words the slice has: mostly enough.
fn random_words(random: &mut Random) -> usize {
    let short = random.index(WORDS);
    match random.percent(15) {
        true => *random.pick(&[0, 1, WORDS - 1, short]),
        false => WORDS + *random.pick(&[0, 0, 1, 2, 4, 100]),
    }
}

/// Takes the direction or the network out of its range, rarely both.
fn spoil(asked: &mut Asked, random: &mut Random) {
    let which = random.index(10);
    let [direction, network] = asked.arguments();
    if which < 5 {
        asked.direction = value_outside(direction.0, direction.1, random) as u64;
    }
    if which > 3 {
        asked.network = value_outside(network.0, network.1, random) as u64;
    }
}
