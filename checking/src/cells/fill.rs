//! Slices filled by hand.

use crate::model::slice::{place_of, sizes, CELLS, NUMBER_MOST, SIZES_MOST, WAITING, WORDS};
use crate::random::Random;
use cepnhoy::UNITS;

/// A slice for a list of calls: mostly all 0, as what a list means has it.
pub fn random_slice(random: &mut Random) -> Vec<i64> {
    let words = match random.index(100) {
        0..=66 => vec![0; WORDS],
        67..=91 => within_slice(random),
        92..=96 => outside_slice(random),
        _ => return short_slice(random),
    };
    lengthened(words, random)
}

/// The slice, now and then with words past those that mean something, which may be any.
pub fn lengthened(mut words: Vec<i64>, random: &mut Random) -> Vec<i64> {
    let more = *random.pick(&[0, 0, 0, 1, 1, 2, 5, 200]);
    words.extend(random.signed_words(more));
    words
}

/// A slice that is too short, of any words or of such as a fresh book has.
pub fn short_slice(random: &mut Random) -> Vec<i64> {
    let any = random.index(WORDS);
    let length = *random.pick(&[0, CELLS, WAITING, WORDS - 1, any, any, any, any, any, any, any, any]);
    match random.percent(50) {
        true => vec![0; length],
        false => random.signed_words(length),
    }
}

/// A slice within its limits.
pub fn within_slice(random: &mut Random) -> Vec<i64> {
    let mut words = vec![0; WORDS];
    match random.index(10) {
        0..=2 => fill_few(&mut words, random),
        3 | 4 => fill_all(&mut words, random),
        5 | 6 => fill_halves(&mut words, random),
        7 => {
            fill_few(&mut words, random);
            fill_up(&mut words, SIZES_MOST - i128::from(random.below(3)), random);
        }
        8 => fill_up(&mut words, SIZES_MOST, random),
        _ => fill_evenly(&mut words, random),
    }
    fill_numbers(&mut words, random);
    words
}

/// A slice that passes a limit, mostly just so.
pub fn outside_slice(random: &mut Random) -> Vec<i64> {
    let mut words = within_slice(random);
    match random.index(4) {
        0 => return sizes_at(SIZES_MOST + 1, random),
        1 => return wrapped_slice(random),
        2 => words[place_of_number(random)] = -1,
        _ => words[place_of_number(random)] = NUMBER_MOST as i64 + 1,
    }
    words
}

/// A slice whose sizes add up to so much.
pub fn sizes_at(total: i128, random: &mut Random) -> Vec<i64> {
    let mut words = vec![0; WORDS];
    if random.percent(60) {
        fill_few(&mut words, random);
    }
    fill_up(&mut words, total, random);
    words
}

/// Cells so large that their sizes come to little, or to less than 0, in 64 bits.
pub fn wrapped_slice(random: &mut Random) -> Vec<i64> {
    let large: &[i64] = match random.index(5) {
        0 => &[i64::MIN],
        1 => &[i64::MIN, i64::MIN],
        2 => &[i64::MAX, i64::MAX, 2],
        3 => &[1 << 62, -(1 << 62), 1 << 62, 1 << 62],
        _ => &[i64::MIN, i64::MAX, 1],
    };
    let mut places: Vec<usize> = (0..CELLS).collect();
    random.shuffle(&mut places);
    let mut words = vec![0; WORDS];
    for (place, word) in places.into_iter().zip(large) {
        words[place] = *word;
    }
    words
}

/// A count or a waiting number.
fn place_of_number(random: &mut Random) -> usize {
    let count = CELLS + random.index(WAITING - CELLS);
    let waiting = WAITING + random.index(WORDS - WAITING);
    *random.pick(&[count, waiting])
}

/// The slice with a count or a waiting number at this word.
pub fn numbers_at(mut words: Vec<i64>, number: i64, random: &mut Random) -> Vec<i64> {
    words[place_of_number(random)] = number;
    words
}

/// Of any size up to some hundred million Wh and mostly above 0; hardly ever whole Wh.
fn random_thousandths(random: &mut Random) -> i64 {
    let most = *random.pick(&[999, 100_000, 10_000_000, 10_000_000_000, 1_000_000_000_000]);
    let size = random.between_signed(1, most);
    match random.percent(30) {
        true => -size,
        false => size,
    }
}

fn fill_few(words: &mut [i64], random: &mut Random) {
    for _ in 0..1 + random.index(12) {
        words[random.index(CELLS)] = random_thousandths(random);
    }
}

fn fill_all(words: &mut [i64], random: &mut Random) {
    for word in &mut words[..CELLS] {
        *word = random_thousandths(random);
    }
}

/// Every cell as large as any other, so that the limit is met exactly or nearly.
fn fill_evenly(words: &mut [i64], random: &mut Random) {
    let most = (SIZES_MOST / CELLS as i128) as i64;
    let size = most - random.between_signed(0, 1_000);
    for word in &mut words[..CELLS] {
        *word = if random.percent(20) { -size } else { size };
    }
}

/// At and beside halves of a Wh, on both sides of 0.
fn fill_halves(words: &mut [i64], random: &mut Random) {
    for _ in 0..1 + random.index(60) {
        let wh = *random.pick(&[0, 0, 1, 2, 77, 1_000_000]);
        let thousandths = 1_000 * wh + *random.pick(&[499, 500, 501]);
        words[random.index(CELLS)] = *random.pick(&[thousandths, thousandths, -thousandths]);
    }
}

/// One cell takes what lacks to this total: mostly one of import, so that an allocation may be accepted.
fn fill_up(words: &mut [i64], total: i128, random: &mut Random) {
    let class = *random.pick(&[0, 1, 2, 8, 9, 10, 16, 17, 19, 12, 23]);
    let place = place_of(random.index(UNITS), class);
    words[place] = 0;
    let lacking = i64::try_from(total - sizes(words)).expect("the total fits 64 bits");
    words[place] = if random.percent(15) { -lacking } else { lacking };
}

/// Counts and waiting numbers: the former any, the latter mostly 0, since a missing shape refuses an allocation.
fn fill_numbers(words: &mut [i64], random: &mut Random) {
    let most = NUMBER_MOST as i64;
    for word in &mut words[CELLS..WAITING] {
        let any = random.between_signed(0, most - 1_000_000);
        *word = *random.pick(&[0, 1, 7, 1_000, any, any, most - 1, most]);
    }
    if random.percent(40) {
        for _ in 0..1 + random.index(3) {
            let any = random.between_signed(1, most);
            words[WAITING + random.index(WORDS - WAITING)] = *random.pick(&[1, 2, any, most]);
        }
    }
}
