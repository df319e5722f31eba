//! Damage to a book: bits flipped, words and settings that no accepted call could have written, and cells filled by hand.

use crate::boundaries::TAKE_FLAGS_OUTSIDE;
use crate::cells::{lengthened, numbers_at, short_slice, sizes_at, within_slice, wrapped_slice};
use crate::model::ranges::capacity;
use crate::model::slice::{CELLS, NUMBER_MOST, SIZES_MOST, WORDS};
use crate::model::words::{reading_of, reading_word, registration_of, registration_word};
use crate::named::named;
use crate::random::Random;
use cepnhoy::{Reading, Registration, Settings, CATEGORIES, CLASSES, ROW_WORDS, TAKE_FLAG_SET, TAKE_FLAG_UNSET};

named! {
    DamageKind {
        None => "nothing damaged",
        SettingsBit => "a bit of the settings flipped",
        RowBit => "a bit of a used row flipped",
        BitPastRows => "a bit past the last used row flipped",
        SliceShorter => "row slice cut by a few words",
        SliceLonger => "row slice longer by a few words",
        MetersAboveCapacity => "more meters than capacity",
        MetersOneMore => "one meter more, within capacity",
        MetersOneFewer => "one meter fewer",
        RowsSwapped => "two rows swapped",
        MpansEqual => "two MPANs equal",
        MpanOutside => "MPAN just outside its range",
        SegmentThree => "segment 3",
        StatusThree => "status 3",
        AdditionalWithoutFlag => "additional unit without its bit",
        LlfOutside => "LLF outside its range",
        NetworkOrTariff => "other bits 33 to 48 of word 1",
        RegistrationHighBits => "a bit past 48 of word 1",
        QualityE7 => "quality 14",
        QualityAbove => "quality 21 to 31",
        ZeWithEnergy => "ZE code with energy",
        IssueZero => "issue 0 with other bits",
        ReadingSpareBits => "a bit of 29 to 31 of word 2",
        ConsumptionAbove => "consumption above its range",
        WeightAbove => "weight above its range",
        ShapeBetween => "shape between its range and missing",
        ToleranceAbove => "tolerance above its range",
        TakeOutside => "Take outside its range",
        TakeWithoutFlag => "Take with a value while unset",
        TakeFlagOutside => "Take's flag neither 0 nor 1",
        CellBit => "a bit of the cell slice flipped",
        CellsShorter => "cell slice shorter than 836 words",
        CellsLonger => "cell slice longer by a few words",
        CellsFilled => "cell slice filled by hand",
        NumbersZero => "counts and waiting numbers at 0",
        NumberMost => "a count or waiting number of 4,294,967,295",
        NumberPast => "a count or waiting number past that",
        NumberBelow => "a count or waiting number below 0",
        SizesMost => "cell sizes at their limit",
        SizesPast => "cell sizes past their limit",
        SizesWrapped => "cell sizes past 63 bits",
    }
}

impl DamageKind {
    /// Whether a book damaged so is well formed; none if it may be or not, by the bit or the words that were hit.
    pub fn leaves_well_formed(self) -> Option<bool> {
        match self {
            DamageKind::None
            | DamageKind::BitPastRows
            | DamageKind::SliceLonger
            | DamageKind::MetersOneFewer
            | DamageKind::NetworkOrTariff
            | DamageKind::CellsLonger
            | DamageKind::CellsFilled
            | DamageKind::NumbersZero
            | DamageKind::NumberMost
            | DamageKind::SizesMost => Some(true),
            DamageKind::SettingsBit
            | DamageKind::RowBit
            | DamageKind::SliceShorter
            | DamageKind::MetersOneMore
            | DamageKind::CellBit => None,
            _ => Some(false),
        }
    }
}

/// A kind of damage, with the seed that chooses the place and the value, so that it can be done again to another book.
#[derive(Clone, Copy, Debug)]
pub struct Damage {
    pub kind: DamageKind,
    pub seed: u64,
    /// The cell slice is cut short as well, so that it shows what is looked at first.
    pub and_short: bool,
}

impl Damage {
    pub fn random(random: &mut Random) -> Damage {
        let kind = match random.index(3) {
            // Most ways to damage a book by one bit are not thought of beforehand.
            0 => *random.pick(&[DamageKind::SettingsBit, DamageKind::RowBit, DamageKind::CellBit]),
            _ => *random.pick(DamageKind::ALL),
        };
        Damage { kind, seed: random.word(), and_short: random.percent(8) }
    }

    /// Damages the book, or gives false if this book has nothing that could be damaged so.
    pub fn apply(&self, settings: &mut Settings, rows: &mut Vec<u64>, cells: &mut Vec<i64>) -> bool {
        let random = &mut Random::new(self.seed);
        damage_cells(self.kind, cells, random)
            || damage_length(self.kind, rows, random)
            || damage_settings(self.kind, settings, rows.len(), random)
            || damage_rows(self.kind, settings.meters, rows, random)
    }
}

fn damage_cells(kind: DamageKind, cells: &mut Vec<i64>, random: &mut Random) -> bool {
    let most = NUMBER_MOST as i64;
    let damaged = match kind {
        DamageKind::CellBit => {
            let place = random.index(cells.len());
            // Mostly one of the lower bits, so that some slices stay within their limits.
            let (any, lower) = (random.index(64), random.index(33));
            cells[place] ^= 1 << *random.pick(&[any, lower]);
            return true;
        }
        DamageKind::CellsShorter => cells[..random.index(WORDS)].to_vec(),
        DamageKind::CellsLonger => {
            let more = 1 + random.index(9);
            [&cells[..], &random.signed_words(more)].concat()
        }
        DamageKind::CellsFilled => lengthened(within_slice(random), random),
        DamageKind::NumbersZero => [&cells[..CELLS], &[0; WORDS - CELLS]].concat(),
        DamageKind::NumberMost => numbers_at(cells.clone(), most, random),
        DamageKind::NumberPast => {
            let number = *random.pick(&[most + 1, most + 1, 1 << 33, i64::MAX]);
            numbers_at(cells.clone(), number, random)
        }
        DamageKind::NumberBelow => {
            let number = *random.pick(&[-1, -1, -(1 << 32), i64::MIN]);
            numbers_at(cells.clone(), number, random)
        }
        DamageKind::SizesMost => sizes_at(SIZES_MOST, random),
        DamageKind::SizesPast => {
            let past = *random.pick(&[1, 1, 2, 1_000, 1_000_000_000_000_000]);
            sizes_at(SIZES_MOST + past, random)
        }
        DamageKind::SizesWrapped => wrapped_slice(random),
        _ => return false,
    };
    *cells = damaged;
    true
}

/// What is left of a slice that is cut short.
pub fn cut_short(seed: u64) -> Vec<i64> {
    short_slice(&mut Random::part(seed, 2))
}

fn damage_length(kind: DamageKind, rows: &mut Vec<u64>, random: &mut Random) -> bool {
    let by = 1 + random.index(4);
    match kind {
        DamageKind::SliceShorter => rows.truncate(rows.len().saturating_sub(by)),
        DamageKind::SliceLonger => rows.extend(random.words(by)),
        _ => return false,
    }
    true
}

fn damage_settings(kind: DamageKind, settings: &mut Settings, row_words: usize, random: &mut Random) -> bool {
    match kind {
        DamageKind::None => {}
        DamageKind::SettingsBit => flip_settings_bit(settings, random),
        DamageKind::MetersAboveCapacity => settings.meters = meters_above(row_words, random),
        DamageKind::MetersOneMore if settings.meters < capacity(row_words) => settings.meters += 1,
        DamageKind::MetersOneFewer if settings.meters > 0 => settings.meters -= 1,
        DamageKind::WeightAbove => {
            let above = [1_001, 1_002, 1_024, 65_536, u32::MAX];
            settings.weights[random.index(CLASSES)] = *random.pick(&above);
        }
        DamageKind::ShapeBetween => {
            let least = 10_000_001;
            let most = u32::MAX - 1;
            let between = random.between(least.into(), most.into()) as u32;
            let wh = *random.pick(&[least, most, between]);
            settings.shapes[random.index(CATEGORIES)] = wh;
        }
        DamageKind::ToleranceAbove => {
            settings.tolerance = *random.pick(&[1_001, 1_002, 65_536, u32::MAX]);
        }
        _ => return damage_take(kind, settings, random),
    }
    true
}

fn damage_take(kind: DamageKind, settings: &mut Settings, random: &mut Random) -> bool {
    let most = 5_000_000_000;
    match kind {
        DamageKind::TakeOutside => {
            settings.take_set = TAKE_FLAG_SET;
            settings.take_wh = *random.pick(&[most + 1, -most - 1, i64::MAX, i64::MIN]);
        }
        DamageKind::TakeWithoutFlag => {
            settings.take_set = TAKE_FLAG_UNSET;
            let any = random.between_signed(1, most);
            settings.take_wh = *random.pick(&[1, -1, any, -any, i64::MAX, i64::MIN]);
        }
        DamageKind::TakeFlagOutside => {
            settings.take_set = *random.pick(TAKE_FLAGS_OUTSIDE);
            // A value that is well formed beside one of the two flags, so that the flag alone decides.
            let any = random.between_signed(-most, most);
            settings.take_wh = *random.pick(&[0, 1, any]);
        }
        _ => return false,
    }
    true
}

/// Any bit of the record, which has no padding.
fn flip_settings_bit(settings: &mut Settings, random: &mut Random) {
    match random.index(6) {
        0 => settings.meters ^= 1 << random.index(64),
        1 => settings.weights[random.index(CLASSES)] ^= 1 << random.index(32),
        2 => settings.shapes[random.index(CATEGORIES)] ^= 1 << random.index(32),
        3 => settings.tolerance ^= 1 << random.index(32),
        4 => settings.take_set ^= 1 << random.index(32),
        _ => settings.take_wh ^= 1 << random.index(64),
    }
}

/// Above capacity by one, and numbers whose threefold passes 64 bits and comes out small.
fn meters_above(row_words: usize, random: &mut Random) -> usize {
    let third = usize::MAX / 3;
    let above =
        [capacity(row_words) + 1, row_words + 1, 65_537, 1 << 32, third, third + 1, third + 2, 1 << 63, usize::MAX];
    *random.pick(&above)
}

fn damage_rows(kind: DamageKind, meters: usize, rows: &mut [u64], random: &mut Random) -> bool {
    let used = meters * ROW_WORDS;
    if kind == DamageKind::BitPastRows {
        return flip_word_bit(&mut rows[used..], random);
    }
    if meters == 0 {
        return false;
    }
    if kind == DamageKind::RowBit {
        return flip_word_bit(&mut rows[..used], random);
    }
    let used_rows = &mut rows[..used];
    let row = ROW_WORDS * random.index(meters);
    damage_order(kind, used_rows, random)
        || damage_registration(kind, &mut used_rows[row + 1], random)
        || damage_reading(kind, &mut used_rows[row + 2], random)
}

fn flip_word_bit(words: &mut [u64], random: &mut Random) -> bool {
    if words.is_empty() {
        return false;
    }
    words[random.index(words.len())] ^= 1 << random.index(64);
    true
}

fn damage_order(kind: DamageKind, rows: &mut [u64], random: &mut Random) -> bool {
    let meters = rows.len() / ROW_WORDS;
    match kind {
        DamageKind::RowsSwapped if meters > 1 => {
            let first = random.index(meters - 1);
            let second = random.between(first as u64 + 1, meters as u64 - 1) as usize;
            for word in 0..ROW_WORDS {
                rows.swap(ROW_WORDS * first + word, ROW_WORDS * second + word);
            }
        }
        DamageKind::MpansEqual if meters > 1 => {
            let first = ROW_WORDS * random.index(meters - 1);
            let (from, to) = *random.pick(&[(0, ROW_WORDS), (ROW_WORDS, 0)]);
            rows[first + to] = rows[first + from];
        }
        DamageKind::MpanOutside => {
            // Only the ends keep the rows in rising order, so that the range alone decides.
            if random.percent(50) {
                rows[0] = *random.pick(&[0, 1, 999_999_999_999]);
            } else {
                let last = ROW_WORDS * (meters - 1);
                rows[last] = *random.pick(&[10_000_000_000_000, u64::MAX]);
            }
        }
        _ => return false,
    }
    true
}

fn damage_registration(kind: DamageKind, word: &mut u64, random: &mut Random) -> bool {
    if kind == DamageKind::RegistrationHighBits {
        *word |= 1 << random.between(49, 63);
        return true;
    }
    if kind == DamageKind::NetworkOrTariff {
        *word ^= random.between(1, 0xffff) << 33;
        return true;
    }
    let mut fields: Registration = registration_of(*word);
    match kind {
        DamageKind::SegmentThree => fields.segment = 3,
        DamageKind::StatusThree => fields.status = 3,
        DamageKind::AdditionalWithoutFlag => {
            fields.flag = 0;
            fields.additional = random.between(1, 31);
        }
        DamageKind::LlfOutside => fields.llf = *random.pick(&[0, 1, 499, 2_001, 2_047]),
        _ => return false,
    }
    *word = registration_word(&fields);
    true
}

fn damage_reading(kind: DamageKind, word: &mut u64, random: &mut Random) -> bool {
    let mut fields: Reading = reading_of(*word);
    if *word == 0 {
        fields.issue = random.between(1, 9);
    }
    match kind {
        DamageKind::QualityE7 => fields.quality = 14,
        DamageKind::QualityAbove => fields.quality = random.between(21, 31),
        DamageKind::ZeWithEnergy => {
            fields.quality = random.between(17, 20);
            fields.consumption = *random.pick(&[1, 2, 10_000_000]);
        }
        DamageKind::IssueZero => {
            fields.issue = 0;
            fields.quality = random.between(0, 13);
            fields.consumption = random.between(1, 100);
        }
        DamageKind::ReadingSpareBits => fields.quality += 32 << random.index(3),
        DamageKind::ConsumptionAbove => {
            fields.consumption = *random.pick(&[10_000_001, 16_777_215]);
        }
        _ => return false,
    }
    *word = reading_word(&fields);
    true
}
