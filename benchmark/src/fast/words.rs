//! The words of a row, tested and packed with as few instructions as they take.

use cepnhoy::{Reading, Registration, CATEGORIES};

pub const MPAN_LEAST: u64 = 1_000_000_000_000;
pub const MPAN_MOST: u64 = 9_999_999_999_999;
const LLF_LEAST: u64 = 500;
const LLF_MOST: u64 = 2_000;
pub const NETWORK_MOST: u64 = 63;
const TARIFF_MOST: u64 = 1_023;
const CONSUMPTION_MOST: u64 = 10_000_000;

/// One more than the most Wh that a reading may have, by bits 24 to 31 of its word: a quality with its three zero bits above it.
/// 0 where no reading may have them.
static CONSUMPTION_BELOW: [u32; 256] = {
    let mut below = [0; 256];
    let mut quality = 0;
    while quality <= 20 {
        below[quality] = match quality {
            14 => 0,
            17..=20 => 1,
            _ => CONSUMPTION_MOST as u32 + 1,
        };
        quality += 1;
    }
    below
};

pub fn is_mpan(mpan: u64) -> bool {
    mpan.wrapping_sub(MPAN_LEAST) <= MPAN_MOST - MPAN_LEAST
}

#[inline(always)]
pub fn llf(word: u64) -> u64 {
    word >> 22 & 0x7ff
}

/// Segment and status are below 3, there is an additional unit or its bits are 0, the loss factor is in range, and nothing stands
/// above the tariff.
#[inline(always)]
pub fn is_registration(word: u64) -> bool {
    let threes = word & (word >> 1) & 0b1001;
    let above_least = llf(word).wrapping_sub(LLF_LEAST);
    threes == 0
        && ((word >> 10 & 1 == 1) | (word >> 11 & 31 == 0))
        && above_least <= LLF_MOST - LLF_LEAST
        && word >> 49 == 0
}

#[inline(always)]
pub fn is_reading(word: u64) -> bool {
    let consumption = (word & 0xff_ffff) as u32;
    let below = CONSUMPTION_BELOW[(word >> 24 & 0xff) as usize];
    consumption < below && ((word >> 32 != 0) | (word == 0))
}

pub fn in_range(r: &Registration) -> bool {
    r.segment <= 2
        && r.direction <= 1
        && r.status <= 2
        && r.base <= 31
        && r.flag <= 1
        && r.additional <= 31 * r.flag
        && r.category <= 63
        && (LLF_LEAST..=LLF_MOST).contains(&r.llf)
        && r.network <= NETWORK_MOST
        && r.tariff <= TARIFF_MOST
}

pub fn registration_word(r: &Registration) -> u64 {
    r.segment
        | r.direction << 2
        | r.status << 3
        | r.base << 5
        | r.flag << 10
        | r.additional << 11
        | r.category << 16
        | r.llf << 22
        | r.network << 33
        | r.tariff << 39
}

pub fn reading_in_range(r: &Reading) -> bool {
    r.issue.wrapping_sub(1) < u64::from(u32::MAX) && r.quality <= 20 && r.consumption <= CONSUMPTION_MOST
}

/// Of a reading that is in range.
pub fn quality_allowed(r: &Reading) -> bool {
    (r.consumption as u32) < CONSUMPTION_BELOW[r.quality as usize]
}

pub fn shape_in_range(category: u64, wh: u64) -> bool {
    category < CATEGORIES as u64 && (wh <= CONSUMPTION_MOST || wh == u64::from(u32::MAX))
}

pub fn reading_word(r: &Reading) -> u64 {
    r.consumption | r.quality << 24 | r.issue << 32
}
