//! The range of every argument, and the codes that cause 3 refuses.

use crate::call::{Argument, Call};
use cepnhoy::Reading;

pub const METERS_MOST: usize = 65_536;
pub const SHAPE_MISSING: i128 = 4_294_967_295;

pub fn in_range(argument: Argument, value: i128) -> bool {
    match argument {
        Argument::RegisterMpan | Argument::ReadingMpan => (1_000_000_000_000..=9_999_999_999_999).contains(&value),
        Argument::Segment | Argument::Status => (0..=2).contains(&value),
        Argument::Direction | Argument::TotalsDirection | Argument::Flag => (0..=1).contains(&value),
        Argument::Base | Argument::Additional => (0..=31).contains(&value),
        Argument::AdditionalOfNone => value == 0,
        Argument::Category | Argument::ShapeCategory => (0..=63).contains(&value),
        Argument::Llf => (500..=2_000).contains(&value),
        Argument::Network | Argument::TotalsNetwork => (0..=63).contains(&value),
        Argument::Tariff => (0..=1_023).contains(&value),
        Argument::Issue => (1..=4_294_967_295).contains(&value),
        Argument::Quality => (0..=20).contains(&value),
        Argument::Consumption => (0..=10_000_000).contains(&value),
        Argument::ShapeWh => (0..=10_000_000).contains(&value) || value == SHAPE_MISSING,
        Argument::WeightClass => (0..=23).contains(&value),
        Argument::WeightThousandths | Argument::Tolerance => (0..=1_000).contains(&value),
        Argument::Take => (-5_000_000_000..=5_000_000_000).contains(&value),
    }
}

pub fn all_in_range(arguments: &[(Argument, i128)]) -> bool {
    arguments.iter().all(|&(argument, value)| in_range(argument, value))
}

/// Whether a call has no argument out of range. A kind that no call has is out of range as a whole.
pub fn call_in_range(call: &Call) -> bool {
    !matches!(call, Call::Unknown { .. }) && all_in_range(&call.arguments())
}

/// Cause 3: E7 isn't used, and the ZE codes carry 0 Wh only.
pub fn quality_refused(reading: &Reading) -> bool {
    let is_e7 = reading.quality == 7 + 7;
    let is_ze = (17..=20).contains(&reading.quality);
    is_e7 || (is_ze && reading.consumption > 0)
}

/// How many meters a slice of so many words has room for.
pub fn capacity(row_words: usize) -> usize {
    (row_words / 3).min(METERS_MOST)
}
