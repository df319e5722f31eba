//! The values at the ends of every range: the last ones inside, and those just outside.

use crate::call::Argument;

pub struct Boundaries {
    pub argument: Argument,
    pub words: &'static str,
    pub inside: &'static [i128],
    pub outside: &'static [i128],
}

/// What a number below 0 would be in an unsigned argument.
const MINUS_ONE: i128 = u64::MAX as i128;

const MPAN_INSIDE: &[i128] = &[1_000_000_000_000, 9_999_999_999_999];
const MPAN_OUTSIDE: &[i128] = &[0, 999_999_999_999, 10_000_000_000_000, MINUS_ONE];

/// One for each argument, in the order of `Argument`.
pub const BOUNDARIES: &[Boundaries] = &[
    Boundaries {
        argument: Argument::RegisterMpan,
        words: "register: MPAN",
        inside: MPAN_INSIDE,
        outside: MPAN_OUTSIDE,
    },
    Boundaries {
        argument: Argument::Segment,
        words: "register: segment",
        inside: &[0, 1, 2],
        outside: &[3, 4, MINUS_ONE],
    },
    Boundaries {
        argument: Argument::Direction,
        words: "register: direction",
        inside: &[0, 1],
        outside: &[2, MINUS_ONE],
    },
    Boundaries {
        argument: Argument::Status,
        words: "register: status",
        inside: &[0, 1, 2],
        outside: &[3, 4, MINUS_ONE],
    },
    Boundaries { argument: Argument::Base, words: "register: base unit", inside: &[0, 31], outside: &[32, MINUS_ONE] },
    Boundaries {
        argument: Argument::Flag,
        words: "register: additional flag",
        inside: &[0, 1],
        outside: &[2, MINUS_ONE],
    },
    Boundaries {
        argument: Argument::Additional,
        words: "register: additional unit",
        inside: &[0, 31],
        outside: &[32, MINUS_ONE],
    },
    Boundaries {
        argument: Argument::AdditionalOfNone,
        words: "register: additional, none",
        inside: &[0],
        outside: &[1, 31, 32, MINUS_ONE],
    },
    Boundaries {
        argument: Argument::Category,
        words: "register: category",
        inside: &[0, 63],
        outside: &[64, MINUS_ONE],
    },
    Boundaries {
        argument: Argument::Llf,
        words: "register: LLF",
        inside: &[500, 2_000],
        outside: &[0, 499, 2_001, MINUS_ONE],
    },
    Boundaries { argument: Argument::Network, words: "register: network", inside: &[0, 63], outside: &[64, MINUS_ONE] },
    Boundaries {
        argument: Argument::Tariff,
        words: "register: tariff",
        inside: &[0, 1_023],
        outside: &[1_024, MINUS_ONE],
    },
    Boundaries { argument: Argument::ReadingMpan, words: "reading: MPAN", inside: MPAN_INSIDE, outside: MPAN_OUTSIDE },
    Boundaries {
        argument: Argument::Issue,
        words: "reading: issue",
        inside: &[1, 4_294_967_295],
        outside: &[0, 4_294_967_296, MINUS_ONE],
    },
    Boundaries {
        argument: Argument::Quality,
        words: "reading: quality",
        inside: &[0, 6, 7, 9, 13, 14, 15, 16, 17, 20],
        outside: &[21, 31, 32, MINUS_ONE],
    },
    Boundaries {
        argument: Argument::Consumption,
        words: "reading: Wh",
        inside: &[0, 1, 10_000_000],
        outside: &[10_000_001, 16_777_216, MINUS_ONE],
    },
    Boundaries {
        argument: Argument::ShapeCategory,
        words: "shape: category",
        inside: &[0, 63],
        outside: &[64, MINUS_ONE],
    },
    Boundaries {
        argument: Argument::ShapeWh,
        words: "shape: Wh",
        inside: &[0, 10_000_000, 4_294_967_295],
        outside: &[10_000_001, 4_294_967_294, 4_294_967_296, MINUS_ONE],
    },
    Boundaries { argument: Argument::WeightClass, words: "weight: class", inside: &[0, 23], outside: &[24, MINUS_ONE] },
    Boundaries {
        argument: Argument::WeightThousandths,
        words: "weight: thousandths",
        inside: &[0, 1_000],
        outside: &[1_001, MINUS_ONE],
    },
    Boundaries {
        argument: Argument::Tolerance,
        words: "tolerance: g",
        inside: &[0, 1_000],
        outside: &[1_001, MINUS_ONE],
    },
    Boundaries {
        argument: Argument::Take,
        words: "take: Wh",
        inside: &[-5_000_000_000, -1, 0, 1, 5_000_000_000],
        outside: &[i64::MIN as i128, -5_000_000_001, 5_000_000_001, i64::MAX as i128],
    },
    Boundaries {
        argument: Argument::TotalsDirection,
        words: "totals: direction",
        inside: &[0, 1],
        outside: &[2, MINUS_ONE],
    },
    Boundaries {
        argument: Argument::TotalsNetwork,
        words: "totals: network",
        inside: &[0, 63],
        outside: &[64, MINUS_ONE],
    },
];

/// Numbers just above and far above those of the Take's flag. It is no argument of a call, so only a damaged book has one.
pub const TAKE_FLAGS_OUTSIDE: &[u32] = &[2, 3, 256, u32::MAX];

pub fn boundaries(argument: Argument) -> &'static Boundaries {
    let found = &BOUNDARIES[argument as usize];
    debug_assert_eq!(found.argument, argument);
    found
}
