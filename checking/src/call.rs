//! The six calls that write a book, as values, and how they stand in a list.

use std::fmt;

use crate::random::Random;
use cepnhoy::{
    Reading, Registration, CALL_WORDS, KIND_READING, KIND_REGISTER, KIND_SHAPE, KIND_TAKE, KIND_TOLERANCE, KIND_WEIGHT,
};

#[derive(Clone, Copy, Debug, PartialEq, Eq)]
pub enum Call {
    Register {
        mpan: u64,
        registration: Registration,
    },
    Reading {
        mpan: u64,
        reading: Reading,
    },
    Shape {
        category: u64,
        wh: u64,
    },
    Weight {
        class: u64,
        thousandths: u64,
    },
    Tolerance {
        g: u64,
    },
    Take {
        wh: i64,
    },
    /// A kind that no call has. It has no entry point and can only stand in a list.
    Unknown {
        kind: u64,
    },
}

/// An argument of a call that writes a book, or of a totals call. The additional unit is two of them, since its range depends on
/// the flag.
#[derive(Clone, Copy, Debug, PartialEq, Eq, PartialOrd, Ord)]
pub enum Argument {
    RegisterMpan,
    Segment,
    Direction,
    Status,
    Base,
    Flag,
    Additional,
    AdditionalOfNone,
    Category,
    Llf,
    Network,
    Tariff,
    ReadingMpan,
    Issue,
    Quality,
    Consumption,
    ShapeCategory,
    ShapeWh,
    WeightClass,
    WeightThousandths,
    Tolerance,
    Take,
    TotalsDirection,
    TotalsNetwork,
}

pub fn registration_arguments(registration: &Registration) -> [(Argument, i128); 10] {
    let additional = match registration.flag {
        0 => Argument::AdditionalOfNone,
        _ => Argument::Additional,
    };
    [
        (Argument::Segment, registration.segment.into()),
        (Argument::Direction, registration.direction.into()),
        (Argument::Status, registration.status.into()),
        (Argument::Base, registration.base.into()),
        (Argument::Flag, registration.flag.into()),
        (additional, registration.additional.into()),
        (Argument::Category, registration.category.into()),
        (Argument::Llf, registration.llf.into()),
        (Argument::Network, registration.network.into()),
        (Argument::Tariff, registration.tariff.into()),
    ]
}

pub fn reading_arguments(reading: &Reading) -> [(Argument, i128); 3] {
    [
        (Argument::Issue, reading.issue.into()),
        (Argument::Quality, reading.quality.into()),
        (Argument::Consumption, reading.consumption.into()),
    ]
}

impl Call {
    /// The arguments with their values; none for a kind that no call has.
    pub fn arguments(&self) -> Vec<(Argument, i128)> {
        match self {
            Call::Register { mpan, registration } => {
                let mut all = vec![(Argument::RegisterMpan, i128::from(*mpan))];
                all.extend(registration_arguments(registration));
                all
            }
            Call::Reading { mpan, reading } => {
                let mut all = vec![(Argument::ReadingMpan, i128::from(*mpan))];
                all.extend(reading_arguments(reading));
                all
            }
            Call::Shape { category, wh } => {
                vec![(Argument::ShapeCategory, i128::from(*category)), (Argument::ShapeWh, i128::from(*wh))]
            }
            Call::Weight { class, thousandths } => vec![
                (Argument::WeightClass, i128::from(*class)),
                (Argument::WeightThousandths, i128::from(*thousandths)),
            ],
            Call::Tolerance { g } => vec![(Argument::Tolerance, i128::from(*g))],
            Call::Take { wh } => vec![(Argument::Take, i128::from(*wh))],
            Call::Unknown { .. } => Vec::new(),
        }
    }

    /// The same call with another value of one of its arguments.
    pub fn with(mut self, argument: Argument, value: i128) -> Call {
        match &mut self {
            Call::Take { wh } => *wh = value as i64,
            other => *other.unsigned_argument(argument) = value as u64,
        }
        self
    }

    fn unsigned_argument(&mut self, argument: Argument) -> &mut u64 {
        match (self, argument) {
            (Call::Register { mpan, .. }, Argument::RegisterMpan) => mpan,
            (Call::Register { registration, .. }, _) => match argument {
                Argument::Segment => &mut registration.segment,
                Argument::Direction => &mut registration.direction,
                Argument::Status => &mut registration.status,
                Argument::Base => &mut registration.base,
                Argument::Flag => &mut registration.flag,
                Argument::Additional | Argument::AdditionalOfNone => &mut registration.additional,
                Argument::Category => &mut registration.category,
                Argument::Llf => &mut registration.llf,
                Argument::Network => &mut registration.network,
                Argument::Tariff => &mut registration.tariff,
                _ => panic!("register has no argument {argument:?}"),
            },
            (Call::Reading { mpan, .. }, Argument::ReadingMpan) => mpan,
            (Call::Reading { reading, .. }, Argument::Issue) => &mut reading.issue,
            (Call::Reading { reading, .. }, Argument::Quality) => &mut reading.quality,
            (Call::Reading { reading, .. }, Argument::Consumption) => &mut reading.consumption,
            (Call::Shape { category, .. }, Argument::ShapeCategory) => category,
            (Call::Shape { wh, .. }, Argument::ShapeWh) => wh,
            (Call::Weight { class, .. }, Argument::WeightClass) => class,
            (Call::Weight { thousandths, .. }, Argument::WeightThousandths) => thousandths,
            (Call::Tolerance { g }, Argument::Tolerance) => g,
            (call, _) => panic!("{call} has no unsigned argument {argument:?}"),
        }
    }

    /// The words of the call in a list. Words that its kind does not use mean nothing, so they are random.
    pub fn words(&self, random: &mut Random) -> [u64; CALL_WORDS] {
        let used = match *self {
            Call::Register { mpan, registration: r } => vec![
                KIND_REGISTER,
                mpan,
                r.segment,
                r.direction,
                r.status,
                r.base,
                r.flag,
                r.additional,
                r.category,
                r.llf,
                r.network,
                r.tariff,
            ],
            Call::Reading { mpan, reading: r } => {
                vec![KIND_READING, mpan, r.issue, r.quality, r.consumption]
            }
            Call::Shape { category, wh } => vec![KIND_SHAPE, category, wh],
            Call::Weight { class, thousandths } => vec![KIND_WEIGHT, class, thousandths],
            Call::Tolerance { g } => vec![KIND_TOLERANCE, g],
            Call::Take { wh } => vec![KIND_TAKE, wh as u64],
            Call::Unknown { kind } => vec![kind],
        };
        let mut words = [0; CALL_WORDS];
        for (index, word) in words.iter_mut().enumerate() {
            *word = match used.get(index) {
                Some(used) => *used,
                None => random.word(),
            };
        }
        words
    }
}

/// The words of a whole list of calls.
pub fn list_words(calls: &[Call], random: &mut Random) -> Vec<u64> {
    calls.iter().flat_map(|call| call.words(random)).collect()
}

impl fmt::Display for Call {
    fn fmt(&self, f: &mut fmt::Formatter) -> fmt::Result {
        match self {
            Call::Register { mpan, registration: r } => {
                write!(f, "register mpan={mpan} segment={} direction={} status={}", r.segment, r.direction, r.status)?;
                write!(f, " base={} flag={} additional={}", r.base, r.flag, r.additional)?;
                write!(f, " category={} llf={} network={} tariff={}", r.category, r.llf, r.network, r.tariff)
            }
            Call::Reading { mpan, reading: r } => {
                write!(f, "reading mpan={} issue={} quality={} wh={}", mpan, r.issue, r.quality, r.consumption)
            }
            Call::Shape { category, wh } => write!(f, "shape category={category} wh={wh}"),
            Call::Weight { class, thousandths } => {
                write!(f, "weight class={class} thousandths={thousandths}")
            }
            Call::Tolerance { g } => write!(f, "tolerance g={g}"),
            Call::Take { wh } => write!(f, "take wh={wh}"),
            Call::Unknown { kind } => write!(f, "call of the unknown kind {kind}"),
        }
    }
}
