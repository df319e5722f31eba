//! What is timed: a half hour of a number of meters, the same for both sides, drawn from a fixed seed.

use cepnhoy::{
    Reading, Registration, CALL_WORDS, KIND_READING, KIND_REGISTER, KIND_SHAPE, KIND_TAKE, KIND_WEIGHT, NETWORK_MAX,
    TARIFFS,
};

/// SplitMix64.
pub struct Random(pub u64);

impl Random {
    fn word(&mut self) -> u64 {
        self.0 = self.0.wrapping_add(0x9e37_79b9_7f4a_7c15);
        let mut mixed = self.0;
        mixed = (mixed ^ (mixed >> 30)).wrapping_mul(0xbf58_476d_1ce4_e5b9);
        mixed = (mixed ^ (mixed >> 27)).wrapping_mul(0x94d0_49bb_1331_11eb);
        mixed ^ (mixed >> 31)
    }

    pub fn below(&mut self, count: u64) -> u64 {
        ((u128::from(self.word()) * u128::from(count)) >> 64) as u64
    }

    fn shuffle<T>(&mut self, items: &mut [T]) {
        for last in (1..items.len()).rev() {
            items.swap(last, self.below(last as u64 + 1) as usize);
        }
    }
}

#[derive(Clone, Copy)]
pub struct Meter {
    pub mpan: u64,
    pub registration: Registration,
    pub reading: Reading,
}

impl Meter {
    pub fn register(&self) -> Single {
        Single::Register { mpan: self.mpan, registration: self.registration }
    }

    pub fn read(&self) -> Single {
        Single::Reading { mpan: self.mpan, reading: self.reading }
    }
}

/// A register, reading or shape call, to be made by itself or in a list.
#[derive(Clone, Copy)]
pub enum Single {
    Register { mpan: u64, registration: Registration },
    Reading { mpan: u64, reading: Reading },
    Shape { category: u64, wh: u64 },
}

impl Single {
    fn words(&self) -> [u64; CALL_WORDS] {
        match *self {
            Single::Register { mpan, registration: r } => [
                KIND_REGISTER,
                mpan,
                r.segment,
                r.direction,
                r.status,
                r.base,
                r.flag,
                r.additional,
                r.category,
                r.llf,
                r.network,
                r.tariff,
            ],
            Single::Reading { mpan, reading: r } => filled([KIND_READING, mpan, r.issue, r.quality, r.consumption]),
            Single::Shape { category, wh } => filled([KIND_SHAPE, category, wh]),
        }
    }
}

/// The words of a call of few arguments, with 0 in those that its kind does not use.
fn filled<const USED: usize>(used: [u64; USED]) -> [u64; CALL_WORDS] {
    let mut words = [0; CALL_WORDS];
    words[..USED].copy_from_slice(&used);
    words
}

/// Mixed meters, as a real half hour has them: most are energised, and a twentieth are without a reading.
pub struct HalfHour {
    pub meters: Vec<Meter>,
    without_reading: Vec<bool>,
}

/// Between two MPANs, so that new ones fit at the front, at the end and between.
const STEP: u64 = 100_000_000;
const FIRST: u64 = 2_000_000_000_000;

fn registration(random: &mut Random) -> Registration {
    let flag = u64::from(random.below(10) == 0);
    let energised = if random.below(10) == 0 { random.below(2) } else { 2 };
    Registration {
        segment: random.below(3),
        direction: u64::from(random.below(8) == 0),
        status: energised,
        base: random.below(32),
        flag,
        additional: flag * random.below(32),
        category: random.below(64),
        llf: 950 + random.below(151),
        network: network(random),
        tariff: random.below(TARIFFS as u64),
    }
}

/// Half of the meters are on no embedded network.
pub fn network(random: &mut Random) -> u64 {
    random.below(2) * random.below(NETWORK_MAX + 1)
}

/// A to AAE3, E2 and E6.
const ACTUAL: [u64; 9] = [0, 1, 2, 3, 4, 5, 6, 9, 13];
/// E0, E1 and E3 to E5: rare codes are not timed.
const ESTIMATED: [u64; 5] = [7, 8, 10, 11, 12];

/// A tenth of the readings is estimated.
fn reading(random: &mut Random) -> Reading {
    let codes: &[u64] = if random.below(10) != 0 { &ACTUAL } else { &ESTIMATED };
    Reading {
        issue: 1 + random.below(1_000),
        quality: codes[random.below(codes.len() as u64) as usize],
        consumption: random.below(2_000),
    }
}

impl HalfHour {
    pub fn new(count: usize, random: &mut Random) -> HalfHour {
        let meters = (0..count as u64)
            .map(|place| Meter {
                mpan: FIRST + place * STEP + random.below(STEP),
                registration: registration(random),
                reading: reading(random),
            })
            .collect();
        let without_reading = (0..count).map(|_| random.below(20) == 0).collect();
        HalfHour { meters, without_reading }
    }

    /// The registrations, then the readings; in order of MPAN, or each of the two in a random order.
    pub fn calls(&self, random: Option<&mut Random>) -> Vec<Single> {
        let mut registrations: Vec<Single> = self.meters.iter().map(Meter::register).collect();
        let with_reading = self.meters.iter().zip(&self.without_reading).filter(|(_, without)| !**without);
        let mut readings: Vec<Single> = with_reading.map(|(meter, _)| meter.read()).collect();
        if let Some(random) = random {
            random.shuffle(&mut registrations);
            random.shuffle(&mut readings);
        }
        registrations.append(&mut readings);
        registrations
    }

    /// The words of a whole list: weights, shapes and the Take before these calls.
    pub fn list(&self, calls: &[Single]) -> Vec<u64> {
        let mut words = setting_words(self.expected_take());
        words.extend(calls.iter().map(Single::words));
        words.into_flattened()
    }

    /// Near what the meters come to, so that the allocation is accepted.
    fn expected_take(&self) -> u64 {
        let used = self.meters.iter().filter(|meter| meter.registration.status == 2);
        let net: i64 = used
            .map(|meter| {
                let wh = meter.reading.consumption as i64;
                if meter.registration.direction == 0 {
                    wh
                } else {
                    -wh
                }
            })
            .sum();
        net as u64
    }
}

/// The first shapes are from 100 to 163 Wh; these are others.
pub fn other_shapes(count: usize, random: &mut Random) -> Vec<Single> {
    (0..count).map(|_| Single::Shape { category: random.below(64), wh: 200 + random.below(2_000) }).collect()
}

fn setting_words(take: u64) -> Vec<[u64; CALL_WORDS]> {
    let weights = (0..24).map(|class| filled([KIND_WEIGHT, class, 1_000]));
    let shapes = (0..64).map(|category| Single::Shape { category, wh: 100 + category }.words());
    let take = filled([KIND_TAKE, take]);
    weights.chain(shapes).chain([take]).collect()
}

/// Meters between the front and the first, falling, or beyond the last, rising.
pub fn at_the_front(count: usize, random: &mut Random) -> Vec<Meter> {
    (1..=count as u64)
        .map(|place| Meter { mpan: FIRST - place * STEP, registration: registration(random), reading: reading(random) })
        .collect()
}

pub fn at_the_end(count: usize, random: &mut Random) -> Vec<Meter> {
    (1..=count as u64)
        .map(|place| Meter {
            mpan: 9_000_000_000_000 + place * STEP,
            registration: registration(random),
            reading: reading(random),
        })
        .collect()
}
