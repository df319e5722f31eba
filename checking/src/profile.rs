//! What the calls of one random book are drawn from, and how their arguments are bent to the ends of their ranges and past.

use crate::boundaries::boundaries;
use crate::call::{Argument, Call};
use crate::entry::Entry;
use crate::model::ranges::in_range;
use crate::random::Random;
use cepnhoy::{Reading, Registration, CLASSES};

/// How the energies of a book's readings and shapes are spread.
#[derive(Clone, Copy)]
enum Energies {
    /// Nearly all the same, so that fractions of shares tie.
    Equal(u64),
    Tiny,
    /// Small and often a multiple of 10, so that losses come to exact halves.
    Small,
    Any,
    Most,
}

impl Energies {
    fn random(random: &mut Random) -> Energies {
        match random.index(8) {
            0 | 1 => Energies::Equal(*random.pick(&[1, 3, 100, 100, 333, 1_000_000])),
            2 => Energies::Tiny,
            3 | 4 => Energies::Small,
            5 | 6 => Energies::Any,
            _ => Energies::Most,
        }
    }

    fn wh(self, random: &mut Random) -> u64 {
        let often = random.percent(85);
        match self {
            Energies::Equal(wh) if often => wh,
            Energies::Tiny => random.below(3),
            Energies::Small if often => 10 * random.below(30),
            Energies::Equal(_) | Energies::Small => random.below(300),
            Energies::Any if often => random.between(0, 10_000_000),
            Energies::Most if often => 10_000_000,
            Energies::Any | Energies::Most => *random.pick(&[0, 1, 9_999_999, 10_000_000]),
        }
    }
}

/// Which weights a book sets before anything else.
#[derive(Clone, Copy)]
enum Weights {
    AllFull,
    All,
    Some,
    LossesOnly,
    Tiny,
    None,
}

impl Weights {
    fn random(random: &mut Random) -> Weights {
        match random.index(20) {
            0..=5 => Weights::AllFull,
            6..=13 => Weights::All,
            14 | 15 => Weights::Some,
            16 => Weights::LossesOnly,
            17 | 18 => Weights::Tiny,
            _ => Weights::None,
        }
    }

    fn calls(self, random: &mut Random) -> Vec<Call> {
        let mut calls = Vec::new();
        for class in 0..CLASSES as u64 {
            let is_loss = class % 2 == 1;
            let thousandths = match self {
                Weights::AllFull => Some(1_000),
                Weights::All => Some(random.between(1, 1_000)),
                Weights::Some => random.percent(40).then(|| random.between(0, 1_000)),
                Weights::LossesOnly => is_loss.then(|| random.between(1, 1_000)),
                Weights::Tiny => Some(random.below(2)),
                Weights::None => None,
            };
            calls.extend(thousandths.map(|thousandths| Call::Weight { class, thousandths }));
        }
        calls
    }
}

/// What the calls of one book are drawn from.
pub struct Profile {
    pub mpans: Vec<u64>,
    units: Vec<u64>,
    categories: Vec<u64>,
    /// Few, so that several meters are of one network and of one tariff.
    networks: Vec<u64>,
    tariffs: Vec<u64>,
    weights: Weights,
    energies: Energies,
    /// All meters registered alike but for their unit, and read alike, as in document 01's case 1.
    alike: Option<Registration>,
    issue_most: u64,
    /// How many calls in a hundred get a value at the end of a range, and one outside of it.
    pub edge_percent: u64,
    pub spoiled_percent: u64,
}

impl Profile {
    pub fn random(mpans: Vec<u64>, random: &mut Random) -> Profile {
        let mut units: Vec<u64> = (0..32).collect();
        random.shuffle(&mut units);
        units.truncate(*random.pick(&[1, 2, 3, 5, 12, 32]));
        let category_count = *random.pick(&[1, 1, 2, 4, 8, 64]);
        let mut profile = Profile {
            mpans,
            units,
            categories: (0..category_count).map(|_| random.below(64)).collect(),
            networks: random_numbers(63, random),
            tariffs: random_numbers(1_023, random),
            weights: Weights::random(random),
            energies: Energies::random(random),
            alike: None,
            issue_most: *random.pick(&[1, 3, 3, 10, 4_294_967_295]),
            edge_percent: *random.pick(&[0, 5, 15]),
            spoiled_percent: *random.pick(&[0, 5, 15]),
        };
        if random.percent(25) {
            profile.alike = Some(Registration { status: 2, ..profile.registration(random) });
            profile.energies = Energies::Equal(random.between(1, 1_000));
        }
        // A W of 1 takes tiny weights and tiny energies at once; a product past 64 bits, both large and on few units.
        if matches!(profile.weights, Weights::Tiny) {
            profile.energies = Energies::Tiny;
        } else if matches!(profile.energies, Energies::Most) {
            profile.weights = Weights::AllFull;
            profile.units.truncate(2);
        }
        profile
    }

    pub fn registration(&self, random: &mut Random) -> Registration {
        let base = *random.pick(&self.units);
        if let Some(alike) = self.alike {
            return Registration { base, flag: 0, additional: 0, ..alike };
        }
        let other_unit = *random.pick(&self.units);
        let flag = u64::from(random.percent(30));
        Registration {
            segment: random.below(3),
            direction: u64::from(random.percent(30)),
            status: *random.pick(&[2, 2, 2, 2, 2, 2, 1, 1, 0]),
            base,
            flag,
            additional: flag * *random.pick(&[other_unit, other_unit, 0]),
            category: *random.pick(&self.categories),
            llf: random_llf(random),
            network: *random.pick(&self.networks),
            tariff: *random.pick(&self.tariffs),
        }
    }

    pub fn reading(&self, random: &mut Random) -> Reading {
        let issue = random.between(1, self.issue_most);
        let wh = self.energies.wh(random);
        let choices = if self.alike.is_some() { 11 } else { 20 };
        let (quality, consumption) = match random.index(choices) {
            0..=9 => (random.below(7), wh),
            10..=15 => (*random.pick(&[7, 8, 9, 9, 10, 11, 12, 13, 13, 15, 16]), wh),
            16 | 17 => (random.between(17, 20), 0),
            18 => (14, wh),
            _ => (random.between(17, 20), *random.pick(&[1, wh])),
        };
        Reading { issue, quality, consumption }
    }

    /// A shape, which in so many of a hundred cases is set to missing.
    pub fn shape_wh(&self, missing_percent: u64, random: &mut Random) -> u64 {
        match random.percent(missing_percent) {
            true => 4_294_967_295,
            false => self.energies.wh(random),
        }
    }

    /// Calls that set the weights, mostly so that something can be allocated.
    pub fn weight_calls(&self, random: &mut Random) -> Vec<Call> {
        self.weights.calls(random)
    }

    /// A call for each category in use that sets its shape.
    pub fn shape_calls(&self, missing_percent: u64, random: &mut Random) -> Vec<Call> {
        let mut calls = Vec::new();
        for &category in &self.categories {
            let wh = self.shape_wh(missing_percent, random);
            calls.push(Call::Shape { category, wh });
        }
        calls
    }

    /// A call with arguments that fit this book, before any of them is bent.
    fn plain_call(&self, entry: Entry, random: &mut Random) -> Call {
        let mpan = *random.pick(&self.mpans);
        match entry {
            Entry::Register => Call::Register { mpan, registration: self.registration(random) },
            Entry::Reading => Call::Reading { mpan, reading: self.reading(random) },
            Entry::Shape => Call::Shape { category: *random.pick(&self.categories), wh: self.shape_wh(15, random) },
            Entry::Weight => {
                Call::Weight { class: random.below(CLASSES as u64), thousandths: random.between(0, 1_000) }
            }
            Entry::Tolerance => Call::Tolerance { g: random.between(0, 1_000) },
            _ => Call::Take { wh: random_take(random) },
        }
    }

    pub fn call(&self, entry: Entry, random: &mut Random) -> Call {
        let call = self.plain_call(entry, random);
        let chance = random.below(100);
        if chance < self.spoiled_percent {
            spoiled(call, random)
        } else if chance < self.spoiled_percent + self.edge_percent {
            at_an_edge(call, random)
        } else {
            call
        }
    }

    /// Any call, which in so many of a hundred cases registers a meter.
    pub fn any_call(&self, register_percent: u64, random: &mut Random) -> Call {
        if random.percent(register_percent) {
            return self.call(Entry::Register, random);
        }
        match random.index(100) {
            0..=69 => self.call(Entry::Reading, random),
            70..=82 => self.call(Entry::Shape, random),
            83..=93 => self.call(Entry::Weight, random),
            94 | 95 => self.call(Entry::Tolerance, random),
            96 => self.call(Entry::Take, random),
            _ => Call::Unknown { kind: *random.pick(&[0, 7, 8, 255, 257, 1 << 32 | 1, 1 << 63, u64::MAX]) },
        }
    }
}

/// One to four numbers of networks or of tariffs, often the least or the most.
fn random_numbers(most: u64, random: &mut Random) -> Vec<u64> {
    (0..1 + random.index(4)).map(|_| random_number(most, random)).collect()
}

/// A number of a network or of a tariff, often the least or the most.
pub fn random_number(most: u64, random: &mut Random) -> u64 {
    let any = random.between(0, most);
    *random.pick(&[0, most, any, any])
}

/// Round numbers, where losses come to exact halves, the ends of the range, such as make losses of 1 or 3 Wh miss a half by a
/// thousandth, and any.
fn random_llf(random: &mut Random) -> u64 {
    let any = random.between(500, 2_000);
    let llfs = [1_000, 1_000, 1_000, 1_050, 950, 1_005, 995, 1_001, 999, 500, 2_000, 1_499, 1_501, 501, 833];
    match random.percent(60) {
        true => *random.pick(&llfs),
        false => any,
    }
}

fn random_take(random: &mut Random) -> i64 {
    let any = random.between_signed(-5_000_000_000, 5_000_000_000);
    *random.pick(&[0, 1, -1, 301, any, any / 1_000])
}

/// The call with one argument at an end of its range, inside.
fn at_an_edge(call: Call, random: &mut Random) -> Call {
    let arguments = call.arguments();
    let (argument, _) = *random.pick(&arguments);
    call.with(argument, *random.pick(boundaries(argument).inside))
}

/// The call with one argument out of its range, rarely with two.
fn spoiled(call: Call, random: &mut Random) -> Call {
    let arguments = call.arguments();
    let (argument, value) = *random.pick(&arguments);
    let call = call.with(argument, value_outside(argument, value, random));
    match random.percent(10) {
        true => spoiled(call, random),
        false => call,
    }
}

/// A value just outside a range, or one that would come back into it if its upper bits were cut off.
pub fn value_outside(argument: Argument, value: i128, random: &mut Random) -> i128 {
    let cut_to_it = value + (1 << *random.pick(&[8, 16, 32, 48, 62]));
    if random.percent(25) && !in_range(argument, cut_to_it) && cut_to_it < 1 << 63 {
        return cut_to_it;
    }
    *random.pick(boundaries(argument).outside)
}
