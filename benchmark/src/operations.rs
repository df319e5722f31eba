//! The operations that are timed. Each starts from a book of its own, so that both sides do the same to the same words.

use std::hint::black_box;

use crate::inputs::{at_the_end, at_the_front, network, other_shapes, HalfHour, Meter, Random, Single};
use crate::sides::{Side, LIBRARY};
use cepnhoy::{Settings, CALL_WORDS, ROW_WORDS, SLICE_WORDS, TOTALS_WORDS, UNITS};

/// How many single calls are timed together: few clocks are fine enough for one.
pub const TOGETHER: usize = 32;

/// A book with its running cells, and with room for as many meters as it is measured at.
#[derive(Clone, PartialEq)]
pub struct Book {
    pub settings: Settings,
    pub rows: Vec<u64>,
    pub cells: Vec<i64>,
}

/// What an operation leaves and gives, to compare.
#[derive(PartialEq)]
pub struct Outcome {
    pub book: Book,
    pub numbers: Vec<u64>,
    pub volumes: Vec<i64>,
    pub totals: Vec<u64>,
    pub figures: Option<cepnhoy::Allocated>,
}

pub enum Work {
    /// Single calls, one after the other.
    Singles(Vec<Single>),
    Allocations,
    /// A totals call for each direction and network.
    Totals(Vec<(u64, u64)>),
    /// The list in one call, and with the allocation after it from a fresh book.
    List(Vec<u64>),
    HalfHour(Vec<u64>),
}

pub struct Operation {
    pub name: &'static str,
    pub start: Book,
    pub work: Work,
    /// How many calls the time is divided by.
    pub calls: usize,
}

pub fn fresh(meters: usize) -> Book {
    Book { settings: cepnhoy::fresh(), rows: vec![0; ROW_WORDS * meters], cells: vec![0; SLICE_WORDS] }
}

/// A book that the library reached by the calls of a half hour, with this much room.
fn reached(half_hour: &HalfHour, room: usize) -> Book {
    let mut book = fresh(room);
    let list = half_hour.list(&half_hour.calls(None));
    let mut numbers = vec![0; list.len() / CALL_WORDS];
    let answer = cepnhoy::make_calls(book.settings, &mut book.rows, &mut book.cells, &list, &mut numbers);
    assert!(numbers.iter().all(|number| *number == 0), "the half hour to measure is refused in part");
    book.settings = answer.settings;
    book
}

fn picked(half_hour: &HalfHour, random: &mut Random) -> Meter {
    half_hour.meters[random.below(half_hour.meters.len() as u64) as usize]
}

/// Later readings of meters all over the book; every one is stored.
fn later_readings(half_hour: &HalfHour, random: &mut Random) -> Vec<Single> {
    (0..TOGETHER)
        .map(|place| {
            let mut meter = picked(half_hour, random);
            meter.reading.issue = 10_000 + place as u64;
            meter.read()
        })
        .collect()
}

/// Both directions in turn, of networks as the meters have them.
fn directions_and_networks(random: &mut Random) -> Vec<(u64, u64)> {
    (0..TOGETHER as u64).map(|place| (place % 2, network(random))).collect()
}

fn registrations(meters: &[Meter]) -> Vec<Single> {
    meters.iter().map(Meter::register).collect()
}

pub fn all(meters: usize, random: &mut Random) -> Vec<Operation> {
    let whole = HalfHour::new(meters, random);
    let fewer = HalfHour::new(meters - TOGETHER, random);
    let full = reached(&whole, meters);
    let with_room = reached(&fewer, meters);
    let known: Vec<Meter> = (0..TOGETHER).map(|_| picked(&whole, random)).collect();
    let in_order = whole.calls(None);
    let shuffled = whole.calls(Some(random));
    let (list_in_order, list_shuffled) = (whole.list(&in_order), whole.list(&shuffled));
    let single = |name, start: &Book, calls| Operation {
        name,
        start: start.clone(),
        work: Work::Singles(calls),
        calls: TOGETHER,
    };
    let list = |name, work| Operation { name, start: fresh(meters), work, calls: 1 };
    vec![
        single("one reading", &full, later_readings(&whole, random)),
        single("one registration of a known meter", &full, registrations(&known)),
        single("one new registration at the end", &with_room, registrations(&at_the_end(TOGETHER, random))),
        single("one new registration at the front", &with_room, registrations(&at_the_front(TOGETHER, random))),
        single("one shape call", &full, other_shapes(TOGETHER, random)),
        Operation { name: "one allocation", start: full.clone(), work: Work::Allocations, calls: TOGETHER },
        Operation {
            name: "one totals call",
            start: full.clone(),
            work: Work::Totals(directions_and_networks(random)),
            calls: TOGETHER,
        },
        list("a list in order, in one call", Work::List(list_in_order.clone())),
        list("a list shuffled, in one call", Work::List(list_shuffled.clone())),
        list("a half hour in order, in one call", Work::HalfHour(list_in_order)),
        list("a half hour shuffled, in one call", Work::HalfHour(list_shuffled)),
        list("the list in order, call by call", Work::Singles(in_order)),
        list("the list shuffled, call by call", Work::Singles(shuffled)),
    ]
}

impl Operation {
    /// What stands before the work; made anew for each run, outside the time.
    pub fn prepare(&self) -> Outcome {
        let numbers = match &self.work {
            Work::Singles(calls) => vec![u64::MAX; calls.len()],
            Work::Allocations => vec![u64::MAX; TOGETHER],
            Work::Totals(asked) => vec![u64::MAX; asked.len()],
            Work::List(calls) | Work::HalfHour(calls) => vec![u64::MAX; calls.len() / CALL_WORDS],
        };
        let totals = match &self.work {
            Work::Totals(asked) => vec![u64::MAX; asked.len() * TOTALS_WORDS],
            _ => Vec::new(),
        };
        Outcome { book: self.start.clone(), numbers, volumes: vec![i64::MIN; UNITS], totals, figures: None }
    }

    pub fn run(&self, side: &Side, on: &mut Outcome) {
        match &self.work {
            Work::Singles(calls) => singles(side, calls, on),
            Work::Allocations => allocations(side, on),
            Work::Totals(asked) => all_totals(side, asked, on),
            Work::List(calls) => {
                let Book { settings, rows, cells } = &mut on.book;
                *settings = (side.make_calls)(*settings, rows, cells, calls, &mut on.numbers).settings;
            }
            Work::HalfHour(calls) => {
                let Book { settings, rows, cells } = &mut on.book;
                let made = (side.settle_list)(rows, cells, calls, &mut on.numbers, &mut on.volumes);
                *settings = made.settings;
                on.figures = Some(made.answer);
            }
        }
    }

    /// That the work is done at all: every call accepted.
    pub fn assert_accepted(&self) {
        let mut outcome = self.prepare();
        self.run(&LIBRARY, &mut outcome);
        assert!(outcome.numbers.iter().all(|number| *number == 0), "{}: a call is refused", self.name);
        assert!(outcome.figures.is_none_or(|figures| figures.number == 0), "{}: the allocation is refused", self.name);
    }
}

fn singles(side: &Side, calls: &[Single], on: &mut Outcome) {
    for (call, number) in calls.iter().zip(&mut on.numbers) {
        let (settings, rows, cells) = (on.book.settings, &mut on.book.rows, &mut on.book.cells);
        let answer = match *black_box(call) {
            Single::Register { mpan, registration } => (side.register)(settings, rows, cells, mpan, registration),
            Single::Reading { mpan, reading } => (side.record_reading)(settings, rows, cells, mpan, reading),
            Single::Shape { category, wh } => (side.set_shape)(settings, rows, cells, category, wh),
        };
        *number = answer.number;
        on.book.settings = answer.settings;
    }
}

fn allocations(side: &Side, on: &mut Outcome) {
    for number in &mut on.numbers {
        let Book { settings, rows, cells } = black_box(&on.book);
        let made = (side.allocate)(*settings, rows, cells, &mut on.volumes);
        *number = made.answer.number;
        on.book.settings = made.settings;
        on.figures = Some(made.answer);
    }
}

/// Each call has a slice of its own, so that the words of every one are there to compare.
fn all_totals(side: &Side, asked: &[(u64, u64)], on: &mut Outcome) {
    let slices = on.totals.chunks_exact_mut(TOTALS_WORDS);
    for ((&(direction, network), totals), number) in asked.iter().zip(slices).zip(&mut on.numbers) {
        let answer = (side.totals)(on.book.settings, black_box(&on.book.rows), direction, network, totals);
        *number = answer.number;
        on.book.settings = answer.settings;
    }
}
