//! One list of calls, made in every way that the library offers, against the second method.

use crate::books::random_volume_words;
use crate::call::{list_words, Call};
use crate::cells::{check_cells, note_kept, note_listed_cells, short_slice};
use crate::compare::{at, same, same_allocated, same_settings, same_words, Checked, Failure};
use crate::droppings::check_reconciled;
use crate::entry::Entry;
use crate::lent::{Guarded, Lent};
use crate::model::allocation::{allocate, Allocation, Gathered};
use crate::model::cells::Contents;
use crate::model::ranges::capacity;
use crate::model::slice::{sum_over, WORDS};
use crate::model::{Book, Meaning, Running};
use crate::observe::{note_allocation, note_call, note_list};
use crate::random::Random;
use crate::reach::Reach;
use crate::situation::Situation;
use crate::totals::{check_book_totals, check_totals, random_asked};
use cepnhoy::CALL_WORDS;

/// A list of calls from a fresh book, with the slices as they are lent first.
#[derive(Clone, Debug)]
pub struct Case {
    pub rows: Vec<u64>,
    /// All 0 as for a fresh book, or filled by hand.
    pub cells: Vec<i64>,
    pub calls: Vec<Call>,
    pub volumes: Vec<i64>,
    /// Chooses what else is tried on the way, so that the same case is always checked in the same way.
    pub seed: u64,
}

impl Case {
    /// Whether a list means what it means for this slice: long enough, and its first 836 words at 0.
    pub fn starts_at_zero(&self) -> bool {
        self.cells.get(..WORDS).is_some_and(|words| words.iter().all(|word| *word == 0))
    }

    fn fresh(&self) -> Running {
        Running { book: Book::fresh(self.rows.clone()), cells: self.cells.clone() }
    }
}

/// What the second method makes of a case: each call's number, and the book at the end.
pub struct Expected {
    pub numbers: Vec<u64>,
    pub running: Running,
}

impl Expected {
    pub fn of(case: &Case) -> Expected {
        let mut running = case.fresh();
        let numbers = case.calls.iter().map(|call| running.make(call)).collect();
        Expected { numbers, running }
    }

    /// The same for a slice at 0, with one sum for the whole list, so that a large book can be worked: "after every list of calls from a
    /// fresh book the slice equals a sum over the rows", and no call is refused for it.
    pub fn at_once(case: &Case) -> Expected {
        assert!(case.starts_at_zero());
        let Running { mut book, mut cells } = case.fresh();
        let numbers = case.calls.iter().map(|call| book.make(call)).collect();
        for (word, sum) in cells.iter_mut().zip(sum_over(&book.contents())) {
            *word = i64::try_from(sum).expect("what meters come to fits 64 bits");
        }
        Expected { numbers, running: Running { book, cells } }
    }
}

/// Checks a case in every way, calls made one by one included.
pub fn check_case(case: &Case, reach: &mut Reach) -> Checked {
    let expected = Expected::of(case);
    let book = &expected.running.book;
    note_list(reach, &case.calls, &expected.numbers, book);
    check_kept_up(case, &expected)?;
    check_steps(case, reach)?;
    check_lists(case, &expected, reach)?;
    check_resumed(case, &expected, reach)?;
    check_misshapen(case, reach)?;
    check_reconciled(book, reach)?;
    check_cells(book, &mut Random::part(case.seed, 9), reach)?;
    check_book_totals(book, &case.volumes, &mut Random::part(case.seed, 8), reach)
}

/// What request 4 claims of a list for a slice at 0, of the second method itself, which adds up the changes of each call: the slice is a
/// sum over the rows, its allocation the one worked from the meters, and no call was refused for it.
fn check_kept_up(case: &Case, expected: &Expected) -> Checked {
    if !case.starts_at_zero() {
        return Ok(());
    }
    let Running { book, cells } = &expected.running;
    let sum: Vec<i128> = sum_over(&book.contents());
    let kept: Vec<i128> = cells[..WORDS].iter().map(|word| i128::from(*word)).collect();
    same_words("cells that the model kept up, against the sum over its meters", &kept, &sum)?;
    same("calls refused for the cells", expected.numbers.iter().filter(|number| [1, 13].contains(*number)).count(), 0)?;
    let (from_slice, from_meters) = (expected.running.allocate(case.volumes.len()), book.allocate(case.volumes.len()));
    let place = || String::from("allocated from the slice (\"library\") and from the meters (\"model\")");
    at(place, same_allocated(&from_slice.answer, &from_meters.answer))?;
    same_words("volumes", &from_slice.volumes_after(&case.volumes), &from_meters.volumes_after(&case.volumes))
}

/// Checks a case made as one list only.
pub fn check_lists(case: &Case, expected: &Expected, reach: &mut Reach) -> Checked {
    at(|| String::from("make_calls"), check_list(case, expected, reach))?;
    at(|| String::from("settle_list"), check_settled(case, expected, reach))
}

/// Calls made one by one, with allocations here and there and one at the end.
fn check_steps(case: &Case, reach: &mut Reach) -> Checked {
    let random = &mut Random::part(case.seed, 1);
    let mut lent = Lent::fresh(&case.rows, &case.cells);
    let mut running = case.fresh();
    at(|| String::from("fresh"), same_settings(&lent.settings, &running.book.settings()))?;
    for (index, call) in case.calls.iter().enumerate() {
        let place = || format!("call {} by itself, {call}", index + 1);
        at(place, check_step(&mut lent, &mut running, call, reach))?;
        if random.percent(10) {
            let volume_words = random_volume_words(random);
            let volumes = random.signed_words(volume_words);
            let place = || format!("allocation after call {}, {call}", index + 1);
            at(place, check_allocation(&mut lent, Some(&running), &volumes, reach))?;
        }
        if random.percent(5) {
            let asked = random_asked(&running.book.contents(), random);
            let place = || format!("{asked} after call {}, {call}", index + 1);
            at(place, check_totals(&mut lent, Some(&running.book), &asked, random, reach))?;
        }
    }
    let place = || String::from("allocation after the calls one by one");
    at(place, check_allocation(&mut lent, Some(&running), &case.volumes, reach))
}

fn check_step(lent: &mut Lent, running: &mut Running, call: &Call, reach: &mut Reach) -> Checked {
    match Entry::single(call) {
        Some(entry) => check_single(lent, running, entry, call, reach),
        None => Ok(()),
    }
}

/// Makes a call by its entry point, on both sides, and notes what it met.
pub fn check_single(lent: &mut Lent, running: &mut Running, entry: Entry, call: &Call, reach: &mut Reach) -> Checked {
    let before = running.clone();
    let attempt = running.attempt(call);
    reach.note_number(entry, attempt.number());
    note_call(reach, &before, call, &attempt);
    note_kept(reach, &before, call, running, &attempt);
    check_call(lent, call, attempt.number(), Some(running))
}

/// Makes a call by its entry point. It must give the number, and leave the book, or leave all as it was if there is none.
pub fn check_call(lent: &mut Lent, call: &Call, number: u64, running: Option<&Running>) -> Checked {
    let after = lent.afterwards(running);
    let given = lent.make(call).expect("the call has an entry point");
    same("number", given, number)?;
    lent.check(&after)
}

/// The number of a call on a book that isn't well formed.
pub fn number_of_ill_formed(lent: &Lent) -> u64 {
    Running::cause_of_cells(lent.cells.contents()).unwrap_or(1)
}

/// Allocates a book, or one that is ill formed if there is none.
pub fn check_allocation(lent: &mut Lent, running: Option<&Running>, volumes: &[i64], reach: &mut Reach) -> Checked {
    let allocation = match running {
        Some(running) => running.allocate(volumes.len()),
        None => Allocation::refused(number_of_ill_formed(lent), None),
    };
    reach.note_number(Entry::Allocate, allocation.answer.number);
    if let Some(running) = running {
        note_allocation(reach, running, &allocation, volumes.len());
    }
    let after = lent.afterwards(None);
    let mut lent_volumes = Guarded::new(volumes, i64::MIN);
    let given = lent.allocate(lent_volumes.lend());
    same_allocated(&given.answer, &allocation.answer)?;
    lent.check(&after)?;
    check_volumes(&lent_volumes, &allocation, volumes)
}

fn check_volumes(lent: &Guarded<i64>, allocation: &Allocation, before: &[i64]) -> Checked {
    same_words("volumes", lent.contents(), &allocation.volumes_after(before))?;
    lent.check_guards("volume")
}

/// A slice for the numbers of a list, with words to spare, and what it must be afterwards.
fn numbers_slices(numbers: &[u64], random: &mut Random) -> (Guarded<u64>, Vec<u64>) {
    let spare = random.index(3);
    let before = random.words(numbers.len() + spare);
    let mut after = before.clone();
    after[..numbers.len()].copy_from_slice(numbers);
    (Guarded::new(&before, u64::MAX), after)
}

fn check_list(case: &Case, expected: &Expected, reach: &mut Reach) -> Checked {
    let mut lent = Lent::fresh(&case.rows, &case.cells);
    let random = &mut Random::part(case.seed, 2);
    check_listed(&mut lent, &case.calls, &expected.numbers, Some(&expected.running), random, reach)
}

/// Makes a list of calls at once. It must give these numbers, and leave the book, or leave all as it was if there is none.
pub fn check_listed(
    lent: &mut Lent,
    calls: &[Call],
    numbers: &[u64],
    running: Option<&Running>,
    random: &mut Random,
    reach: &mut Reach,
) -> Checked {
    let after = lent.afterwards(running);
    note_listed_cells(reach, lent.cells.contents(), numbers);
    let (mut lent_numbers, numbers_after) = numbers_slices(numbers, random);
    let given = lent.make_calls(&list_words(calls, random), lent_numbers.lend());
    note_listed(reach, calls, numbers);
    reach.note_number(Entry::MakeCalls, 0);
    same("number of the list", given, 0)?;
    same_words("numbers", lent_numbers.contents(), &numbers_after)?;
    lent_numbers.check_guards("numbers")?;
    lent.check(&after)
}

fn note_listed(reach: &mut Reach, calls: &[Call], numbers: &[u64]) {
    for (call, number) in calls.iter().zip(numbers) {
        reach.note_number(Entry::listed(call), *number);
    }
}

/// A whole half hour in one call; from a slice at 0, against what the list means.
fn check_settled(case: &Case, expected: &Expected, reach: &mut Reach) -> Checked {
    let random = &mut Random::part(case.seed, 3);
    let allocation = match case.starts_at_zero() {
        true => meant_allocation(case, expected)?,
        false => expected.running.allocate(case.volumes.len()),
    };
    reach.note_number(Entry::SettleList, allocation.answer.number);
    note_allocation(reach, &expected.running, &allocation, case.volumes.len());

    let mut lent = Lent::fresh(&case.rows, &case.cells);
    let after = lent.afterwards(Some(&expected.running));
    let mut volumes = Guarded::new(&case.volumes, i64::MIN);
    let (mut numbers, numbers_after) = numbers_slices(&expected.numbers, random);
    let given = lent.settle_list(&list_words(&case.calls, random), numbers.lend(), volumes.lend());
    same_allocated(&given.answer, &allocation.answer)?;
    same_words("numbers", numbers.contents(), &numbers_after)?;
    numbers.check_guards("numbers")?;
    lent.check(&after)?;
    check_volumes(&volumes, &allocation, &case.volumes)?;
    check_shares(expected.running.book.contents().take_wh, &allocation, volumes.contents())
}

/// What the list means, allocated from its meters without any slice.
fn meant_allocation(case: &Case, expected: &Expected) -> Result<Allocation, Failure> {
    let meaning = Meaning::of(capacity(case.rows.len()), &case.calls);
    check_meaning(&meaning, &expected.running.book)?;
    let contents = meaning.contents();
    let allocation = allocate(&contents, Gathered::of_meters(&contents), case.volumes.len());
    if allocation.workings.is_some() {
        let answer = &allocation.answer;
        let counted = answer.actual + answer.estimated + answer.defaulted + answer.idle;
        same("sum of the counts", counted, meaning.meters.len() as u64)?;
    }
    Ok(allocation)
}

/// The book that the calls left must be the one that the list means.
fn check_meaning(meaning: &Meaning, book: &Book) -> Checked {
    let meant: Vec<u64> = meaning.meters.iter().map(|meter| meter.mpan).collect();
    same_words("MPANs after the calls, against the list's meaning", &book.mpans(), &meant)?;
    if book.contents() == meaning.contents() {
        return Ok(());
    }
    let (after, meant) = (in_lines(&book.contents()), in_lines(&meaning.contents()));
    same_words("book after the calls, against the list's meaning", &after, &meant)
}

/// The contents of a book in words, the settings first and then each meter.
fn in_lines(contents: &Contents) -> Vec<String> {
    let mut lines = vec![
        format!("weights {:?}", contents.weights),
        format!("shapes {:?}", contents.shapes),
        format!("tolerance {}, take {:?}", contents.tolerance, contents.take_wh),
    ];
    lines.extend(contents.meters.iter().map(|meter| format!("{meter:?}")));
    lines
}

/// Of an accepted allocation: the volumes add up to the last accepted Take, and each is under 1 Wh from its exact share.
fn check_shares(take_wh: Option<i64>, allocation: &Allocation, volumes: &[i64]) -> Checked {
    let Some(workings) = &allocation.workings else {
        return Ok(());
    };
    let total: i64 = volumes[..cepnhoy::UNITS].iter().sum();
    same("sum of the volumes", total, take_wh.unwrap_or(0))?;
    for (unit, (share, volume)) in workings.shares.iter().zip(volumes).enumerate() {
        let above_wh = i128::from(*volume) - share.whole_wh;
        let near = above_wh == 0 || (above_wh == 1 && !share.fraction.is_zero());
        same(&format!("volume of unit {unit} under 1 Wh from its share"), near, true)?;
    }
    Ok(())
}

/// The list in two parts: the first call by call, the second at once on the book reached.
fn check_resumed(case: &Case, expected: &Expected, reach: &mut Reach) -> Checked {
    let random = &mut Random::part(case.seed, 4);
    let cut = random.index(case.calls.len() + 1);
    let mut lent = Lent::fresh(&case.rows, &case.cells);
    for call in &case.calls[..cut] {
        lent.make(call);
    }
    reach.note_if(Situation::ListResumed, cut > 0 && cut < case.calls.len());
    let (calls, numbers) = (&case.calls[cut..], &expected.numbers[cut..]);
    let outcome = check_listed(&mut lent, calls, numbers, Some(&expected.running), random, reach);
    at(|| format!("make_calls after {cut} calls one by one"), outcome)
}

/// A list that is no whole number of calls, or that has too few words for its numbers: refusal 19, and nothing changes.
fn check_misshapen(case: &Case, reach: &mut Reach) -> Checked {
    let random = &mut Random::part(case.seed, 5);
    let mut call_words = list_words(&case.calls, random);
    let mut number_words = case.calls.len();
    if number_words > 0 && random.percent(50) {
        number_words -= *random.pick(&[1, 1, number_words]);
        reach.note_if(Situation::NumbersShort, number_words + 1 == case.calls.len());
    } else {
        let stray = random.between(1, CALL_WORDS as u64 - 1) as usize;
        call_words.extend(random.words(stray));
        reach.note(Situation::CallsBroken);
    }
    // A misshapen list is refused before the cells are looked at.
    let cells = match random.percent(20) {
        true => short_slice(random),
        false => case.cells.clone(),
    };
    reach.note_if(Situation::MisshapenAndShort, cells.len() < WORDS);
    let (call_count, cell_count) = (call_words.len(), cells.len());
    let case = &Case { cells, ..case.clone() };
    at(
        || format!("a list of {call_count} words and {number_words} numbers, with {cell_count} cells"),
        check_refused_list(case, &call_words, &random.words(number_words), reach),
    )
}

fn check_refused_list(case: &Case, calls: &[u64], numbers: &[u64], reach: &mut Reach) -> Checked {
    let mut lent = Lent::fresh(&case.rows, &case.cells);
    let after = lent.afterwards(None);
    let mut lent_numbers = Guarded::new(numbers, u64::MAX);
    let given = lent.make_calls(calls, lent_numbers.lend());
    reach.note_number(Entry::MakeCalls, 19);
    same("number of the list", given, 19)?;
    lent.check(&after)?;
    same_words("numbers", lent_numbers.contents(), numbers)?;

    let mut volumes = Guarded::new(&case.volumes, i64::MIN);
    let given = lent.settle_list(calls, lent_numbers.lend(), volumes.lend());
    reach.note_number(Entry::SettleList, 19);
    let refused = Allocation::refused(19, None);
    same_allocated(&given.answer, &refused.answer)?;
    lent.check(&after)?;
    same_words("numbers", lent_numbers.contents(), numbers)?;
    lent_numbers.check_guards("numbers")?;
    check_volumes(&volumes, &refused, &case.volumes)
}
