//! Single calls on damaged books: number, settings, rows, cells, volumes and totals, all words of them.

use crate::books::random_call_on;
use crate::call::Call;
use crate::cells::{cells_in_words, note_lent};
use crate::check::{check_allocation, check_call, check_listed, check_single, number_of_ill_formed};
use crate::compare::{at, settings_in_words, Checked, Failure};
use crate::damage::{cut_short, Damage, DamageKind};
use crate::entry::Entry;
use crate::lent::Lent;
use crate::model::slice::WORDS;
use crate::model::totals::totals_causes;
use crate::model::{Book, Running};
use crate::observe::note_call_on_ill_formed;
use crate::random::Random;
use crate::reach::Reach;
use crate::totals::{check_totals, random_asked};
use cepnhoy::{Settings, ROW_WORDS, TOLERANCE_MAX, UNITS};

/// Damages a book that calls reached, if it has something that can be damaged so, and makes each of the eight calls on it, and a
/// short list of calls.
pub fn check_damaged(book: &Book, damage: &Damage, reach: &mut Reach) -> Checked {
    let mut settings = book.settings();
    let mut rows = book.words();
    let mut cells = Running::of(book.clone()).cells;
    if !damage.apply(&mut settings, &mut rows, &mut cells) {
        return Ok(());
    }
    let damaged = Book::read(&settings, &rows);
    let well_formed = damaged.is_some() && Running::cause_of_cells(&cells).is_none();
    reach.note_damage(damage.kind, !well_formed);
    if damage.kind.leaves_well_formed().is_some_and(|wanted| wanted != well_formed) {
        let taken_for = if well_formed { "well formed" } else { "ill formed" };
        return Err(Failure(format!("{}: the model takes the book for {taken_for}", damage.kind.words())));
    }
    if damage.and_short {
        cells = cut_short(damage.seed);
    }
    note_lent(reach, &cells, u64::from(!well_formed));
    let lent = Lent::new(settings, &rows, &cells);
    let damaged = damaged.map(|book| Running { book, cells: cells.clone() });
    if damage.kind == DamageKind::TakeFlagOutside {
        reach.note_take_flag(&settings);
    }
    let probes = Probes { lent, running: damaged, undamaged: book };
    let place = || {
        let used = ROW_WORDS * book.mpans().len();
        format!(
            "after damage ({}), settings {}, used rows {:?}, row slice of {} words, {}",
            damage.kind.words(),
            settings_in_words(&settings),
            &rows[..used.min(rows.len())],
            rows.len(),
            cells_in_words(&cells)
        )
    };
    at(place, probes.check(damage.seed, reach))
}

/// Makes each of the eight calls and a short list with a cell slice of this length: on the book, and on one that isn't well formed, with
/// words that need not be within their limits.
pub fn check_length(book: &Book, words: usize, random: &mut Random, reach: &mut Reach) -> Checked {
    let cut = |mut cells: Vec<i64>, random: &mut Random| {
        cells.extend(random.signed_words(words.saturating_sub(WORDS)));
        cells.truncate(words);
        cells
    };
    let Running { book, cells } = Running::of(book.clone());
    let (settings, rows, cells) = (book.settings(), book.words(), cut(cells, random));
    let lent = Lent::new(settings, &rows, &cells);
    let well_formed = Probes { lent, running: Some(Running { book: book.clone(), cells }), undamaged: &book };
    at(|| String::from("on a well-formed book"), well_formed.check(random.word(), reach))?;
    let any = random.signed_words(WORDS);
    let settings = Settings { tolerance: TOLERANCE_MAX as u32 + 1, ..settings };
    let ill_formed = Probes { lent: Lent::new(settings, &rows, &cut(any, random)), running: None, undamaged: &book };
    at(|| String::from("with a tolerance of 1,001"), ill_formed.check(random.word(), reach))
}

/// The entry points that write a book.
const WRITING: [Entry; 6] =
    [Entry::Register, Entry::Reading, Entry::Shape, Entry::Weight, Entry::Tolerance, Entry::Take];

/// Calls on one book, each on a copy of its own.
struct Probes<'a> {
    lent: Lent,
    /// None if the settings or the rows are such as no accepted call could have written; the cells may be any.
    running: Option<Running>,
    undamaged: &'a Book,
}

impl Probes<'_> {
    fn check(&self, seed: u64, reach: &mut Reach) -> Checked {
        let random = &mut Random::part(seed, 1);
        let mpans = self.undamaged.mpans();
        for entry in WRITING {
            let call = random_call_on(&mpans, entry, random);
            at(|| format!("{call}"), self.check_call(entry, &call, reach))?;
        }
        self.check_allocation(random, reach)?;
        self.check_totals(random, reach)?;
        self.check_list(&mpans, random, reach)
    }

    fn check_call(&self, entry: Entry, call: &Call, reach: &mut Reach) -> Checked {
        reach.damaged_calls += 1;
        let mut lent = self.lent.clone();
        if let Some(running) = &self.running {
            return check_single(&mut lent, &mut running.clone(), entry, call, reach);
        }
        let number = number_of_ill_formed(&lent);
        note_call_on_ill_formed(reach, call, number);
        reach.note_number(entry, number);
        check_call(&mut lent, call, number, None)
    }

    fn check_allocation(&self, random: &mut Random, reach: &mut Reach) -> Checked {
        let volume_words = *random.pick(&[0, 31, 32, 32, 33, 35, 40]);
        let volumes = random.signed_words(volume_words);
        reach.damaged_calls += 1;
        if self.running.is_none() && volume_words < UNITS {
            reach.note_causes(&[1, 7]);
        }
        at(
            || format!("allocate with {volume_words} volume words"),
            check_allocation(&mut self.lent.clone(), self.running.as_ref(), &volumes, reach),
        )
    }

    fn check_totals(&self, random: &mut Random, reach: &mut Reach) -> Checked {
        let book = self.running.as_ref().map(|running| &running.book);
        let contents = book.unwrap_or(self.undamaged).contents();
        let asked = random_asked(&contents, random);
        reach.damaged_calls += 1;
        if book.is_none() {
            // As if the other causes stood as before the damage.
            let mut causes = totals_causes(&contents, &asked);
            causes.push(1);
            reach.totals.note_causes(&causes);
        }
        let outcome = check_totals(&mut self.lent.clone(), book, &asked, random, reach);
        at(|| format!("{asked}"), outcome)
    }

    fn check_list(&self, mpans: &[u64], random: &mut Random, reach: &mut Reach) -> Checked {
        let count = random.index(4);
        let mut calls: Vec<Call> = (0..count).map(|_| random_call_on(mpans, *random.pick(&WRITING), random)).collect();
        if random.percent(20) {
            calls.push(Call::Unknown { kind: 0 });
        }
        let mut running = self.running.clone();
        let mut lent = self.lent.clone();
        let ill_formed = number_of_ill_formed(&lent);
        let number = |call: &Call| running.as_mut().map_or(ill_formed, |running| running.make(call));
        let numbers: Vec<u64> = calls.iter().map(number).collect();
        reach.damaged_calls += 1;
        at(
            || format!("make_calls of {} calls", calls.len()),
            check_listed(&mut lent, &calls, &numbers, running.as_ref(), random, reach),
        )
    }
}
