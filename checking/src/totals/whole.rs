//! What holds of the totals of a whole book: they add up to its cells and counts. And what an allocation doesn't look at.

use super::{check_totals, random_asked};
use crate::compare::{at, same, same_allocated, same_words, Checked, Failure};
use crate::lent::Lent;
use crate::model::allocation::Gathered;
use crate::model::cells::{is_estimate, is_export, is_loss, Cells};
use crate::model::totals::WORDS;
use crate::model::words::{registration_of, registration_word};
use crate::model::{Book, Running};
use crate::profile::random_number;
use crate::random::Random;
use crate::reach::Reach;
use crate::situation::Situation;
use cepnhoy::{Registration, ROW_WORDS};

const NETWORKS: u64 = 64;

/// The four words of all tariffs and networks of a direction, added up as the library gives them.
fn added_up(lent: &mut Lent, direction: u64) -> Result<[u128; 4], Failure> {
    let mut sums = [0; 4];
    // What one call leaves in the slice is there for the next one, which must write over it.
    let mut totals = vec![u64::MAX; WORDS];
    for network in 0..NETWORKS {
        same(&format!("number of the totals of network {network}"), lent.totals(direction, network, &mut totals), 0)?;
        for of_tariff in totals.chunks_exact(sums.len()) {
            sums.iter_mut().zip(of_tariff).for_each(|(sum, word)| *sum += u128::from(*word));
        }
    }
    Ok(sums)
}

/// The sum of a direction's consumption cells, in Wh, with e = 0 and with e = 1.
fn consumption_wh(cells: &Cells, direction: u64) -> [u128; 2] {
    let wanted = cells.iter().filter(|((_, class), _)| !is_loss(*class) && is_export(*class) == (direction == 1));
    let mut sums = [0; 2];
    for ((_, class), thousandths) in wanted {
        sums[usize::from(is_estimate(*class))] +=
            u128::try_from(thousandths / 1_000).expect("consumption is at least 0");
    }
    sums
}

/// Actual Wh over all tariffs and networks are the sum of the direction's consumption cells with e = 0, and other Wh of those with
/// e = 1; the meters counted are those that an accepted allocation counts as actual, estimated or defaulted. If a shape is lacking,
/// all totals are refused.
pub fn check_sums(lent: &mut Lent, book: &Book, reach: &mut Reach) -> Checked {
    let gathered = Gathered::of_meters(&book.contents());
    if gathered.lacks_shape {
        return Ok(());
    }
    let mut meters = 0;
    for direction in 0..2 {
        let [actual, other, energised, de_energised] = added_up(lent, direction)?;
        let [with_e_0, with_e_1] = consumption_wh(&gathered.cells, direction);
        same(&format!("actual Wh of direction {direction} over all totals, against its cells"), actual, with_e_0)?;
        same(&format!("other Wh of direction {direction} over all totals, against its cells"), other, with_e_1)?;
        reach.note_if(Situation::TotalsSummed, actual > 0 && other > 0);
        meters += energised + de_energised;
    }
    let answer = lent.allocate(&mut [0; cepnhoy::UNITS]).answer;
    let counted = answer.actual + answer.estimated + answer.defaulted;
    reach.note_if(Situation::TotalsCounted, answer.number == 0 && counted > 0);
    match answer.number {
        0 => same("meters over all totals, against the counts of the allocation", meters, counted.into()),
        _ => Ok(()),
    }
}

/// Totals of a book that calls reached, and that its allocation looks at no network and no tariff. All totals are added up for some
/// books only, since that takes 128 calls.
pub fn check_book_totals(book: &Book, volumes: &[i64], random: &mut Random, reach: &mut Reach) -> Checked {
    let running = Running::of(book.clone());
    let mut lent = Lent::of(&running);
    for _ in 0..2 {
        let asked = random_asked(&book.contents(), random);
        at(|| format!("{asked} after the list"), check_totals(&mut lent, Some(book), &asked, random, reach))?;
    }
    if random.percent(10) {
        check_sums(&mut lent, book, reach)?;
    }
    check_redrawn(&running, volumes, random, reach)
}

/// The rows with other networks and tariffs in all used ones.
fn redrawn(rows: &[u64], meters: usize, random: &mut Random) -> Vec<u64> {
    let mut rows = rows.to_vec();
    for row in rows.chunks_exact_mut(ROW_WORDS).take(meters) {
        let (network, tariff) = (random_number(63, random), random_number(1_023, random));
        row[1] = registration_word(&Registration { network, tariff, ..registration_of(row[1]) });
    }
    rows
}

/// "Allocation ignores the new fields": with all networks and tariffs redrawn, the library allocates as before.
fn check_redrawn(running: &Running, volumes: &[i64], random: &mut Random, reach: &mut Reach) -> Checked {
    let (settings, rows, cells) = (running.book.settings(), running.book.words(), &running.cells);
    let other_rows = redrawn(&rows, settings.meters, random);
    let (mut volumes_before, mut volumes_after) = (volumes.to_vec(), volumes.to_vec());
    let before = Lent::new(settings, &rows, cells).allocate(&mut volumes_before);
    let after = Lent::new(settings, &other_rows, cells).allocate(&mut volumes_after);
    reach.note_if(Situation::RedrawnAccepted, before.answer.number == 0 && other_rows != rows);
    let outcome = same_allocated(&after.answer, &before.answer)
        .and_then(|()| same_words("volumes", &volumes_after, &volumes_before));
    at(|| format!("with networks and tariffs redrawn, rows {other_rows:?} (\"model\" is the library before)"), outcome)
}
