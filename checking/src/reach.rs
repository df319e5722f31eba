//! How often each refusal, boundary, situation and damage was reached. One that was never reached fails the run.

use std::fmt::Write;

use crate::boundaries::{boundaries, Boundaries, BOUNDARIES, TAKE_FLAGS_OUTSIDE};
use crate::call::Argument;
use crate::cells::CellsReach;
use crate::damage::DamageKind;
use crate::entry::Entry;
use crate::model::ranges::in_range;
use crate::situation::Situation;
use crate::totals::TotalsReach;
use cepnhoy::Settings;

const NUMBERS: usize = 20;

/// Causes that can apply together: only then does it show which is looked at first. Each stands with those that are looked at after it.
/// The causes of totals calls stand apart, and so do limits that a call would pass, which are looked at last.
const TOGETHER: &[(u64, &[u64])] = &[
    (13, &[1, 2, 3, 4, 5, 6, 7, 8, 9, 10, 11]),
    (1, &[2, 3, 4, 5, 6, 7, 8, 9, 10, 11]),
    (2, &[3, 4, 5, 6]),
    (3, &[4, 5]),
    (7, &[8, 9, 10, 11]),
    (8, &[9, 10]),
    (9, &[10, 11]),
];

/// The same, two by two.
fn together() -> impl Iterator<Item = (u64, u64)> {
    TOGETHER.iter().flat_map(|(first, others)| others.iter().map(|second| (*first, *second)))
}

pub struct Reach {
    numbers: Vec<[u64; NUMBERS]>,
    boundaries: Vec<Vec<u64>>,
    /// For each flag, how often it stood beside a Take of 0, and beside another.
    take_flags: Vec<[u64; 2]>,
    situations: Vec<u64>,
    damages: Vec<[u64; 2]>,
    together: Vec<u64>,
    pub totals: TotalsReach,
    pub cells: CellsReach,
    pub damaged_calls: u64,
}

impl Default for Reach {
    fn default() -> Reach {
        let values = |b: &Boundaries| vec![0; b.inside.len() + b.outside.len()];
        Reach {
            numbers: vec![[0; NUMBERS]; Entry::ALL.len()],
            boundaries: BOUNDARIES.iter().map(values).collect(),
            take_flags: vec![[0; 2]; TAKE_FLAGS_OUTSIDE.len()],
            situations: vec![0; Situation::ALL.len()],
            damages: vec![[0; 2]; DamageKind::ALL.len()],
            together: vec![0; together().count()],
            totals: TotalsReach::default(),
            cells: CellsReach::default(),
            damaged_calls: 0,
        }
    }
}

impl Reach {
    pub fn note_number(&mut self, entry: Entry, number: u64) {
        self.numbers[entry as usize][number as usize] += 1;
    }

    pub fn note(&mut self, situation: Situation) {
        self.situations[situation as usize] += 1;
    }

    pub fn note_if(&mut self, situation: Situation, met: bool) {
        self.situations[situation as usize] += u64::from(met);
    }

    pub fn note_damage(&mut self, kind: DamageKind, ill_formed: bool) {
        self.damages[kind as usize][usize::from(ill_formed)] += 1;
    }

    /// Notes the causes that applied to one call.
    pub fn note_causes(&mut self, causes: &[u64]) {
        if causes.len() < 2 {
            return;
        }
        for ((first, second), count) in together().zip(&mut self.together) {
            *count += u64::from(causes.contains(&first) && causes.contains(&second));
        }
    }

    /// Notes the boundary values of a call's arguments, on a well-formed book. One outside its range counts only if it is the only such
    /// argument, and one inside only if there is none: elsewhere it would not have decided the number.
    pub fn note_boundaries(&mut self, arguments: &[(Argument, i128)]) {
        let outside = arguments.iter().filter(|(a, value)| !in_range(*a, *value));
        let outside_count = outside.count();
        for &(argument, value) in arguments {
            let values = boundaries(argument);
            let decides = usize::from(!in_range(argument, value)) == outside_count;
            let all = values.inside.iter().chain(values.outside);
            if let Some(index) = all.clone().position(|&v| v == value).filter(|_| decides) {
                self.boundaries[argument as usize][index] += 1;
            }
        }
    }

    /// Notes a flag of the Take that is neither 0 nor 1, in settings that are otherwise well formed.
    pub fn note_take_flag(&mut self, settings: &Settings) {
        let flags = TAKE_FLAGS_OUTSIDE.iter().zip(&mut self.take_flags);
        for (_, counts) in flags.filter(|(flag, _)| **flag == settings.take_set) {
            counts[usize::from(settings.take_wh != 0)] += 1;
        }
    }

    /// What was never reached.
    pub fn missing(&self) -> Vec<String> {
        let mut missing = Vec::new();
        for &entry in Entry::ALL {
            for &number in entry.reachable() {
                if self.numbers[entry as usize][number as usize] == 0 {
                    missing.push(format!("number {number} from {}", entry.words()));
                }
            }
        }
        missing.extend(self.missing_boundaries());
        for ((first, second), count) in together().zip(&self.together) {
            if *count == 0 {
                missing.push(format!("causes {first} and {second} together"));
            }
        }
        for &situation in Situation::ALL {
            if self.situations[situation as usize] == 0 {
                missing.push(String::from(situation.words()));
            }
        }
        for &kind in DamageKind::ALL {
            if self.damages[kind as usize] == [0, 0] {
                missing.push(format!("damage: {}", kind.words()));
            }
        }
        missing.extend(self.totals.missing());
        missing.extend(self.cells.missing());
        missing
    }

    fn missing_boundaries(&self) -> Vec<String> {
        let mut missing = Vec::new();
        for (values, counts) in BOUNDARIES.iter().zip(&self.boundaries) {
            for (value, count) in values.inside.iter().chain(values.outside).zip(counts) {
                if *count == 0 {
                    missing.push(format!("{} {value}", values.words));
                }
            }
        }
        for (flag, [zero, other]) in TAKE_FLAGS_OUTSIDE.iter().zip(&self.take_flags) {
            if *zero == 0 || *other == 0 {
                missing.push(format!("Take's flag {flag} beside a Take of 0 and beside another"));
            }
        }
        missing
    }

    pub fn table(&self) -> String {
        let mut table = String::new();
        self.write_numbers(&mut table);
        self.write_boundaries(&mut table);
        self.write_situations(&mut table);
        self.write_damages(&mut table);
        self.totals.write(&mut table);
        self.cells.write(&mut table);
        table
    }

    fn write_numbers(&self, table: &mut String) {
        let columns = [0, 1, 2, 3, 4, 5, 6, 7, 8, 9, 10, 11, 12, 13, 19];
        let _ = write!(table, "How often each number was given\n{:24}", "");
        for number in columns {
            let _ = write!(table, " {number:>8}");
        }
        for &entry in Entry::ALL {
            let _ = write!(table, "\n{:24}", entry.words());
            for number in columns {
                if entry.reachable().contains(&number) {
                    let count = self.numbers[entry as usize][number as usize];
                    let _ = write!(table, " {count:>8}");
                } else {
                    let _ = write!(table, " {:>8}", "-");
                }
            }
        }
        table.push_str("\n\nHow often two causes applied to one call\n");
        for ((first, second), count) in together().zip(&self.together) {
            let _ = write!(table, "{first} and {second}: {count}  ");
        }
        table.push('\n');
    }

    fn write_boundaries(&self, table: &mut String) {
        table.push_str("\nHow often each boundary value decided, inside | outside its range\n");
        for (values, counts) in BOUNDARIES.iter().zip(&self.boundaries) {
            let _ = write!(table, "{:27}", values.words);
            for (index, value) in values.inside.iter().chain(values.outside).enumerate() {
                let bar = if index == values.inside.len() { " |" } else { "" };
                let _ = write!(table, "{bar} {value}: {}", counts[index]);
            }
            table.push('\n');
        }
        let _ = write!(table, "{:27} |", "Take's flag, Take 0 + other");
        for (flag, [zero, other]) in TAKE_FLAGS_OUTSIDE.iter().zip(&self.take_flags) {
            let _ = write!(table, " {flag}: {zero} + {other}");
        }
        table.push('\n');
    }

    fn write_situations(&self, table: &mut String) {
        table.push_str("\nHow often each situation was met\n");
        for &situation in Situation::ALL {
            let count = self.situations[situation as usize];
            let _ = writeln!(table, "{count:>9}  {}", situation.words());
        }
    }

    fn write_damages(&self, table: &mut String) {
        table.push_str("\nHow many books were damaged so: ill formed, still well formed\n");
        for &kind in DamageKind::ALL {
            let [well, ill] = self.damages[kind as usize];
            let _ = writeln!(table, "{ill:>9} {well:>9}  {}", kind.words());
        }
    }
}
