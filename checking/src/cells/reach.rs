//! What was reached of the slice of running cells: every short length, and every limit that a call can just meet and just pass.

use std::fmt::Write;

use super::limits::{Kind, Limit};
use crate::model::slice::WORDS;
use crate::named::named;

named! {
    /// How a call is made.
    Way {
        Alone => "by itself",
        Listed => "in a list",
    }
}

/// How often a limit was met, and passed by one.
type Reached = [u64; 2];

pub struct CellsReach {
    /// How often a slice of each short length was lent.
    lengths: Vec<u64>,
    limits: Vec<[[Reached; Limit::ALL.len()]; Kind::ALL.len()]>,
}

impl Default for CellsReach {
    fn default() -> CellsReach {
        CellsReach {
            lengths: vec![0; WORDS],
            limits: vec![[[[0; 2]; Limit::ALL.len()]; Kind::ALL.len()]; Way::ALL.len()],
        }
    }
}

impl CellsReach {
    pub fn note_length(&mut self, words: usize) {
        if let Some(count) = self.lengths.get_mut(words) {
            *count += 1;
        }
    }

    pub fn note_limit(&mut self, way: Way, kind: Kind, limit: Limit, passed: bool) {
        self.limits[way as usize][kind as usize][limit as usize][usize::from(passed)] += 1;
    }

    /// What was never reached.
    pub fn missing(&self) -> Vec<String> {
        let mut missing = Vec::new();
        for (words, _) in self.lengths.iter().enumerate().filter(|(_, count)| **count == 0) {
            missing.push(format!("cell slice of {words} words"));
        }
        self.each_limit(|way, kind, limit, [met, passed]| {
            let place = format!("{} {}: {}", kind.words(), way.words(), limit.words());
            if met == 0 {
                missing.push(format!("{place} just met"));
            }
            if passed == 0 {
                missing.push(format!("{place} passed by one"));
            }
        });
        missing
    }

    fn each_limit(&self, mut of_limit: impl FnMut(Way, Kind, Limit, Reached)) {
        for &way in Way::ALL {
            for &kind in Kind::ALL {
                for &limit in kind.limits() {
                    of_limit(way, kind, limit, self.limits[way as usize][kind as usize][limit as usize]);
                }
            }
        }
    }

    pub fn write(&self, table: &mut String) {
        table.push_str("\nHow often a call brought cells just to a limit, and would have passed it by one\n");
        self.each_limit(|way, kind, limit, [met, passed]| {
            let _ = writeln!(table, "{met:>9} {passed:>9}  {} {}: {}", kind.words(), way.words(), limit.words());
        });
        let least = self.lengths.iter().min().unwrap_or(&0);
        let (first, last) = (self.lengths[0], self.lengths[WORDS - 1]);
        let _ = writeln!(table, "cell slice of 0 words: {first}  835: {last}  each short length at least: {least}");
    }
}
