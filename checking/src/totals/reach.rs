//! What totals calls reached: causes that applied together, and the directions, networks and tariffs whose totals were not 0.

use std::fmt::Write;

use crate::model::totals::Asked;
use cepnhoy::TARIFFS;

const DIRECTIONS: [&str; 2] = ["import", "export"];
const NETWORKS: usize = 64;

/// Causes that can apply together: the first of each two is given.
const TOGETHER: &[(u64, u64)] = &[(1, 2), (1, 12), (1, 9), (2, 12), (2, 9), (12, 9)];

pub struct TotalsReach {
    together: Vec<u64>,
    /// How often a direction and network had totals other than 0, and a tariff.
    networks: [[u64; NETWORKS]; DIRECTIONS.len()],
    tariffs: Vec<u64>,
}

impl Default for TotalsReach {
    fn default() -> TotalsReach {
        TotalsReach {
            together: vec![0; TOGETHER.len()],
            networks: [[0; NETWORKS]; DIRECTIONS.len()],
            tariffs: vec![0; TARIFFS],
        }
    }
}

impl TotalsReach {
    /// Notes the causes that applied to one call.
    pub fn note_causes(&mut self, causes: &[u64]) {
        for ((first, second), count) in TOGETHER.iter().zip(&mut self.together) {
            *count += u64::from(causes.contains(first) && causes.contains(second));
        }
    }

    /// Notes the totals of an accepted call.
    pub fn note_accepted(&mut self, asked: &Asked, words: &[u64]) {
        let is_charged = |words: &[u64]| words.iter().any(|word| *word != 0);
        for (of_tariff, count) in words.chunks_exact(4).zip(&mut self.tariffs) {
            *count += u64::from(is_charged(of_tariff));
        }
        self.networks[asked.direction as usize][asked.network as usize] += u64::from(is_charged(words));
    }

    /// What was never reached.
    pub fn missing(&self) -> Vec<String> {
        let mut missing = Vec::new();
        for ((first, second), _) in TOGETHER.iter().zip(&self.together).filter(|(_, count)| **count == 0) {
            missing.push(format!("causes {first} and {second} together in a totals call"));
        }
        for (direction, networks) in DIRECTIONS.iter().zip(&self.networks) {
            for (network, _) in networks.iter().enumerate().filter(|(_, count)| **count == 0) {
                missing.push(format!("totals of {direction} on network {network} other than 0"));
            }
        }
        for (tariff, _) in self.tariffs.iter().enumerate().filter(|(_, count)| **count == 0) {
            missing.push(format!("totals of tariff {tariff} other than 0"));
        }
        missing
    }

    pub fn write(&self, table: &mut String) {
        table.push_str("\nHow often two causes applied to one totals call\n");
        for ((first, second), count) in TOGETHER.iter().zip(&self.together) {
            let _ = write!(table, "{first} and {second}: {count}  ");
        }
        table.push_str("\n\nHow often totals were not 0\n");
        for (direction, networks) in DIRECTIONS.iter().zip(&self.networks) {
            let least = networks.iter().min().unwrap_or(&0);
            let _ = write!(table, "{direction}, network 0: {}  63: {}", networks[0], networks[NETWORKS - 1]);
            let _ = writeln!(table, "  each of the 64 at least: {least}");
        }
        let least = self.tariffs.iter().min().unwrap_or(&0);
        let (first, last) = (self.tariffs[0], self.tariffs[TARIFFS - 1]);
        let _ = writeln!(table, "tariff 0: {first}  1023: {last}  each of the 1024 at least: {least}");
    }
}
