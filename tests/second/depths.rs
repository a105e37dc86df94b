//! The depth of an answer (02, P7) beside the frames of the workspace, and how often each kind of depth was met.
use crate::second::{Words, ALL};
use std::collections::BTreeSet;

/// The word of an answer that is its depth.
pub const DEPTH: usize = 8;

/// A depth is at most the frames; at a stop 21 all of them are occupied; a refusal has none.
pub fn fits(a: Words, frames: usize) -> bool {
    match (a[0], a[1]) {
        (1, 21) => a[DEPTH] == frames as u64,
        (2, _) => a[DEPTH] == 0,
        _ => a[DEPTH] <= frames as u64,
    }
}

#[derive(Default)]
pub struct Depths {
    values: BTreeSet<u64>,
    stops: BTreeSet<u64>,
    /// By machine: values run again with as many frames as their depth, and with one frame fewer.
    pub enough: [u64; 3],
    pub fewer: [u64; 3],
}

impl Depths {
    pub fn note(&mut self, a: Words) {
        match a[0] {
            0 => self.values.insert(a[DEPTH]),
            1 => self.stops.insert(a[DEPTH]),
            _ => false,
        };
    }

    /// What is asked for in a round of 20,000 jobs, how often it was met, and the least.
    pub fn wanted(&self) -> Vec<(String, usize, u64)> {
        let mut all = vec![
            ("different depths of values".to_string(), self.values.len(), 40),
            ("different depths of stops".to_string(), self.stops.len(), 20),
        ];
        for (i, m) in ALL.iter().enumerate() {
            all.push((format!("{m:?} values again with as many frames as their depth"), self.enough[i] as usize, 300));
            all.push((format!("{m:?} values again with one frame fewer"), self.fewer[i] as usize, 300));
        }
        all
    }

    pub fn told(&self) {
        let most = |depths: &BTreeSet<u64>| depths.last().copied().unwrap_or(0);
        println!(
            "  depths: {} of values, to {}; {} of stops, to {}; values again with as many frames as their depth {:?}, with one fewer {:?}",
            self.values.len(), most(&self.values), self.stops.len(), most(&self.stops), self.enough, self.fewer
        );
    }
}
