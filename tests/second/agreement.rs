//! The stops of the three machines beside one another (02, P12), and how often each case was met.
use crate::depths::DEPTH;
use crate::second::Words;
use std::collections::{BTreeMap, BTreeSet};

const TRANSITIONS: usize = 4;
const MADE: [&str; 3] = ["the same transitions", "two different transitions", "three different transitions"];

/// The stops that have to agree, and how many there are to be in a round of 20,000 jobs: by `MADE`, and beside a sequential stop 20.
const STOPS: [(u64, [u64; 3], u64); 4] = [
    (21, [300, 400, 200], 8),
    (22, [25, 35, 70], 120),
    (23, [12, 10, 25], 40),
    (24, [8, 8, 25], 40),
];

/// Has another machine to stop where the sequential one stops?
pub fn claimed(s: Words) -> bool {
    s[0] == 1 && STOPS.iter().any(|stop| stop.0 == s[1])
}

/// A stop with the same number, function and node; its transitions may be fewer, never more; and the same depth.
pub fn same(s: Words, other: Words) -> bool {
    other[..4] == s[..4] && other[TRANSITIONS] <= s[TRANSITIONS] && other[DEPTH] == s[DEPTH]
}

#[derive(Default)]
pub struct Agreement {
    met: BTreeMap<String, u64>,
}

impl Agreement {
    fn note(&mut self, what: String) {
        *self.met.entry(what).or_default() += 1;
    }

    /// Whether the answers of the parallel and the heartbeat machine are as claimed beside the sequential one.
    pub fn holds(&mut self, s: Words, others: [Words; 2]) -> bool {
        match (s[0], s[1]) {
            (1, 20) => {
                for other in others {
                    self.beside_20(s, other);
                }
                true
            }
            (1, number) => {
                let [p, h] = others.map(|other| other[TRANSITIONS]);
                let different = BTreeSet::from([s[TRANSITIONS], p, h]).len();
                self.note(format!("stop {number}, {}", MADE[different - 1]));
                claimed(s) && others.into_iter().all(|other| same(s, other))
            }
            _ => true,
        }
    }

    /// "For stop 20 nothing is claimed": what another machine answers then.
    fn beside_20(&mut self, s: Words, other: Words) {
        let what = match other[0] {
            0 => "a value".to_string(),
            _ if other[1] != 20 => format!("a stop {}", other[1]),
            _ if other[2..4] != s[2..4] => "a stop 20 elsewhere".to_string(),
            _ if other[DEPTH] != s[DEPTH] => "a stop 20 with another depth".to_string(),
            _ => "the same stop".to_string(),
        };
        self.note(format!("stop 20 beside {what}"));
    }

    /// What is asked for in a round of 20,000 jobs, how often it was met, and the least.
    pub fn wanted(&self) -> Vec<(String, usize, u64)> {
        let beside = [("a value", 800), ("a stop 20 elsewhere", 2_500), ("a stop 20 with another depth", 8), ("the same stop", 2_000)];
        let mut all: Vec<(String, u64)> = beside.map(|(what, least)| (format!("stop 20 beside {what}"), least)).into();
        for (number, by_transitions, beside_20) in STOPS {
            all.push((format!("stop 20 beside a stop {number}"), beside_20));
            all.extend(MADE.iter().zip(by_transitions).map(|(made, least)| (format!("stop {number}, {made}"), least)));
        }
        all.into_iter().map(|(what, least)| (what.clone(), self.met.get(&what).copied().unwrap_or(0) as usize, least)).collect()
    }

    pub fn told(&self) {
        println!("  stops beside one another: {:?}", self.met);
    }
}
