//! Implementations that are measured side by side, and the check that they agree.
#[allow(dead_code)]
#[path = "../tests/second/jobs.rs"]
mod random;

use crate::jobs::{self, Job};
use crate::measure::now;

pub const MACHINES: [&str; 3] = ["sequential", "parallel", "heartbeat"];

/// Words of a workspace of 4,096 frames.
pub const WORDS: usize = words(4096);

const fn words(frames: usize) -> usize {
    32 * frames
}

pub type Answer = [u64; 8];

/// The function of a static library of crate `capi`; include/mondupil.h says what it does.
pub type Run = unsafe extern "C" fn(u32, *const u32, usize, *const u64, usize, u64, u64, u64, *mut u64, usize, *mut u64, usize) -> u32;

/// The answer of a proved machine, in a workspace that grows to so many words.
pub fn proved(run: Run, workspace: &mut Vec<u64>, machine: u32, j: &Job, fuel: u64, words: usize) -> Answer {
    if workspace.len() < words {
        workspace.resize(words, 0);
    }
    let mut answer = [0u64; 8];
    let served = unsafe {
        run(
            machine, j.table.as_ptr(), j.table.len(), j.args.as_ptr(), j.args.len(), fuel, j.period, j.tau,
            workspace.as_mut_ptr(), words, answer.as_mut_ptr(), 8,
        )
    };
    assert_eq!(served, 0);
    answer
}

/// Implementations of the three machines, by number.
pub trait Sides {
    /// Their names, in the order in which they are run.
    const NAMES: &'static [&'static str];

    fn run(&mut self, side: usize, machine: u32, j: &Job, fuel: u64, words: usize) -> Answer;

    /// The time of one run of a side, from so many calls.
    fn time(&mut self, side: usize, machine: u32, j: &Job, fuel: u64, calls: u32) -> f64 {
        let start = now();
        for _ in 0..calls {
            std::hint::black_box(self.run(side, machine, j, fuel, WORDS));
        }
        (now() - start) / calls as f64
    }

    /// Whether a side's answer agrees with that of the first side.
    fn agrees(first: &Answer, answer: &Answer) -> bool {
        first == answer
    }

    /// The answer that all give; the program ends where they differ.
    fn agree(&mut self, machine: u32, j: &Job, fuel: u64, words: usize) -> Answer {
        let answers: Vec<Answer> = (0..Self::NAMES.len()).map(|side| self.run(side, machine, j, fuel, words)).collect();
        if answers.iter().any(|answer| !Self::agrees(&answers[0], answer)) {
            println!("DISAGREE {} {}, fuel {fuel}, N {}, {words} words", j.name, MACHINES[machine as usize], j.period);
            for (name, answer) in Self::NAMES.iter().zip(answers) {
                println!("{name}: {answer:?}");
            }
            std::process::exit(1);
        }
        answers[0]
    }

    fn agree_by_all(&mut self, j: &Job, fuel: u64, words: usize) -> [Answer; 3] {
        [0, 1, 2].map(|machine| self.agree(machine, j, fuel, words))
    }

    /// The job's answers, which must be values.
    fn values(&mut self, j: &Job) -> [Answer; 3] {
        let answers = self.agree_by_all(j, j.fuel, WORDS);
        if answers.iter().any(|answer| answer[0] != 0) {
            println!("{} has no value: {answers:?}", j.name);
            std::process::exit(1);
        }
        answers
    }

    /// Stops of a job, by fuel and frames that are short: every small fuel, every small number of frames.
    fn agree_on_stops(&mut self, j: &Job) {
        for fuel in 1..=400 {
            self.agree_by_all(j, fuel, words(32));
        }
        for frames in 1..=20 {
            self.agree_by_all(j, 2_000, words(frames));
        }
        for fuel in [54_321, 3_000_000] {
            self.agree_by_all(j, fuel, WORDS);
        }
    }

    /// A promotion that comes due at every place: a small job with every small N, run to its value.
    fn agree_on_periods(&mut self) {
        for period in 1..=100 {
            self.values(&Job { period, ..jobs::fibonacci(12) });
        }
    }

    /// Random jobs of every kind of the comparison with the second implementation.
    fn agree_on_random(&mut self, count: u64) {
        let mut dice = random::Dice(2026);
        for _ in 0..count {
            let (name, r) = random::any(&mut dice);
            let j = Job { name, table: r.table, args: r.args, fuel: r.fuel, period: r.period, tau: r.tau };
            self.agree_by_all(&j, j.fuel, r.workspace);
        }
    }
}
