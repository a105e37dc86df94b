//! Measures two states of the proved machines side by side in one run: the library of an earlier commit, `before`, and that of the
//! checkout, `after`. What is printed is markdown. Before a job is timed both must give the same answers on it, and on random jobs before
//! the first; the program fails if they differ. A refusal 4 of before may be 16, 17 or 18 after, at the same place (02, P4).
//!
//! Each library is linked four times, with its code moved by 0, 16, 32 and 48 bytes (bench/against): where code begins in a line of 64
//! bytes changed its speed by up to 15%, and in which place a linker puts it is chance. All four are measured.
#[allow(dead_code)]
mod jobs;
mod measure;
mod sides;

use jobs::Job;
use measure::{geometric_mean, lowest, median};
use sides::{proved, Answer, Run, Sides, MACHINES, WORDS};

const BEFORE: usize = 0;
const AFTER: usize = 1;
const PLACES: usize = 4;

/// Seconds: a shorter job is run so often in each repeat that it takes about as long.
const SHORT: f64 = 0.02;

/// The functions of these names. Their declarations give the addresses alone; all are of type `Run`.
macro_rules! functions {
    ($($name:ident)*) => {{
        extern "C" { $(fn $name();)* }
        [$(unsafe { std::mem::transmute::<unsafe extern "C" fn(), Run>($name) }),*]
    }};
}

/// The two libraries, with what they run in and the place of the code that is called.
struct States {
    functions: [[Run; PLACES]; 2],
    workspace: Vec<u64>,
    place: usize,
}

impl Sides for States {
    const NAMES: &'static [&'static str] = &["before", "after"];

    fn run(&mut self, side: usize, machine: u32, j: &Job, fuel: u64, words: usize) -> Answer {
        proved(self.functions[side][self.place], &mut self.workspace, machine, j, fuel, words)
    }

    fn agrees(before: &Answer, after: &Answer) -> bool {
        let divided = after[0] == 2 && (16..=18).contains(&after[1]) && before[..2] == [2, 4] && before[2..] == after[2..];
        before == after || divided
    }
}

impl States {
    fn new() -> Self {
        let functions = [functions!(before_0 before_16 before_32 before_48), functions!(after_0 after_16 after_32 after_48)];
        States { functions, workspace: vec![0; WORDS], place: 0 }
    }

    /// Time before / time after, of two neighbouring runs.
    fn compare(&mut self, first: usize, machine: u32, j: &Job) -> f64 {
        let mut taken = [0.0; 2];
        for side in [first, 1 - first] {
            taken[side] = self.time(side, machine, j, j.fuel, 1);
        }
        taken[BEFORE] / taken[AFTER]
    }
}

/// A job with the sequential machine's transitions, its runs in each repeat, and what was found: of each machine, in each place.
struct Measured {
    job: Job,
    transitions: u64,
    runs: usize,
    found: [[Vec<f64>; PLACES]; 3],
}

impl Measured {
    fn new(states: &mut States, job: Job) -> Self {
        states.agree_on_stops(&job);
        let transitions = states.values(&job)[0][4];
        let runs = (SHORT / states.time(AFTER, 0, &job, job.fuel, 1)).round().max(1.0) as usize;
        Measured { job, transitions, runs, found: Default::default() }
    }

    /// The order of the two sides changes with each run.
    fn repeat(&mut self, states: &mut States, repeat: usize) {
        for (machine, places) in self.found.iter_mut().enumerate() {
            for (place, found) in places.iter_mut().enumerate() {
                states.place = place;
                found.extend((0..self.runs).map(|run| states.compare((repeat + place + run) % 2, machine as u32, &self.job)));
            }
        }
    }

    /// Speed after / before of each machine: the mean of the places.
    fn ratios(&self) -> [f64; 3] {
        self.found.each_ref().map(|places| geometric_mean(&places.each_ref().map(|found| median(found.iter().copied()))))
    }
}

fn main() {
    let quick = std::env::args().any(|word| word == "quick");
    let repeats = if quick { 3 } else { 15 };
    let mut states = States::new();
    states.agree_on_random(20_000);
    states.agree_on_periods();
    let mut measured: Vec<Measured> = jobs::six().into_iter().chain(jobs::further()).map(|job| Measured::new(&mut states, job)).collect();
    for repeat in 0..repeats {
        measured.iter_mut().for_each(|m| m.repeat(&mut states, repeat));
    }
    println!("Speed after / before; median of {repeats} repeats, mean of {PLACES} places. Transitions are the sequential machine's.\n");
    println!("| job | transitions | {} |\n|---|--:|--:|--:|--:|", MACHINES.join(" | "));
    for m in &measured {
        let shown = m.ratios().map(|ratio| format!("{ratio:.2}"));
        println!("| {} | {} | {} |", m.job.name, m.transitions, shown.join(" | "));
    }
    let all: Vec<f64> = measured.iter().flat_map(Measured::ratios).collect();
    println!("\nLowest {:.2}, geometric mean {:.3}.", lowest(&all), geometric_mean(&all));
}
