//! The proved machines with a buffer lent for the cost graph (02, P1), measured against the same without one.
use crate::jobs::Job;
use crate::library::{mondupil_run, mondupil_run_graph};
use crate::measure::median;
use crate::sides::{proved, Answer, Sides, MACHINES, WORDS};

const WITHOUT: usize = 0;
const WITH: usize = 1;

/// The words of an answer where a buffer is lent; the last is how many words of the graph were written.
const LENT_ANSWER: usize = 10;

struct Calls {
    workspace: Vec<u64>,
    buffer: Vec<u32>,
    /// So many words of the buffer are lent; so many the last call wrote.
    lent: usize,
    written: usize,
}

impl Sides for Calls {
    const NAMES: &'static [&'static str] = &["without a buffer", "with a buffer"];

    fn run(&mut self, side: usize, machine: u32, j: &Job, fuel: u64, words: usize) -> Answer {
        if side == WITHOUT {
            return proved(mondupil_run, &mut self.workspace, machine, j, fuel, words);
        }
        let (workspace, buffer, mut answer) = (&mut self.workspace[..words], &mut self.buffer[..self.lent], [0u64; LENT_ANSWER]);
        let served = unsafe {
            mondupil_run_graph(
                machine, j.table.as_ptr(), j.table.len(), j.args.as_ptr(), j.args.len(), fuel, j.period, j.tau,
                workspace.as_mut_ptr(), words, buffer.as_mut_ptr(), buffer.len(), answer.as_mut_ptr(), LENT_ANSWER,
            )
        };
        assert_eq!(served, 0);
        self.written = answer[LENT_ANSWER - 1] as usize;
        answer[..8].try_into().unwrap()
    }
}

/// Enough words for a graph with so many forks: three for each, and two for each stretch; besides the first a fork has three of these at
/// most, left, right and after it.
fn enough(forks: u64) -> usize {
    3 * forks as usize + 2 * (1 + 3 * forks as usize)
}

impl Calls {
    fn new() -> Self {
        Calls { workspace: vec![0; WORDS], buffer: vec![], lent: 0, written: 0 }
    }

    /// Lends just the words of this graph, after a call that has written to them; the answer, which is the same with and without.
    fn fit(&mut self, machine: u32, j: &Job) -> Answer {
        let forks = self.run(WITHOUT, machine, j, j.fuel, WORDS)[5];
        self.lent = enough(forks);
        if self.buffer.len() < self.lent {
            self.buffer.resize(self.lent, 1);
        }
        self.run(WITH, machine, j, j.fuel, WORDS);
        self.lent = self.written;
        self.agree(machine, j, j.fuel, WORDS)
    }

    /// Time with a buffer / time without, of two neighbouring runs.
    fn compare(&mut self, first: usize, machine: u32, j: &Job) -> f64 {
        let mut taken = [0.0; 2];
        for side in [first, 1 - first] {
            taken[side] = self.time(side, machine, j, j.fuel, 1);
        }
        taken[WITH] / taken[WITHOUT]
    }
}

/// A job on a machine: what it made, and the time with a buffer against that without.
pub struct Lent {
    name: &'static str,
    machine: usize,
    transitions: u64,
    forks: u64,
    words: usize,
    pub ratio: f64,
}

/// What is wanted of the ratio at most: where a machine forks less than once in 100 transitions, and where it forks more.
pub const FEW_FORKS: f64 = 1.05;
pub const MANY_FORKS: f64 = 1.15;

impl Lent {
    fn new(calls: &mut Calls, j: &Job, machine: usize, repeats: u32) -> Self {
        let answer = calls.fit(machine as u32, j);
        let words = calls.written;
        let ratio = median((0..repeats).map(|repeat| calls.compare(repeat as usize % 2, machine as u32, j)));
        Lent { name: j.name, machine, transitions: answer[4], forks: answer[5], words, ratio }
    }

    pub fn few_forks(&self) -> bool {
        100 * self.forks < self.transitions
    }
}

/// Each job on each machine.
pub fn measured<'j>(jobs: impl Iterator<Item = &'j Job>, repeats: u32) -> Vec<Lent> {
    let mut calls = Calls::new();
    jobs.flat_map(|j| [0, 1, 2].map(|machine| Lent::new(&mut calls, j, machine, repeats))).collect()
}

pub fn told(all: &[Lent]) {
    println!("\n### With a buffer for the graph\n");
    println!("| job | machine | transitions | forks | words | time with / without | wanted | |");
    println!("|---|---|--:|--:|--:|--:|--:|---|");
    for l in all {
        let most = if l.few_forks() { FEW_FORKS } else { MANY_FORKS };
        let met = if l.ratio <= most { "met" } else { "**not met**" };
        println!("| {} | {} | {} | {} | {} | {:.2} | at most {most} | {met} |", l.name, MACHINES[l.machine], l.transitions, l.forks, l.words, l.ratio);
    }
}
