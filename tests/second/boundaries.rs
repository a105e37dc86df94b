//! Runs the jobs of `small` with every fuel, every number of frames and every N up to the end of any form, and compares them with the
//! proved machines; counts which form was met at which boundary, and fails where one was not. Each stop of the sequential machine that the
//! others have to agree with (02, P12) is looked at beside theirs, with the same fuel and frames. Each run is made with a buffer for its graph
//! too (02, P1).
use crate::agreement::{claimed, same};
use crate::buffers::Buffers;
use crate::depths::DEPTH;
use crate::forms::{longest, Counts, Forms};
use crate::jobs::{Dice, Input};
use crate::proved::Lent;
use crate::second::{self, Answer, Job, Limits, Machine, Words, ALL};
use crate::small::{failures, wanted, Random, Small, Writer, ARGS};
use std::collections::HashMap;

/// More transitions than any run of such a job makes, and an N that none comes to.
const PLENTY: u64 = 10_000;

/// A job that is run again and again.
struct Rerun<'c> {
    job: &'c Job,
    input: Input,
    forms: Forms<'c>,
    /// The sequential machine's answers, by workspace and fuel.
    sequential: HashMap<(usize, u64), Words>,
}

struct Runs {
    name: &'static str,
    dice: Dice,
    lent: Lent,
    buffers: Buffers,
    /// The transitions of the longest form.
    longest: u64,
    jobs: u64,
    runs: u64,
    /// Stops of other machines beside the sequential one's.
    stops: u64,
    bad: u64,
}

impl Runs {
    fn new(name: &'static str, seed: u64) -> Runs {
        Runs { name, dice: Dice(seed), lent: Lent::default(), buffers: Buffers::default(), longest: longest(), jobs: 0, runs: 0, stops: 0, bad: 0 }
    }

    fn one(&mut self, i: usize, r: &mut Rerun) -> Answer {
        let j = &r.input;
        let limits = Limits { fuel: j.fuel, period: j.period, tau: j.tau, frames: j.workspace / 32 };
        let ran = second::run_accepted(ALL[i], r.job, &j.args, limits, Some(r.forms.machine(ALL[i])));
        let mine = ran.answer;
        self.runs += 1;
        let mut differences = self.lent.differences(&mut self.dice, i, j, mine.words());
        differences.extend(self.buffers.any_room(&mut self.dice, i, j, &ran));
        for what in differences {
            self.fail(j, what);
        }
        if ALL[i] == Machine::Sequential {
            r.sequential.insert((j.workspace, j.fuel), mine.words());
        } else if let Some(s) = r.sequential.get(&(j.workspace, j.fuel)).filter(|s| claimed(**s)) {
            self.stops += 1;
            if !same(*s, mine.words()) {
                self.fail(j, format!("{:?} stops otherwise than the sequential machine, {mine:?}, not {s:?}", ALL[i]));
            }
        }
        mine
    }

    fn fail(&mut self, j: &Input, what: String) {
        self.bad += 1;
        if self.bad <= 5 {
            println!("DISAGREE {}: {what}\n  {j:?}", self.name);
        }
    }

    /// Every fuel up to one more than the run needs; where an operation fails, further by the longest form.
    fn fuels(&mut self, i: usize, r: &mut Rerun) -> Answer {
        r.input.fuel = PLENTY;
        let whole = self.one(i, r);
        let last = match whole {
            Answer::Value { transitions, .. } | Answer::Stopped { number: 21, transitions, .. } => transitions + 1,
            Answer::Stopped { transitions, .. } => transitions + 1 + self.longest,
            Answer::Refused { .. } => unreachable!("an accepted job"),
        };
        for fuel in 1..=last {
            r.input.fuel = fuel;
            self.one(i, r);
        }
        whole
    }

    /// Every number of frames up to one more than the run needs.
    fn frames(&mut self, i: usize, r: &mut Rerun) {
        let mut enough = 0;
        for frames in 1.. {
            r.input.workspace = 32 * frames;
            let whole = self.fuels(i, r);
            enough += !matches!(whole, Answer::Stopped { number: 21, .. }) as u64;
            if enough == 2 {
                return;
            }
        }
    }

    /// A job as it is, and after a part that occupies as many frames as it needs: then none of its frames is new.
    fn job(&mut self, small: Small, args: &[u64], periods: &[u64], counts: &mut Counts) {
        let plain = second::read(&small.table(0)).expect("an accepted table");
        let limits = Limits { fuel: PLENTY, period: PLENTY, tau: 1, frames: 4_096 };
        let answer = second::run_accepted(Machine::Sequential, &plain, args, limits, None).answer;
        let depth = answer.words()[DEPTH];
        self.after(&small, 0, args, periods, counts);
        let later: Vec<u64> = periods.iter().map(|n| (n + Small::before(depth)).min(PLENTY)).collect();
        self.after(&small, depth, args, &later, counts);
    }

    fn after(&mut self, small: &Small, frames: u64, args: &[u64], periods: &[u64], counts: &mut Counts) {
        let table = small.table(frames);
        let job = second::read(&table).expect("an accepted table");
        let tau = 1 + self.dice.below(50);
        let input = Input { table, args: args.to_vec(), fuel: PLENTY, period: PLENTY, tau, workspace: 32 };
        let mut r = Rerun { job: &job, input, forms: Forms::new(&job, counts), sequential: HashMap::new() };
        self.jobs += 1;
        for (i, m) in ALL.iter().enumerate() {
            for &period in if *m == Machine::Heartbeat { periods } else { &[PLENTY] } {
                r.input.period = period;
                self.frames(i, &mut r);
            }
        }
    }

    /// The last N after which a promotion could come due in a form, where a few transitions went before it.
    fn last_period(&self) -> u64 {
        self.longest + 5
    }

    /// Each node in each of the surroundings, and each failure in one of them.
    fn every_form(&mut self, counts: &mut Counts) {
        let periods: Vec<u64> = (1..=self.last_period()).chain([PLENTY]).collect();
        let mut turn = 0;
        for node in &wanted() {
            turn += 1;
            for (i, failing) in [vec![None; Writer::AROUND], failures(node)].concat().into_iter().enumerate() {
                turn += 1;
                let writer = Writer { around: i % Writer::AROUND, turn, failing };
                self.job(writer.job(node), &ARGS, &periods, counts);
            }
        }
    }

    fn random(&mut self, count: u64, counts: &mut Counts) {
        for _ in 0..count {
            let small = Random::job(&mut self.dice);
            let args = ARGS.map(|_| self.dice.below(6));
            let periods = [1, 2, 3].map(|_| 1 + self.dice.below(self.last_period()));
            self.job(small, &args, &periods, counts);
        }
    }

    fn told(&self) -> u64 {
        println!(
            "{}: {} jobs, {} runs, {} stops beside the sequential machine's, {} disagreements",
            self.name, self.jobs, self.runs, self.stops, self.bad
        );
        let unmet = self.buffers.unmet_by_small();
        println!("  {} calls with a buffer for the graph, {} cases not met", self.buffers.count(), unmet.len());
        for what in &unmet {
            println!("  NOT MET {what}");
        }
        self.bad + (self.stops == 0) as u64 + unmet.len() as u64
    }
}

/// Every form, with the table of what was met: the least count of the forms of a row, over the machines and all that a column stands for.
pub fn every_form(seed: u64) -> u64 {
    let (mut runs, mut counts) = (Runs::new("every form", seed), Counts::default());
    runs.every_form(&mut counts);
    let (bad, (table, missing)) = (runs.told(), counts.table());
    print!("{table}");
    println!("  {} forms at boundaries, {} not met", Counts::wanted(), missing.len());
    for what in missing.iter().take(10) {
        println!("  NOT MET {what}");
    }
    bad + missing.len() as u64
}

pub fn random(count: u64, seed: u64) -> u64 {
    let mut runs = Runs::new("random forms", seed);
    runs.random(count, &mut Counts::default());
    runs.told()
}
