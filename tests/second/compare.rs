//! Compares the proved machines, through the static library of crate `capi`, and the report program, as a process, with the second
//! implementation. compare [jobs [seed]]: so many jobs from the fixed seed and from a fresh one, and the small jobs of forms; or so many
//! from the seed given. compare forms: the small jobs alone, from the fixed seed.
mod agreement;
mod boundaries;
mod buffers;
mod depths;
mod faults;
mod forms;
mod graphs;
mod inputs;
mod jobs;
mod library;
mod program;
mod proved;
mod report;
mod second;
mod settled;
mod small;

use agreement::Agreement;
use buffers::Buffers;
use depths::{Depths, DEPTH};
use jobs::{Dice, Input};
use program::{Reports, Tally};
use proved::{proved, proved_graph, Lent, BEHIND, FEWEST};
use second::{Machine, Ran, Words, ALL, LENT_WORDS, WORDS};
use std::collections::{BTreeMap, BTreeSet};

fn by_second(m: Machine, j: &Input) -> Ran {
    second::run(m, &j.table, &j.args, j.fuel, j.period, j.tau, j.workspace)
}

/// What was compared, and what it was like.
#[derive(Default)]
struct Bench {
    lent: Lent,
    buffers: Buffers,
    jobs: u64,
    bad: u64,
    kinds: BTreeMap<&'static str, u64>,
    answers: BTreeMap<String, u64>,
    /// For each stop of a machine, and each refusal, the places where it was told.
    places: BTreeMap<String, BTreeSet<(u64, u64)>>,
    /// The numbers of frames of the jobs that ran.
    frames: BTreeSet<usize>,
    depths: Depths,
    agreement: Agreement,
    formed_promoted: u64,
    values: u64,
}

impl Bench {
    fn fail(&mut self, what: &str, j: &Input, more: String) {
        self.bad += 1;
        if self.bad <= 10 {
            println!("DISAGREE {what}: {more}\n  {j:?}");
        }
    }

    fn note(&mut self, m: Machine, a: Words) {
        self.depths.note(a);
        let what = match a[0] {
            0 => format!("{m:?} value"),
            1 => format!("{m:?} stop {}", a[1]),
            _ => format!("refusal {}", a[1]),
        };
        if a[0] > 0 {
            self.places.entry(what.clone()).or_default().insert((a[2], a[3]));
        }
        *self.answers.entry(what).or_default() += 1;
    }

    /// One machine, by both implementations.
    fn machine(&mut self, dice: &mut Dice, kind: &str, i: usize, j: &Input) -> Ran {
        let mine = by_second(ALL[i], j);
        for what in self.lent.differences(dice, i, j, mine.answer.words()) {
            self.fail(kind, j, what);
        }
        mine
    }

    /// The three machines again, with buffers lent for their graphs; sometimes each with buffers of every kind.
    fn with_buffers(&mut self, dice: &mut Dice, kind: &str, j: &Input, rans: &[Ran; 3]) {
        let mut differences = self.buffers.three(dice, j, rans);
        if dice.one_in(8) {
            for (i, ran) in rans.iter().enumerate() {
                differences.extend(self.buffers.each_room(dice, i, j, ran));
            }
        }
        for what in differences {
            self.fail(kind, j, what);
        }
    }

    /// Each machine that has a value, again: with as many frames as its depth its answer is the same, with one frame fewer it is stop 21.
    fn frames_by_depth(&mut self, dice: &mut Dice, j: &Input, answers: [Words; 3]) {
        for (i, a) in answers.into_iter().enumerate().filter(|(_, a)| a[0] == 0) {
            let mut t = j.clone();
            t.workspace = 32 * a[DEPTH].max(1) as usize;
            let enough = self.machine(dice, "frames as the depth", i, &t).answer.words();
            self.depths.enough[i] += 1;
            if enough != a {
                self.fail("frames as the depth", &t, format!("{:?}: {enough:?}, not {a:?}", ALL[i]));
            }
            if a[DEPTH] > 1 {
                t.workspace -= 32;
                let fewer = self.machine(dice, "one frame fewer", i, &t).answer.words();
                self.depths.fewer[i] += 1;
                if fewer[..2] != [1, 21] {
                    self.fail("one frame fewer", &t, format!("{:?}: {fewer:?}, and with one more {a:?}", ALL[i]));
                }
            }
        }
    }

    /// An unknown machine, and too few words for an answer.
    fn unserved(&mut self, dice: &mut Dice, kind: &str, j: &Input) {
        let m = dice.pick(&[3u32, 4, 1 << 31, u32::MAX]);
        let (room, few) = (dice.pick(&[FEWEST, WORDS, WORDS + 1]), dice.below(FEWEST as u64) as usize);
        for (m, room) in [(m, room), (dice.below(3) as u32, few)] {
            let mut ws: Vec<u64> = (0..j.workspace as u64).map(|k| k + 7).collect();
            let mut answer = vec![99u64; room + BEHIND];
            let r = proved(m, j, &mut ws, &mut answer[..room]);
            if r != 1 || answer.iter().any(|&x| x != 99) || ws.iter().enumerate().any(|(k, &w)| w != k as u64 + 7) {
                self.fail(kind, j, format!("machine {m}, {room} answer words: {r}"));
            }
            *self.kinds.entry("not served").or_default() += 1;
            let room = if room < FEWEST { room } else { dice.pick(&[FEWEST, WORDS, LENT_WORDS, LENT_WORDS + 1]) };
            if let Some(what) = self.buffers.unserved(dice, m, j, room) {
                self.fail(kind, j, what);
            }
        }
    }

    fn demand_three(&mut self, j: &Input, [s, p, h]: [Words; 3]) {
        let (n, tau) = (j.period as u128, j.tau as u128);
        let w = |a: Words, i: usize| a[i] as u128;
        let span_bound = || tau * w(h, 7) <= (n + tau) * w(p, 7);
        if p[0] == 0 && h[0] == 0 && !(p[1] == h[1] && p[DEPTH] == h[DEPTH] && span_bound()) {
            self.fail("the span bound and the depth, whatever the sequential run", j, format!("{p:?} {h:?}"));
        }
        if s[0] != 0 {
            return;
        }
        self.values += 1;
        let held = p[0] == 0 && h[0] == 0 && s[1] == p[1] && s[1] == h[1]
            && n * w(h, 6) <= (n + tau) * w(s, 6)
            && span_bound()
            && w(h, 6) + 2 * w(h, 5) == w(s, 6) + tau * w(h, 5);
        if !held {
            self.fail("demand 3", j, format!("{s:?} {p:?} {h:?}"));
        }
        if p[DEPTH] != s[DEPTH] || h[DEPTH] != s[DEPTH] {
            self.fail("the three depths", j, format!("{s:?} {p:?} {h:?}"));
        }
    }

    fn stops_agree(&mut self, j: &Input, [s, p, h]: [Words; 3]) {
        if !self.agreement.holds(s, [p, h]) {
            self.fail("stops that agree", j, format!("{s:?} {p:?} {h:?}"));
        }
    }

    fn one(&mut self, dice: &mut Dice, reports: &Reports, kind: &'static str, j: &Input) -> [Words; 3] {
        self.jobs += 1;
        *self.kinds.entry(kind).or_default() += 1;
        let rans = [0, 1, 2].map(|i| self.machine(dice, kind, i, j));
        self.with_buffers(dice, kind, j, &rans);
        let answers = rans.map(|ran| ran.answer.words());
        for i in 0..3 {
            self.note(ALL[i], answers[i]);
        }
        if dice.one_in(16) {
            self.unserved(dice, kind, j);
        }
        self.demand_three(j, answers);
        self.stops_agree(j, answers);
        if dice.one_in(8) {
            self.frames_by_depth(dice, j, answers);
        }
        if answers[0][0] < 2 {
            self.frames.insert(j.workspace / 32);
        }
        if kind == "well-formed" && answers[2][0] == 0 && answers[2][5] > 0 {
            self.formed_promoted += 1;
        }
        reports.send(inputs::of(j));
        answers
    }

    /// A well-formed job again, with fuel and frames about what it needs.
    fn tight(&mut self, dice: &mut Dice, reports: &Reports, j: &Input, answers: [Words; 3]) {
        let got = dice.pick(&answers);
        let mut t = j.clone();
        if got[0] == 1 && got[1] > 21 {
            // a stop of the arithmetic with just the transitions made, and with one more
            for fuel in [got[4].max(1), got[4] + 1] {
                t.fuel = fuel;
                self.one(dice, reports, "fuel at a stop", &t);
            }
        }
        if got[0] == 0 && dice.one_in(4) {
            t.fuel = got[4];
            self.one(dice, reports, "fuel exact", &t);
            for _ in 0..3 {
                t.fuel = 1 + dice.below(got[4]);
                self.one(dice, reports, "fuel tight", &t);
            }
            t.fuel = j.fuel;
            t.workspace = 32 * (1 + dice.below(12) as usize);
            self.one(dice, reports, "frames tight", &t);
        }
    }

    /// Tables with one or two faults at one node, of each kind, so many times over; how much of that was not met.
    fn faults(&mut self, dice: &mut Dice, reports: &Reports, times: u64) -> u64 {
        let mut met = faults::Met::default();
        for (kind, faults) in (0..times).flat_map(|_| faults::all()) {
            let settings = if dice.one_in(2) { jobs::well_formed(dice) } else { jobs::settings_out(dice) };
            let case = faults::case(dice, kind, &faults, settings);
            let told = self.one(dice, reports, "faults", &case.input)[0];
            let [number, f, node] = case.wanted;
            if told != [2, number, f, node, 0, 0, 0, 0, 0] {
                self.fail("faults", &case.input, format!("{faults:?} at {kind:?}: second {told:?}, wanted {:?}", case.wanted));
            }
            met.note(kind, &faults, &case);
        }
        met.too_few()
    }

    fn jobs(&mut self, dice: &mut Dice, reports: &Reports, count: u64) {
        for k in 0..count {
            let (kind, j) = jobs::any(dice);
            let answers = self.one(dice, reports, kind, &j);
            if kind == "well-formed" {
                self.tight(dice, reports, &j, answers);
            }
            if k % 4 == 0 {
                let (kind, input) = inputs::odd(dice);
                *self.kinds.entry(kind).or_default() += 1;
                reports.send(input);
            }
            if k % 8 == 0 {
                let tau = inputs::TAU_WORDS[(k / 8) as usize % inputs::TAU_WORDS.len()];
                *self.kinds.entry("N by default").or_default() += 1;
                reports.send(inputs::period_by_default(dice, tau));
            }
        }
    }
}

/// Kinds of breadth, and how many reports with each there are to be in a round.
const BREADTHS: [(&str, u64); 9] = [
    ("none, no sequential value", 500),
    ("none, no value", 500),
    ("below 1", 500),
    ("1.00", 500),
    ("1.00 with forks", 10),
    ("above 1", 500),
    ("10 and above", 50),
    ("zero in the first decimal", 50),
    ("zero in the last decimal", 100),
];

/// How a depth is written in a machine's line, and how many such lines there are to be in a round.
const DEPTHS: [(&str, u64); 8] = [
    ("value, depth 0", 500),
    ("value, depth of 1 digit", 500),
    ("value, depth of 2 digits", 500),
    ("value, depth of 3 digits", 10),
    ("stop, depth 0", 30),
    ("stop, depth of 1 digit", 500),
    ("stop, depth of 2 digits", 500),
    ("stop, depth of 3 digits", 500),
];

/// Counts what is too few in a round.
struct Wants {
    jobs: u64,
    few: u64,
}

impl Wants {
    fn want(&mut self, what: String, have: usize, least: u64) {
        if (have as u64) < least {
            println!("  TOO FEW {what}: {have}, not {least}");
            self.few += 1;
        }
    }

    /// Of what is asked for in a round of 20,000 jobs, the share of a smaller one.
    fn share(&self, n: u64) -> u64 {
        n * self.jobs.min(20_000) / 20_000
    }

    fn of_round(&mut self, what: String, have: usize, least: u64) {
        self.want(what, have, self.share(least));
    }

    fn places(&mut self, b: &Bench) {
        let places = |what: &str| b.places.get(what).map_or(0, |p| p.len());
        for m in ALL {
            for (number, least) in [(20, 200), (21, 40), (22, 40), (23, 20), (24, 20)] {
                let what = format!("{m:?} stop {number}");
                self.of_round(format!("places of {what}"), places(&what), least);
            }
        }
        for (number, least) in [(1, 1), (2, 6), (3, 1), (4, 60), (5, 40), (6, 12), (7, 1), (8, 1), (9, 1), (10, 1), (11, 1), (16, 90), (17, 50), (18, 120)] {
            let what = format!("refusal {number}");
            self.want(format!("places of {what}"), places(&what), self.share(least).max(1));
        }
    }

    fn runs(&mut self, b: &Bench) {
        let formed = b.kinds["well-formed"];
        self.want("well-formed jobs with a value and a promotion".into(), b.formed_promoted as usize, formed.div_ceil(4));
        self.of_round("jobs with demand 3".into(), b.values as usize, 5_000);
        self.places(b);
        self.of_round("numbers of frames".into(), b.frames.len(), 150);
        self.want("jobs with 1 frame and with 4,096".into(), [1, 4_096].iter().filter(|&f| b.frames.contains(f)).count(), 2);
        for (what, have, least) in [b.depths.wanted(), b.agreement.wanted(), b.lent.wanted(), b.buffers.wanted()].concat() {
            self.of_round(what, have, least);
        }
        for kind in ["fuel exact", "fuel tight", "fuel at a stop", "frames tight", "mutated", "raw", "long", "random bytes", "short", "not served"] {
            self.of_round(format!("jobs of kind {kind}"), b.kinds.get(kind).copied().unwrap_or(0) as usize, 60);
        }
    }

    fn reports(&mut self, reports: &Tally) {
        let refusals = (1..=10).chain(16..=18).map(|number| (format!("refused {number}"), 20));
        let breadths = BREADTHS.map(|(kind, least)| (format!("breadth {kind}"), least));
        let depths = DEPTHS.map(|(kind, least)| (kind.to_string(), least));
        let stops = ["sequential stop 20", "parallel stop 21", "heartbeat stop 22"].map(|what| (what.to_string(), 100));
        for (what, least) in refusals.chain(breadths).chain(depths).chain(stops) {
            let have = reports.lines.get(&what).copied().unwrap_or(0);
            self.of_round(format!("reports {what}"), have as usize, least);
        }
    }

    fn periods_by_default(&mut self, reports: &Tally) {
        for tau in inputs::TAU_WORDS {
            let wanted: &[(&str, u64)] = match tau {
                0 => &[("promotions", 5), ("no promotion", 100)],
                1 => &[("promotions", 60), ("no promotion", 20)],
                2..=500 => &[("no promotion", 60)],
                _ => &[("refused 9", 100)],
            };
            for (what, least) in wanted {
                let have = reports.by_default.get(&(tau, *what)).copied().unwrap_or(0);
                self.of_round(format!("reports with 0 for N and {tau} for tau: {what}"), have as usize, *least);
            }
        }
    }
}

fn too_few(b: &Bench, reports: &Tally, jobs: u64) -> u64 {
    let mut wants = Wants { jobs, few: 0 };
    wants.runs(b);
    wants.reports(reports);
    wants.periods_by_default(reports);
    wants.few
}

fn round(count: u64, seed: u64) -> u64 {
    let mut dice = Dice(seed);
    let mut b = Bench::default();
    let reports = Reports::start();
    b.jobs(&mut dice, &reports, count);
    let mut faults = Bench::default();
    let unmet = faults.faults(&mut dice, &reports, FAULT_TIMES);
    let reports = reports.end();
    println!("seed {seed}: {} jobs, each by three machines, {} disagreements; {} reports, {} disagreements", b.jobs, b.bad, reports.runs, reports.bad);
    println!("  kinds: {:?}", b.kinds);
    println!("  well-formed with a value and a promotion: {} of {}; demand 3 on {} jobs", b.formed_promoted, b.kinds["well-formed"], b.values);
    println!("  answers: {:?}", b.answers);
    println!("  different places: {:?}", b.places.iter().map(|(k, p)| (k, p.len())).collect::<Vec<_>>());
    println!("  frames: {} numbers, from {:?} to {:?}", b.frames.len(), b.frames.first(), b.frames.last());
    b.depths.told();
    b.agreement.told();
    b.lent.told();
    b.buffers.told();
    println!("  lines of reports: {:?}", reports.lines);
    println!("  0 for N, by the word for tau: {:?}", reports.by_default);
    println!("  faults at one node: {} tables, {} disagreements; {:?}", faults.jobs, faults.bad, faults.answers);
    b.bad + faults.bad + unmet + reports.bad + too_few(&b, &reports, count)
}

fn settled_runs() -> u64 {
    let (mut bad, mut dice, mut buffers) = (0, Dice(FIXED_SEED), Buffers::default());
    let rows = settled::rows();
    for r in &rows {
        let j = Input { table: r.table.clone(), args: vec![], fuel: r.fuel, period: r.period, tau: r.tau, workspace: 32 * r.frames };
        let ran = by_second(r.machine, &j);
        let mine = ran.answer.words();
        let mut ws = vec![5u64; j.workspace];
        let mut answer = [9u64; WORDS];
        let m = number(r.machine);
        proved(m as u32, &j, &mut ws, &mut answer);
        let differences = buffers.each_room(&mut dice, m, &j, &ran);
        if answer != r.wanted || mine != r.wanted || !differences.is_empty() {
            println!("SETTLED {} {:?}: proved {answer:?}, second {mine:?}, wanted {:?} {differences:?}", r.name, r.machine, r.wanted);
            bad += 1;
        }
    }
    println!("settled runs: {} rows, {bad} bad", rows.len());
    bad
}

fn number(m: Machine) -> usize {
    ALL.iter().position(|one| *one == m).unwrap()
}

/// The graphs of table A, in buffers with room for one word more, and another behind that stays.
fn settled_graphs() -> u64 {
    let mut bad = 0;
    for (machine, period, wanted) in settled::GRAPHS {
        let j = Input { table: settled::A.to_vec(), args: vec![], fuel: 100, period, tau: 2, workspace: 32 * 256 };
        let mine = by_second(machine, &j).graph;
        let (mut ws, mut graph, mut answer) = (vec![5u64; j.workspace], vec![7u32; wanted.len() + 2], [9u64; LENT_WORDS]);
        proved_graph(number(machine) as u32, &j, &mut ws, &mut graph[..wanted.len() + 1], &mut answer);
        if mine != wanted || graph != [wanted, &[0, 7]].concat() || answer[WORDS] != wanted.len() as u64 {
            println!("SETTLED GRAPH {machine:?}, N {period}: proved {graph:?} of {} words, second {mine:?}, wanted {wanted:?}", answer[WORDS]);
            bad += 1;
        }
    }
    println!("settled graphs: {} rows, {bad} bad", settled::GRAPHS.len());
    bad
}

/// The report of document 01; an input that comes in pieces; and the program where it cannot write.
fn settled_report() -> u64 {
    let j = Input { table: settled::A.to_vec(), args: vec![], fuel: 100, period: 3, tau: 2, workspace: 0 };
    let input = inputs::of(&j);
    let right = report::report(&input) == settled::REPORT.as_bytes();
    let reports = Reports::start();
    reports.send(input.clone());
    let mut longest = input.clone();
    longest.resize(65_536, 0);
    let pieces = program::in_pieces(&input, 3) + program::in_pieces(&longest, 5_001) + program::in_pieces(&vec![1; 65_540], 5_001);
    let bad = !right as u64 + reports.end().bad + pieces + program::without_output(&input) + program::without_output(&[]);
    println!("the settled report, input in pieces, no standard output: {bad} bad");
    bad
}

const FIXED_SEED: u64 = 2026;
/// How often each case of `faults` is made from one seed, each time otherwise.
const FAULT_TIMES: u64 = 20;
/// Random jobs of forms from one seed.
const SMALL_JOBS: u64 = 1_000;

fn small_jobs() -> u64 {
    boundaries::every_form(FIXED_SEED) + boundaries::random(SMALL_JOBS, FIXED_SEED)
}

fn all() -> u64 {
    let words: Vec<String> = std::env::args().collect();
    if words.get(1).is_some_and(|w| w == "forms") {
        return small_jobs();
    }
    let count = words.get(1).map_or(20_000, |w| w.parse().expect("a number of jobs"));
    let bad = settled_runs() + settled_graphs() + settled_report();
    if let Some(seed) = words.get(2) {
        return bad + round(count, seed.parse().expect("a seed"));
    }
    let fresh = std::time::SystemTime::now().duration_since(std::time::UNIX_EPOCH).unwrap().as_nanos() as u64;
    println!("fresh seed {fresh}");
    bad + small_jobs() + boundaries::random(SMALL_JOBS, fresh) + round(count, FIXED_SEED) + round(count, fresh)
}

fn main() {
    // the second implementation is recursive: one Rust call a machine
    let bad = std::thread::Builder::new().stack_size(1 << 30).spawn(all).unwrap().join().unwrap();
    println!("{}", if bad == 0 { "all agree" } else { "NOT ALL AGREE" });
    std::process::exit((bad > 0) as i32);
}
