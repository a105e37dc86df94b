//! Measures the proved machines, through the static library of crate `capi`, against two Rust interpreters, side by side in one run:
//! `fast` makes one transition at a time, `fused` several at once where they are certain. What is printed is markdown.
//! Before a job is timed all must give the same answers on it, and on random jobs before the first; the program fails if they differ.
mod decode;
mod fast;
mod fused;
mod graphs;
mod jobs;
#[path = "../tests/second/library.rs"]
mod library;
mod measure;
mod sides;

use fast::Interpreter;
use jobs::Job;
use library::mondupil_run;
use measure::{geometric_mean, lowest, median};
use sides::{proved, Answer, Sides, MACHINES, WORDS};

const FAST: usize = 0;
const PROVED: usize = 1;
const FUSED: usize = 2;

/// The implementations, with what they run in.
struct Implementations {
    workspace: Vec<u64>,
    fast: Interpreter<false>,
    fused: Interpreter<true>,
}

impl Sides for Implementations {
    /// The proved one is next to both others.
    const NAMES: &'static [&'static str] = &["fast", "proved", "fused"];

    fn run(&mut self, side: usize, machine: u32, j: &Job, fuel: u64, words: usize) -> Answer {
        match side {
            FAST => self.fast.run(machine, &j.table, &j.args, fuel, j.period, j.tau, words),
            PROVED => proved(mondupil_run, &mut self.workspace, machine, j, fuel, words),
            _ => self.fused.run(machine, &j.table, &j.args, fuel, j.period, j.tau, words),
        }
    }
}

impl Implementations {
    fn new() -> Self {
        Implementations { workspace: vec![0; WORDS], fast: Interpreter::new(), fused: Interpreter::new() }
    }

    /// The time of one run of each, one after the other, from so many calls.
    fn times(&mut self, machine: u32, j: &Job, fuel: u64, calls: u32) -> [f64; 3] {
        [FAST, PROVED, FUSED].map(|side| self.time(side, machine, j, fuel, calls))
    }
}

fn highest(values: &[f64]) -> f64 {
    values.iter().fold(f64::MIN, |a, &b| a.max(b))
}

/// A job with its answers, and what each repeat took: of each machine, by each side.
struct Measured {
    job: Job,
    answers: [Answer; 3],
    taken: Vec<[[f64; 3]; 3]>,
}

impl Measured {
    fn new(sides: &mut Implementations, job: Job, repeats: u32) -> Self {
        let answers = sides.values(&job);
        let taken = (0..repeats).map(|_| [0, 1, 2].map(|machine| sides.times(machine, &job, job.fuel, 1))).collect();
        Measured { job, answers, taken }
    }

    fn transitions(&self, machine: usize) -> u64 {
        self.answers[machine][4]
    }

    fn forks(&self, machine: usize) -> u64 {
        self.answers[machine][5]
    }

    /// Million transitions a second, at the best of the repeats.
    fn rate(&self, machine: usize, side: usize) -> f64 {
        let best = self.taken.iter().map(|t| t[machine][side]).fold(f64::MAX, f64::min);
        self.transitions(machine) as f64 / best / 1e6
    }

    /// Speed of the proved side against another: the median of neighbouring runs.
    fn ratio(&self, machine: usize, side: usize) -> f64 {
        median(self.taken.iter().map(|t| t[machine][side] / t[machine][PROVED]))
    }

    /// Time of a proved machine's whole run against the sequential one's.
    fn whole(&self, machine: usize) -> f64 {
        median(self.taken.iter().map(|t| t[machine][PROVED] / t[0][PROVED]))
    }

    /// The same for each transition, and for each transition or fork.
    fn per_transition(&self, machine: usize) -> [f64; 2] {
        let made = self.transitions(machine);
        [made, made + self.forks(machine)].map(|count| self.whole(machine) * self.transitions(0) as f64 / count as f64)
    }
}

/// The ratios of a group of jobs against one side, of one machine or of all.
fn ratios(group: &[Measured], side: usize, machines: &[usize]) -> Vec<f64> {
    group.iter().flat_map(|m| machines.iter().map(move |&machine| m.ratio(machine, side))).collect()
}

const ALL: [usize; 3] = [0, 1, 2];

/// The rates and ratios of a group of jobs.
fn rates(title: &str, group: &[Measured]) {
    println!("\n### {title}\n");
    println!("| job | machine | transitions | forks | fast | proved | fused | proved / fast | proved / fused |");
    println!("|---|---|--:|--:|--:|--:|--:|--:|--:|");
    for m in group {
        for machine in ALL {
            let [fast, proved, fused] = [FAST, PROVED, FUSED].map(|side| m.rate(machine, side));
            let [over_fast, over_fused] = [FAST, FUSED].map(|side| m.ratio(machine, side));
            let (name, transitions, forks) = (m.job.name, m.transitions(machine), m.forks(machine));
            println!("| {name} | {} | {transitions} | {forks} | {fast:.1} | {proved:.1} | {fused:.1} | {over_fast:.2} | {over_fused:.2} |", MACHINES[machine]);
        }
    }
    println!("\n| {} | all | sequential | parallel | heartbeat |", title.to_lowercase());
    println!("|---|--:|--:|--:|--:|");
    for side in [FAST, FUSED] {
        for (what, of) in [("geometric mean", geometric_mean as fn(&[f64]) -> f64), ("slowest", lowest)] {
            let shown = [&ALL[..], &[0], &[1], &[2]].map(|machines| format!("{:.2}", of(&ratios(group, side, machines))));
            println!("| proved / {}, {what} | {} |", Implementations::NAMES[side], shown.join(" | "));
        }
    }
}

/// Time of the proved parallel and heartbeat machines against the sequential one.
fn schedules(group: &[Measured]) {
    println!("\n### Parallel and heartbeat against sequential\n");
    println!("| job | parallel, per transition | per transition or fork | whole run | heartbeat, per transition | per transition or fork | whole run |");
    println!("|---|--:|--:|--:|--:|--:|--:|");
    for m in group {
        let shown = [1, 2].map(|machine| {
            let [transition, or_fork] = m.per_transition(machine);
            format!("{transition:.2} | {or_fork:.2} | {:.2}", m.whole(machine))
        });
        println!("| {} | {} |", m.job.name, shown.join(" | "));
    }
}

/// The heartbeat machine where N is small and forks are many.
fn small_periods(group: &[Measured]) {
    println!("\n### Small N with many forks\n");
    println!("| job | forks | transitions for each fork | heartbeat against sequential, per transition | per transition or fork | whole run | proved / fast | proved / fused |");
    println!("|---|--:|--:|--:|--:|--:|--:|--:|");
    for m in group {
        let [transition, or_fork] = m.per_transition(2);
        let (forks, each) = (m.forks(2), m.transitions(2) as f64 / m.forks(2) as f64);
        let [over_fast, over_fused] = [FAST, FUSED].map(|side| m.ratio(2, side));
        println!("| {} | {forks} | {each:.1} | {transition:.2} | {or_fork:.2} | {:.2} | {over_fast:.2} | {over_fused:.2} |", m.job.name, m.whole(2));
    }
}

/// Two inputs that differ in one thing, and how often each is called, so that both take about as long.
struct Contrast<'j> {
    name: &'static str,
    jobs: [&'j Job; 2],
    fuels: [u64; 2],
    calls: [u32; 2],
}

/// Time for each transition of the second against the first; the highest of the proved machines.
fn contrast(sides: &mut Implementations, c: &Contrast, repeats: u32) -> f64 {
    let found = [0, 1, 2].map(|machine| {
        let made = [0, 1].map(|i| sides.agree(machine, c.jobs[i], c.fuels[i], WORDS)[4] as f64);
        let taken: Vec<[[f64; 3]; 2]> = (0..repeats).map(|_| [0, 1].map(|i| sides.times(machine, c.jobs[i], c.fuels[i], c.calls[i]))).collect();
        [FAST, PROVED, FUSED].map(|side| median(taken.iter().map(|t| (t[1][side] / made[1]) / (t[0][side] / made[0]))))
    });
    for (side, name) in Implementations::NAMES.iter().enumerate() {
        let shown = found.map(|of_machine| format!("{:.3}", of_machine[side]));
        println!("| {} | {name} | {} |", c.name, shown.join(" | "));
    }
    highest(&found.map(|of_machine| of_machine[PROVED]))
}

/// Depth and length of a run: the highest figure of the proved machines for each.
fn depth_and_length(sides: &mut Implementations, quick: bool, repeats: u32) -> [f64; 2] {
    println!("\n### Depth and length\n\n| second against first | | sequential | parallel | heartbeat |\n|---|---|--:|--:|--:|");
    let [shallow, deep] = [10, 4_000].map(|depth| jobs::deep_plain(depth, 800_000));
    let depth = Contrast { name: "depth 10, depth 4,000", jobs: [&shallow, &deep], fuels: [shallow.fuel, deep.fuel], calls: [1, 1] };
    let endless = jobs::fibonacci(60);
    let length = Contrast { name: "10^6, 10^8 transitions", jobs: [&endless, &endless], fuels: [1_000_000, 100_000_000], calls: [100, 1] };
    [contrast(sides, &depth, repeats), contrast(sides, &length, if quick { 1 } else { 5 })]
}

/// The largest table, refused by its fuel 0 after it was read.
fn acceptance(sides: &mut Implementations) {
    let j = Job { name: "largest table", table: jobs::largest_table(), args: vec![], fuel: 0, period: 1, tau: 1 };
    assert_eq!((j.table[0], j.table.len()), (64, 1 + 2 * 64 + 4 * 4_000));
    assert_eq!(sides.agree(0, &j, 0, WORDS), [2, 8, 0, 0, 0, 0, 0, 0]);
    let taken: Vec<[f64; 3]> = (0..100).map(|_| sides.times(0, &j, 0, 200)).collect();
    let [fast, proved, _] = [FAST, PROVED, FUSED].map(|side| taken.iter().map(|t| t[side]).fold(f64::MAX, f64::min) * 1e6);
    println!("\nTo accept the largest table (64 functions, 4,000 nodes), best of {}: proved {proved:.1} µs, Rust {fast:.1} µs (both interpreters have the same reader); in speed proved / Rust {:.2}.", taken.len(), fast / proved);
}

/// What is wanted: a figure that is reached, at least or at most another.
enum Wanted {
    AtLeast(f64),
    AtMost(f64),
}

fn wanted(rows: &[(&str, f64, Wanted)]) {
    println!("\n### Wanted, and what is reached\n\n| | wanted | reached | |\n|---|--:|--:|---|");
    for (what, reached, wanted) in rows {
        let (bound, met) = match wanted {
            Wanted::AtLeast(least) => (format!("at least {least}"), reached >= least),
            Wanted::AtMost(most) => (format!("at most {most}"), reached <= most),
        };
        println!("| {what} | {bound} | {reached:.2} | {} |", if met { "met" } else { "**not met**" });
    }
}

fn main() {
    let quick = std::env::args().any(|word| word == "quick");
    let repeats = if quick { 3 } else { 15 };
    let mut sides = Implementations::new();
    sides.agree_on_random(20_000);
    sides.agree_on_periods();
    let [six, further] = [jobs::six(), jobs::further()].map(|group| {
        let measured = group.into_iter().map(|job| {
            sides.agree_on_stops(&job);
            Measured::new(&mut sides, job, repeats)
        });
        measured.collect::<Vec<_>>()
    });
    rates("The six jobs", &six);
    rates("The ten further jobs", &further);
    schedules(&six);
    small_periods(&further[further.len() - jobs::small_periods().len()..]);
    let [depth, length] = depth_and_length(&mut sides, quick, repeats);
    acceptance(&mut sides);
    let lent = graphs::measured(six.iter().chain(&further).map(|m| &m.job), repeats);
    graphs::told(&lent);
    let with_buffer = |few: bool| highest(&lent.iter().filter(|l| l.few_forks() == few).map(|l| l.ratio).collect::<Vec<_>>());
    let six_fast = ratios(&six, FAST, &ALL);
    let against = |machine: usize| highest(&six.iter().map(|m| m.per_transition(machine)[0]).collect::<Vec<_>>());
    use Wanted::*;
    wanted(&[
        ("the six, proved / fast, slowest", lowest(&six_fast), AtLeast(1.3)),
        ("the six, proved / fast, geometric mean", geometric_mean(&six_fast), AtLeast(1.7)),
        ("the six, proved / fused, geometric mean", geometric_mean(&ratios(&six, FUSED, &ALL)), AtLeast(0.8)),
        ("the ten further, proved / fast, geometric mean", geometric_mean(&ratios(&further, FAST, &ALL)), AtLeast(1.2)),
        ("the six, parallel against sequential per transition, highest", against(1), AtMost(1.25)),
        ("the six, heartbeat against sequential per transition, highest", against(2), AtMost(1.25)),
        ("depth 4,000 against depth 10 per transition, highest", depth, AtMost(1.1)),
        ("10^8 against 10^6 transitions per transition, highest", length, AtMost(1.1)),
        ("with a buffer for the graph against without, few forks, highest", with_buffer(true), AtMost(graphs::FEW_FORKS)),
        ("with a buffer for the graph against without, more forks, highest", with_buffer(false), AtMost(graphs::MANY_FORKS)),
    ]);
}
