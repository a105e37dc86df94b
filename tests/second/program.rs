//! Runs the report program as a process, on an input, and compares what it writes with the second implementation's report.
use crate::inputs::TAU_WORDS;
use crate::report::report;
use std::collections::BTreeMap;
use std::io::Write;
use std::path::PathBuf;
use std::process::{Command, Output, Stdio};
use std::sync::mpsc::{sync_channel, Receiver, SyncSender};
use std::sync::{Arc, Mutex};
use std::thread::{Builder, JoinHandle};

/// The program: what MONDUPIL names, else target/bin/mondupil.
pub fn path() -> PathBuf {
    let p = PathBuf::from(std::env::var("MONDUPIL").unwrap_or("target/bin/mondupil".to_string()));
    assert!(p.is_file(), "no program at {}", p.display());
    p
}

fn fed(mut command: Command, input: &[u8], out: Stdio) -> Output {
    let mut child = command.stdin(Stdio::piped()).stdout(out).stderr(Stdio::piped()).spawn().expect("the program starts");
    // a program that stops reading is allowed: what it writes is compared all the same
    let _ = child.stdin.take().unwrap().write_all(input);
    child.wait_with_output().expect("the program ends")
}

fn shown(bytes: &[u8]) -> String {
    String::from_utf8_lossy(bytes).into_owned()
}

fn words(input: &[u8]) -> Vec<u32> {
    input.chunks_exact(4).map(|b| u32::from_le_bytes([b[0], b[1], b[2], b[3]])).collect()
}

/// The work and the forks of a machine's line in a report, where it has a value.
fn costs(report: &str, machine: &str) -> Option<(u64, u64)> {
    let line = report.lines().find_map(|l| l.strip_prefix(machine)?.strip_prefix(" value "))?;
    let numbers: Vec<u64> = line.split(' ').filter_map(|w| w.parse().ok()).collect();
    Some((numbers[1], numbers[3]))
}

/// What a report's breadth is like: without a value, by which run lacks it; else by its size, its digits, and for 1.00 whether there are forks.
fn breadth_kinds(report: &str) -> Vec<&'static str> {
    let Some(breadth) = report.lines().find_map(|l| l.strip_prefix("breadth ")) else { return vec![] };
    let parallel = costs(report, "parallel");
    let Some((whole, decimals)) = breadth.split_once('.') else {
        return vec![if parallel.is_some() { "none, no sequential value" } else { "none, no value" }];
    };
    let (zero_first, zero_last) = (decimals.starts_with('0'), decimals.ends_with('0'));
    let kinds = [
        (whole == "0", "below 1"),
        (breadth == "1.00", "1.00"),
        (breadth == "1.00" && parallel.is_some_and(|(_, forks)| forks > 0), "1.00 with forks"),
        (whole != "0" && breadth != "1.00", "above 1"),
        (whole.len() > 1, "10 and above"),
        (whole != "0" && zero_first && !zero_last, "zero in the first decimal"),
        (zero_last && !zero_first, "zero in the last decimal"),
    ];
    kinds.into_iter().filter_map(|(is, kind)| is.then_some(kind)).collect()
}

/// Of a machine's line: whether it has a value or a stop, and how its depth is written.
fn depth_kind(words: &[&str]) -> Option<String> {
    let [_, what @ ("value" | "stop"), .., "deep", depth] = words else { return None };
    Some(match depth.len() {
        1 if *depth == "0" => format!("{what}, depth 0"),
        1 => format!("{what}, depth of 1 digit"),
        digits => format!("{what}, depth of {digits} digits"),
    })
}

#[derive(Default)]
pub struct Tally {
    pub runs: u64,
    pub bad: u64,
    /// Lines by their first two words, a stop's also by the third; a breadth by its kinds; and by how a depth is written.
    pub lines: BTreeMap<String, u64>,
    /// Inputs with 0 for N and a word of TAU_WORDS for tau, by that word and what came of them.
    pub by_default: BTreeMap<(u32, &'static str), u64>,
}

impl Tally {
    /// Of an input with 0 for N: what came of it; 20 times the heartbeat's work is at most 21 times the sequential work.
    fn period_by_default(&mut self, tau: u32, report: &str) {
        let (sequential, heartbeat) = (costs(report, "sequential"), costs(report, "heartbeat"));
        let what = match heartbeat {
            _ if report.starts_with("refused 9 ") => "refused 9",
            Some((_, 1..)) => "promotions",
            Some(_) => "no promotion",
            None => "other",
        };
        *self.by_default.entry((tau, what)).or_default() += 1;
        if let (Some((s, _)), Some((h, _))) = (sequential, heartbeat) {
            if 20 * h > 21 * s {
                self.bad += 1;
                println!("MORE THAN 5 PERCENT with tau {tau}: {report:?}");
            }
        }
    }

    fn compare(&mut self, program: &PathBuf, input: &[u8]) {
        let wanted = report(input);
        let got = fed(Command::new(program), input, Stdio::piped());
        self.runs += 1;
        if got.stdout != wanted || !got.stderr.is_empty() || got.status.code() != Some(0) {
            self.bad += 1;
            if self.bad <= 5 {
                let words = words(input);
                println!("DISAGREE report on {} bytes, {:?}", input.len(), &words[..words.len().min(400)]);
                println!("  program {:?} {:?} {:?}, second {:?}", got.status.code(), shown(&got.stdout), shown(&got.stderr), shown(&wanted));
            }
        }
        if let [_, 0, tau, _, ..] = words(&input[..input.len().min(16)])[..] {
            if TAU_WORDS.contains(&tau) {
                self.period_by_default(tau, &shown(&got.stdout));
            }
        }
        for kind in breadth_kinds(&shown(&wanted)) {
            *self.lines.entry(format!("breadth {kind}")).or_default() += 1;
        }
        for line in shown(&wanted).lines() {
            let words: Vec<&str> = line.split(' ').collect();
            let kept = match words[..] {
                ["breadth", _] => continue,
                [machine, "value", ..] => format!("{machine} value"),
                [machine, "stop", number, ..] => format!("{machine} stop {number}"),
                _ => words[..2].join(" "),
            };
            for what in depth_kind(&words).into_iter().chain([kept]) {
                *self.lines.entry(what).or_default() += 1;
            }
        }
    }
    fn add(&mut self, other: Tally) {
        self.runs += other.runs;
        self.bad += other.bad;
        for (k, n) in other.lines {
            *self.lines.entry(k).or_default() += n;
        }
        for (k, n) in other.by_default {
            *self.by_default.entry(k).or_default() += n;
        }
    }
}

/// Threads that compare the inputs sent to them.
pub struct Reports {
    inputs: SyncSender<Vec<u8>>,
    threads: Vec<JoinHandle<Tally>>,
}

fn work(inputs: Arc<Mutex<Receiver<Vec<u8>>>>, program: PathBuf) -> Tally {
    let mut tally = Tally::default();
    loop {
        let next = inputs.lock().unwrap().recv();
        let Ok(input) = next else { return tally };
        tally.compare(&program, &input);
    }
}

impl Reports {
    pub fn start() -> Reports {
        let program = path();
        let (send, receive) = sync_channel(1_000);
        let receive = Arc::new(Mutex::new(receive));
        let thread = || {
            let (inputs, program) = (receive.clone(), program.clone());
            Builder::new().stack_size(1 << 30).spawn(move || work(inputs, program)).unwrap()
        };
        Reports { threads: (0..2).map(|_| thread()).collect(), inputs: send }
    }
    pub fn send(&self, input: Vec<u8>) {
        self.inputs.send(input).unwrap();
    }
    pub fn end(self) -> Tally {
        drop(self.inputs);
        let mut all = Tally::default();
        for t in self.threads {
            all.add(t.join().unwrap());
        }
        all
    }
}

/// The input written in pieces, so that the program reads it in many parts.
pub fn in_pieces(input: &[u8], size: usize) -> u64 {
    let mut child = Command::new(path()).stdin(Stdio::piped()).stdout(Stdio::piped()).spawn().expect("the program starts");
    let mut pipe = child.stdin.take().unwrap();
    for piece in input.chunks(size) {
        let _ = pipe.write_all(piece);
        std::thread::sleep(std::time::Duration::from_millis(2));
    }
    drop(pipe);
    let got = child.wait_with_output().expect("the program ends").stdout;
    if got == report(input) {
        return 0;
    }
    println!("IN PIECES of {size}: {:?}", shown(&got));
    1
}

/// With standard output closed, full, or a pipe that nobody reads the program ends quietly. The last may end it by its signal.
pub fn without_output(input: &[u8]) -> u64 {
    let program = path();
    let shell = |to: &str| {
        let mut c = Command::new("sh");
        c.args(["-c", &format!("exec \"$0\" {to}")]).arg(&program);
        c
    };
    let mut bad = 0;
    for to in [">&-", ">/dev/full"] {
        let got = fed(shell(to), input, Stdio::null());
        if got.status.code() != Some(0) || !got.stderr.is_empty() {
            println!("OUTPUT {to}: {:?} {:?}", got.status, shown(&got.stderr));
            bad += 1;
        }
    }
    let (reader, writer) = std::io::pipe().expect("a pipe");
    drop(reader);
    let got = fed(Command::new(&program), input, Stdio::from(writer));
    if got.status.code().unwrap_or(0) != 0 || !got.stderr.is_empty() {
        println!("OUTPUT to a closed pipe: {:?} {:?}", got.status, shown(&got.stderr));
        bad += 1;
    }
    bad
}
