//! The report program of document 01, with the default N, the breadth and the depth of document 02 (P2, P6, P7), written from the documents alone: its bytes for any input bytes.
use crate::second::{self, Answer, Machine};

const MOST_BYTES: usize = 65_536;
const FRAMES: usize = 256;

/// What the input asks for, with the house defaults taken.
struct Asked {
    fuel: u64,
    period: u64,
    tau: u64,
    args: Vec<u64>,
    table: Vec<u32>,
}

fn asked(input: &[u8]) -> Option<Asked> {
    if input.len() > MOST_BYTES || input.len() % 4 != 0 {
        return None;
    }
    let words: Vec<u32> = input.chunks(4).map(|b| u32::from_le_bytes([b[0], b[1], b[2], b[3]])).collect();
    let (first, rest) = (words.get(..4)?, &words[4..]);
    if first[3] > 3 {
        return None;
    }
    let args = rest.get(..2 * first[3] as usize)?;
    let or = |word: u32, default: u64| if word == 0 { default } else { word as u64 };
    let tau = or(first[2], 50);
    Some(Asked {
        fuel: or(first[0], 1_000_000),
        period: or(first[1], tau * 20),
        tau,
        args: args.chunks(2).map(|p| p[0] as u64 | (p[1] as u64) << 32).collect(),
        table: rest[args.len()..].to_vec(),
    })
}

fn refused(number: u64, function: usize, node: usize) -> String {
    format!("refused {number} function {function} node {node}\n")
}

fn line(machine: &str, answer: Answer) -> String {
    match answer {
        Answer::Value { value, forks, work, span, deepest, .. } => {
            format!("{machine} value {value} work {work} span {span} forks {forks} deep {deepest}\n")
        }
        Answer::Stopped { number, function, node, transitions, deepest } => {
            format!("{machine} stop {number} function {function} node {node} transitions {transitions} deep {deepest}\n")
        }
        Answer::Refused { .. } => unreachable!("all three machines check the same"),
    }
}

/// Sequential work divided by parallel span, by long division: the whole part, and two digits more.
fn breadth(sequential: Answer, parallel: Answer) -> String {
    let (Answer::Value { work, .. }, Answer::Value { span, .. }) = (sequential, parallel) else {
        return "breadth none\n".to_string();
    };
    let tenths = work % span * 10;
    let hundredths = tenths % span * 10;
    format!("breadth {}.{}{}\n", work / span, tenths / span, hundredths / span)
}

fn told(input: &[u8]) -> String {
    let Some(a) = asked(input) else { return refused(1, 0, 0) };
    let run = |m| second::run(m, &a.table, &a.args, a.fuel, a.period, a.tau, 32 * FRAMES).answer;
    let sequential = run(Machine::Sequential);
    if let Answer::Refused { number, function, node } = sequential {
        return refused(number, function, node);
    }
    let (parallel, heartbeat) = (run(Machine::Parallel), run(Machine::Heartbeat));
    line("sequential", sequential) + &line("parallel", parallel) + &line("heartbeat", heartbeat) + &breadth(sequential, parallel)
}

pub fn report(input: &[u8]) -> Vec<u8> {
    told(input).into_bytes()
}
