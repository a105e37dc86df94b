//! Document 01's settled runs, starred or not, as rows
//! (name, machines, table, fuel, N, tau, frames, the nine words wanted, those that document 01 does not tell worked out by hand),
//! and its settled report, with the breadth and the depth of document 02 (P6, P7); and the graphs of its table A (02, P1).
use crate::second::Machine::{self, *};
use crate::second::Words;

pub struct Row {
    pub name: &'static str,
    pub machine: Machine,
    pub table: Vec<u32>,
    pub fuel: u64,
    pub period: u64,
    pub tau: u64,
    pub frames: usize,
    pub wanted: Words,
}

pub const A: [u32; 31] = [
    1, 0, 7, 6, 0, 5, 6, 6, 0, 3, 4, 0, 3, 0, 0, 0, 4, 0, 0, 1, 1, 0, 0, 0, 5, 0, 0, 1, 0, 0, 0,
];

/// The graphs of table A, with fuel 100, tau 2 and 256 frames: a machine, N and the words. The third is document 02's; the others are worked
/// by hand. In the last the left branch is empty: its value returns when the fork is promoted.
pub const GRAPHS: [(Machine, u64, &[u32]); 6] = [
    (Sequential, 3, &[0, 11]),
    (Parallel, 3, &[1, 9, 2, 1, 2, 2, 0, 1, 0, 1, 0, 1, 0, 1, 0, 1]),
    (Heartbeat, 3, &[0, 3, 1, 2, 2, 0, 4, 0, 1, 0, 1]),
    (Heartbeat, 1, &[0, 1, 1, 11, 2, 0, 1, 1, 2, 2, 0, 1, 0, 1, 0, 1, 0, 1, 0, 1]),
    (Heartbeat, 10_000, &[0, 11]),
    (Heartbeat, 7, &[0, 7, 1, 0, 2, 0, 1, 0, 1]),
];

pub const REPORT: &str = "\
sequential value 4 work 11 span 11 forks 0 deep 2
parallel value 4 work 9 span 7 forks 2 deep 2
heartbeat value 4 work 11 span 10 forks 1 deep 2
breadth 1.57
";

fn value(v: u64, [made, forks, work, span]: [u64; 4], deepest: u64) -> Words {
    [0, v, 0, 0, made, forks, work, span, deepest]
}
fn stop(n: u64, node: u64, made: u64, deepest: u64) -> Words {
    [1, n, 0, node, made, 0, 0, 0, deepest]
}
fn refused(n: u64) -> Words {
    [2, n, 0, 0, 0, 0, 0, 0, 0]
}
fn binary(op: u32, x: (u32, u32), y: (u32, u32)) -> Vec<u32> {
    vec![1, 0, 3, 2, op, 2, 0, 0, x.0, x.1, 0, 0, y.0, y.1, 0]
}

pub fn rows() -> Vec<Row> {
    let mut all = Vec::new();
    let mut row = |name, machines: &[Machine], table: &[u32], fuel, period, tau, frames, wanted| {
        for &machine in machines {
            all.push(Row { name, machine, table: table.to_vec(), fuel, period, tau, frames, wanted });
        }
    };
    let every = &[Sequential, Parallel, Heartbeat][..];
    row("A sequential", &[Sequential], &A, 100, 3, 2, 256, value(4, [11, 0, 11, 11], 2));
    row("A parallel", &[Parallel], &A, 100, 3, 2, 256, value(4, [5, 2, 9, 7], 2));
    row("A heartbeat", &[Heartbeat], &A, 100, 3, 2, 256, value(4, [9, 1, 11, 10], 2));
    row("A heartbeat N 1 tau 1", &[Heartbeat], &A, 100, 1, 1, 256, value(4, [7, 2, 9, 7], 2));
    row("A N 10000", &[Sequential, Heartbeat], &A, 100, 10_000, 2, 256, value(4, [11, 0, 11, 11], 2));
    row("A parallel N 10000", &[Parallel], &A, 100, 10_000, 2, 256, value(4, [5, 2, 9, 7], 2));
    row("A fuel 11", &[Sequential], &A, 11, 3, 2, 256, value(4, [11, 0, 11, 11], 2));
    row("A fuel 10", &[Sequential], &A, 10, 3, 2, 256, stop(20, 6, 10, 2));
    row("A parallel fuel 4", &[Parallel], &A, 4, 3, 2, 256, stop(20, 6, 4, 2));
    row("A parallel fuel 5", &[Parallel], &A, 5, 3, 2, 256, value(4, [5, 2, 9, 7], 2));
    row("A one frame", &[Sequential, Heartbeat], &A, 100, 3, 2, 1, stop(21, 1, 1, 1));
    row("A one frame parallel", &[Parallel], &A, 100, 3, 2, 1, stop(21, 1, 0, 1));
    row("70000 squared", every, &binary(2, (70000, 0), (70000, 0)), 100, 3, 2, 256, value(4_900_000_000, [5, 0, 5, 5], 1));
    row("2^32 squared", every, &binary(2, (0, 1), (0, 1)), 100, 3, 2, 256, stop(22, 0, 4, 1));
    row("2^32 squared fuel 4", every, &binary(2, (0, 1), (0, 1)), 4, 3, 2, 256, stop(20, 0, 4, 1));
    let looping = [1, 0, 1, 5, 0, 0, 0];
    row("loop", every, &looping, 100, 3, 2, 256, stop(20, 0, 100, 0));
    row("loop fuel 1", every, &looping, 1, 3, 2, 256, stop(20, 0, 1, 0));
    row("loop long", every, &looping, 1_000_000, 3, 2, 256, stop(20, 0, 1_000_000, 0));
    row("0 - 1", every, &binary(1, (0, 0), (1, 0)), 100, 3, 2, 256, stop(23, 0, 4, 1));
    row("7 / 0", every, &binary(3, (7, 0), (0, 0)), 100, 3, 2, 256, stop(24, 0, 4, 1));
    row("7 % 0", every, &binary(4, (7, 0), (0, 0)), 100, 3, 2, 256, stop(24, 0, 4, 1));
    row("no words", every, &[], 100, 3, 2, 256, refused(1));
    let mut wide = vec![65u32];
    for _ in 0..65 {
        wide.extend_from_slice(&[0, 1]);
    }
    for _ in 0..65 {
        wide.extend_from_slice(&[0, 1, 0, 0]);
    }
    row("F 65", every, &wide, 100, 3, 2, 256, refused(1));
    row("N 10000 passes", every, &binary(0, (1, 0), (2, 0)), 100, 10_000, 2, 256, value(3, [5, 0, 5, 5], 1));
    row("N 0", every, &A, 100, 0, 2, 256, refused(9));
    row("N 10001", every, &A, 100, 10_001, 2, 256, refused(9));
    all
}
