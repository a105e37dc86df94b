//! Inputs of the report program: those of a job, and others.
use crate::jobs::{self, Dice, Input};

/// fuel, N, tau, the number of arguments, each argument as low then high word, then the table.
fn words(j: &Input) -> Vec<u32> {
    let mut w = vec![j.fuel as u32, j.period as u32, j.tau as u32, j.args.len() as u32];
    for a in &j.args {
        w.extend([*a as u32, (*a >> 32) as u32]);
    }
    w.extend(&j.table);
    w
}

fn bytes(words: &[u32]) -> Vec<u8> {
    words.iter().flat_map(|w| w.to_le_bytes()).collect()
}

pub fn of(j: &Input) -> Vec<u8> {
    bytes(&words(j))
}

/// The first words changed: defaults taken, settings out of range, another number of arguments.
fn changed(dice: &mut Dice, mut w: Vec<u32>) -> Vec<u8> {
    match dice.below(4) {
        0 => {
            for i in 0..3 {
                if dice.one_in(2) {
                    w[i] = 0;
                }
            }
        }
        1 => {
            let i = dice.below(3) as usize;
            w[i] = dice.pick(&[10_000, 10_001, 100_000_001, u32::MAX, 1]);
        }
        2 => w[3] = dice.below(4) as u32,
        _ => {
            w[3] = dice.pick(&[4, 5, 1 << 31, u32::MAX]);
            let more = vec![1u32; dice.below(12) as usize];
            w.splice(4..4, more);
        }
    }
    bytes(&w)
}

/// Words for tau beside a 0 for N: the default, the least, about the last that N by default serves, about the largest, and two whose
/// 20-fold is above 2^32, the first by 4.
pub const TAU_WORDS: [u32; 9] = [0, 1, 499, 500, 501, 10_000, 10_001, 214_748_365, u32::MAX];

/// A well-formed job with 0 for N and this word for tau.
pub fn period_by_default(dice: &mut Dice, tau: u32) -> Vec<u8> {
    let mut w = words(&jobs::well_formed(dice));
    (w[1], w[2]) = (0, tau);
    bytes(&w)
}

/// Around the longest input that is looked at, whole words or not.
fn long(dice: &mut Dice, w: Vec<u32>) -> Vec<u8> {
    let mut b = bytes(&w);
    let n = dice.pick(&[65_532, 65_535, 65_536, 65_537, 65_540, 131_072, 200_001, 1 << 20]);
    b.resize(n, dice.below(2) as u8);
    b
}

/// An input that no job gives.
pub fn odd(dice: &mut Dice) -> (&'static str, Vec<u8>) {
    let w = words(&jobs::well_formed(dice));
    match dice.below(10) {
        0 => {
            let n = dice.below(120);
            ("random bytes", (0..n).map(|_| dice.next() as u8).collect())
        }
        1 => {
            let mut b = bytes(&w);
            b.truncate(dice.below(b.len() as u64 + 1) as usize);
            ("truncated", b)
        }
        2 => {
            let n = dice.below(4 + 2 * w[3] as u64 + 2) as usize;
            ("short", bytes(&w[..n.min(w.len())]))
        }
        3 => {
            let mut b = bytes(&w);
            b.extend(vec![0u8; 1 + dice.below(8) as usize]);
            ("padded", b)
        }
        4 if dice.one_in(4) => ("long", long(dice, w)),
        _ => ("changed", changed(dice, w)),
    }
}
