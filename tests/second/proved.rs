//! The proved machines, through the static library of crate `capi`.
use crate::depths::fits;
use crate::jobs::{Dice, Input};
use crate::library::{mondupil_run, mondupil_run_graph};
use crate::second::{Words, ALL, WORDS};
use std::collections::BTreeMap;

pub fn proved(m: u32, j: &Input, ws: &mut [u64], answer: &mut [u64]) -> u32 {
    unsafe {
        mondupil_run(
            m, j.table.as_ptr(), j.table.len(), j.args.as_ptr(), j.args.len(), j.fuel, j.period, j.tau,
            ws.as_mut_ptr(), ws.len(), answer.as_mut_ptr(), answer.len(),
        )
    }
}

pub fn proved_graph(m: u32, j: &Input, ws: &mut [u64], graph: &mut [u32], answer: &mut [u64]) -> u32 {
    unsafe {
        mondupil_run_graph(
            m, j.table.as_ptr(), j.table.len(), j.args.as_ptr(), j.args.len(), j.fuel, j.period, j.tau,
            ws.as_mut_ptr(), ws.len(), graph.as_mut_ptr(), graph.len(), answer.as_mut_ptr(), answer.len(),
        )
    }
}

/// The fewest answer words that are served: an answer without its depth.
pub const FEWEST: usize = 8;
/// Words behind those that are lent; they stay as well.
pub const BEHIND: usize = 4;

/// A workspace that is lent again and again, full of garbage.
#[derive(Default)]
pub struct Workspace {
    words: Vec<u64>,
    garbage: u64,
}

impl Workspace {
    /// The garbage of a place, which is never 0.
    fn filled(&self, k: usize) -> u64 {
        self.garbage.wrapping_mul(2 * k as u64 + 1) | 1
    }

    pub fn fill(&mut self, dice: &mut Dice, words: usize) -> &mut [u64] {
        self.garbage = dice.next();
        let mut filled = std::mem::take(&mut self.words);
        filled.clear();
        filled.extend((0..words).map(|k| self.filled(k)));
        self.words = filled;
        &mut self.words
    }

    pub fn as_found(&self) -> bool {
        self.words.iter().enumerate().all(|(k, w)| *w == self.filled(k))
    }

    /// Whether it is as after an answer of this kind: as found after a refusal, zero after a value or a stop.
    pub fn left(&self, kind: u64) -> bool {
        if kind == 2 { self.as_found() } else { self.words.iter().all(|w| *w == 0) }
    }
}

/// Calls without a buffer for the graph.
#[derive(Default)]
pub struct Lent {
    workspace: Workspace,
    /// How often so many answer words were lent.
    rooms: BTreeMap<usize, u64>,
}

impl Lent {
    /// One machine, with room for an answer or for more, and sometimes also for one without its depth: where it differs from the answer
    /// wanted, or leaves another workspace than it should; and where the depth is not one of so many frames.
    pub fn differences(&mut self, dice: &mut Dice, i: usize, j: &Input, wanted: Words) -> Vec<String> {
        let more = 2 + dice.below(20) as usize;
        let room = WORDS + dice.pick(&[0, 1, more]);
        let mut all = self.with_room(dice, i, j, wanted, room);
        if dice.one_in(16) {
            all.extend(self.with_room(dice, i, j, wanted, FEWEST));
        }
        if !fits(wanted, j.workspace / 32) {
            all.push(format!("{:?}: the depth of {wanted:?}", ALL[i]));
        }
        all
    }

    /// What is asked for in a round of 20,000 jobs, how often it was met, and the least.
    pub fn wanted(&self) -> Vec<(String, usize, u64)> {
        let lent = |what: &str, some: &dyn Fn(usize) -> bool| {
            let have: u64 = self.rooms.iter().filter(|(room, _)| some(**room)).map(|(_, n)| n).sum();
            (format!("runs with {what} answer words lent"), have as usize, 3_000)
        };
        vec![lent("8", &|n| n == FEWEST), lent("9", &|n| n == WORDS), lent("10", &|n| n == WORDS + 1), lent("more", &|n| n > WORDS + 1)]
    }

    pub fn told(&self) {
        println!("  runs by the answer words lent: {:?}", self.rooms);
    }

    /// Workspace and answer are full of garbage. As many words of the answer as are lent are written, and no others.
    fn with_room(&mut self, dice: &mut Dice, i: usize, j: &Input, wanted: Words, room: usize) -> Vec<String> {
        *self.rooms.entry(room).or_default() += 1;
        let ws = self.workspace.fill(dice, j.workspace);
        let before: Vec<u64> = (0..room + BEHIND).map(|_| dice.next()).collect();
        let mut answer = before.clone();
        let r = proved(i as u32, j, ws, &mut answer[..room]);
        let written = room.min(WORDS);
        let mut all = Vec::new();
        if r != 0 || answer[..written] != wanted[..written] || answer[written..] != before[written..] {
            all.push(format!("{:?}, {room} words lent: proved {r} {answer:?}, second {wanted:?}", ALL[i]));
        }
        if !self.workspace.left(wanted[0]) {
            all.push(format!("{:?}: the workspace", ALL[i]));
        }
        all
    }
}
