//! A reader of a graph's words (02, P1) that knows neither implementation: the costs that they have, and what the graph is like.
use crate::second::{LentWords, WORDS};

enum Part<'w> {
    Stretch(u64),
    Fork(&'w [u32], &'w [u32]),
}

/// The first part of these words, and the words after it; `None` where they begin with no part.
fn first(words: &[u32]) -> Option<(Part<'_>, &[u32])> {
    match words {
        [0, k, after @ ..] if *k > 0 => Some((Part::Stretch(*k as u64), after)),
        [1, left, right, after @ ..] => {
            let (left, after) = after.split_at_checked(*left as usize)?;
            let (right, after) = after.split_at_checked(*right as usize)?;
            Some((Part::Fork(left, right), after))
        }
        _ => None,
    }
}

/// Transitions, forks, work and span, as they stand in an answer.
type Costs = [u64; 4];

/// The costs of a graph's words; `None` where they are no graph's, also where two stretches touch.
fn costs(mut words: &[u32], tau: u64) -> Option<Costs> {
    let (mut sum, mut after_stretch) = ([0; 4], false);
    while !words.is_empty() {
        let (part, after) = first(words)?;
        let (part, stretch) = match part {
            Part::Stretch(_) if after_stretch => return None,
            Part::Stretch(k) => ([k, 0, k, k], true),
            Part::Fork(left, right) => (forked(costs(left, tau)?, costs(right, tau)?, tau), false),
        };
        sum = [0, 1, 2, 3].map(|i| sum[i] + part[i]);
        (words, after_stretch) = (after, stretch);
    }
    Some(sum)
}

fn forked(left: Costs, right: Costs, tau: u64) -> Costs {
    let [transitions, forks, work] = [0, 1, 2].map(|i| left[i] + right[i]);
    [transitions, 1 + forks, tau + work, tau + left[3].max(right[3])]
}

/// Whether the words of a buffer that an answer tells of have its costs.
pub fn have_costs(buffer: &[u32], answer: LentWords, tau: u64) -> bool {
    let words = buffer.get(..answer[WORDS] as usize);
    words.and_then(|words| costs(words, tau)).is_some_and(|costs| costs == answer[4..8])
}

/// What a graph may have.
#[derive(Clone, Copy)]
pub enum Trait {
    OneStretch,
    StretchBeforeFork,
    ForkAtFront,
    StretchAfterFork,
    StretchBetweenForks,
    ForksTouch,
    ForkInLeft,
    ForkInRight,
    DeepForks,
    EmptyLeft,
}
use Trait::*;

/// How many graphs with each there are to be in a round of 20,000 jobs, of the parallel machine and of the heartbeat. Before a promotion a
/// machine has made a transition, so that a stretch comes before its fork; a parallel branch makes one, so that it is not empty.
pub const TRAITS: [(Trait, &str, [u64; 2]); 10] = [
    (OneStretch, "one stretch", [500, 1_000]),
    (StretchBeforeFork, "a stretch before a fork", [2_000, 1_700]),
    (ForkAtFront, "a fork at the front", [1_800, 0]),
    (StretchAfterFork, "a stretch after a fork", [2_500, 1_700]),
    (StretchBetweenForks, "a stretch between forks", [1_400, 1_000]),
    (ForksTouch, "forks that touch", [1_000, 0]),
    (ForkInLeft, "a fork in a left branch", [1_800, 900]),
    (ForkInRight, "a fork in a right branch", [1_400, 700]),
    (DeepForks, "forks more than ten deep", [100, 40]),
    (EmptyLeft, "an empty left branch", [0, 300]),
];
/// Forks that are deep: one in so many others.
const DEEP: usize = 10;

/// A set of traits.
#[derive(Default)]
pub struct Traits(u32);

impl Traits {
    pub fn of(words: &[u32]) -> Traits {
        let mut all = Traits::default();
        all.mark(words, 0);
        all
    }
    pub fn has(&self, t: Trait) -> bool {
        self.0 >> t as u32 & 1 == 1
    }
    fn add(&mut self, t: Trait, is: bool) {
        self.0 |= (is as u32) << t as u32;
    }

    /// The traits of a graph in so many forks.
    fn mark(&mut self, mut words: &[u32], forks: usize) {
        // of the two parts before, whether they are forks
        let mut before = [None, None];
        while let Some((part, after)) = first(words) {
            words = after;
            let fork = matches!(part, Part::Fork(..));
            self.add(StretchAfterFork, !fork && before[1] == Some(true));
            self.add(OneStretch, forks == 0 && !fork && before[1].is_none() && words.is_empty());
            if let Part::Fork(left, right) = part {
                self.add(StretchBeforeFork, before[1] == Some(false));
                self.add(ForkAtFront, before[1].is_none());
                self.add(StretchBetweenForks, before == [Some(true), Some(false)]);
                self.add(ForksTouch, before[1] == Some(true));
                self.add(EmptyLeft, left.is_empty());
                self.add(DeepForks, forks >= DEEP);
                self.add(ForkInLeft, has_fork(left));
                self.add(ForkInRight, has_fork(right));
                self.mark(left, forks + 1);
                self.mark(right, forks + 1);
            }
            before = [before[1], Some(fork)];
        }
    }
}

/// A graph without a fork has one stretch at most.
fn has_fork(words: &[u32]) -> bool {
    words.len() > 2
}
