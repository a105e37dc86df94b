//! Calls with a buffer lent for the cost graph (02, P1), beside the second implementation; demand 3 over such calls; and how often each case
//! was met.
use crate::agreement::{claimed, same};
use crate::depths::DEPTH;
use crate::graphs::{have_costs, Trait, Trait::*, Traits, TRAITS};
use crate::jobs::{Dice, Input};
use crate::proved::{proved_graph, Workspace, BEHIND, FEWEST};
use crate::second::{Answer, LentWords, Machine, Ran, Words, ALL, LENT_WORDS, WORDS};
use std::collections::BTreeMap;

/// How many words are lent: none; fewer than the graph needs; one fewer; just these; one more; many more.
#[derive(Clone, Copy, PartialEq, Eq, Debug)]
enum Room {
    Empty,
    Fewer,
    OneTooFew,
    Exact,
    OneMore,
    Many,
}
use Room::*;

const ROOMS: [Room; 6] = [Empty, Fewer, OneTooFew, Exact, OneMore, Many];

impl Room {
    /// In words. A run without a value has no graph; the buffers are those for the shortest, of one stretch.
    fn words(self, dice: &mut Dice, ran: &Ran) -> usize {
        let needed = ran.graph.len().max(2);
        match self {
            Empty => 0,
            Fewer => dice.below(needed as u64) as usize,
            OneTooFew => needed - 1,
            Exact => needed,
            OneMore => needed + 1,
            Many => {
                let most = dice.pick(&[10, 100, 3_000]);
                needed + 2 + dice.below(most) as usize
            }
        }
    }

    /// Which of them so many words are.
    fn of(words: usize, ran: &Ran) -> Room {
        let needed = ran.graph.len().max(2);
        match words {
            0 => Empty,
            n if n + 1 < needed => Fewer,
            n if n + 1 == needed => OneTooFew,
            n if n == needed => Exact,
            n if n == needed + 1 => OneMore,
            _ => Many,
        }
    }
}

/// A value, a stop from 20 on, a refusal.
const ENDINGS: [&str; 8] = ["value", "stop 20", "stop 21", "stop 22", "stop 23", "stop 24", "stop 25", "refusal"];

fn ending(a: &[u64]) -> usize {
    match a[0] {
        0 => 0,
        1 => a[1] as usize - 19,
        _ => 7,
    }
}

/// The number of a run's stop, counted from 20, where so many words are fewer than what it had made until then needs. A fork that was
/// joined has five or more.
fn overrun(ran: &Ran, room: usize) -> Option<usize> {
    let Answer::Stopped { number, transitions, .. } = ran.answer else { return None };
    let made = if ran.joined > 0 { 5 } else if transitions > 0 { 2 } else { 0 };
    (room < made).then_some(number as usize - 20)
}

/// Which of the others are a 25 where the sequential answer is a value, and how many there are to be in a round of 20,000 jobs.
const DEMANDS: [(&str, u64); 4] =
    [("neither other 25", 500), ("the parallel run alone 25", 350), ("the heartbeat run alone 25", 250), ("both others 25", 350)];

/// Calls with a buffer for the graph, and what they were like.
#[derive(Default)]
pub struct Buffers {
    workspace: Workspace,
    /// By machine, ending and room.
    calls: [[[u64; ROOMS.len()]; ENDINGS.len()]; 3],
    /// By machine and number: stops where the buffer was too small for what was made until then.
    overruns: [[u64; 5]; 3],
    /// By machine: graphs with each trait.
    traits: [[u64; TRAITS.len()]; 3],
    /// How often so many answer words were lent.
    answers: BTreeMap<usize, u64>,
    /// Three calls by `DEMANDS`; of those with a stop that has to agree; with a sequential 25 beside a value.
    demands: [u64; DEMANDS.len()],
    agreeing: u64,
    beside_25: u64,
    unserved: u64,
}

fn is_25(a: &[u64]) -> bool {
    a[..2] == [1, 25]
}

fn without_length(a: LentWords) -> Words {
    a[..WORDS].try_into().unwrap()
}

impl Buffers {
    /// A call, with so many words for the graph and for the answer, all of them garbage, and others behind them that stay. What differs
    /// goes to `all`. The answer's words; but for a 25 the first nine are those that `mondupil_run` is held to.
    fn call(&mut self, dice: &mut Dice, i: usize, j: &Input, ran: &Ran, [room, lent]: [usize; 2], all: &mut Vec<String>) -> Vec<u64> {
        let garbage = dice.next();
        let found: Vec<u32> = (0..room + BEHIND).map(|k| (garbage.wrapping_mul(2 * k as u64 + 1) >> 32) as u32 | 1).collect();
        let before: Vec<u64> = (0..lent + BEHIND).map(|_| dice.next()).collect();
        let (mut graph, mut answer) = (found.clone(), before.clone());
        let r = proved_graph(i as u32, j, self.workspace.fill(dice, j.workspace), &mut graph[..room], &mut answer[..lent]);
        let (wanted, mut left, written) = (ran.lent_words(room), ran.leaves(&found[..room]), lent.min(LENT_WORDS));
        if r != 0 || answer[..written] != wanted[..written] || answer[written..] != before[written..] {
            all.push(format!("{:?}, {room} words lent for the graph, {lent} for the answer: proved {r} {answer:?}, second {wanted:?}", ALL[i]));
        }
        left.extend(&found[room..]);
        if let Some(k) = (0..graph.len()).find(|k| graph[*k] != left[*k]) {
            let shown = |words: &[u32]| format!("{:?}", &words[k..words.len().min(k + 20)]);
            all.push(format!("{:?}, {room} words lent: the buffer from {k} on, proved {}, second {}", ALL[i], shown(&graph), shown(&left)));
        }
        if !self.workspace.left(wanted[0]) {
            all.push(format!("{:?}, {room} words lent for the graph: the workspace", ALL[i]));
        }
        let told = answer[..lent].first_chunk().filter(|told| told[0] == 0);
        if told.is_some_and(|told| !have_costs(&graph[..room], *told, j.tau)) {
            all.push(format!("{:?}, {room} words lent: the words have not the costs of {answer:?}", ALL[i]));
        }
        self.note(i, ran, room, lent, &wanted);
        answer
    }

    fn note(&mut self, i: usize, ran: &Ran, room: usize, lent: usize, wanted: &LentWords) {
        self.calls[i][ending(wanted)][Room::of(room, ran) as usize] += 1;
        *self.answers.entry(lent).or_default() += 1;
        if let Some(stop) = overrun(ran, room) {
            self.overruns[i][stop] += 1;
        }
    }

    /// Answer words to lend: mostly all ten or more, sometimes without the graph's length, or without the depth too.
    fn answer_room(dice: &mut Dice) -> usize {
        let more = LENT_WORDS + 2 + dice.below(20) as usize;
        dice.pick(&[LENT_WORDS, LENT_WORDS, LENT_WORDS + 1, more, WORDS, FEWEST])
    }

    /// Calls with these rooms: what differs.
    fn with_rooms(&mut self, dice: &mut Dice, i: usize, j: &Input, ran: &Ran, rooms: &[Room]) -> Vec<String> {
        let mut all = Vec::new();
        for room in rooms {
            let words = [room.words(dice, ran), Self::answer_room(dice)];
            self.call(dice, i, j, ran, words, &mut all);
        }
        all
    }

    /// One call, with any room.
    pub fn any_room(&mut self, dice: &mut Dice, i: usize, j: &Input, ran: &Ran) -> Vec<String> {
        self.traits(i, ran);
        let room = dice.pick(&ROOMS);
        self.with_rooms(dice, i, j, ran, &[room])
    }

    /// A call with each room.
    pub fn each_room(&mut self, dice: &mut Dice, i: usize, j: &Input, ran: &Ran) -> Vec<String> {
        self.with_rooms(dice, i, j, ran, &ROOMS)
    }

    fn traits(&mut self, i: usize, ran: &Ran) {
        let traits = Traits::of(&ran.graph);
        for (k, (t, ..)) in TRAITS.iter().enumerate() {
            self.traits[i][k] += traits.has(*t) as u64;
        }
    }

    /// Calls of the three machines, each with a room of its own or all with the same: what differs, and what of demand 3 does not hold.
    pub fn three(&mut self, dice: &mut Dice, j: &Input, rans: &[Ran; 3]) -> Vec<String> {
        let own = rans.each_ref().map(|ran| dice.pick(&ROOMS).words(dice, ran));
        let rooms = if dice.one_in(4) { [dice.pick(&own); 3] } else { own };
        let mut all = Vec::new();
        let told = [0, 1, 2].map(|i| {
            self.traits(i, &rans[i]);
            let answer = self.call(dice, i, j, &rans[i], [rooms[i], LENT_WORDS], &mut all);
            answer[..LENT_WORDS].try_into().unwrap()
        });
        if !self.demand_three(j, told) {
            all.push(format!("demand 3 with buffers of {rooms:?} words: {told:?}"));
        }
        if !self.stops_agree(told.map(without_length)) {
            all.push(format!("stops that agree, with buffers of {rooms:?} words: {told:?}"));
        }
        all
    }

    /// Demand 3 of three answers with buffers lent: where the sequential one is a value, what it says of each run that is not a 25, and the
    /// span bound where neither is. The depth is the run's, also of a 25.
    fn demand_three(&mut self, j: &Input, [s, p, h]: [LentWords; 3]) -> bool {
        self.beside_25 += (is_25(&s) && (p[0] == 0 || h[0] == 0)) as u64;
        if s[0] != 0 {
            return true;
        }
        let (n, tau) = (j.period as u128, j.tau as u128);
        let w = |a: LentWords, i: usize| a[i] as u128;
        let depths = p[DEPTH] == s[DEPTH] && h[DEPTH] == s[DEPTH];
        let parallel = || p[0] == 0 && p[1] == s[1];
        let heartbeat = || {
            h[0] == 0 && h[1] == s[1] && n * w(h, 6) <= (n + tau) * w(s, 6) && w(h, 6) + 2 * w(h, 5) == w(s, 6) + tau * w(h, 5)
        };
        let spans = || tau * w(h, 7) <= (n + tau) * w(p, 7);
        let (case, held) = match (is_25(&p), is_25(&h)) {
            (false, false) => (0, parallel() && heartbeat() && spans()),
            (true, false) => (1, heartbeat()),
            (false, true) => (2, parallel()),
            (true, true) => (3, true),
        };
        self.demands[case] += 1;
        depths && held
    }

    /// A sequential stop 21 to 24 is that of all three, whatever the buffers: none of them is hidden by a 25.
    fn stops_agree(&mut self, [s, p, h]: [Words; 3]) -> bool {
        self.agreeing += claimed(s) as u64;
        !claimed(s) || same(s, p) && same(s, h)
    }

    /// A call that is not served, with an unknown machine or too few answer words, changes nothing.
    pub fn unserved(&mut self, dice: &mut Dice, m: u32, j: &Input, lent: usize) -> Option<String> {
        let room = dice.below(40) as usize;
        let found: Vec<u32> = (0..room + BEHIND).map(|_| dice.next() as u32).collect();
        let before: Vec<u64> = (0..lent + BEHIND).map(|_| dice.next()).collect();
        let (mut graph, mut answer) = (found.clone(), before.clone());
        let r = proved_graph(m, j, self.workspace.fill(dice, j.workspace), &mut graph[..room], &mut answer[..lent]);
        self.unserved += 1;
        let kept = graph == found && answer == before && self.workspace.as_found();
        (r != 1 || !kept).then(|| format!("machine {m}, {room} words lent for the graph, {lent} for the answer: {r}"))
    }
}

// ------------------------------------------------------------ what was met

/// How many calls of a machine with this ending and room there are to be in a round of 20,000 jobs; 0 where there can be none. A graph has
/// two words or more, and a run without a value has rooms as for two: then one word is one too few, and none is not told as fewer.
fn least(m: Machine, ending: usize, room: Room) -> u64 {
    let fits = matches!(room, Exact | OneMore | Many);
    let fewer = room == Fewer && (ENDINGS[ending] != "stop 25" || m == Machine::Sequential);
    match ENDINGS[ending] {
        "value" if !fits => 0,
        "stop 25" if fits => 0,
        _ if fewer => 0,
        "value" | "stop 25" => 1_500,
        "stop 20" | "refusal" => 1_200,
        "stop 21" => 500,
        "stop 22" => 60,
        _ => 12,
    }
}

/// Of stops 20 to 24, how many of each machine there are to be in such a round where the buffer was too small for what was made.
const OVERRUNS: [u64; 5] = [2_000, 600, 100, 30, 30];

/// What is wanted, how often it was met, and the least.
type Want = (String, usize, u64);

impl Buffers {
    fn calls_wanted(&self) -> Vec<Want> {
        let mut all = Vec::new();
        for (i, m) in ALL.iter().enumerate() {
            for (k, ending) in ENDINGS.iter().enumerate() {
                let want = |room| (format!("{m:?} {ending}, buffer {room:?}"), self.calls[i][k][room as usize] as usize, least(*m, k, room));
                all.extend(ROOMS.map(want));
            }
            for (k, least) in OVERRUNS.into_iter().enumerate() {
                let what = format!("{m:?} {} after more than the buffer holds", ENDINGS[k + 1]);
                all.push((what, self.overruns[i][k] as usize, least));
            }
        }
        all
    }

    fn traits_wanted(&self) -> Vec<Want> {
        let of = |i: usize| {
            let want = move |(k, (_, what, least)): (usize, &(Trait, &str, [u64; 2]))| {
                (format!("{:?} graphs with {what}", ALL[i]), self.traits[i][k] as usize, least[i - 1])
            };
            TRAITS.iter().enumerate().map(want)
        };
        [1, 2].into_iter().flat_map(of).collect()
    }

    fn answers_wanted(&self) -> Vec<Want> {
        let lent = |what: &str, some: &dyn Fn(usize) -> bool| {
            let have: u64 = self.answers.iter().filter(|(lent, _)| some(**lent)).map(|(_, n)| n).sum();
            (format!("calls with a buffer and {what} answer words lent"), have as usize, 2_500)
        };
        vec![
            lent("8", &|n| n == FEWEST),
            lent("9", &|n| n == WORDS),
            lent("10", &|n| n == LENT_WORDS),
            lent("11", &|n| n == LENT_WORDS + 1),
            lent("more", &|n| n > LENT_WORDS + 1),
        ]
    }

    /// What is asked for in a round of 20,000 jobs.
    pub fn wanted(&self) -> Vec<Want> {
        let demands = DEMANDS.iter().zip(self.demands).map(|((what, least), have)| (format!("demand 3 with buffers, {what}"), have as usize, *least));
        let others = [
            ("calls with buffers and a sequential stop 21 to 24", self.agreeing, 900),
            ("calls with buffers and a sequential 25 beside a value", self.beside_25, 800),
            ("calls with a buffer that are not served", self.unserved, 900),
        ];
        let others = others.map(|(what, have, least)| (what.to_string(), have as usize, least));
        [self.calls_wanted(), self.traits_wanted(), self.answers_wanted(), demands.collect(), others.into()].concat()
    }

    /// Of what the small jobs of forms are to come to, what they did not. They have no refusal, and few forks.
    pub fn unmet_by_small(&self) -> Vec<String> {
        let traits = [StretchBeforeFork, StretchAfterFork, ForkInLeft, EmptyLeft].map(|t| TRAITS[t as usize].1);
        let few = self.traits_wanted().into_iter().filter(|(what, ..)| traits.iter().any(|t| what.ends_with(t)));
        let calls = self.calls_wanted().into_iter().filter(|(what, ..)| !what.contains("refusal"));
        calls.chain(few).chain(self.answers_wanted()).filter(|(_, have, least)| *have == 0 && *least > 0).map(|(what, ..)| what).collect()
    }

    pub fn count(&self) -> u64 {
        self.answers.values().sum()
    }

    pub fn told(&self) {
        let traits = self.traits_wanted();
        println!("  with a buffer for the graph, by how many words it had, {ROOMS:?}:");
        for (i, m) in ALL.iter().enumerate() {
            let by_ending: Vec<_> = ENDINGS.iter().zip(self.calls[i]).collect();
            println!("    {m:?}: {by_ending:?}; stops 20 to 24 after more than it holds {:?}", self.overruns[i]);
        }
        println!("    {:?}", traits.iter().map(|(what, have, _)| (what, have)).collect::<Vec<_>>());
        let demands: Vec<_> = DEMANDS.iter().map(|d| d.0).zip(self.demands).collect();
        println!("    a sequential value: {demands:?}; a sequential stop 21 to 24: {}; a sequential 25 beside a value: {}", self.agreeing, self.beside_25);
        println!("    by the answer words lent: {:?}; not served: {}", self.answers, self.unserved);
    }
}
