//! Tables with one or two faults at one node, of each kind of node (02, P4). The number that is wanted is found from the order in which
//! the walk comes to the faults, and not by the second implementation, which is held to it as the proved reader is.
use crate::jobs::{assemble, Dice, Input};
use std::collections::{BTreeMap, BTreeSet};

#[derive(Debug, Clone, Copy, PartialEq, Eq, PartialOrd, Ord)]
pub enum Kind {
    Constant,
    Local,
    Arithmetic,
    Choose,
    Let,
    /// With so many arguments.
    Call(usize),
    Both,
    /// A tag above 6.
    NoTag,
}
use Kind::*;

pub const KINDS: [Kind; 11] = [Constant, Local, Arithmetic, Choose, Let, Call(0), Call(1), Call(2), Call(3), Both, NoTag];

/// In the order in which the walk comes to them. A child is counted from 0; the position of child 1 is b and of child 2 c.
#[derive(Debug, Clone, Copy, PartialEq, Eq, PartialOrd, Ord)]
pub enum Fault {
    /// Tag, operation or function.
    Unknown,
    Unused,
    /// A slot that is not bound, or a local too many.
    Locals,
    Level,
    /// The position of a child is compared, and then the child is walked.
    Child(usize, At),
    RunsOn,
}

#[derive(Debug, Clone, Copy, PartialEq, Eq, PartialOrd, Ord)]
pub enum At {
    /// It is wrong.
    Position,
    /// The body has ended.
    Missing,
}
use At::*;
use Fault::*;

impl Fault {
    pub fn number(self) -> u64 {
        match self {
            Unknown => 4,
            Unused => 16,
            Locals => 5,
            Level => 6,
            Child(_, Position) => 17,
            Child(_, Missing) | RunsOn => 18,
        }
    }
}

impl Kind {
    fn children(self) -> usize {
        match self {
            Constant | Local | NoTag => 0,
            Call(arity) => arity,
            Arithmetic | Let => 2,
            Choose | Both => 3,
        }
    }

    /// The words among a, b and c that are not used, by their places in a node.
    fn unused(self) -> &'static [usize] {
        match self {
            Constant | Arithmetic | Call(2) => &[3],
            Local | Call(0) | Call(1) => &[2, 3],
            Choose | Both => &[1],
            Let => &[1, 3],
            Call(_) | NoTag => &[],
        }
    }

    /// The faults that a node of this kind can have.
    fn faults(self) -> Vec<Fault> {
        let mut all = vec![Level];
        if matches!(self, Arithmetic | Call(_) | NoTag) {
            all.push(Unknown);
        }
        if !self.unused().is_empty() {
            all.push(Unused);
        }
        if matches!(self, Local | Let | Both) {
            all.push(Locals);
        }
        if self == NoTag {
            return all;
        }
        for child in 0..self.children() {
            all.push(Child(child, Missing));
            if child > 0 {
                all.push(Child(child, Position));
            }
        }
        all.push(RunsOn);
        all
    }
}

/// Which faults can stand together: a body has one end, and where a child is missing nothing runs on.
fn together(x: Fault, y: Fault) -> bool {
    !matches!(
        (x.min(y), x.max(y)),
        (Child(_, Missing), Child(_, Missing)) | (Child(_, Missing), RunsOn)
    )
}

/// Words that stand where a body has ended: the first node of the next one, with a fault of its own.
const BEYOND: [(&str, [u32; 4]); 4] =
    [("unknown", [9, 1, 1, 1]), ("unused", [0, 1, 0, 1]), ("locals", [1, 5, 0, 0]), ("good", [0, 1, 0, 0])];

pub struct Case {
    pub input: Input,
    /// The number, the function and the node to be told.
    pub wanted: [u64; 3],
    /// Where a missing child is told: what stands there, and whether the child would be at level 65.
    pub beyond: Option<(&'static str, bool)>,
}

/// A chain of nodes that many levels above one node, which `node` writes, and so many locals bound there. The last of the chain has the
/// node as its first child, if it is no let: no other node comes to level 65 before it.
fn chain(dice: &mut Dice, body: &mut Vec<[u32; 4]>, above: usize, lets: usize, node: &mut dyn FnMut(&mut Dice, &mut Vec<[u32; 4]>)) {
    let at = body.len();
    if above == 0 {
        return node(dice, body);
    }
    let binds = lets > 0 && (lets + 1 >= above || dice.one_in(2));
    body.push([if binds { 4 } else { 2 }, 0, at as u32 + 2, 0]);
    if binds || above > 1 && dice.one_in(2) {
        body.push([0, 1, 0, 0]);
        return chain(dice, body, above - 1, lets - binds as usize, node);
    }
    chain(dice, body, above - 1, lets, node);
    body[at][2] = body.len() as u32;
    body.push([0, 1, 0, 0]);
}

/// A number that is not 0, mostly small.
fn word(dice: &mut Dice) -> u32 {
    dice.pick(&[1, 2, 3, 7, 1 << 31, u32::MAX])
}

/// The functions of a case: one with the fault, four of the arities 0 to 3, and a last one; the fault is in the first or the last.
const FUNCTIONS: usize = 6;

/// The node and its children, with these faults in its words.
fn faulty(dice: &mut Dice, body: &mut Vec<[u32; 4]>, kind: Kind, faults: &[Fault], bound: usize) {
    let at = body.len();
    let mut words = match kind {
        Constant => [0, dice.below(9) as u32, dice.below(2) as u32, 0],
        Local => [1, dice.below(bound.max(1) as u64) as u32, 0, 0],
        Arithmetic => [2, dice.below(7) as u32, 0, 0],
        Choose => [3, 0, 0, 0],
        Let => [4, 0, 0, 0],
        Call(arity) => [5, 1 + arity as u32, 0, 0],
        Both => [6, 0, 0, 0],
        NoTag => [dice.pick(&[7, 8, 1 << 31, u32::MAX]), dice.below(3) as u32, dice.below(3) as u32, dice.below(3) as u32],
    };
    body.push(words);
    for child in 0..kind.children() {
        if child > 0 {
            words[child + 1] = body.len() as u32;
        }
        body.push([0, 1, 0, 0]);
    }
    for fault in faults {
        match fault {
            Unknown if kind == Arithmetic => words[1] = 6 + word(dice).min(1 << 30),
            Unknown if kind != NoTag => words[1] = dice.pick(&[FUNCTIONS as u32, 64, u32::MAX]),
            Unused => words[dice.pick(kind.unused())] = word(dice),
            Locals if kind == Local => words[1] = (bound as u32).saturating_add(word(dice) - 1),
            Child(child, Position) => words[child + 1] = dice.pick(&[0, words[child + 1] - 1, words[child + 1] + 1, u32::MAX]),
            _ => {}
        }
    }
    body[at] = words;
}

/// Where a node with these faults stands: the locals that are bound, how many of them are arguments, and the levels above it.
fn place(dice: &mut Dice, kind: Kind, faults: &[Fault]) -> (usize, usize, usize) {
    let has = |fault| faults.contains(&fault);
    let bound = match kind {
        Let if has(Locals) => 16,
        Both if has(Locals) => 15 + dice.below(2) as usize,
        Local if !has(Locals) => 1 + dice.below(4) as usize,
        _ => dice.below(4) as usize,
    };
    let arity = bound.min(dice.below(4) as usize);
    let above = if has(Level) {
        64
    } else if has(Child(0, Missing)) && dice.one_in(2) {
        63
    } else {
        bound - arity + dice.below(12) as usize
    };
    (bound, arity, above)
}

/// A table with these faults at a node of this kind; they can stand together.
pub fn case(dice: &mut Dice, kind: Kind, faults: &[Fault], mut input: Input) -> Case {
    let (bound, arity, above) = place(dice, kind, faults);
    let mut body = Vec::new();
    let mut at = 0;
    chain(dice, &mut body, above, bound - arity, &mut |dice, body| {
        at = body.len();
        faulty(dice, body, kind, faults, bound);
    });
    let missing = faults.iter().find_map(|f| if let Child(child, Missing) = f { Some(*child) } else { None });
    if let Some(child) = missing {
        body.truncate(at + 1 + child);
    }
    let end = body.len();
    if faults.contains(&RunsOn) {
        body.push(dice.pick(&BEYOND).1);
    }
    let f = if dice.one_in(2) { 0 } else { FUNCTIONS - 1 };
    let (mut what, next) = dice.pick(&BEYOND);
    let mut arities = vec![0, 0, 1, 2, 3, 0];
    let mut bodies = vec![vec![[0, 1, 0, 0]]; FUNCTIONS];
    if missing.is_some() && f == 0 {
        bodies[1] = vec![next];
    } else {
        what = "nothing";
    }
    (arities[f], bodies[f]) = (arity, body);
    input.table = assemble(&arities, &bodies);
    let first = *faults.iter().min().unwrap();
    let node = if first.number() == 18 { end } else { at };
    let beyond = matches!(first, Child(_, Missing)).then_some((what, above == 63));
    Case { input, wanted: [first.number(), f as u64, node as u64], beyond }
}

/// Every fault of every kind of node, alone and with every other that can stand beside it.
pub fn all() -> Vec<(Kind, Vec<Fault>)> {
    let mut all = Vec::new();
    for kind in KINDS {
        // a tag above 6 is a fault itself
        let always: Vec<Fault> = if kind == NoTag { vec![Unknown] } else { vec![] };
        let faults: Vec<Fault> = kind.faults().into_iter().filter(|f| !always.contains(f)).collect();
        for (i, &x) in faults.iter().enumerate() {
            all.push((kind, [always.clone(), vec![x]].concat()));
            for &y in faults[i + 1..].iter().filter(|&&y| together(x, y)) {
                all.push((kind, [always.clone(), vec![x, y]].concat()));
            }
        }
        if !always.is_empty() {
            all.push((kind, always));
        }
    }
    all
}

/// What was told at each kind of node, and by which pairs of numbers at one node.
#[derive(Default)]
pub struct Met {
    numbers: BTreeMap<Kind, BTreeSet<u64>>,
    pairs: BTreeSet<(u64, u64)>,
    beyond: BTreeSet<(&'static str, bool)>,
}

impl Met {
    pub fn note(&mut self, kind: Kind, faults: &[Fault], case: &Case) {
        self.numbers.entry(kind).or_default().insert(case.wanted[0]);
        if let [x, y] = faults {
            self.pairs.insert((x.min(y).number(), x.max(y).number()));
        }
        self.beyond.extend(case.beyond);
    }

    /// How much is missing of what is to be met: by 01's table of tags each number at each kind of node that can have it, and each pair
    /// of P4's order. A slot and an unknown word are at no kind of node together, and two ends are in no body.
    pub fn too_few(&self) -> u64 {
        let told: [(Kind, &[u64]); 11] = [
            (Constant, &[6, 16, 18]),
            (Local, &[5, 6, 16, 18]),
            (Arithmetic, &[4, 6, 16, 17, 18]),
            (Choose, &[6, 16, 17, 18]),
            (Let, &[5, 6, 16, 17, 18]),
            (Call(0), &[4, 6, 16, 18]),
            (Call(1), &[4, 6, 16, 18]),
            (Call(2), &[4, 6, 16, 17, 18]),
            (Call(3), &[4, 6, 17, 18]),
            (Both, &[5, 6, 16, 17, 18]),
            (NoTag, &[4]),
        ];
        let pairs = [
            (4, 16), (4, 6), (16, 5), (16, 6), (5, 6), // a node's own words and its level
            (4, 17), (16, 17), (5, 17), (6, 17), // and then a position
            (4, 18), (16, 18), (5, 18), (6, 18), // or an end
            (17, 17), (17, 18), (18, 17),
        ];
        let beyond = ["unknown", "unused", "locals", "good", "nothing"].map(|what| [(what, false), (what, true)]).concat();
        let mut few = 0;
        let mut want = |what: String, met: bool| {
            if !met {
                println!("  NOT MET {what}");
                few += 1;
            }
        };
        for (kind, numbers) in told {
            let met: Vec<u64> = self.numbers.get(&kind).into_iter().flatten().copied().collect();
            want(format!("refusals {numbers:?} at {kind:?}, but {met:?}"), met == numbers);
        }
        for pair in pairs {
            want(format!("refusal {} before {} at one node", pair.0, pair.1), self.pairs.contains(&pair));
        }
        for at in beyond {
            want(format!("an end before {} (at level 65: {})", at.0, at.1), self.beyond.contains(&at));
        }
        few
    }
}
