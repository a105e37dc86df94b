//! A second implementation of document 01 with document 02's P1, P4 and P7, written from the documents alone.
//! Sequential: a recursive evaluator. Parallel and heartbeat: big-step
//! judgments, one Rust call for each machine, an explicit stack in each,
//! and a real cost graph that is priced at the end.

use std::rc::Rc;

pub const ARITY_LIMIT: u32 = 3;

// ------------------------------------------------------------------ trees

#[derive(Debug)]
pub struct Node {
    pub function: usize,
    pub at: usize,
    pub kind: Kind,
}

#[derive(Debug)]
pub enum Kind {
    Constant(u64),
    Local(usize),
    Arithmetic(u32, Box<Node>, Box<Node>),
    Choose(Box<Node>, Box<Node>, Box<Node>),
    Let(Box<Node>, Box<Node>),
    Call(usize, Vec<Node>),
    Both(Box<Node>, Box<Node>, Box<Node>),
}

#[derive(Debug)]
pub struct Job {
    pub arities: Vec<usize>,
    pub bodies: Vec<Node>,
}

#[derive(Debug, Clone, Copy, PartialEq, Eq)]
pub struct Refusal {
    pub number: u64,
    pub function: usize,
    pub node: usize,
}

fn refuse<T>(number: u64, function: usize, node: usize) -> Result<T, Refusal> {
    Err(Refusal { number, function, node })
}

// ----------------------------------------------------------- table reader

struct Walk<'a> {
    function: usize,
    arities: &'a [usize],
    body: &'a [u32], // four words a node
}

impl<'a> Walk<'a> {
    fn nodes(&self) -> usize {
        self.body.len() / 4
    }

    /// What the node's own words are refused by: 4, then 16, then 5, then 6.
    fn own(&self, [tag, a, b, c]: [u32; 4], bound: usize, level: usize) -> Option<u64> {
        let four = match tag {
            2 => a > 6,
            5 => a as usize >= self.arities.len(),
            _ => tag > 6,
        };
        let sixteen = match tag {
            0 => c != 0,
            1 => b != 0 || c != 0,
            2 => c != 0,
            3 => a != 0,
            4 => a != 0 || c != 0,
            5 => match self.arities.get(a as usize) {
                Some(0) | Some(1) => b != 0 || c != 0,
                Some(2) => c != 0,
                _ => false,
            },
            6 => a != 0,
            _ => false,
        };
        let five = match tag {
            1 => a as usize >= bound,
            4 => bound + 1 > 16,
            6 => bound + 2 > 16,
            _ => false,
        };
        if four {
            return Some(4);
        }
        if sixteen {
            return Some(16);
        }
        if five {
            return Some(5);
        }
        (level > 64).then_some(6)
    }

    /// How many locals each child has.
    fn scopes(&self, tag: u32, a: u32, bound: usize) -> Vec<usize> {
        match tag {
            0 | 1 => vec![],
            2 => vec![bound, bound],
            3 => vec![bound, bound, bound],
            4 => vec![bound, bound + 1],
            5 => vec![bound; self.arities[a as usize]],
            _ => vec![bound, bound, bound + 2],
        }
    }

    /// The tree at `at` and the position after it.
    fn subtree(&self, at: usize, bound: usize, level: usize) -> Result<(Node, usize), Refusal> {
        let f = self.function;
        if at >= self.nodes() {
            return refuse(18, f, self.nodes());
        }
        let w: [u32; 4] = self.body[4 * at..4 * at + 4].try_into().unwrap();
        let [tag, a, b, c] = w;
        if let Some(number) = self.own(w, bound, level) {
            return refuse(number, f, at);
        }
        let mut children = Vec::new();
        let mut next = at + 1;
        for (i, scope) in self.scopes(tag, a, bound).iter().enumerate() {
            if i == 1 && b as usize != next || i == 2 && c as usize != next {
                return refuse(17, f, at);
            }
            let (child, after) = self.subtree(next, *scope, level + 1)?;
            children.push(child);
            next = after;
        }
        Ok((Node { function: f, at, kind: kind(tag, a, b, children) }, next))
    }
}

fn kind(tag: u32, a: u32, b: u32, children: Vec<Node>) -> Kind {
    let mut it = children.into_iter();
    let mut one = || Box::new(it.next().unwrap());
    match tag {
        0 => Kind::Constant(a as u64 + b as u64 * 4_294_967_296),
        1 => Kind::Local(a as usize),
        2 => Kind::Arithmetic(a, one(), one()),
        3 => Kind::Choose(one(), one(), one()),
        4 => Kind::Let(one(), one()),
        5 => Kind::Call(a as usize, it.collect()),
        _ => Kind::Both(one(), one(), one()),
    }
}

pub fn read(table: &[u32]) -> Result<Job, Refusal> {
    let Some(&first) = table.first() else { return refuse(1, 0, 0) };
    if !(1..=64).contains(&first) {
        return refuse(1, 0, 0);
    }
    let functions = first as usize;
    if table.len() < 1 + 2 * functions {
        return refuse(1, 0, 0);
    }
    let entries: Vec<(u32, u32)> = table[1..1 + 2 * functions].chunks(2).map(|p| (p[0], p[1])).collect();
    let mut sum: u64 = 0;
    for (f, &(arity, count)) in entries.iter().enumerate() {
        sum += count as u64;
        if arity > ARITY_LIMIT || count == 0 || sum > 4_000 {
            return refuse(2, f, 0);
        }
    }
    if table.len() as u64 != 1 + 2 * functions as u64 + 4 * sum {
        return refuse(3, 0, 0);
    }
    let arities: Vec<usize> = entries.iter().map(|e| e.0 as usize).collect();
    let mut rest = &table[1 + 2 * functions..];
    let mut bodies = Vec::new();
    for (f, &(arity, count)) in entries.iter().enumerate() {
        let (body, others) = rest.split_at(4 * count as usize);
        rest = others;
        let walk = Walk { function: f, arities: &arities, body };
        let (tree, after) = walk.subtree(0, arity as usize, 1)?;
        if after != count as usize {
            return refuse(18, f, after);
        }
        bodies.push(tree);
    }
    Ok(Job { arities, bodies })
}

// ------------------------------------------------------------ cost graphs

#[derive(Debug)]
pub enum Part {
    Steps(u64),
    Fork(Graph, Graph),
}

/// A sequence of parts.
#[derive(Debug, Default)]
pub struct Graph(pub Vec<Part>);

impl Graph {
    fn step(&mut self) {
        if let Some(Part::Steps(n)) = self.0.last_mut() {
            *n += 1;
        } else {
            self.0.push(Part::Steps(1));
        }
    }
    fn work(&self, tau: u64) -> u64 {
        self.0
            .iter()
            .map(|p| match p {
                Part::Steps(n) => *n,
                Part::Fork(g, h) => tau + g.work(tau) + h.work(tau),
            })
            .sum()
    }
    fn span(&self, tau: u64) -> u64 {
        self.0
            .iter()
            .map(|p| match p {
                Part::Steps(n) => *n,
                Part::Fork(g, h) => tau + g.span(tau).max(h.span(tau)),
            })
            .sum()
    }
    fn steps(&self) -> u64 {
        self.0
            .iter()
            .map(|p| match p {
                Part::Steps(n) => *n,
                Part::Fork(g, h) => g.steps() + h.steps(),
            })
            .sum()
    }
    fn forks(&self) -> u64 {
        self.0
            .iter()
            .map(|p| match p {
                Part::Steps(_) => 0,
                Part::Fork(g, h) => 1 + g.forks() + h.forks(),
            })
            .sum()
    }
    /// Its words: a stretch is 0 and its transitions, a fork 1, the lengths of left and right, and these two; a sequence its parts.
    fn words(&self) -> Vec<u32> {
        let mut words = Vec::new();
        self.write_backwards(&mut words);
        words.reverse();
        words
    }
    /// From the last word to the first, so that a length is known when it is written; how many words.
    fn write_backwards(&self, words: &mut Vec<u32>) -> u32 {
        let before = words.len();
        for part in self.0.iter().rev() {
            match part {
                Part::Steps(n) => words.extend([*n as u32, 0]),
                Part::Fork(g, h) => {
                    let right = h.write_backwards(words);
                    let left = g.write_backwards(words);
                    words.extend([right, left, 1]);
                }
            }
        }
        (words.len() - before) as u32
    }
}

// --------------------------------------------------------------- machines

type Locals = Rc<Vec<u64>>;

fn with(locals: &Locals, more: &[u64]) -> Locals {
    let mut v = (**locals).clone();
    v.extend_from_slice(more);
    Rc::new(v)
}

#[derive(Debug, Clone, Copy, PartialEq, Eq)]
pub struct Stop {
    pub number: u64,
    pub function: usize,
    pub node: usize,
}

/// Of a heartbeat machine: N less its credits, and whether its stack has a fork that could be promoted.
#[derive(Debug, Clone, Copy)]
pub struct Beat {
    pub left: i64,
    pub promotable: bool,
}

/// What a run has left before a transition: fuel and frames, and of these so many as were occupied before; and its beat, in the heartbeat.
#[derive(Debug, Clone, Copy)]
pub struct Room {
    pub fuel: u64,
    pub frames: usize,
    pub reached: usize,
    pub beat: Option<Beat>,
}

/// Is shown each node before it is evaluated, and each arithmetic before its left operand returns to it.
pub trait Watch {
    fn see(&mut self, at: &Node, left: Option<u64>, locals: &[u64], room: Room);
}

/// What all machines of one run share.
struct World<'j> {
    job: &'j Job,
    fuel: u64,
    made: u64,
    frames: usize,
    occupied: usize,
    /// The largest number of frames occupied at once.
    deepest: usize,
    /// The forks that were joined.
    joined: u64,
    period: u64,
    beat: Option<Beat>,
    watch: Option<&'j mut (dyn Watch + 'j)>,
}

fn stop<T>(number: u64, at: &Node) -> Result<T, Stop> {
    Err(Stop { number, function: at.function, node: at.at })
}

pub fn arithmetic(op: u32, x: u64, y: u64, at: &Node) -> Result<u64, Stop> {
    let (wx, wy) = (x as u128, y as u128);
    match op {
        0 | 2 => {
            let z = if op == 0 { wx + wy } else { wx * wy };
            if z > u64::MAX as u128 { stop(22, at) } else { Ok(z as u64) }
        }
        1 => if x < y { stop(23, at) } else { Ok(x - y) },
        3 | 4 if y == 0 => stop(24, at),
        3 => Ok(x / y),
        4 => Ok(x % y),
        5 => Ok((x < y) as u64),
        _ => Ok((x == y) as u64),
    }
}

enum Frame<'j> {
    Left(&'j Node, Locals),
    Right(&'j Node, u64),
    Choose(&'j Node, Locals),
    Let(&'j Node, Locals),
    Call(&'j Node, Locals, Vec<u64>),
    BothLeft(&'j Node, Locals),
    BothRight(&'j Node, Locals, u64),
}

enum State<'j> {
    Evaluate(&'j Node, Locals),
    Return(u64),
}
use State::{Evaluate, Return};

/// The oldest fork of a stack that is not promoted.
fn oldest(stack: &[Frame]) -> Option<usize> {
    stack.iter().position(|f| matches!(f, Frame::BothLeft(..)))
}

impl<'j> World<'j> {
    fn show(&mut self, at: &Node, left: Option<u64>, locals: &Locals) {
        if let Some(watch) = &mut self.watch {
            let (fuel, frames) = (self.fuel.saturating_sub(self.made), self.frames.saturating_sub(self.occupied));
            watch.see(at, left, locals, Room { fuel, frames, reached: self.deepest - self.occupied, beat: self.beat });
        }
    }
    fn need_fuel(&self, at: &Node) -> Result<(), Stop> {
        if self.made >= self.fuel { stop(20, at) } else { Ok(()) }
    }
    fn open(&mut self, at: &Node) -> Result<(), Stop> {
        if self.occupied >= self.frames {
            return stop(21, at);
        }
        self.occupy();
        Ok(())
    }
    fn occupy(&mut self) {
        self.occupied += 1;
        self.deepest = self.deepest.max(self.occupied);
    }

    // -- sequential: plain recursion, with a loop for what stands in tail place
    fn tick(&mut self, at: &Node, g: &mut Graph) -> Result<(), Stop> {
        self.need_fuel(at)?;
        self.made += 1;
        g.step();
        Ok(())
    }
    fn tick_open(&mut self, at: &Node, g: &mut Graph) -> Result<(), Stop> {
        self.need_fuel(at)?;
        self.open(at)?;
        self.made += 1;
        g.step();
        Ok(())
    }
    fn value(&mut self, mut node: &'j Node, mut locals: Locals, g: &mut Graph) -> Result<u64, Stop> {
        loop {
            self.show(node, None, &locals);
            match &node.kind {
                Kind::Constant(v) => {
                    self.tick(node, g)?;
                    return Ok(*v);
                }
                Kind::Local(s) => {
                    self.tick(node, g)?;
                    return Ok(locals[*s]);
                }
                Kind::Arithmetic(op, l, r) => {
                    self.tick_open(node, g)?;
                    let x = self.value(l, locals.clone(), g)?;
                    self.show(node, Some(x), &locals);
                    self.tick(node, g)?;
                    let y = self.value(r, locals, g)?;
                    self.need_fuel(node)?;
                    let z = arithmetic(*op, x, y, node)?;
                    self.tick(node, g)?;
                    self.occupied -= 1;
                    return Ok(z);
                }
                Kind::Choose(q, yes, no) => {
                    self.tick_open(node, g)?;
                    let v = self.value(q, locals.clone(), g)?;
                    self.tick(node, g)?;
                    self.occupied -= 1;
                    node = if v != 0 { yes } else { no };
                }
                Kind::Let(first, second) => {
                    self.tick_open(node, g)?;
                    let v = self.value(first, locals.clone(), g)?;
                    self.tick(node, g)?;
                    self.occupied -= 1;
                    locals = with(&locals, &[v]);
                    node = second;
                }
                Kind::Call(f, arguments) => {
                    let mut values = Vec::new();
                    if arguments.is_empty() {
                        self.tick(node, g)?;
                    } else {
                        self.tick_open(node, g)?;
                        for x in arguments {
                            let v = self.value(x, locals.clone(), g)?;
                            self.tick(node, g)?;
                            values.push(v);
                        }
                        self.occupied -= 1;
                    }
                    locals = Rc::new(values);
                    node = &self.job.bodies[*f];
                }
                Kind::Both(l, r, body) => {
                    self.tick_open(node, g)?;
                    let x = self.value(l, locals.clone(), g)?;
                    self.tick(node, g)?;
                    let y = self.value(r, locals.clone(), g)?;
                    self.tick(node, g)?;
                    self.occupied -= 1;
                    locals = with(&locals, &[x, y]);
                    node = body;
                }
            }
        }
    }

    // -- one counted transition of a machine with an explicit stack
    fn transition(&mut self, state: State<'j>, stack: &mut Vec<Frame<'j>>) -> Result<State<'j>, Stop> {
        let next = match state {
            Evaluate(node, locals) => self.evaluated(node, locals, stack)?,
            Return(v) => self.returned(v, stack)?,
        };
        self.made += 1;
        Ok(next)
    }

    fn evaluated(&mut self, node: &'j Node, locals: Locals, stack: &mut Vec<Frame<'j>>) -> Result<State<'j>, Stop> {
        self.show(node, None, &locals);
        self.need_fuel(node)?;
        Ok(match &node.kind {
            Kind::Constant(v) => Return(*v),
            Kind::Local(s) => Return(locals[*s]),
            Kind::Call(f, xs) if xs.is_empty() => Evaluate(&self.job.bodies[*f], Rc::new(vec![])),
            opens => {
                self.open(node)?;
                let l = locals.clone();
                let (frame, first) = match opens {
                    Kind::Arithmetic(_, x, _) => (Frame::Left(node, l), &**x),
                    Kind::Choose(x, _, _) => (Frame::Choose(node, l), &**x),
                    Kind::Let(x, _) => (Frame::Let(node, l), &**x),
                    Kind::Call(_, xs) => (Frame::Call(node, l, vec![]), &xs[0]),
                    Kind::Both(x, _, _) => (Frame::BothLeft(node, l), &**x),
                    _ => unreachable!(),
                };
                stack.push(frame);
                Evaluate(first, locals)
            }
        })
    }

    fn returned(&mut self, v: u64, stack: &mut Vec<Frame<'j>>) -> Result<State<'j>, Stop> {
        let frame = stack.pop().expect("a frame");
        let at = match &frame {
            Frame::Left(n, _) | Frame::Right(n, _) | Frame::Choose(n, _) | Frame::Let(n, _)
            | Frame::Call(n, _, _) | Frame::BothLeft(n, _) | Frame::BothRight(n, _, _) => *n,
        };
        if let Frame::Left(_, locals) = &frame {
            self.show(at, Some(v), locals);
        }
        self.need_fuel(at)?;
        Ok(match (frame, &at.kind) {
            (Frame::Left(_, locals), Kind::Arithmetic(_, _, r)) => {
                stack.push(Frame::Right(at, v));
                Evaluate(r, locals)
            }
            (Frame::Right(_, x), Kind::Arithmetic(op, _, _)) => {
                let z = arithmetic(*op, x, v, at)?;
                self.occupied -= 1;
                Return(z)
            }
            (Frame::Choose(_, locals), Kind::Choose(_, yes, no)) => {
                self.occupied -= 1;
                Evaluate(if v != 0 { yes } else { no }, locals)
            }
            (Frame::Let(_, locals), Kind::Let(_, second)) => {
                self.occupied -= 1;
                Evaluate(second, with(&locals, &[v]))
            }
            (Frame::Call(_, locals, mut values), Kind::Call(f, xs)) => {
                values.push(v);
                if values.len() < xs.len() {
                    let x = &xs[values.len()];
                    stack.push(Frame::Call(at, locals.clone(), values));
                    Evaluate(x, locals)
                } else {
                    self.occupied -= 1;
                    Evaluate(&self.job.bodies[*f], Rc::new(values))
                }
            }
            (Frame::BothLeft(_, locals), Kind::Both(_, r, _)) => {
                stack.push(Frame::BothRight(at, locals.clone(), v));
                Evaluate(r, locals)
            }
            (Frame::BothRight(_, locals, x), Kind::Both(_, _, body)) => {
                self.occupied -= 1;
                Evaluate(body, with(&locals, &[x, v]))
            }
            _ => unreachable!(),
        })
    }

    // -- the parallel judgment
    fn parallel(&mut self, start: &'j Node, locals: Locals) -> Result<(u64, Graph), Stop> {
        let mut graph = Graph::default();
        let mut stack = Vec::new();
        let mut state = Evaluate(start, locals);
        loop {
            state = match state {
                Return(v) if stack.is_empty() => return Ok((v, graph)),
                Evaluate(Node { kind: Kind::Both(l, r, body), function, at }, locals) => {
                    if self.occupied >= self.frames {
                        return Err(Stop { number: 21, function: *function, node: *at });
                    }
                    self.occupy();
                    let (x, g) = self.parallel(l, locals.clone())?;
                    let (y, h) = self.parallel(r, locals.clone())?;
                    self.occupied -= 1;
                    graph.0.push(Part::Fork(g, h));
                    self.joined += 1;
                    Evaluate(body, with(&locals, &[x, y]))
                }
                other => {
                    let next = self.transition(other, &mut stack)?;
                    graph.step();
                    next
                }
            }
        }
    }

    // -- the heartbeat judgment
    fn heartbeat(&mut self, mut state: State<'j>, mut stack: Vec<Frame<'j>>) -> Result<(u64, Graph), Stop> {
        let mut graph = Graph::default();
        let mut credits = 0u64;
        loop {
            if let (Return(v), true) = (&state, stack.is_empty()) {
                return Ok((*v, graph));
            }
            if credits >= self.period {
                if let Some(i) = oldest(&stack) {
                    let newer = stack.split_off(i + 1);
                    let Some(Frame::BothLeft(fork, locals)) = stack.pop() else { unreachable!() };
                    let Kind::Both(_, right, body) = &fork.kind else { unreachable!() };
                    let (x, g) = self.heartbeat(state, newer)?;
                    let (y, h) = self.heartbeat(Evaluate(right, locals.clone()), Vec::new())?;
                    self.occupied -= 1;
                    graph.0.push(Part::Fork(g, h));
                    self.joined += 1;
                    state = Evaluate(body, with(&locals, &[x, y]));
                    credits = 0;
                    continue;
                }
            }
            if self.watch.is_some() {
                self.beat = Some(Beat { left: self.period as i64 - credits as i64, promotable: oldest(&stack).is_some() });
            }
            state = self.transition(state, &mut stack)?;
            graph.step();
            credits += 1;
        }
    }
}

// ------------------------------------------------------------- whole runs

#[derive(Debug, Clone, Copy, PartialEq, Eq, PartialOrd, Ord, Hash)]
pub enum Machine {
    Sequential,
    Parallel,
    Heartbeat,
}

pub const ALL: [Machine; 3] = [Machine::Sequential, Machine::Parallel, Machine::Heartbeat];

#[derive(Debug, Clone, Copy, PartialEq, Eq)]
pub enum Answer {
    Value { value: u64, transitions: u64, forks: u64, work: u64, span: u64, deepest: u64 },
    Stopped { number: u64, function: usize, node: usize, transitions: u64, deepest: u64 },
    Refused { number: u64, function: usize, node: usize },
}

/// An answer in words: kind, told, function, node, transitions, forks, work, span, deepest.
pub const WORDS: usize = 9;
pub type Words = [u64; WORDS];

impl Answer {
    pub fn words(self) -> Words {
        match self {
            Answer::Value { value, transitions, forks, work, span, deepest } => {
                [0, value, 0, 0, transitions, forks, work, span, deepest]
            }
            Answer::Stopped { number, function, node, transitions, deepest } => {
                [1, number, function as u64, node as u64, transitions, 0, 0, 0, deepest]
            }
            Answer::Refused { number, function, node } => [2, number, function as u64, node as u64, 0, 0, 0, 0, 0],
        }
    }
}

/// A run: its answer; the words of its cost graph, none unless it ended in a value; and the forks that were joined until it ended.
pub struct Ran {
    pub answer: Answer,
    pub graph: Vec<u32>,
    pub joined: u64,
}

/// The words of an answer where a buffer is lent for the graph: as without, and then how many words of the graph were written.
pub const LENT_WORDS: usize = WORDS + 1;
pub type LentWords = [u64; LENT_WORDS];

impl Ran {
    /// The answer where so many words are lent for the graph. That it does not fit is looked at after every other stop.
    fn lent(&self, room: usize) -> Answer {
        match self.answer {
            Answer::Value { transitions, deepest, .. } if self.graph.len() > room => {
                Answer::Stopped { number: 25, function: 0, node: 0, transitions, deepest }
            }
            other => other,
        }
    }

    pub fn lent_words(&self, room: usize) -> LentWords {
        let answer = self.lent(room);
        let written = if let Answer::Value { .. } = answer { self.graph.len() as u64 } else { 0 };
        let mut words = [written; LENT_WORDS];
        words[..WORDS].copy_from_slice(&answer.words());
        words
    }

    /// What is left in a buffer that was found so.
    pub fn leaves(&self, found: &[u32]) -> Vec<u32> {
        let zeros = vec![0; found.len()];
        match self.lent(found.len()) {
            Answer::Value { .. } => [&self.graph, &zeros[self.graph.len()..]].concat(),
            Answer::Stopped { .. } => zeros,
            Answer::Refused { .. } => found.to_vec(),
        }
    }
}

fn check(job: &Job, args: &[u64], fuel: u64, period: u64, tau: u64, workspace: usize) -> Result<(), Refusal> {
    if args.len() != job.arities[0] {
        return refuse(7, 0, 0);
    }
    if !(1..=100_000_000).contains(&fuel) {
        return refuse(8, 0, 0);
    }
    if !(1..=10_000).contains(&period) {
        return refuse(9, 0, 0);
    }
    if !(1..=10_000).contains(&tau) {
        return refuse(10, 0, 0);
    }
    if workspace % 32 != 0 || !(1..=4_096).contains(&(workspace / 32)) {
        return refuse(11, 0, 0);
    }
    Ok(())
}

/// What a run of an accepted job is given.
#[derive(Debug, Clone, Copy)]
pub struct Limits {
    pub fuel: u64,
    pub period: u64,
    pub tau: u64,
    pub frames: usize,
}

pub fn run(m: Machine, table: &[u32], args: &[u64], fuel: u64, period: u64, tau: u64, workspace: usize) -> Ran {
    let accepted = read(table).and_then(|job| check(&job, args, fuel, period, tau, workspace).map(|()| job));
    match accepted {
        Ok(job) => run_accepted(m, &job, args, Limits { fuel, period, tau, frames: workspace / 32 }, None),
        Err(r) => refused(r),
    }
}

fn refused(r: Refusal) -> Ran {
    Ran { answer: Answer::Refused { number: r.number, function: r.function, node: r.node }, graph: vec![], joined: 0 }
}

pub fn run_accepted<'j>(m: Machine, job: &'j Job, args: &[u64], limits: Limits, watch: Option<&'j mut (dyn Watch + 'j)>) -> Ran {
    let Limits { fuel, period, tau, frames } = limits;
    let mut world = World { job, fuel, made: 0, frames, occupied: 0, deepest: 0, joined: 0, period, beat: None, watch };
    let entry = &job.bodies[0];
    let locals: Locals = Rc::new(args.to_vec());
    let ended = match m {
        Machine::Sequential => {
            let mut g = Graph::default();
            world.value(entry, locals, &mut g).map(|v| (v, g))
        }
        Machine::Parallel => world.parallel(entry, locals),
        Machine::Heartbeat => world.heartbeat(Evaluate(entry, locals), Vec::new()),
    };
    let (transitions, deepest, joined) = (world.made, world.deepest as u64, world.joined);
    let (answer, graph) = match ended {
        Ok((value, g)) => {
            assert_eq!(world.occupied, 0);
            assert_eq!(g.steps(), transitions);
            let answer = Answer::Value { value, transitions, forks: g.forks(), work: g.work(tau), span: g.span(tau), deepest };
            (answer, g.words())
        }
        Err(s) => (Answer::Stopped { number: s.number, function: s.function, node: s.node, transitions, deepest }, vec![]),
    };
    Ran { answer, graph, joined }
}
