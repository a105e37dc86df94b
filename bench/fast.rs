//! The three machines of document 01 as a Rust interpreter written for speed: the opponents of the benchmark.
//!
//! A run is one function with two inner loops, one that evaluates and one that returns values. A frame has 40 bytes; locals stand on a
//! stack of their own and are not copied but for a call's arguments. The counts are one counter and two marks. Safe Rust, no recursion
//! and no allocation in a run. Each machine is compiled apart by constants: with `BIRTH` a fork is promoted when it is opened (parallel),
//! with `BEAT` when a promotion is due (heartbeat), with neither never (sequential). With `FUSED` transitions that are certain are made
//! at once (`fused`), else each by itself. The deepest stack, which is in no answer, is not counted.

use crate::decode::{Decoded, Node, Operation, Tag};
use crate::fused::{self, Reached};

#[derive(Clone, Copy)]
#[repr(u8)]
enum Kind {
    LeftOperand,
    RightOperand,
    Condition,
    Binding,
    Arguments,
    PlainLeft,
    PlainRight,
    PromotedLeft,
    PromotedRight,
}

/// `base` and `top` bound the locals. `x` is the left value, or the first argument; `y` the span before a fork, or the second argument; `z` the left branch's span.
#[derive(Clone, Copy)]
pub struct Frame {
    kind: Kind,
    collected: u8,
    node: u32,
    base: u32,
    top: u32,
    x: u64,
    y: u64,
    z: u64,
}

const CLEAR: Frame = Frame { kind: Kind::LeftOperand, collected: 0, node: 0, base: 0, top: 0, x: 0, y: 0, z: 0 };
const FRAMES: usize = 4096;
const NONE: usize = FRAMES;

#[derive(Clone, Copy)]
struct Plan {
    period: u64,
    tau: u64,
    fuel: u64,
    frames: usize,
}

/// Value, transitions, forks and span; or number, node and transitions.
enum Ending {
    Value(u64, u64, u64, u64),
    Stop(u64, u32, u64),
}

/// One transition at a time, or with `FUSED` several at once.
pub struct Interpreter<const FUSED: bool> {
    decoded: Decoded,
    frames: Vec<Frame>,
    locals: Vec<u64>,
}

impl<const FUSED: bool> Interpreter<FUSED> {
    pub fn new() -> Self {
        Interpreter { decoded: Decoded::new(), frames: vec![CLEAR; FRAMES], locals: vec![0; 16 * (FRAMES + 2)] }
    }

    /// The answer in the eight words of the C interface; `machine` is 0 sequential, 1 parallel, 2 heartbeat.
    pub fn run(&mut self, machine: u32, table: &[u32], args: &[u64], fuel: u64, period: u64, tau: u64, workspace: usize) -> [u64; 8] {
        let refused = |[number, f, node]: [u64; 3]| [2, number, f, node, 0, 0, 0, 0];
        if let Err(told) = self.decoded.read(table) {
            return refused(told);
        }
        let checks = [
            (7, args.len() == table[1] as usize),
            (8, (1..=100_000_000).contains(&fuel)),
            (9, (1..=10_000).contains(&period)),
            (10, (1..=10_000).contains(&tau)),
            (11, workspace % 32 == 0 && (1..=FRAMES).contains(&(workspace / 32))),
        ];
        if let Some((number, _)) = checks.iter().find(|(_, good)| !good) {
            return refused([*number, 0, 0]);
        }
        if FUSED {
            fused::fuse(&mut self.decoded.nodes);
        }
        let plan = Plan { period, tau, fuel, frames: workspace / 32 };
        self.locals[..args.len()].copy_from_slice(args);
        let ending = self.drive(machine, &plan);
        self.frames[..plan.frames].fill(CLEAR);
        self.locals[..16 * (plan.frames + 2)].fill(0);
        match ending {
            Ending::Value(v, transitions, forks, span) => [0, v, 0, 0, transitions, forks, transitions + tau * forks, span],
            Ending::Stop(number, node, transitions) => {
                let (f, p) = self.decoded.place(table[0] as usize, node);
                [1, number, f, p, transitions, 0, 0, 0]
            }
        }
    }

    fn drive(&mut self, machine: u32, plan: &Plan) -> Ending {
        let (nodes, frames, locals) = (&self.decoded.nodes[..], &mut self.frames[..plan.frames], &mut self.locals[..]);
        match machine {
            0 => drive::<false, false, FUSED>(nodes, frames, locals, plan),
            1 => drive::<true, false, FUSED>(nodes, frames, locals, plan),
            _ => drive::<false, true, FUSED>(nodes, frames, locals, plan),
        }
    }
}

/// A run of a machine. Every function of it is inlined into `drive`, so that the counts are in registers.
pub struct Run<'r, const BIRTH: bool, const BEAT: bool, const FUSED: bool> {
    pub nodes: &'r [Node],
    pub frames: &'r mut [Frame],
    pub locals: &'r mut [u64],
    plan: Plan,
    pub made: u64,  // transitions
    due: u64,       // transitions at which the running machine's credits reach N
    pub limit: u64, // the fuel, or `due` where that is less and a fork can be promoted; kept with `FUSED` only
    mark: u64,      // transitions less the running machine's span
    forks: u64,
    pub depth: usize,
    oldest: usize, // the frame of the oldest fork that can be promoted, or `NONE`; kept with `BEAT` only
    pub at: usize,
    pub base: usize,
}

fn drive<const BIRTH: bool, const BEAT: bool, const FUSED: bool>(nodes: &[Node], frames: &mut [Frame], locals: &mut [u64], plan: &Plan) -> Ending {
    let (due, limit) = (plan.period, plan.fuel);
    let mut run = Run::<BIRTH, BEAT, FUSED> { nodes, frames, locals, plan: *plan, made: 0, due, limit, mark: 0, forks: 0, depth: 0, oldest: NONE, at: 0, base: 0 };
    loop {
        let mut value = loop {
            match run.evaluate() {
                Ok(None) => {}
                Ok(Some(v)) => break v,
                Err(ending) => return ending,
            }
        };
        loop {
            match run.resume(value) {
                Ok(None) => break,
                Ok(Some(v)) => value = v,
                Err(ending) => return ending,
            }
        }
    }
}

/// What a step leads to: a value that returns, none where there is a node to evaluate, or the end.
type Next = Result<Option<u64>, Ending>;

#[inline(always)]
pub fn operate(operation: Operation, x: u64, y: u64) -> Option<u64> {
    match operation {
        Operation::Add => x.checked_add(y),
        Operation::Subtract => x.checked_sub(y),
        Operation::Multiply => x.checked_mul(y),
        Operation::Divide => x.checked_div(y),
        Operation::Remainder => x.checked_rem(y),
        Operation::Less => Some((x < y) as u64),
        Operation::Equal => Some((x == y) as u64),
    }
}

/// The number of the stop where an operation has no value.
fn fault(operation: Operation) -> u64 {
    match operation {
        Operation::Add | Operation::Multiply => 22,
        Operation::Subtract => 23,
        _ => 24,
    }
}

impl<const BIRTH: bool, const BEAT: bool, const FUSED: bool> Run<'_, BIRTH, BEAT, FUSED> {
    /// Finds `limit` anew, where `due`, `oldest` or the depth below it moved.
    #[inline(always)]
    fn limits(&mut self) {
        if FUSED && BEAT {
            self.limit = if self.oldest < self.depth { self.due.min(self.plan.fuel) } else { self.plan.fuel };
        }
    }

    #[inline(always)]
    fn span(&self) -> u64 {
        self.made.wrapping_sub(self.mark)
    }

    /// Starts another machine: its credits are 0. Its span is given.
    #[inline(always)]
    fn restart(&mut self, span: u64) {
        self.mark = self.made.wrapping_sub(span);
        self.due = self.made + self.plan.period;
        self.limits();
    }

    /// Makes a promotion that is due.
    #[inline(always)]
    fn promote(&mut self) {
        if BEAT && (!FUSED || self.made >= self.limit) && self.made >= self.due && self.oldest < self.depth {
            let before = self.span();
            let f = &mut self.frames[self.oldest];
            f.kind = Kind::PromotedLeft;
            f.y = before;
            self.forks += 1;
            let above = self.oldest + 1;
            self.oldest = self.frames[above..self.depth].iter().position(|f| matches!(f.kind, Kind::PlainLeft)).map_or(NONE, |i| above + i);
            self.restart(0);
        }
    }

    /// Opens a frame and goes to the first child.
    #[inline(always)]
    fn open(&mut self, kind: Kind, node: &Node, before: u64) -> Next {
        let Some(f) = self.frames.get_mut(self.depth) else {
            return Err(Ending::Stop(21, self.at as u32, self.made));
        };
        *f = Frame { kind, collected: 0, node: self.at as u32, base: self.base as u32, top: self.base as u32 + node.bound as u32, x: 0, y: before, z: 0 };
        self.depth += 1;
        self.at += 1;
        Ok(None)
    }

    /// Where the locals of a called body begin.
    #[inline(always)]
    pub fn above(&self) -> usize {
        if self.depth == 0 { 0 } else { self.frames[self.depth - 1].top as usize }
    }

    /// Goes to a node, with the locals of a frame.
    #[inline(always)]
    fn go(&mut self, top: usize, at: u32) -> Next {
        self.base = self.frames[top].base as usize;
        self.at = at as usize;
        Ok(None)
    }

    /// One step at the node in hand.
    #[inline(always)]
    fn evaluate(&mut self) -> Next {
        self.promote();
        let nodes = self.nodes;
        let node = &nodes[self.at];
        if FUSED {
            match self.at_once(node) {
                Some(Reached::Value(v)) => return Ok(Some(v)),
                Some(Reached::Node) => return Ok(None),
                None => {}
            }
        }
        if BIRTH && node.tag == Tag::Both {
            let before = self.span();
            self.open(Kind::PromotedLeft, node, before)?;
            self.mark = self.made;
            self.forks += 1;
            return Ok(None);
        }
        if self.made == self.plan.fuel {
            return Err(Ending::Stop(20, self.at as u32, self.made));
        }
        let next = self.enter(node)?;
        self.made += 1;
        Ok(next)
    }

    /// The transition at a node.
    #[inline(always)]
    fn enter(&mut self, node: &Node) -> Next {
        match node.tag {
            Tag::Constant => Ok(Some(node.value)),
            Tag::Local => Ok(Some(self.locals[self.base + node.value as usize])),
            Tag::Arithmetic | Tag::Pair | Tag::Spine => self.open(Kind::LeftOperand, node, 0),
            Tag::Choose | Tag::FlatChoose => self.open(Kind::Condition, node, 0),
            Tag::Let | Tag::FlatLet => self.open(Kind::Binding, node, 0),
            Tag::Call | Tag::FlatCall => self.open(Kind::Arguments, node, 0),
            Tag::CallOfNone => {
                self.base = self.above();
                self.at = node.root as usize;
                Ok(None)
            }
            Tag::Both => {
                self.open(Kind::PlainLeft, node, 0)?;
                if BEAT && self.depth - 1 < self.oldest {
                    self.oldest = self.depth - 1;
                    self.limits();
                }
                Ok(None)
            }
        }
    }

    #[cold]
    fn value(&self, v: u64) -> Ending {
        Ending::Value(v, self.made, self.forks, self.span())
    }

    /// One step of a value that returns to the frame on top. The fields of the frame are read where they are needed.
    #[inline(always)]
    fn resume(&mut self, v: u64) -> Next {
        self.promote();
        if self.depth == 0 {
            return Err(self.value(v));
        }
        let top = self.depth - 1;
        let f = &self.frames[top];
        if BIRTH || BEAT {
            match f.kind {
                Kind::PromotedLeft => return self.change_branch(top, v),
                Kind::PromotedRight => return self.join(top, v),
                _ => {}
            }
        }
        if self.made == self.plan.fuel {
            return Err(Ending::Stop(20, f.node, self.made));
        }
        self.arrive(top, v)
    }

    /// The left branch of a promoted fork has its value.
    #[inline(always)]
    fn change_branch(&mut self, top: usize, v: u64) -> Next {
        let span = self.span();
        let f = &mut self.frames[top];
        f.kind = Kind::PromotedRight;
        f.x = v;
        f.z = span;
        let at = self.nodes[f.node as usize].second;
        self.restart(0);
        self.go(top, at)
    }

    /// Both branches of a promoted fork have their values.
    #[inline(always)]
    fn join(&mut self, top: usize, v: u64) -> Next {
        let f = &self.frames[top];
        let span = f.y + self.plan.tau + f.z.max(self.span());
        self.depth = top;
        self.restart(span);
        self.body(top, v)
    }

    /// Leaves a fork for its body, with both values bound.
    #[inline(always)]
    fn body(&mut self, top: usize, v: u64) -> Next {
        let f = &self.frames[top];
        let slot = f.top as usize;
        self.locals[slot] = f.x;
        self.locals[slot + 1] = v;
        self.go(top, self.nodes[f.node as usize].third)
    }

    /// The transition of a value at a frame.
    #[inline(always)]
    fn arrive(&mut self, top: usize, v: u64) -> Next {
        let nodes = self.nodes;
        let f = &self.frames[top];
        let node = &nodes[f.node as usize];
        match f.kind {
            Kind::LeftOperand => return self.left_operand(top, node, v),
            Kind::Arguments => return self.argument(top, node, v),
            Kind::PlainLeft => return self.plain_left(top, node, v),
            _ => {}
        }
        let next = match f.kind {
            Kind::RightOperand => Some(operate(node.operation, f.x, v).ok_or(Ending::Stop(fault(node.operation), f.node, self.made))?),
            Kind::Condition => self.go(top, if v != 0 { node.second } else { node.third })?,
            Kind::Binding => {
                self.locals[f.top as usize] = v;
                self.go(top, node.second)?
            }
            _ => self.body(top, v)?,
        };
        self.depth = top;
        self.made += 1;
        Ok(next)
    }

    #[inline(always)]
    fn left_operand(&mut self, top: usize, node: &Node, v: u64) -> Next {
        if FUSED {
            if let Some(result) = self.with_leaf(self.frames[top].base as usize, node, v) {
                self.depth = top;
                return Ok(Some(result));
            }
        }
        let f = &mut self.frames[top];
        f.kind = Kind::RightOperand;
        f.x = v;
        self.made += 1;
        self.go(top, node.second)
    }

    #[inline(always)]
    fn plain_left(&mut self, top: usize, node: &Node, v: u64) -> Next {
        let f = &mut self.frames[top];
        f.kind = Kind::PlainRight;
        f.x = v;
        self.made += 1;
        if BEAT && self.oldest == top {
            self.oldest = NONE;
            self.limits();
        }
        self.go(top, node.second)
    }

    /// An argument's value: the next argument, or the called body after the last.
    #[inline(always)]
    fn argument(&mut self, top: usize, node: &Node, v: u64) -> Next {
        self.made += 1;
        let f = &mut self.frames[top];
        let before = f.collected;
        if before + 1 < node.arity {
            f.collected = before + 1;
            if before == 0 {
                f.x = v;
                return self.go(top, node.second);
            }
            f.y = v;
            return self.go(top, node.third);
        }
        let (x, y) = (f.x, f.y);
        self.depth = top;
        self.base = self.above();
        self.at = node.root as usize;
        self.bind(match before {
            0 => [v, 0, 0],
            1 => [x, v, 0],
            _ => [x, y, v],
        });
        Ok(None)
    }

    /// Binds a call's arguments, where the called body's locals begin.
    #[inline(always)]
    pub fn bind(&mut self, arguments: [u64; 3]) {
        let first: &mut [u64; 3] = (&mut self.locals[self.base..self.base + 3]).try_into().unwrap();
        *first = arguments;
    }
}
