//! Small jobs of the forms of `forms`: every node that has one, in several surroundings, with every operation that can fail; and random
//! ones.
use crate::forms::{lists, Shape, SHAPES, STOPS};
use crate::jobs::{assemble, Dice};

/// A tree of nodes before it has positions: tag, the words a and b of a node without second child, children.
#[derive(Clone)]
pub struct Tree(u32, [u32; 2], Vec<Tree>);

impl Tree {
    fn write(&self, body: &mut Vec<[u32; 4]>) {
        let at = body.len();
        body.push([self.0, self.1[0], self.1[1], 0]);
        for (i, child) in self.2.iter().enumerate() {
            if i > 0 {
                body[at][i + 1] = body.len() as u32;
            }
            child.write(body);
        }
    }
}

fn constant(v: u64) -> Tree {
    Tree(0, [v as u32, (v >> 32) as u32], vec![])
}
fn local(slot: usize) -> Tree {
    Tree(1, [slot as u32, 0], vec![])
}
fn arithmetic(op: u32, x: Tree, y: Tree) -> Tree {
    Tree(2, [op, 0], vec![x, y])
}
fn choose(x: Tree, yes: Tree, no: Tree) -> Tree {
    Tree(3, [0, 0], vec![x, yes, no])
}
fn bind(x: Tree, second: Tree) -> Tree {
    Tree(4, [0, 0], vec![x, second])
}
/// The functions of arity 1 to 3 follow the entry, and those of arity 0 follow them, one for each argument of the entry.
const ARITIES: [usize; 7] = [ARGS.len(), 1, 2, 3, 0, 0, 0];

fn call(arguments: Vec<Tree>) -> Tree {
    Tree(5, [arguments.len() as u32, 0], arguments)
}
fn call_of_none(i: usize) -> Tree {
    Tree(5, [4 + i as u32, 0], vec![])
}
fn both(left: Tree, right: Tree, body: Tree) -> Tree {
    Tree(6, [0, 0], vec![left, right, body])
}

const MOST: u64 = u64::MAX;
/// The entry's arguments; an operand's value is one of them.
pub const ARGS: [u64; 3] = [MOST, 3, 0];

/// Operations on such values that succeed, and for each stop some that fail.
const SUCCEED: [(u32, u64, u64); 8] =
    [(0, 3, 0), (1, MOST, 3), (2, 0, MOST), (3, MOST, 3), (4, 3, MOST), (5, 3, MOST), (5, MOST, 3), (6, 3, 3)];
const FAIL: [[(u32, u64, u64); 2]; STOPS.len()] = [[(0, MOST, 3), (2, 3, MOST)], [(1, 3, MOST), (1, 0, 3)], [(3, 3, 0), (4, MOST, 0)]];

/// A node: its tag, and the shapes of its operands; `None` stands for one that is not simple.
pub type Wanted = (u32, Vec<Option<Shape>>);

/// Each node that can have operands, with operands of every shape.
pub fn wanted() -> Vec<Wanted> {
    let shapes: Vec<Option<Shape>> = SHAPES.map(Some).into_iter().chain([None]).collect();
    let counts = [(0, 0), (1, 0), (2, 2), (3, 1), (4, 1), (5, 0), (5, 1), (5, 2), (5, 3)];
    counts.iter().flat_map(|&(tag, count)| lists(&shapes, count).into_iter().map(move |l| (tag, l))).collect()
}

/// An operand that fails, or the node's own operation, numbered after them; and the stop's number.
pub type Failing = Option<(usize, u64)>;

pub fn failures((tag, operands): &Wanted) -> Vec<Failing> {
    let can = |&i: &usize| if i < operands.len() { operands[i] == Some(Shape::Pair) } else { *tag == 2 };
    (0..=operands.len()).filter(can).flat_map(|i| STOPS.map(|number| Some((i, number)))).collect()
}

fn slot(v: u64) -> usize {
    ARGS.iter().position(|a| *a == v).expect("an argument")
}

/// Writes a node in surroundings; what may vary goes by `turn`.
pub struct Writer {
    pub around: usize,
    pub turn: usize,
    pub failing: Failing,
}

impl Writer {
    fn leaf(&self, bit: usize, v: u64) -> Tree {
        self.operand(Some(if self.turn >> bit & 1 == 0 { Shape::Constant } else { Shape::Local }), v)
    }
    fn pair(&self, (op, x, y): (u32, u64, u64)) -> Tree {
        arithmetic(op, self.leaf(0, x), self.leaf(1, y))
    }
    fn operand(&self, shape: Option<Shape>, v: u64) -> Tree {
        match shape {
            Some(Shape::Constant) => constant(v),
            Some(Shape::Local) => local(slot(v)),
            Some(Shape::Pair) => self.pair([(0, v, 0), (0, 0, v), (1, v, 0)][self.turn % 3]),
            None => call_of_none(slot(v)),
        }
    }
    fn fails(&self, operation: usize) -> Option<(u32, u64, u64)> {
        let (_, number) = self.failing.filter(|f| f.0 == operation)?;
        let stop = STOPS.iter().position(|n| *n == number).expect("a stop of the arithmetic");
        Some(FAIL[stop][self.turn % 2])
    }

    fn node(&self, (tag, shapes): &Wanted) -> Tree {
        let (op, x, y) = self.fails(shapes.len()).unwrap_or(SUCCEED[self.turn % SUCCEED.len()]);
        let value = |i: usize| if *tag == 2 { [x, y][i] } else { ARGS[(i + self.around) % ARGS.len()] };
        let operand = |(i, shape): (usize, &Option<Shape>)| match self.fails(i) {
            Some(operation) => self.pair(operation),
            None => self.operand(*shape, value(i)),
        };
        let mut operands: Vec<Tree> = shapes.iter().enumerate().map(operand).collect();
        let mut next = || operands.remove(0);
        match tag {
            0 => constant(value(0)),
            1 => local(self.around % ARGS.len()),
            2 => arithmetic(op, next(), next()),
            3 => choose(next(), self.leaf(0, 3), local(0)),
            4 => bind(next(), local(self.bound())),
            _ if operands.is_empty() => call_of_none(self.around % ARGS.len()),
            _ => call(operands),
        }
    }

    pub const AROUND: usize = 6;

    /// As long as the longest form: the span then tells at which transition of a form in the left branch the fork was promoted.
    fn long(&self) -> Tree {
        call([0; 3].map(|_| self.pair((0, 3, 0))).into())
    }

    /// A tree alone; left, right and body of a fork; left of two forks; above an ordinary frame above a fork.
    fn surrounded(&self, t: Tree) -> Tree {
        match self.around {
            0 => t,
            1 => both(t, self.long(), local(3)),
            2 => both(constant(3), t, local(4)),
            3 => both(local(0), constant(3), t),
            4 => both(both(t, constant(3), local(3)), local(1), local(3)),
            _ => both(call(vec![call_of_none(0), t]), constant(3), local(3)),
        }
    }
    fn bound(&self) -> usize {
        ARGS.len() + if self.around == 3 { 2 } else { 0 }
    }

    pub fn job(&self, node: &Wanted) -> Small {
        let told = [1, 2, 3].map(|arity| local(self.around % arity));
        Small { entry: self.surrounded(self.node(node)), bodies: told, without_arguments: ARGS.map(constant) }
    }
}

/// A job: the entry and the functions that it calls.
pub struct Small {
    entry: Tree,
    bodies: [Tree; 3],
    without_arguments: [Tree; 3],
}

impl Small {
    /// Its table, where the entry comes after a part that occupies so many frames at once, and frees them.
    pub fn table(&self, frames: u64) -> Vec<u32> {
        let deep = (1..frames).fold(constant(1), |inner, _| choose(inner, constant(1), constant(0)));
        let entry = if frames == 0 { self.entry.clone() } else { choose(deep, self.entry.clone(), constant(0)) };
        let words = |t: &Tree| {
            let mut body = Vec::new();
            t.write(&mut body);
            body
        };
        let all = [&entry].into_iter().chain(&self.bodies).chain(&self.without_arguments);
        assemble(&ARITIES, &all.map(words).collect::<Vec<_>>())
    }

    /// The transitions of that part.
    pub fn before(frames: u64) -> u64 {
        3 * frames
    }
}

const MOST_LOCALS: usize = 16;

/// Random trees of simple operands, and of nodes that have them.
pub struct Random<'d> {
    dice: &'d mut Dice,
    calls: bool,
}

impl Random<'_> {
    fn leaf(&mut self, bound: usize) -> Tree {
        if bound > 0 && self.dice.one_in(2) {
            return local(self.dice.below(bound as u64) as usize);
        }
        let v = if self.dice.one_in(8) { self.dice.pick(&[MOST, 1 << 32, 1 << 63]) } else { self.dice.below(5) };
        constant(v)
    }
    fn operation(&mut self) -> u32 {
        self.dice.pick(&[0, 0, 0, 1, 2, 3, 4, 5, 5, 6, 6])
    }
    fn operand(&mut self, bound: usize) -> Tree {
        if self.dice.one_in(2) {
            return self.leaf(bound);
        }
        arithmetic(self.operation(), self.leaf(bound), self.leaf(bound))
    }
    fn child(&mut self, bound: usize, levels: usize) -> Tree {
        if levels == 0 || self.dice.one_in(2) { self.operand(bound) } else { self.node(bound, levels - 1) }
    }
    fn node(&mut self, bound: usize, levels: usize) -> Tree {
        match self.dice.below(8) {
            2 => choose(self.child(bound, levels), self.child(bound, levels), self.child(bound, levels)),
            3 if bound < MOST_LOCALS => bind(self.child(bound, levels), self.child(bound + 1, levels)),
            4 | 5 if self.calls => {
                let arity = self.dice.below(4);
                let arguments: Vec<Tree> = (0..arity).map(|_| self.child(bound, levels)).collect();
                if arity == 0 { call_of_none(self.dice.below(3) as usize) } else { call(arguments) }
            }
            6 | 7 if bound + 2 <= MOST_LOCALS => both(self.child(bound, levels), self.child(bound, levels), self.child(bound + 2, levels)),
            _ => arithmetic(self.operation(), self.child(bound, levels), self.child(bound, levels)),
        }
    }
    fn entry(&mut self, bound: usize, more: u64) -> Tree {
        if more == 0 { self.node(bound, 2) } else { bind(self.leaf(bound), self.entry(bound + 1, more - 1)) }
    }
    pub fn job(dice: &mut Dice) -> Small {
        let more = if dice.one_in(8) { MOST_LOCALS as u64 - ARGS.len() as u64 - dice.below(3) } else { 0 };
        let entry = Random { dice: &mut *dice, calls: true }.entry(ARGS.len(), more);
        let mut callee = |arity| Random { dice: &mut *dice, calls: false }.child(arity, 1);
        Small { entry, bodies: [1, 2, 3].map(&mut callee), without_arguments: [0; 3].map(&mut callee) }
    }
}
