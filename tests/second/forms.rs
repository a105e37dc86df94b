//! The forms whose transitions are certain from their start, so that a machine may make them at once: a leaf, and a node whose first
//! children are simple operands. What each takes, and how often it was met at each boundary of what a run has left.
use crate::second::{arithmetic, Job, Kind, Machine, Node, Room, Stop, Watch, ALL};
use std::collections::HashMap;

/// The transitions of the longest form.
pub fn longest() -> u64 {
    Form::all().iter().map(Form::transitions).max().expect("a form")
}

/// A simple operand: a leaf, or an arithmetic of two leaves.
#[derive(Clone, Copy, PartialEq, Eq, Hash, Debug)]
pub enum Shape {
    Constant,
    Local,
    Pair,
}
use Shape::{Constant, Local, Pair};

pub const SHAPES: [Shape; 3] = [Constant, Local, Pair];

impl Shape {
    fn transitions(self) -> u64 {
        if self == Pair { 5 } else { 1 }
    }
    fn frames(self) -> usize {
        (self == Pair) as usize
    }
}

pub fn shape(node: &Node) -> Option<Shape> {
    let leaf = |n: &Node| matches!(n.kind, Kind::Constant(_) | Kind::Local(_));
    match &node.kind {
        Kind::Constant(_) => Some(Constant),
        Kind::Local(_) => Some(Local),
        Kind::Arithmetic(_, l, r) if leaf(l) && leaf(r) => Some(Pair),
        _ => None,
    }
}

/// Where the operands of a form stand. `Left` is an arithmetic whose right child is not simple; `Right` the return of a left operand
/// that was not simple, where the right one is.
#[derive(Clone, Copy, PartialEq, Eq, Hash, Debug)]
enum Place {
    Leaf(Shape),
    Arithmetic,
    Left,
    Right,
    Choose,
    Let,
    Call,
}

#[derive(Clone, PartialEq, Eq, Hash, Debug)]
pub struct Form {
    place: Place,
    operands: Vec<Shape>,
}

/// Every list of so many of these.
pub fn lists<T: Copy>(these: &[T], count: usize) -> Vec<Vec<T>> {
    if count == 0 {
        return vec![vec![]];
    }
    let longer = |l: Vec<T>| these.iter().map(move |x| [&l[..], &[*x]].concat()).collect::<Vec<_>>();
    lists(these, count - 1).into_iter().flat_map(longer).collect()
}

impl Form {
    fn all() -> Vec<Form> {
        let leaves = [Constant, Local].map(|s| (Place::Leaf(s), 0));
        let nodes = [(Place::Arithmetic, 2), (Place::Left, 1), (Place::Right, 1), (Place::Choose, 1), (Place::Let, 1)];
        let calls = [0, 1, 2, 3].map(|arity| (Place::Call, arity));
        let of = |&(place, count): &(Place, usize)| lists(&SHAPES, count).into_iter().map(move |operands| Form { place, operands });
        [&leaves[..], &nodes, &calls].concat().iter().flat_map(of).collect()
    }

    /// The transition that leads to the first operand, each operand, and the transition after each.
    fn transitions(&self) -> u64 {
        self.before(self.operands.len())
    }

    /// The transitions before this operand.
    fn before(&self, operand: usize) -> u64 {
        1 + self.operands[..operand].iter().map(|s| s.transitions() + 1).sum::<u64>()
    }

    /// The frames that it opens, at most at once.
    fn frames(&self) -> usize {
        let own = self.place != Place::Right && !self.operands.is_empty();
        own as usize + self.operands.iter().map(|s| s.frames()).max().unwrap_or(0)
    }

    /// The operations in it that can fail: those of its operands, by their number, and its own, numbered after them.
    fn operations(&self) -> Vec<usize> {
        let own = matches!(self.place, Place::Arithmetic | Place::Right);
        let operand = |&i: &usize| if i < self.operands.len() { self.operands[i] == Pair } else { own };
        (0..=self.operands.len()).filter(operand).collect()
    }

    /// The transitions before an operation's result.
    fn before_result(&self, operation: usize) -> u64 {
        let after = match self.operands.get(operation) {
            Some(s) => self.before(operation) + s.transitions(),
            None => self.transitions(),
        };
        after - 1
    }

    /// A row of the table of counts.
    fn row(&self) -> String {
        match self.place {
            Place::Leaf(_) => "leaf".into(),
            Place::Call => format!("call of {}", self.operands.len()),
            place => format!("{place:?}").to_lowercase(),
        }
    }
}

fn simple(node: &Node) -> bool {
    shape(node).is_some()
}

/// The form that starts where this node is evaluated; and its operands.
fn evaluated(node: &Node) -> Option<(Place, Vec<&Node>)> {
    match &node.kind {
        Kind::Arithmetic(_, l, r) if simple(l) && simple(r) => Some((Place::Arithmetic, vec![&**l, &**r])),
        Kind::Arithmetic(_, l, _) if simple(l) => Some((Place::Left, vec![&**l])),
        Kind::Choose(x, _, _) if simple(x) => Some((Place::Choose, vec![&**x])),
        Kind::Let(x, _) if simple(x) => Some((Place::Let, vec![&**x])),
        Kind::Call(_, xs) if xs.iter().all(simple) => Some((Place::Call, xs.iter().collect())),
        Kind::Constant(_) | Kind::Local(_) => shape(node).map(|s| (Place::Leaf(s), vec![])),
        _ => None,
    }
}

/// The form that starts where the left operand returns to this node.
fn returned(node: &Node) -> Option<(Place, Vec<&Node>)> {
    match &node.kind {
        Kind::Arithmetic(_, l, r) if !simple(l) && simple(r) => Some((Place::Right, vec![&**r])),
        _ => None,
    }
}

fn start(node: &Node, returns: bool) -> Option<(Place, Vec<&Node>)> {
    if returns { returned(node) } else { evaluated(node) }
}

fn operand(x: &Node, locals: &[u64]) -> Result<u64, Stop> {
    match &x.kind {
        Kind::Constant(v) => Ok(*v),
        Kind::Local(s) => Ok(locals[*s]),
        Kind::Arithmetic(op, l, r) => arithmetic(*op, operand(l, locals)?, operand(r, locals)?, x),
        _ => unreachable!("a simple operand"),
    }
}

/// The first operation of a form that fails, and the stop's number.
fn failure(node: &Node, left: Option<u64>, operands: &[&Node], locals: &[u64]) -> Option<(usize, u64)> {
    let mut values: Vec<u64> = left.into_iter().collect();
    for (i, x) in operands.iter().enumerate() {
        match operand(x, locals) {
            Ok(v) => values.push(v),
            Err(stop) => return Some((i, stop.number)),
        }
    }
    match (&node.kind, &values[..]) {
        (Kind::Arithmetic(op, _, _), [x, y]) => arithmetic(*op, *x, *y, node).err().map(|stop| (operands.len(), stop.number)),
        _ => None,
    }
}

/// What a form meets that decides alone whether it can be made at once: all else suffices, and its frames were occupied before.
#[derive(Clone, Copy, PartialEq, Eq, Hash, Debug)]
enum Boundary {
    /// Fuel for so many transitions fewer; for just these; for one more.
    FuelShort(u64),
    FuelExact,
    FuelOver,
    /// So many frames too few; just these.
    FramesShort(usize),
    FramesExact,
    /// Of the frames so many were never occupied before; just these were.
    FramesNew(usize),
    FramesReached,
    /// A promotion comes due after so many of its transitions; after its last; one transition later; within, with nothing to promote.
    DueWithin(u64),
    DueAtEnd,
    DueLater,
    NoneToPromote,
    /// Fuel, frames and credits are all exact; the frames were occupied before.
    AllExact,
    /// An operation fails, with a stop's number: fuel for all before it; for it too; for the whole form.
    FailsShort(usize, u64),
    FailsAt(usize, u64),
    Fails(usize, u64),
}
use Boundary::*;

const COLUMNS: [&str; 15] = [
    "fuel-", "fuel=", "fuel+", "frames-", "frames=", "new", "reached", "due<", "due=", "due+", "none", "all=", "fails-", "fails=", "fails+",
];

impl Boundary {
    fn column(self) -> usize {
        match self {
            FuelShort(_) => 0,
            FuelExact => 1,
            FuelOver => 2,
            FramesShort(_) => 3,
            FramesExact => 4,
            FramesNew(_) => 5,
            FramesReached => 6,
            DueWithin(_) => 7,
            DueAtEnd => 8,
            DueLater => 9,
            NoneToPromote => 10,
            AllExact => 11,
            FailsShort(..) => 12,
            FailsAt(..) => 13,
            Fails(..) => 14,
        }
    }
}

impl Form {
    /// The boundaries at which a machine has to be met.
    fn boundaries(&self, m: Machine) -> Vec<Boundary> {
        let k = self.transitions();
        let mut all = vec![FuelExact, FuelOver, FramesExact, FramesReached];
        all.extend((1..=k).map(FuelShort));
        all.extend((1..=self.frames()).flat_map(|n| [FramesShort(n), FramesNew(n)]));
        if m == Machine::Heartbeat {
            all.extend([DueAtEnd, DueLater, AllExact]);
            all.extend((1..k).map(DueWithin));
            all.extend((k > 1).then_some(NoneToPromote));
        }
        for operation in self.operations() {
            for number in STOPS {
                all.extend([FailsShort(operation, number), FailsAt(operation, number), Fails(operation, number)]);
            }
        }
        all
    }

    fn met(&self, room: Room, failure: Option<(usize, u64)>) -> Vec<Boundary> {
        let (k, h) = (self.transitions(), self.frames());
        let left = room.beat.filter(|b| b.promotable).map_or(i64::MAX, |b| b.left);
        let (fuel, frames, quiet) = (room.fuel >= k, room.frames >= h, left >= k as i64);
        let reached = room.reached >= h;
        let mut all = Vec::new();
        if let Some((operation, number)) = failure {
            let before = self.before_result(operation);
            if reached && quiet {
                all.extend((room.fuel == before).then_some(FailsShort(operation, number)));
                all.extend((room.fuel == before + 1).then_some(FailsAt(operation, number)));
                all.extend(fuel.then_some(Fails(operation, number)));
            }
            return all;
        }
        if reached && quiet {
            all.extend(of_fuel(room.fuel, k));
        }
        if fuel && quiet {
            all.extend((room.frames == h).then_some(FramesExact));
            all.extend((!frames).then(|| FramesShort(h - room.frames)));
            all.extend((frames && !reached).then(|| FramesNew(h - room.reached)));
            all.extend((room.reached == h).then_some(FramesReached));
        }
        if let (true, true, Some(beat)) = (fuel, reached, room.beat) {
            all.extend(if beat.promotable { of_beat(left as u64, k) } else { (beat.left < k as i64).then_some(NoneToPromote) });
        }
        all.extend((room.fuel == k && room.frames == h && reached && left == k as i64).then_some(AllExact));
        all
    }
}

pub const STOPS: [u64; 3] = [22, 23, 24];

fn of_fuel(fuel: u64, k: u64) -> Option<Boundary> {
    match fuel {
        f if f < k => Some(FuelShort(k - f)),
        f if f == k => Some(FuelExact),
        f if f == k + 1 => Some(FuelOver),
        _ => None,
    }
}

fn of_beat(left: u64, k: u64) -> Option<Boundary> {
    match left {
        n if n < k => Some(DueWithin(n)),
        n if n == k => Some(DueAtEnd),
        n if n == k + 1 => Some(DueLater),
        _ => None,
    }
}

/// How often each form was met at each boundary, by each machine.
#[derive(Default)]
pub struct Counts(HashMap<(Machine, usize, Boundary), u64>);

impl Counts {
    fn of(&self, m: Machine, form: usize, boundary: Boundary) -> u64 {
        self.0.get(&(m, form, boundary)).copied().unwrap_or(0)
    }

    /// For each row and column the least count; and what was not met.
    pub fn table(&self) -> (String, Vec<String>) {
        let (mut rows, mut missing): (Vec<(String, [Option<u64>; COLUMNS.len()])>, _) = (Vec::new(), Vec::new());
        for (i, form) in Form::all().iter().enumerate() {
            if rows.last().map_or(true, |r| r.0 != form.row()) {
                rows.push((form.row(), Default::default()));
            }
            let cells = &mut rows.last_mut().unwrap().1;
            for m in ALL {
                for boundary in form.boundaries(m) {
                    let n = self.of(m, i, boundary);
                    let cell = &mut cells[boundary.column()];
                    *cell = Some(cell.map_or(n, |least| least.min(n)));
                    missing.extend((n == 0).then(|| format!("{m:?} {form:?} {boundary:?}")));
                }
            }
        }
        (shown(&rows), missing)
    }

    /// How many forms at boundaries there are.
    pub fn wanted() -> usize {
        Form::all().iter().map(|f| ALL.map(|m| f.boundaries(m).len()).iter().sum::<usize>()).sum()
    }
}

fn shown(rows: &[(String, [Option<u64>; COLUMNS.len()])]) -> String {
    let line = |name: &str, cells: Vec<String>| format!("  {name:10}{}\n", cells.iter().map(|c| format!("{c:>8}")).collect::<String>());
    let cell = |c: &Option<u64>| c.map_or("-".to_string(), |n| n.to_string());
    let head = line("", COLUMNS.map(String::from).to_vec());
    head + &rows.iter().map(|(name, cells)| line(name, cells.iter().map(cell).collect())).collect::<String>()
}

fn children(node: &Node) -> Vec<&Node> {
    match &node.kind {
        Kind::Constant(_) | Kind::Local(_) => vec![],
        Kind::Arithmetic(_, x, y) | Kind::Let(x, y) => vec![x, y],
        Kind::Choose(x, y, z) | Kind::Both(x, y, z) => vec![x, y, z],
        Kind::Call(_, xs) => xs.iter().collect(),
    }
}

/// The forms of a job: for each node of each function the one that starts where it is evaluated, and where its left operand returns.
/// A node that is an operand of such a form starts none: a machine that makes forms at once need not come to it.
pub struct Forms<'c> {
    machine: Machine,
    all: Vec<Form>,
    at: HashMap<(usize, usize, bool), usize>,
    counts: &'c mut Counts,
}

impl<'c> Forms<'c> {
    pub fn new(job: &Job, counts: &'c mut Counts) -> Forms<'c> {
        let mut forms = Forms { machine: Machine::Sequential, all: Form::all(), at: HashMap::new(), counts };
        for body in &job.bodies {
            forms.enter(body, false);
        }
        forms
    }

    pub fn machine(&mut self, m: Machine) -> &mut Self {
        self.machine = m;
        self
    }

    fn enter(&mut self, node: &Node, operand: bool) {
        let mut operands: Vec<&Node> = Vec::new();
        for returns in [false, true] {
            if let Some((place, inside)) = start(node, returns).filter(|_| !operand) {
                let form = Form { place, operands: inside.iter().filter_map(|x| shape(x)).collect() };
                let number = self.all.iter().position(|f| *f == form).expect("a form");
                self.at.insert((node.function, node.at, returns), number);
                operands.extend(inside);
            }
        }
        for child in children(node) {
            let inside = operand || operands.iter().any(|x| x.at == child.at);
            self.enter(child, inside);
        }
    }
}

impl Watch for Forms<'_> {
    fn see(&mut self, at: &Node, left: Option<u64>, locals: &[u64], room: Room) {
        let Some(&number) = self.at.get(&(at.function, at.at, left.is_some())) else { return };
        let (_, operands) = start(at, left.is_some()).expect("a form");
        for boundary in self.all[number].met(room, failure(at, left, &operands, locals)) {
            *self.counts.0.entry((self.machine, number, boundary)).or_default() += 1;
        }
    }
}
