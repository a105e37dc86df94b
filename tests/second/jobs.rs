//! Random jobs.
pub struct Dice(pub u64);

impl Dice {
    pub fn next(&mut self) -> u64 {
        self.0 = self.0.wrapping_add(0x9E37_79B9_7F4A_7C15);
        let mut z = self.0;
        z = (z ^ (z >> 30)).wrapping_mul(0xBF58_476D_1CE4_E5B9);
        z = (z ^ (z >> 27)).wrapping_mul(0x94D0_49BB_1331_11EB);
        z ^ (z >> 31)
    }
    pub fn below(&mut self, n: u64) -> u64 {
        self.next() % n
    }
    pub fn one_in(&mut self, n: u64) -> bool {
        self.below(n) == 0
    }
    pub fn pick<T: Copy>(&mut self, xs: &[T]) -> T {
        xs[self.below(xs.len() as u64) as usize]
    }
}

#[derive(Clone, Debug)]
pub struct Input {
    pub table: Vec<u32>,
    pub args: Vec<u64>,
    pub fuel: u64,
    pub period: u64,
    pub tau: u64,
    pub workspace: usize,
}

#[derive(Clone, Copy)]
struct Taste {
    risky: u64, // of 100: operations that may stop
    both: u64,  // of 100
    wild: bool, // calls to any function
}

struct Writer<'d> {
    dice: &'d mut Dice,
    arities: Vec<usize>,
    function: usize,
    body: Vec<[u32; 4]>,
    taste: Taste,
}

impl<'d> Writer<'d> {
    fn leaf(&mut self, bound: usize) {
        if bound > 0 && !self.dice.one_in(3) {
            let s = self.dice.below(bound as u64) as u32;
            self.body.push([1, s, 0, 0]);
        } else {
            let high = if self.dice.below(100) < self.taste.risky { self.dice.next() as u32 } else { 0 };
            let low = if self.dice.one_in(10) { self.dice.next() as u32 } else { self.dice.below(9) as u32 };
            self.body.push([0, low, high, 0]);
        }
    }
    fn node(&mut self, words: [u32; 3], scopes: &[usize], size: usize, level: usize) {
        let at = self.body.len();
        self.body.push([words[0], words[1], 0, 0]);
        let share = size.saturating_sub(1) / scopes.len().max(1);
        for (i, &scope) in scopes.iter().enumerate() {
            if i > 0 {
                self.body[at][i + 1] = self.body.len() as u32;
            }
            let uneven = if share > 2 && self.dice.one_in(2) { share + self.dice.below(share as u64) as usize - share / 2 } else { share };
            self.tree(scope, uneven, level + 1);
        }
    }
    fn tree(&mut self, bound: usize, size: usize, level: usize) {
        if size <= 1 || level >= 60 {
            return self.leaf(bound);
        }
        if self.dice.below(100) < self.taste.both && bound + 2 <= 16 {
            return self.node([6, 0, 0], &[bound, bound, bound + 2], size, level);
        }
        match self.dice.below(10) {
            0..=3 => {
                let risky = self.dice.below(100) < self.taste.risky;
                let op = if risky { self.dice.below(7) as u32 } else { self.dice.pick(&[0, 0, 5, 6]) };
                self.node([2, op, 0], &[bound, bound], size, level)
            }
            4 => self.node([3, 0, 0], &[bound; 3], size, level),
            5 | 6 if bound + 1 <= 16 => self.node([4, 0, 0], &[bound, bound + 1], size, level),
            _ => {
                let count = self.arities.len();
                let from = if self.taste.wild || self.dice.one_in(200) { 0 } else { self.function + 1 };
                if from >= count {
                    return self.node([2, 0, 0], &[bound, bound], size, level);
                }
                let f = from + self.dice.below((count - from) as u64) as usize;
                let scopes = vec![bound; self.arities[f]];
                self.node([5, f as u32, 0], &scopes, size, level)
            }
        }
    }
}

pub fn assemble(arities: &[usize], bodies: &[Vec<[u32; 4]>]) -> Vec<u32> {
    let mut t = vec![bodies.len() as u32];
    for (a, b) in arities.iter().zip(bodies) {
        t.push(*a as u32);
        t.push(b.len() as u32);
    }
    for b in bodies {
        for n in b {
            t.extend_from_slice(n);
        }
    }
    t
}

/// f(n) = if n < k then leaf else both f(n-1) | f(n-j) in sum, with a function's own number.
fn recursion(dice: &mut Dice, me: u32) -> Vec<[u32; 4]> {
    let k = 1 + dice.below(3) as u32;
    let j = 1 + dice.below(k as u64) as u32;
    let op = dice.pick(&[0u32, 0, 5, 6]);
    vec![
        [3, 0, 4, 5],  // 0 choose
        [2, 5, 3, 0],  // 1 less
        [1, 0, 0, 0],  // 2 n
        [0, k, 0, 0],  // 3 k
        [1, 0, 0, 0],  // 4 n
        [6, 0, 10, 14], // 5 both
        [5, me, 0, 0], // 6 call
        [2, 1, 9, 0],  // 7 n - 1
        [1, 0, 0, 0],  // 8
        [0, 1, 0, 0],  // 9
        [5, me, 0, 0], // 10 call
        [2, 1, 13, 0], // 11 n - j
        [1, 0, 0, 0],  // 12
        [0, j, 0, 0],  // 13
        [2, op, 16, 0], // 14
        [1, 1, 0, 0],  // 15
        [1, 2, 0, 0],  // 16
    ]
}

/// A chain of nested boths on the left, so that the stack is deep.
fn spine(dice: &mut Dice, depth: usize) -> Vec<[u32; 4]> {
    // both (both (.. leaf; leaf; local) ..): node i at i, then for each level a right and a body
    let mut b: Vec<[u32; 4]> = (0..depth).map(|_| [6, 0, 0, 0]).collect();
    b.push([0, 1, 0, 0]);
    for i in (0..depth).rev() {
        let right = b.len() as u32;
        if dice.one_in(2) {
            b.push([0, 2, 0, 0]);
        } else {
            b.push([2, 0, right + 2, 0]);
            b.push([0, 2, 0, 0]);
            b.push([0, 3, 0, 0]);
        }
        b[i][2] = right;
        b[i][3] = b.len() as u32;
        let slot = dice.below(2) as u32;
        b.push([1, slot, 0, 0]);
    }
    b
}

pub fn well_formed(dice: &mut Dice) -> Input {
    let many = if dice.one_in(20) { 12 } else { 5 };
    let functions = 1 + dice.below(many) as usize;
    let mut arities: Vec<usize> = (0..functions).map(|_| dice.below(4) as usize).collect();
    let taste = Taste {
        risky: dice.pick(&[0, 0, 0, 3, 30]),
        both: dice.pick(&[5, 20, 35, 50, 70]),
        wild: dice.one_in(10),
    };
    let big = dice.one_in(20);
    let mut bodies = Vec::new();
    for f in 0..functions {
        if dice.one_in(5) {
            arities[f] = 1;
        }
    }
    for f in 0..functions {
        let body = if arities[f] == 1 && dice.one_in(3) {
            recursion(dice, f as u32)
        } else if dice.one_in(12) {
            let d = 1 + dice.below(if big { 63 } else { 12 }) as usize;
            spine(dice, d)
        } else {
            let size = 1 + dice.below(if big { 250 } else { 60 }) as usize;
            let mut w = Writer { dice: &mut *dice, arities: arities.clone(), function: f, body: Vec::new(), taste };
            w.tree(arities[f], size, 1);
            w.body
        };
        bodies.push(body);
    }
    let args = (0..arities[0])
        .map(|_| match dice.below(12) {
            0 => dice.next(),
            1 => dice.below(40),
            _ => dice.below(9),
        })
        .collect();
    let table = assemble(&arities, &bodies);
    let fuel = match dice.below(10) {
        0 => 1 + dice.below(12),
        1 => 1 + dice.below(200),
        2 => 1 + dice.below(3000),
        _ => 30_000 + dice.below(30_000),
    };
    let period = match dice.below(10) {
        0 => 1,
        1..=5 => 1 + dice.below(8),
        6 | 7 => 1 + dice.below(40),
        8 => 1 + dice.below(1000),
        _ => dice.pick(&[10_000, 9_999, 1_000]),
    };
    let tau = match dice.below(4) {
        0 => 1 + dice.below(10_000),
        1 => dice.pick(&[1, 10_000]),
        _ => 1 + dice.below(60),
    };
    let frames = match dice.below(10) {
        0 => 1 + dice.below(4),
        1 | 2 => 1 + dice.below(20),
        3 if dice.one_in(8) => dice.pick(&[4_096, 4_095, 1_000]),
        _ => 64 + dice.below(200),
    };
    Input { table, args, fuel, period, tau, workspace: 32 * frames as usize }
}

/// A small number, one near what stands there, or any.
fn word(dice: &mut Dice, old: u32) -> u32 {
    match dice.below(6) {
        0 => dice.below(8) as u32,
        1 => old.wrapping_add(1),
        2 => old.wrapping_sub(1),
        3 => dice.below(70) as u32,
        4 => 1 << dice.below(32),
        _ => dice.next() as u32,
    }
}

pub fn mutated(dice: &mut Dice) -> Input {
    let mut j = well_formed(dice);
    for _ in 0..1 + dice.below(3) {
        let n = j.table.len() as u64;
        match dice.below(12) {
            0 => {
                j.table.truncate(dice.below(n + 1) as usize);
                if j.table.is_empty() {
                    return j;
                }
            }
            1 => j.table.push(dice.below(4) as u32),
            2 => {
                let at = dice.below(1 + 2 * j.table[0].min(3) as u64).min(n - 1) as usize;
                j.table[at] = word(dice, j.table[at]);
            }
            _ => {
                let at = dice.below(n) as usize;
                j.table[at] = word(dice, j.table[at]);
            }
        }
    }
    j
}

/// One node of the body too many or too few, with the counts told as such, so that the length is exact.
pub fn cut(dice: &mut Dice) -> Input {
    let mut j = well_formed(dice);
    let f = (j.table[0] - 1) as usize; // the last body
    if dice.one_in(2) {
        j.table[2 + 2 * f] += 1;
        let w = [dice.below(9) as u32, dice.below(3) as u32, dice.below(3) as u32, 0];
        j.table.extend_from_slice(&w);
    } else if j.table[2 + 2 * f] > 1 {
        let most = (j.table[2 + 2 * f] as u64 - 1).min(4);
        let less = 1 + dice.below(most) as u32;
        j.table[2 + 2 * f] -= less;
        let n = j.table.len() - 4 * less as usize;
        j.table.truncate(n);
    }
    if dice.one_in(3) {
        let at = dice.below(j.table.len() as u64) as usize;
        j.table[at] = word(dice, j.table[at]);
    }
    j
}

/// A chain of nodes that goes into either child, about 64 levels deep.
fn crooked(dice: &mut Dice, levels: usize, body: &mut Vec<[u32; 4]>) {
    let at = body.len();
    if levels == 1 {
        return body.push([0, 1, 0, 0]);
    }
    let tag = dice.pick(&[2u32, 2, 4]);
    body.push([tag, 0, at as u32 + 2, 0]);
    if tag == 4 && body.iter().filter(|n| n[0] == 4).count() > 15 {
        body[at][0] = 2;
    }
    if dice.one_in(2) {
        body.push([0, 2, 0, 0]);
        crooked(dice, levels - 1, body);
    } else {
        crooked(dice, levels - 1, body);
        body[at][2] = body.len() as u32;
        body.push([0, 3, 0, 0]);
    }
}

pub fn deep(dice: &mut Dice) -> Input {
    // levels about 64, locals about 16
    let mut j = well_formed(dice);
    let mut body: Vec<[u32; 4]> = Vec::new();
    j.args = vec![];
    if dice.one_in(3) {
        let levels = 62 + dice.below(6) as usize;
        crooked(dice, levels, &mut body);
        j.table = assemble(&[0, 0], &[vec![[5, 1, 0, 0]], body]);
    } else if dice.one_in(2) {
        let d = 60 + dice.below(8) as usize;
        body = spine(dice, d);
        j.table = assemble(&[0], &[body]);
    } else {
        // lets and boths in the last child's place
        let mut bound = 0;
        let most = 13 + dice.below(5) as usize;
        while bound < most {
            let at = body.len() as u32;
            if dice.one_in(2) {
                body.push([4, 0, at + 2, 0]);
                body.push([0, bound as u32, 0, 0]);
                bound += 1;
            } else {
                body.push([6, 0, at + 2, at + 3]);
                body.push([0, 1, 0, 0]);
                body.push([0, 2, 0, 0]);
                bound += 2;
            }
        }
        let slot = dice.below(bound as u64 + 1) as u32;
        body.push([1, slot, 0, 0]);
        j.table = assemble(&[0], &[body]);
    }
    j
}

pub fn raw(dice: &mut Dice) -> Input {
    let mut j = well_formed(dice);
    let n = dice.below(40) as usize;
    let small = dice.one_in(2);
    j.table = (0..n).map(|_| if small { dice.below(8) as u32 } else { word(dice, 3) }).collect();
    if n > 3 && dice.one_in(2) {
        // at least an exact length
        let nodes = 1 + dice.below(6) as usize;
        j.table = vec![1, dice.below(4) as u32, nodes as u32];
        for _ in 0..4 * nodes {
            j.table.push(dice.below(7) as u32);
        }
    }
    j
}

/// Settings at the ends of their ranges, with a job that is short.
fn settings_at_ends(dice: &mut Dice, mut j: Input) -> Input {
    j.table = assemble(&[0], &[small(dice)]);
    j.args = vec![];
    j.fuel = dice.pick(&[1, 100_000_000]);
    j.period = dice.pick(&[1, 10_000]);
    j.tau = dice.pick(&[1, 10_000]);
    j
}

pub fn settings_out(dice: &mut Dice) -> Input {
    let mut j = well_formed(dice);
    if dice.one_in(5) {
        return settings_at_ends(dice, j);
    }
    for _ in 0..1 + dice.below(2) {
        match dice.below(5) {
            0 => {
                let n = dice.below(6) as usize;
                j.args = (0..n).map(|_| dice.below(9)).collect();
            }
            1 => j.fuel = dice.pick(&[0, 100_000_001, u64::MAX, 1 << 32, (1 << 32) + 50]),
            2 => j.period = dice.pick(&[0, 10_001, u64::MAX, 1 << 32, (1 << 32) + 3]),
            3 => j.tau = dice.pick(&[0, 10_001, u64::MAX, 1 << 32, (1 << 32) + 3]),
            _ => j.workspace = dice.pick(&[0, 1, 31, 33, 63, 32 * 4096 + 1, 32 * 4097, 32 * 4096 - 1, 8192]),
        }
    }
    j
}

fn small(dice: &mut Dice) -> Vec<[u32; 4]> {
    match dice.below(3) {
        0 => vec![[0, dice.below(9) as u32, 0, 0]],
        1 => vec![[2, 0, 2, 0], [0, 1, 0, 0], [0, 2, 0, 0]],
        _ => vec![[6, 0, 2, 3], [0, 1, 0, 0], [0, 2, 0, 0], [1, 1, 0, 0]],
    }
}

/// 62 to 66 functions; the first calls one of them, or one past the last.
fn many_functions(dice: &mut Dice) -> Vec<u32> {
    let functions = 62 + dice.below(5) as usize;
    let mut bodies: Vec<_> = (0..functions).map(|_| small(dice)).collect();
    bodies[0] = vec![[5, dice.below(functions as u64 + 2) as u32, 0, 0]];
    assemble(&vec![0; functions], &bodies)
}

/// A sum of ones, with its additions in the right operand's place.
fn sum_of_ones(pairs: usize) -> Vec<[u32; 4]> {
    let mut b: Vec<[u32; 4]> = (0..pairs as u32).flat_map(|i| [[2, 0, 2 * i + 2, 0], [0, 1, 0, 0]]).collect();
    b.push([0, 1, 0, 0]);
    b
}

/// 3,998 to 4,002 nodes in all.
fn many_nodes(dice: &mut Dice) -> Vec<u32> {
    let mut left = 3_998 + dice.below(5) as usize;
    let mut bodies = Vec::new();
    while left > 0 {
        let b = sum_of_ones((30 + dice.below(30) as usize).min((left - 1) / 2));
        left -= b.len();
        bodies.push(b);
    }
    bodies.truncate(64);
    assemble(&vec![0; bodies.len()], &bodies)
}

/// Counts of nodes whose sum in 32 bits would be small.
fn wrapping_counts(dice: &mut Dice) -> Vec<u32> {
    let functions = 2 + dice.below(4) as usize;
    let bodies: Vec<_> = (0..functions).map(|_| small(dice)).collect();
    let mut table = assemble(&vec![0; functions], &bodies);
    let f = 2 + 2 * dice.below(functions as u64) as usize;
    let g = 2 + 2 * dice.below(functions as u64) as usize;
    if f == g {
        table[f] = dice.pick(&[u32::MAX, 1 << 30, (1 << 30) + 1, 4_000]);
    } else {
        let both = table[f] + table[g];
        table[f] = 0u32.wrapping_sub(dice.below(3) as u32 + 1);
        table[g] = both.wrapping_sub(table[f]);
    }
    table
}

/// A chain to about level 64 that ends early, or in a node with two faults.
fn chain_end(dice: &mut Dice) -> Vec<u32> {
    let d = 62 + dice.below(4) as usize;
    let tag = dice.pick(&[2u32, 4, 6, 3]);
    let mut b: Vec<[u32; 4]> = (0..d).map(|_| [tag, 0, 0, 0]).collect();
    match dice.below(4) {
        0 => {}
        1 => b.push([1, 0, 0, 0]),
        2 => b.push([1, 0, 0, 1]),
        _ => b.push([7, 0, 0, 0]),
    }
    assemble(&[0], &[b])
}

/// 14 to 16 locals, and then a node that binds or reads one more, with or without an unused word that is not 0.
fn many_locals(dice: &mut Dice) -> Vec<u32> {
    let bound = 14 + dice.below(3) as u32;
    let mut b: Vec<[u32; 4]> = (0..bound).flat_map(|i| [[4, 0, 2 * i + 2, 0], [0, i, 0, 0]]).collect();
    let at = b.len() as u32;
    let a = if dice.one_in(3) { dice.below(18) as u32 } else { 0 };
    let unused = dice.below(2) as u32;
    match dice.pick(&[1u32, 4, 6]) {
        1 => b.push([1, bound - 1 + dice.below(3) as u32, 0, unused]),
        4 => b.extend([[4, a, at + 2, unused], [0, 1, 0, 0], [1, bound, 0, 0]]),
        _ => b.extend([[6, a, at + 2, at + 3], [0, 1, 0, 0], [1, 3, 0, 0], [1, bound + dice.below(3) as u32, 0, 0]]),
    }
    assemble(&[0], &[b])
}

/// Recursion about as deep as there are frames: f(n) = n = 0 ? 0 : n + f(n - 1), or the same with f(n - 1) in a fork.
fn deep_recursion(dice: &mut Dice, j: &mut Input) -> Vec<u32> {
    let body: Vec<[u32; 4]> = if dice.one_in(2) {
        vec![
            [3, 0, 2, 9], [1, 0, 0, 0], [6, 0, 7, 8], [5, 1, 0, 0], [2, 1, 6, 0], [1, 0, 0, 0], [0, 1, 0, 0],
            [1, 0, 0, 0], [1, 1, 0, 0], [0, 0, 0, 0],
        ]
    } else {
        vec![[3, 0, 2, 8], [1, 0, 0, 0], [2, 0, 4, 0], [1, 0, 0, 0], [5, 1, 0, 0], [2, 1, 7, 0], [1, 0, 0, 0], [0, 1, 0, 0], [0, 0, 0, 0]]
    };
    j.fuel = dice.pick(&[100_000, 100_000, 20_000]);
    j.workspace = 32 * dice.pick(&[64, 1_000, 4_090, 4_095, 4_096, 4_096]);
    let depth = dice.pick(&[10u32, 100, 1_000, 4_090, 4_095, 4_096]);
    assemble(&[0, 1], &[vec![[5, 1, 0, 0], [0, depth, 0, 0]], body])
}

/// Tables at the reader's limits, and runs at the limit of the frames.
pub fn edges(dice: &mut Dice) -> Input {
    let mut j = well_formed(dice);
    j.args = vec![];
    j.table = match dice.below(6) {
        0 => many_functions(dice),
        1 => many_nodes(dice),
        2 => wrapping_counts(dice),
        3 => chain_end(dice),
        4 => many_locals(dice),
        _ => deep_recursion(dice, &mut j),
    };
    j
}

/// A job of any kind, most of them well-formed.
pub fn any(dice: &mut Dice) -> (&'static str, Input) {
    match dice.below(20) {
        0..=2 => ("mutated", mutated(dice)),
        3 => ("cut", cut(dice)),
        4 => ("deep", deep(dice)),
        5 => ("raw", raw(dice)),
        6 => ("settings", settings_out(dice)),
        7 => ("edges", edges(dice)),
        _ => ("well-formed", well_formed(dice)),
    }
}
