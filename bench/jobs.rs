//! The jobs of the benchmark. A table is written from trees, so that no position is counted by hand.

pub enum Tree {
    Number(u64),
    Local(u32),
    Operate(u32, Box<Tree>, Box<Tree>),
    Choose(Box<Tree>, Box<Tree>, Box<Tree>),
    Let(Box<Tree>, Box<Tree>),
    Call(u32, Vec<Tree>),
    Both(Box<Tree>, Box<Tree>, Box<Tree>),
}
use Tree::*;

fn operate(operation: u32, left: Tree, right: Tree) -> Tree {
    Operate(operation, Box::new(left), Box::new(right))
}
fn add(left: Tree, right: Tree) -> Tree {
    operate(0, left, right)
}
fn subtract(left: Tree, right: Tree) -> Tree {
    operate(1, left, right)
}
fn multiply(left: Tree, right: Tree) -> Tree {
    operate(2, left, right)
}
fn divide(left: Tree, right: Tree) -> Tree {
    operate(3, left, right)
}
fn remainder(left: Tree, right: Tree) -> Tree {
    operate(4, left, right)
}
fn less(left: Tree, right: Tree) -> Tree {
    operate(5, left, right)
}
fn choose(condition: Tree, yes: Tree, no: Tree) -> Tree {
    Choose(Box::new(condition), Box::new(yes), Box::new(no))
}
fn bind(first: Tree, second: Tree) -> Tree {
    Let(Box::new(first), Box::new(second))
}
fn both(left: Tree, right: Tree, body: Tree) -> Tree {
    Both(Box::new(left), Box::new(right), Box::new(body))
}

/// Writes a tree in preorder.
fn write(tree: &Tree, body: &mut Vec<[u32; 4]>) {
    let at = body.len();
    let (words, children): ([u32; 4], Vec<&Tree>) = match tree {
        Number(v) => ([0, *v as u32, (*v >> 32) as u32, 0], vec![]),
        Local(slot) => ([1, *slot, 0, 0], vec![]),
        Operate(operation, x, y) => ([2, *operation, 0, 0], vec![x, y]),
        Choose(x, y, z) => ([3, 0, 0, 0], vec![x, y, z]),
        Let(x, y) => ([4, 0, 0, 0], vec![x, y]),
        Call(f, arguments) => ([5, *f, 0, 0], arguments.iter().collect()),
        Both(x, y, z) => ([6, 0, 0, 0], vec![x, y, z]),
    };
    body.push(words);
    for (i, child) in children.into_iter().enumerate() {
        if i > 0 {
            body[at][i + 1] = body.len() as u32;
        }
        write(child, body);
    }
}

/// The words of a table, from the arity and the body of each function.
fn table(functions: &[(u32, Tree)]) -> Vec<u32> {
    let mut contents = vec![functions.len() as u32];
    let mut bodies = vec![];
    for (arity, tree) in functions {
        let mut body = vec![];
        write(tree, &mut body);
        contents.extend([*arity, body.len() as u32]);
        bodies.extend(body.concat());
    }
    contents.extend(bodies);
    contents
}

pub struct Job {
    pub name: &'static str,
    pub table: Vec<u32>,
    pub args: Vec<u64>,
    pub fuel: u64,
    pub period: u64,
    pub tau: u64,
}

fn job(name: &'static str, period: u64, args: &[u64], functions: &[(u32, Tree)]) -> Job {
    Job { name, table: table(functions), args: args.to_vec(), fuel: 100_000_000, period, tau: 50 }
}

/// f(n) = n where n < 2, else f(n - 1) and f(n - 2) as a fork, added.
pub fn fibonacci(n: u64) -> Job {
    let again = |less| Call(0, vec![subtract(Local(0), Number(less))]);
    let body = choose(less(Local(0), Number(2)), Local(0), both(again(1), again(2), add(Local(1), Local(2))));
    job("fibonacci", 1_000, &[n], &[(1, body)])
}

/// The sum of the numbers from low to below high: a leaf, or the two halves as a fork.
fn range_sum(high: u64) -> Job {
    let halves = both(
        Call(0, vec![Local(0), Local(2)]),
        Call(0, vec![Local(2), Local(1)]),
        add(Local(3), Local(4)),
    );
    let split = bind(divide(add(Local(0), Local(1)), Number(2)), halves);
    let body = choose(less(subtract(Local(1), Local(0)), Number(2)), Local(0), split);
    job("range sum", 1_000, &[0, high], &[(2, body)])
}

/// A loop whose round is a chain of eight lets, each of a call of one, two or three arguments.
fn lets_and_calls(rounds: u64) -> Job {
    let next = Call(0, vec![subtract(Local(0), Number(1)), Local(9)]);
    let mut chain = next;
    for slot in (2..10u32).rev() {
        let first = match slot % 3 {
            0 => Call(1, vec![Local(slot - 1)]),
            1 => Call(2, vec![Local(slot - 1), Local(1)]),
            _ => Call(3, vec![Local(slot - 1), Local(0), Local(1)]),
        };
        chain = bind(first, chain);
    }
    let body = choose(Local(0), chain, Local(1));
    let one = remainder(Local(0), Number(1_000_003));
    let two = Call(1, vec![add(Local(0), Local(1))]);
    let three = Call(2, vec![add(Local(0), Local(1)), Local(2)]);
    job("lets and calls", 1_000, &[rounds, 7], &[(2, body), (1, one), (2, two), (3, three)])
}

/// Goes down `depth` frames, each an addition that waits for its right operand, and loops at the bottom: nothing can be promoted.
pub fn deep_plain(depth: u64, rounds: u64) -> Job {
    let down = add(Number(1), Call(0, vec![subtract(Local(0), Number(1)), Local(1)]));
    let body = choose(Local(0), down, Call(1, vec![Local(1), Number(0)]));
    let round = choose(Local(0), Call(1, vec![subtract(Local(0), Number(1)), add(Local(1), Number(3))]), Local(1));
    job("deep, nothing to promote", 10, &[depth, rounds], &[(2, body), (2, round)])
}

/// Goes down `depth` forks, each waiting for its left branch, and up again, so many times.
fn deep_forks(depth: u64, times: u64) -> Job {
    let again = bind(Call(1, vec![Local(0)]), Call(0, vec![Local(0), subtract(Local(1), Number(1)), add(Local(2), Local(3))]));
    let body = choose(Local(1), again, Local(2));
    let down = both(Call(1, vec![subtract(Local(0), Number(1))]), Number(1), add(Local(1), Local(2)));
    let round = choose(Local(0), down, Number(0));
    job("deep plain forks", 1_000, &[depth, times, 0], &[(3, body), (1, round)])
}

/// A loop of multiplications, divisions and remainders.
fn arithmetic(rounds: u64) -> Job {
    let scrambled = remainder(add(multiply(Local(1), Number(1_103_515_245)), Number(12_345)), Number(2_147_483_647));
    let mixed = add(multiply(divide(Local(2), Number(127)), remainder(Local(2), Number(8_191))), multiply(Local(2), Local(2)));
    let next = Call(0, vec![subtract(Local(0), Number(1)), remainder(Local(3), Number(1_000_000_007))]);
    let body = choose(Local(0), bind(scrambled, bind(mixed, next)), Local(1));
    job("arithmetic", 1_000, &[rounds, 1], &[(2, body)])
}

/// The six.
pub fn six() -> Vec<Job> {
    vec![fibonacci(27), range_sum(1 << 19), lets_and_calls(60_000), deep_plain(4_000, 800_000), deep_forks(4_000, 200), arithmetic(400_000)]
}

/// f(n) = n where n < 2, else f(n - 1) + f(n - 2), without a fork.
fn fibonacci_by_add(n: u64) -> Job {
    let again = |less| Call(0, vec![subtract(Local(0), Number(less))]);
    let body = choose(less(Local(0), Number(2)), Local(0), add(again(1), again(2)));
    job("fibonacci by add", 1_000, &[n], &[(1, body)])
}

/// Counts down with the next count as the only argument: a loop of so many rounds. Functions 1 and up are given.
fn countdown(name: &'static str, rounds: u64, next: Tree, others: Vec<(u32, Tree)>) -> Job {
    let body = choose(Local(0), next, Number(0));
    let functions: Vec<(u32, Tree)> = std::iter::once((1, body)).chain(others).collect();
    job(name, 1_000, &[rounds], &functions)
}

/// Calls itself with the count less a tree.
fn less_by(tree: Tree) -> Tree {
    Call(0, vec![subtract(Local(0), tree)])
}

/// Calls of arity 0, as operands.
fn arity_0(rounds: u64) -> Job {
    let one = add(Call(1, vec![]), Call(2, vec![]));
    countdown("arity 0", rounds, less_by(one), vec![(0, Number(1)), (0, Number(0))])
}

/// Twelve additions nested on the left: six with a constant as right operand, and above them six with a call.
fn left_nested_calls(rounds: u64) -> Job {
    let constants = (0..6).fold(Local(0), |tree, _| add(tree, Number(0)));
    let calls = (0..6).fold(constants, |tree, _| add(tree, Call(1, vec![Number(0)])));
    countdown("left-nested calls", rounds, Call(0, vec![subtract(calls, Number(1))]), vec![(1, Local(0))])
}

/// Ten additions nested on the right above a tree of value 1.
fn right_nested(innermost: Tree) -> Tree {
    (0..10).fold(innermost, |tree, _| add(Number(0), tree))
}

fn right_nested_leaf(rounds: u64) -> Job {
    countdown("right-nested", rounds, less_by(right_nested(Number(1))), vec![])
}

fn right_nested_call(rounds: u64) -> Job {
    countdown("right-nested call", rounds, less_by(right_nested(Call(1, vec![Number(1)]))), vec![(1, Local(0))])
}

/// Fifteen nested lets of calls, so that sixteen locals are bound.
fn sixteen_locals(rounds: u64) -> Job {
    let chain = (1..16).rev().fold(less_by(Number(1)), |rest, slot| bind(Call(1, vec![add(Local(slot - 1), Number(1))]), rest));
    countdown("sixteen locals", rounds, chain, vec![(1, Local(0))])
}

/// Choose nodes as operands of an addition.
fn choose_operands(rounds: u64) -> Job {
    let sign = || choose(less(Local(0), Number(5)), Number(1), Number(2));
    countdown("choose as operands", rounds, bind(add(sign(), sign()), less_by(Number(1))), vec![])
}

/// Fibonacci with a small N, so that most forks are promoted.
pub fn small_periods() -> Vec<Job> {
    let named = [("fibonacci, N 1", 1), ("fibonacci, N 5", 5), ("fibonacci, N 20", 20)];
    named.map(|(name, period)| Job { name, period, ..fibonacci(25) }).into()
}

/// The ten further: forms that the six have not, or seldom. The small periods are the last of them.
pub fn further() -> Vec<Job> {
    let mut all = vec![
        fibonacci_by_add(25),
        arity_0(600_000),
        left_nested_calls(100_000),
        right_nested_leaf(200_000),
        right_nested_call(200_000),
        sixteen_locals(30_000),
        choose_operands(400_000),
    ];
    all.extend(small_periods());
    all
}

/// A tree of exactly n nodes that uses every tag, for the largest table.
fn filled(n: usize, bound: u32, turn: usize) -> Tree {
    if n == 1 {
        return if bound > 0 && turn % 2 == 0 { Local(turn as u32 % bound) } else { Number(turn as u64) };
    }
    let part = |i: usize, of: usize| (n - 1) / of + (i < (n - 1) % of) as usize;
    let child = |i: usize, of: usize, bound: u32| filled(part(i, of), bound, turn + 1 + i);
    match (n, turn % 6) {
        (2, _) => Call(1, vec![child(0, 1, bound)]),
        (3, 0 | 1) => operate(turn as u32 % 7, child(0, 2, bound), child(1, 2, bound)),
        (3, 2 | 3) => Call(2, vec![child(0, 2, bound), child(1, 2, bound)]),
        (3, _) => bind(child(0, 2, bound), child(1, 2, bound + 1)),
        (_, 0) => choose(child(0, 3, bound), child(1, 3, bound), child(2, 3, bound)),
        (_, 1) => both(child(0, 3, bound), child(1, 3, bound), child(2, 3, bound + 2)),
        (_, 2) => Call(3, (0..3).map(|i| child(i, 3, bound)).collect()),
        (_, 3) => bind(child(0, 2, bound), child(1, 2, bound + 1)),
        _ => operate(turn as u32 % 7, child(0, 2, bound), child(1, 2, bound)),
    }
}

/// 64 functions with 4,000 nodes.
pub fn largest_table() -> Vec<u32> {
    let functions: Vec<(u32, Tree)> = (0..64).map(|f| (f % 4, filled(if f < 32 { 62 } else { 63 }, f % 4, f as usize))).collect();
    table(&functions)
}
