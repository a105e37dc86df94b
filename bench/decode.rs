//! Reads a table: checks it (refusals 1 to 6 and 16 to 18) and decodes it in the same walk into one array of nodes with absolute positions.

#[derive(Clone, Copy, PartialEq)]
#[repr(u8)]
pub enum Tag {
    Constant,
    Local,
    Arithmetic,
    Choose,
    Let,
    Call,
    CallOfNone, // a call of arity 0
    Both,
    // set by `fused::fuse` alone; `fused` says what they mean
    Pair,
    Spine,
    FlatChoose,
    FlatLet,
    FlatCall,
}

#[derive(Clone, Copy)]
#[repr(u8)]
pub enum Operation {
    Add,
    Subtract,
    Multiply,
    Divide,
    Remainder,
    Less,
    Equal,
}

/// A node: `second` and `third` are positions in the array of all nodes, and so is `root`, the called body's.
#[derive(Clone, Copy)]
pub struct Node {
    pub tag: Tag,
    pub operation: Operation,
    pub bound: u8,
    pub arity: u8,
    pub second: u32,
    pub third: u32,
    pub root: u32,
    pub value: u64,  // a constant's value, or a local's slot
    pub cost: u16,   // transitions that are made at once, or 0
    pub height: u16, // frames that they take
}

/// A body that is read: its words, where its nodes begin in the array of all nodes, and the contents of the table.
struct Reader<'t> {
    words: &'t [u32],
    contents: &'t [u32],
    first: u32,
}

fn operation(word: u32) -> Result<Operation, u64> {
    Ok(match word {
        0 => Operation::Add,
        1 => Operation::Subtract,
        2 => Operation::Multiply,
        3 => Operation::Divide,
        4 => Operation::Remainder,
        5 => Operation::Less,
        6 => Operation::Equal,
        _ => return Err(4),
    })
}

impl Reader<'_> {
    /// A call's tag, its arity and whether the words that it does not use are 0.
    #[inline(always)]
    fn call(&self, [_, callee, b, c]: [u32; 4]) -> Result<(Tag, u8, bool), u64> {
        let arity = *self.contents.get(2 * callee as usize).ok_or(4u64)?;
        let tag = if arity == 0 { Tag::CallOfNone } else { Tag::Call };
        let clear = match arity {
            0 | 1 => b | c == 0,
            2 => c == 0,
            _ => true,
        };
        Ok((tag, arity as u8, clear))
    }

    /// Checks a node's own words, and decodes it: the node and how many children it has. A call's `root` is still the function.
    #[inline(always)]
    fn node(&self, at: usize, bound: usize, level: usize) -> Result<(Node, usize), u64> {
        let words: &[u32; 4] = self.words[4 * at..4 * at + 4].try_into().unwrap();
        let [tag, a, b, c] = *words;
        let (second, third) = (self.first.wrapping_add(b), self.first.wrapping_add(c));
        let plain = Node { tag: Tag::Constant, operation: Operation::Add, bound: bound as u8, arity: 0, second, third, root: 0, value: 0, cost: 0, height: 0 };
        let (node, clear, in_bound, children) = match tag {
            0 => (Node { value: a as u64 | (b as u64) << 32, ..plain }, c == 0, true, 0),
            1 => (Node { tag: Tag::Local, value: a as u64, ..plain }, b | c == 0, (a as usize) < bound, 0),
            2 => (Node { tag: Tag::Arithmetic, operation: operation(a)?, ..plain }, c == 0, true, 2),
            3 => (Node { tag: Tag::Choose, ..plain }, a == 0, true, 3),
            4 => (Node { tag: Tag::Let, ..plain }, a | c == 0, bound < 16, 2),
            5 => {
                let (tag, arity, clear) = self.call(*words)?;
                (Node { tag, arity, root: a, ..plain }, clear, true, arity as usize)
            }
            6 => (Node { tag: Tag::Both, ..plain }, a == 0, bound < 15, 3),
            _ => return Err(4),
        };
        match (clear, in_bound, level <= 64) {
            (false, _, _) => Err(16),
            (_, false, _) => Err(5),
            (_, _, false) => Err(6),
            _ => Ok((node, children)),
        }
    }

    /// The position after the subtree, or its fault: the number and the node.
    fn walk(&self, nodes: &mut Vec<Node>, roots: &[u32], at: usize, bound: usize, level: usize) -> Result<usize, (u64, usize)> {
        if 4 * at >= self.words.len() {
            return Err((18, at));
        }
        let (mut node, children) = self.node(at, bound, level).map_err(|number| (number, at))?;
        node.root = roots[node.root as usize & 63];
        let extra = match node.tag {
            Tag::Let => 1,
            Tag::Both => 2,
            _ => 0,
        };
        let (second, third) = (node.second.wrapping_sub(self.first) as usize, node.third.wrapping_sub(self.first) as usize);
        nodes.push(node);
        if children == 0 {
            return Ok(at + 1);
        }
        let end = self.walk(nodes, roots, at + 1, bound, level + 1)?;
        if children == 1 {
            return Ok(end);
        }
        if end != second {
            return Err((17, at));
        }
        if children == 2 {
            return self.walk(nodes, roots, second, bound + extra, level + 1);
        }
        let end = self.walk(nodes, roots, second, bound, level + 1)?;
        if end != third {
            return Err((17, at));
        }
        self.walk(nodes, roots, third, bound + extra, level + 1)
    }
}

/// The nodes of all bodies, one body after the other, and where each begins.
pub struct Decoded {
    pub nodes: Vec<Node>,
    roots: Vec<u32>,
}

impl Decoded {
    pub fn new() -> Self {
        Decoded { nodes: Vec::with_capacity(4_000), roots: Vec::with_capacity(64) }
    }

    /// Refusals 1 to 6 and 16 to 18, as number, function and node; the decoded nodes are left in `nodes`.
    pub fn read(&mut self, words: &[u32]) -> Result<(), [u64; 3]> {
        let functions = *words.first().ok_or([1, 0, 0])? as usize;
        if functions < 1 || functions > 64 || words.len() < 1 + 2 * functions {
            return Err([1, 0, 0]);
        }
        let (contents, bodies) = words[1..].split_at(2 * functions);
        if bodies.len() != 4 * self.places(contents)? {
            return Err([3, 0, 0]);
        }
        self.bodies(contents, bodies)
    }

    /// Places the bodies one after the other; how many nodes they have together.
    fn places(&mut self, contents: &[u32]) -> Result<usize, [u64; 3]> {
        self.roots.clear();
        self.roots.resize(64, 0);
        let mut sum = 0;
        for (f, entry) in contents.chunks_exact(2).enumerate() {
            self.roots[f] = sum as u32;
            sum += entry[1] as usize;
            if entry[0] > 3 || entry[1] < 1 || sum > 4_000 {
                return Err([2, f as u64, 0]);
            }
        }
        Ok(sum)
    }

    fn bodies(&mut self, contents: &[u32], mut rest: &[u32]) -> Result<(), [u64; 3]> {
        self.nodes.clear();
        for (f, entry) in contents.chunks_exact(2).enumerate() {
            let (body, after) = rest.split_at(4 * entry[1] as usize);
            let reader = Reader { words: body, contents, first: self.roots[f] };
            let told = |number, node: usize| [number, f as u64, node as u64];
            let end = reader.walk(&mut self.nodes, &self.roots, 0, entry[0] as usize, 1).map_err(|(number, node)| told(number, node))?;
            if end != entry[1] as usize {
                return Err(told(18, end));
            }
            rest = after;
        }
        Ok(())
    }

    /// The function and the node of a position in the array of all nodes.
    pub fn place(&self, functions: usize, node: u32) -> (u64, u64) {
        let f = self.roots[..functions].partition_point(|&root| root <= node) - 1;
        (f as u64, (node - self.roots[f]) as u64)
    }
}
