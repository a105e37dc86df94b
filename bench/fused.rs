//! What the interpreter makes at once with `FUSED`: transitions that are certain once the fuel, the frames and the next promotion allow them.
//!
//! A leaf is a constant or a local. A pair is an arithmetic of two leaves. A spine is any other arithmetic whose left operand is a leaf, a
//! pair or a spine, and whose right operand is a leaf or a pair. All these are flat. Arithmetic, choose, let and call with flat operands
//! are made at once, writing no frame, and so is the return of a left value to an arithmetic whose right operand is a leaf. What does not
//! fit, or has no value, is made one transition at a time, so that every stop is where it is.

use crate::decode::{Node, Tag};
use crate::fast::{operate, Run};

fn flat(node: &Node) -> bool {
    matches!(node.tag, Tag::Constant | Tag::Local | Tag::Pair | Tag::Spine)
}

/// Marks the nodes that are made at once, with their transitions and frames. Operands stand after their node.
pub fn fuse(nodes: &mut [Node]) {
    for at in (0..nodes.len()).rev() {
        let node = nodes[at];
        let (tag, count) = match node.tag {
            Tag::Constant | Tag::Local => {
                nodes[at].cost = 1;
                continue;
            }
            Tag::Arithmetic => (Tag::Spine, 2),
            Tag::Choose => (Tag::FlatChoose, 1),
            Tag::Let => (Tag::FlatLet, 1),
            Tag::Call => (Tag::FlatCall, node.arity as usize),
            _ => continue,
        };
        let places = [at + 1, node.second as usize, node.third as usize];
        let operands = || places[..count].iter().map(|&place| &nodes[place]);
        if !operands().all(flat) || tag == Tag::Spine && nodes[places[1]].tag == Tag::Spine {
            continue;
        }
        // one transition opens the frame, and one takes each operand's value
        let cost = operands().fold(1, |sum, operand| sum + operand.cost + 1);
        let height = operands().fold(0, |most, operand| operand.height.max(most)) + 1;
        let leaves = operands().all(|operand| operand.cost == 1);
        let tag = if tag == Tag::Spine && leaves { Tag::Pair } else { tag };
        nodes[at] = Node { tag, cost, height, ..node };
    }
}

/// Reads flat operands.
#[derive(Clone, Copy)]
struct Operands<'r> {
    nodes: &'r [Node],
    locals: &'r [u64],
    base: usize,
}

impl Operands<'_> {
    #[inline(always)]
    fn leaf(&self, node: &Node) -> u64 {
        if node.tag == Tag::Constant { node.value } else { self.locals[self.base + node.value as usize] }
    }

    #[inline(always)]
    fn pair(&self, at: usize) -> Option<u64> {
        let [node, left, right]: &[Node; 3] = self.nodes[at..at + 3].try_into().unwrap();
        operate(node.operation, self.leaf(left), self.leaf(right))
    }

    #[inline(always)]
    fn leaf_or_pair(&self, at: usize) -> Option<u64> {
        let node = &self.nodes[at];
        if node.cost == 1 { Some(self.leaf(node)) } else { self.pair(at) }
    }

    #[inline(always)]
    fn flat(&self, at: usize) -> Option<u64> {
        match self.nodes[at].tag {
            Tag::Spine => spine(self.nodes, self.locals, self.base, at),
            _ => self.leaf_or_pair(at),
        }
    }
}

/// Goes down the left operands, and computes on the way back. Seldom and long, it stays a function of its own.
#[inline(never)]
fn spine(nodes: &[Node], locals: &[u64], base: usize, at: usize) -> Option<u64> {
    let operands = Operands { nodes, locals, base };
    let mut below = at;
    while nodes[below].tag == Tag::Spine {
        below += 1;
    }
    let mut value = operands.leaf_or_pair(below)?;
    while below > at {
        below -= 1;
        let node = &nodes[below];
        value = operate(node.operation, value, operands.leaf_or_pair(node.second as usize)?)?;
    }
    Some(value)
}

/// Where transitions that are made at once lead: to a value, or to the node in hand.
pub enum Reached {
    Value(u64),
    Node,
}

impl<const BIRTH: bool, const BEAT: bool, const FUSED: bool> Run<'_, BIRTH, BEAT, FUSED> {
    #[inline(always)]
    fn operands(&self) -> Operands<'_> {
        Operands { nodes: self.nodes, locals: self.locals, base: self.base }
    }

    /// Whether the fuel, the next promotion and the frames allow a node's transitions.
    #[inline(always)]
    fn fits(&self, node: &Node) -> Option<()> {
        (self.made + node.cost as u64 <= self.limit && self.depth + node.height as usize <= self.frames.len()).then_some(())
    }

    /// Makes the transitions of the node in hand at once, if it is such a node and they fit and have values; else nothing.
    #[inline(always)]
    pub fn at_once(&mut self, node: &Node) -> Option<Reached> {
        let reached = match node.tag {
            Tag::Pair => {
                self.fits(node)?;
                Reached::Value(self.operands().pair(self.at)?)
            }
            Tag::Spine => {
                self.fits(node)?;
                Reached::Value(spine(self.nodes, self.locals, self.base, self.at)?)
            }
            Tag::FlatChoose => {
                self.fits(node)?;
                let condition = self.operands().flat(self.at + 1)?;
                self.at = if condition != 0 { node.second } else { node.third } as usize;
                Reached::Node
            }
            Tag::FlatLet => {
                self.fits(node)?;
                self.locals[self.base + node.bound as usize] = self.operands().flat(self.at + 1)?;
                self.at = node.second as usize;
                Reached::Node
            }
            Tag::FlatCall => {
                self.fits(node)?;
                self.call(node)?;
                Reached::Node
            }
            _ => return None,
        };
        self.made += node.cost as u64;
        Some(reached)
    }

    /// Goes to the called body with the values of flat arguments.
    #[inline(always)]
    fn call(&mut self, node: &Node) -> Option<()> {
        let operands = self.operands();
        let x = operands.flat(self.at + 1)?;
        let y = if node.arity > 1 { operands.flat(node.second as usize)? } else { 0 };
        let z = if node.arity > 2 { operands.flat(node.third as usize)? } else { 0 };
        self.base = self.above();
        self.at = node.root as usize;
        self.bind([x, y, z]);
        Some(())
    }

    /// The result of an arithmetic whose left value returns and whose right operand is a leaf, three transitions on.
    #[inline(always)]
    pub fn with_leaf(&mut self, base: usize, node: &Node, left: u64) -> Option<u64> {
        let right = &self.nodes[node.second as usize];
        if right.cost != 1 || self.made + 3 > self.limit {
            return None;
        }
        let right = Operands { base, ..self.operands() }.leaf(right);
        let result = operate(node.operation, left, right)?;
        self.made += 3;
        Some(result)
    }
}
