//! A problem, put together node by node.

use smt_echo::{NODE_BYTES, OwnedProblem, kind, node};

/// The number of a node.
pub type Node = u32;

/// A problem that grows. Variables and constants may be used as often as one likes; a term that is used twice is refused, so that what
/// makes a term is a function here, and is called for each use.
#[derive(Default)]
pub struct Build {
    pub problem: OwnedProblem,
}

impl Build {
    fn push(&mut self, kind: u8, operands: [u32; 4]) -> Node {
        self.problem.nodes.extend(node(kind, operands));
        (self.problem.nodes.len() / NODE_BYTES - 1) as Node
    }

    pub fn variable(&mut self, name: &str, width: u32) -> Node {
        let made = self.push(kind::VAR, [width, 0, 0, 0]);
        let p = &mut self.problem;
        named(name, &mut p.names, &mut p.name_start, &mut p.name_len);
        p.var_node.push(made.into());
        p.var_width.push(width.into());
        made
    }

    /// An array's number.
    pub fn array(&mut self, name: &str, index: u64, value: u64) -> u32 {
        let p = &mut self.problem;
        named(name, &mut p.anames, &mut p.aname_start, &mut p.aname_len);
        p.index_width.push(index);
        p.value_width.push(value);
        p.index_width.len() as u32 - 1
    }

    /// A function's number.
    pub fn function(&mut self, name: &str, width: u64) -> u32 {
        let p = &mut self.problem;
        named(name, &mut p.fnames, &mut p.fname_start, &mut p.fname_len);
        p.func_width.push(width);
        p.func_width.len() as u32 - 1
    }

    pub fn constant(&mut self, value: u64, width: u32) -> Node {
        let place = self.problem.bits.len() as u32;
        self.problem.bits.extend((0..width).map(|i| (value >> i & 1) as u8));
        self.push(kind::CONST, [place, width, 0, 0])
    }

    /// A node of a kind with two operands.
    pub fn two(&mut self, kind: u8, a: Node, b: Node) -> Node {
        self.push(kind, [a, b, 0, 0])
    }

    pub fn extract(&mut self, high: u32, low: u32, a: Node) -> Node {
        self.push(kind::EXTRACT, [high, low, a, 0])
    }

    /// `a` with zeros in front, `by` of them.
    pub fn zero_extend(&mut self, a: Node, by: u32) -> Node {
        self.push(kind::ZERO_EXT, [a, by, 0, 0])
    }

    /// `a` with copies of its sign in front, `by` of them.
    pub fn sign_extend(&mut self, a: Node, by: u32) -> Node {
        self.push(kind::SIGN_EXT, [a, by, 0, 0])
    }

    pub fn select(&mut self, array: u32, index: Node) -> Node {
        self.push(kind::SELECT, [array, index, self.problem.side.len() as u32, 0])
    }

    pub fn call(&mut self, function: u32, width: u32, arguments: &[Node]) -> Node {
        let start = self.problem.side.len() as u32;
        self.problem.side.extend(arguments.iter().map(|argument| u64::from(*argument)));
        self.push(kind::CALL, [function, width, start, arguments.len() as u32])
    }

    pub fn assert(&mut self, root: Node) {
        self.problem.roots.push(root.into());
    }
}

fn named(name: &str, arena: &mut Vec<u8>, starts: &mut Vec<u64>, lens: &mut Vec<u64>) {
    starts.push(arena.len() as u64);
    lens.push(name.len() as u64);
    arena.extend(name.bytes());
}
