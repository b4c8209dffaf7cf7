//! A problem as it is lent to the port, the same problem as the Rust takes it, and the two calls.
use kernel::blast_kernel::DagNode as D;
use kernel::echo_kernel::EchoError;
use kernel::sliver_kernel::ExtNode;

/// Kinds by number.
#[allow(dead_code)]
pub mod kind {
    pub const VAR: u8 = 0;
    pub const CONST: u8 = 1;
    pub const ADD: u8 = 2;
    pub const ASHR: u8 = 12;
    pub const EXTRACT: u8 = 14;
    pub const ZERO_EXT: u8 = 16;
    pub const ITE: u8 = 18;
    pub const EQ: u8 = 19;
    pub const BV_NOT: u8 = 32;
    pub const SELECT: u8 = 37;
    pub const CALL: u8 = 38;
}

/// The eighteen inputs of the port: records of 17 bytes, bits as bytes, 64-bit numbers.
#[derive(Clone, Default)]
pub struct Problem {
    pub nodes: Vec<u8>,
    pub bits: Vec<u8>,
    pub side: Vec<u64>,
    pub roots: Vec<u64>,
    pub names: Vec<u8>,
    pub name_start: Vec<u64>,
    pub name_len: Vec<u64>,
    pub var_node: Vec<u64>,
    pub var_width: Vec<u64>,
    pub anames: Vec<u8>,
    pub aname_start: Vec<u64>,
    pub aname_len: Vec<u64>,
    pub index_width: Vec<u64>,
    pub value_width: Vec<u64>,
    pub fnames: Vec<u8>,
    pub fname_start: Vec<u64>,
    pub fname_len: Vec<u64>,
    pub func_width: Vec<u64>,
}

impl Problem {
    /// Adds a node and answers its number.
    pub fn node(&mut self, kind: u8, operands: &[u32]) -> u32 {
        let at = self.count();
        self.nodes.push(kind);
        for k in 0..4 {
            self.nodes.extend_from_slice(&operands.get(k).copied().unwrap_or(0).to_le_bytes());
        }
        at as u32
    }
    pub fn count(&self) -> usize {
        self.nodes.len() / 17
    }
    /// How many more nodes fit.
    pub fn left(&self) -> usize {
        2048 - self.count()
    }
    pub fn var(&mut self, name: &[u8], width: u32) -> u32 {
        let start = self.names.len() as u64;
        self.names.extend_from_slice(name);
        self.var_at(start, name.len() as u64, width)
    }
    /// A variable whose name is a part of the arena as it stands.
    pub fn var_at(&mut self, start: u64, len: u64, width: u32) -> u32 {
        let i = self.node(kind::VAR, &[width]);
        self.name_start.push(start);
        self.name_len.push(len);
        self.var_node.push(u64::from(i));
        self.var_width.push(u64::from(width));
        i
    }
    pub fn constant(&mut self, width: u32, seed: u64) -> u32 {
        let start = self.bits.len() as u32;
        let mut x = seed | 1;
        for _ in 0..width {
            x ^= x << 13;
            x ^= x >> 7;
            x ^= x << 17;
            self.bits.push((x >> 32) as u8 & 1);
        }
        self.node(kind::CONST, &[start, width])
    }
    pub fn array(&mut self, name: &[u8]) -> u32 {
        self.aname_start.push(self.anames.len() as u64);
        self.aname_len.push(name.len() as u64);
        self.anames.extend_from_slice(name);
        // the Rust's widths
        self.index_width.push(32);
        self.value_width.push(8);
        self.aname_start.len() as u32 - 1
    }
    pub fn func(&mut self, name: &[u8], width: u32) -> u32 {
        self.fname_start.push(self.fnames.len() as u64);
        self.fname_len.push(name.len() as u64);
        self.fnames.extend_from_slice(name);
        self.func_width.push(u64::from(width));
        self.fname_start.len() as u32 - 1
    }
    /// A call whose arguments are new side entries.
    pub fn call(&mut self, func: u32, width: u32, arguments: &[u32]) -> u32 {
        let start = self.entries(arguments);
        self.node(kind::CALL, &[func, width, start, arguments.len() as u32])
    }
    /// A select whose stores (index, value, index, value, ..) are new side entries.
    pub fn select(&mut self, array: u32, index: u32, stores: &[u32]) -> u32 {
        let start = self.entries(stores);
        self.node(kind::SELECT, &[array, index, start, stores.len() as u32 / 2])
    }
    /// Adds side entries and answers where they start.
    pub fn entries(&mut self, entries: &[u32]) -> u32 {
        let start = self.side.len() as u32;
        self.side.extend(entries.iter().map(|x| u64::from(*x)));
        start
    }
    pub fn root(&mut self, i: u32) {
        self.roots.push(u64::from(i));
    }
    /// The root `(= a b)`.
    pub fn root_eq(&mut self, a: u32, b: u32) {
        let e = self.node(kind::EQ, &[a, b]);
        self.root(e);
    }
}

/// The same problem as the Rust takes it: nodes decoded, bits as `bool`, numbers as `usize`. Made before any timing.
pub struct Decoded {
    nodes: Vec<ExtNode>,
    bits: Vec<bool>,
    numbers: [Vec<usize>; 11],
    names: [Vec<u8>; 3],
}

fn core(k: u8, a: usize, b: usize, c: usize) -> D {
    const TWO: [(u8, fn(usize, usize) -> D); 31] = [
        (1, D::Const),
        (2, D::Add),
        (3, D::Sub),
        (4, D::Mul),
        (5, D::Udiv),
        (6, D::Urem),
        (7, D::And),
        (8, D::Or),
        (9, D::Xor),
        (10, D::Shl),
        (11, D::Lshr),
        (12, D::Ashr),
        (13, D::Rotr),
        (15, D::Concat),
        (16, D::ZeroExt),
        (17, D::SignExt),
        (19, D::Eq),
        (20, D::Ne),
        (21, D::Ult),
        (22, D::Ule),
        (23, D::Ugt),
        (24, D::Uge),
        (25, D::Slt),
        (26, D::Sle),
        (27, D::Sgt),
        (28, D::Sge),
        (30, D::BoolAnd),
        (31, D::BoolOr),
        (34, D::Rotl),
        (35, D::Sdiv),
        (36, D::Srem),
    ];
    match k {
        0 => D::Var(a),
        14 => D::Extract(a, b, c),
        18 => D::Ite(a, b, c),
        29 => D::Not(a),
        32 => D::BvNot(a),
        33 => D::Neg(a),
        _ => TWO.iter().find(|t| t.0 == k).expect("a kind of the core").1(a, b),
    }
}

impl Decoded {
    pub fn of(p: &Problem) -> Decoded {
        let nodes = p.nodes.chunks_exact(17).map(|r| {
            let [a, b, c, d] = [1, 5, 9, 13].map(|at| u32::from_le_bytes(r[at..at + 4].try_into().unwrap()) as usize);
            match r[0] {
                37 => ExtNode::Select(a, b, c, d),
                38 => ExtNode::Call(a, b, c, d),
                k => ExtNode::Core(core(k, a, b, c)),
            }
        });
        let columns = [
            &p.side,
            &p.roots,
            &p.name_start,
            &p.name_len,
            &p.var_node,
            &p.var_width,
            &p.aname_start,
            &p.aname_len,
            &p.fname_start,
            &p.fname_len,
            &p.func_width,
        ];
        Decoded {
            nodes: nodes.collect(),
            bits: p.bits.iter().map(|b| *b == 1).collect(),
            numbers: columns.map(|c| c.iter().map(|x| *x as usize).collect()),
            names: [p.names.clone(), p.anames.clone(), p.fnames.clone()],
        }
    }
    /// The Rust's printer: it allocates the script that it hands back.
    #[rustfmt::skip]
    pub fn echo(&self) -> Result<Vec<u8>, u64> {
        let [side, roots, ns, nl, vn, vw, ans, anl, fns, fnl, fw] = &self.numbers;
        let [names, anames, fnames] = &self.names;
        kernel::echo_kernel::echo_ext(
            &self.nodes, &self.bits, side, roots, names, ns, nl, vn, vw, anames, ans, anl, fnames, fns, fnl, fw,
        )
        .map_err(|e| match e {
            EchoError::Malformed => 1,
            EchoError::Name => 2,
            EchoError::Sort => 3,
            EchoError::Var => 4,
            EchoError::Rotate => 5,
            EchoError::Shared => 6,
            EchoError::Signature => 7,
        })
    }
    /// The Rust's width pass: it allocates the widths that it hands back.
    pub fn widths(&self) -> Option<Vec<usize>> {
        kernel::sliver_kernel::ext_wf(&self.nodes, self.bits.len(), &self.numbers[0]).ok()
    }
}

/// Number, then length or count.
#[repr(C)]
#[derive(Clone, Copy, PartialEq, Eq, Debug)]
pub struct Answer(pub u64, pub u64);

/// Number, length and terms.
#[repr(C)]
#[derive(Clone, Copy, PartialEq, Eq, Debug)]
pub struct Size(pub u64, pub u64, pub u64);

/// Number, how many positions there are, and the two.
#[repr(C)]
#[derive(Clone, Copy, PartialEq, Eq, Debug)]
pub struct Fewest(pub u64, pub u64, pub u64, pub u64);

/// Number, and how many elements are used of nodes, bits, side entries, roots, and of each table its names and its lines.
#[repr(C)]
#[derive(Clone, Copy, PartialEq, Eq, Debug)]
#[allow(dead_code)]
pub struct Read(pub u64, pub [u64; 10]);

#[rustfmt::skip]
mod port {
    use super::{Answer, Fewest, Read, Size};
    type B = *const u8;
    type N = *const u64;
    type MB = *mut u8;
    type MN = *mut u64;
    type L = usize;
    unsafe extern "C" {
        pub fn read_script(
            script: B, _: L, nodes: MB, _: L, bits: MB, _: L, side: MN, _: L, roots: MN, _: L,
            names: MB, _: L, name_start: MN, _: L, name_len: MN, _: L, var_node: MN, _: L, var_width: MN, _: L,
            anames: MB, _: L, aname_start: MN, _: L, aname_len: MN, _: L, index_width: MN, _: L, value_width: MN, _: L,
            fnames: MB, _: L, fname_start: MN, _: L, fname_len: MN, _: L, func_width: MN, _: L,
        ) -> Read;
        pub fn echo_ext(
            nodes: B, _: L, bits: B, _: L, side: N, _: L, roots: N, _: L,
            names: B, _: L, name_start: N, _: L, name_len: N, _: L, var_node: N, _: L, var_width: N, _: L,
            anames: B, _: L, aname_start: N, _: L, aname_len: N, _: L, index_width: N, _: L, value_width: N, _: L,
            fnames: B, _: L, fname_start: N, _: L, fname_len: N, _: L, func_width: N, _: L,
            out: *mut u8, _: L,
        ) -> Answer;
        pub fn echo_hidden(
            nodes: B, _: L, bits: B, _: L, side: N, _: L, roots: N, _: L,
            names: B, _: L, name_start: N, _: L, name_len: N, _: L, var_node: N, _: L, var_width: N, _: L,
            anames: B, _: L, aname_start: N, _: L, aname_len: N, _: L, index_width: N, _: L, value_width: N, _: L,
            fnames: B, _: L, fname_start: N, _: L, fname_len: N, _: L, func_width: N, _: L,
            out: *mut u8, _: L,
        ) -> Answer;
        pub fn echo_let(
            nodes: B, _: L, bits: B, _: L, side: N, _: L, roots: N, _: L,
            names: B, _: L, name_start: N, _: L, name_len: N, _: L, var_node: N, _: L, var_width: N, _: L,
            anames: B, _: L, aname_start: N, _: L, aname_len: N, _: L, index_width: N, _: L, value_width: N, _: L,
            fnames: B, _: L, fname_start: N, _: L, fname_len: N, _: L, func_width: N, _: L,
            out: *mut u8, _: L,
        ) -> Answer;
        pub fn echo_formulas(
            nodes: B, _: L, bits: B, _: L, side: N, _: L, roots: N, _: L,
            names: B, _: L, name_start: N, _: L, name_len: N, _: L, var_node: N, _: L, var_width: N, _: L,
            anames: B, _: L, aname_start: N, _: L, aname_len: N, _: L, index_width: N, _: L, value_width: N, _: L,
            fnames: B, _: L, fname_start: N, _: L, fname_len: N, _: L, func_width: N, _: L,
            out: *mut u8, _: L,
        ) -> Answer;
        pub fn echo_size(
            nodes: B, _: L, bits: B, _: L, side: N, _: L, roots: N, _: L,
            names: B, _: L, name_start: N, _: L, name_len: N, _: L, var_node: N, _: L, var_width: N, _: L,
            anames: B, _: L, aname_start: N, _: L, aname_len: N, _: L, index_width: N, _: L, value_width: N, _: L,
            fnames: B, _: L, fname_start: N, _: L, fname_len: N, _: L, func_width: N, _: L,
        ) -> Size;
        pub fn fewest_roots(
            nodes: B, _: L, bits: B, _: L, side: N, _: L, roots: N, _: L,
            names: B, _: L, name_start: N, _: L, name_len: N, _: L, var_node: N, _: L, var_width: N, _: L,
            anames: B, _: L, aname_start: N, _: L, aname_len: N, _: L, index_width: N, _: L, value_width: N, _: L,
            fnames: B, _: L, fname_start: N, _: L, fname_len: N, _: L, func_width: N, _: L,
        ) -> Fewest;
        pub fn ext_wf(
            nodes: B, _: L, bits: B, _: L, side: N, _: L, index_width: N, _: L, value_width: N, _: L, out: *mut u64, _: L,
        ) -> Answer;
    }
}

/// The port's printer: it writes to the lent buffer.
#[rustfmt::skip]
pub fn echo(p: &Problem, out: &mut [u8]) -> Answer {
    // Safety: each pair is a slice's, and none overlaps the buffer, which is lent exclusively.
    unsafe {
        port::echo_ext(
            p.nodes.as_ptr(), p.nodes.len(), p.bits.as_ptr(), p.bits.len(),
            p.side.as_ptr(), p.side.len(), p.roots.as_ptr(), p.roots.len(),
            p.names.as_ptr(), p.names.len(), p.name_start.as_ptr(), p.name_start.len(), p.name_len.as_ptr(), p.name_len.len(),
            p.var_node.as_ptr(), p.var_node.len(), p.var_width.as_ptr(), p.var_width.len(),
            p.anames.as_ptr(), p.anames.len(), p.aname_start.as_ptr(), p.aname_start.len(),
            p.aname_len.as_ptr(), p.aname_len.len(),
            p.index_width.as_ptr(), p.index_width.len(), p.value_width.as_ptr(), p.value_width.len(),
            p.fnames.as_ptr(), p.fnames.len(), p.fname_start.as_ptr(), p.fname_start.len(),
            p.fname_len.as_ptr(), p.fname_len.len(), p.func_width.as_ptr(), p.func_width.len(),
            out.as_mut_ptr(), out.len(),
        )
    }
}

/// The same with constants hidden.
#[rustfmt::skip]
#[allow(dead_code)]
pub fn hidden(p: &Problem, out: &mut [u8]) -> Answer {
    // Safety: as above.
    unsafe {
        port::echo_hidden(
            p.nodes.as_ptr(), p.nodes.len(), p.bits.as_ptr(), p.bits.len(),
            p.side.as_ptr(), p.side.len(), p.roots.as_ptr(), p.roots.len(),
            p.names.as_ptr(), p.names.len(), p.name_start.as_ptr(), p.name_start.len(), p.name_len.as_ptr(), p.name_len.len(),
            p.var_node.as_ptr(), p.var_node.len(), p.var_width.as_ptr(), p.var_width.len(),
            p.anames.as_ptr(), p.anames.len(), p.aname_start.as_ptr(), p.aname_start.len(),
            p.aname_len.as_ptr(), p.aname_len.len(),
            p.index_width.as_ptr(), p.index_width.len(), p.value_width.as_ptr(), p.value_width.len(),
            p.fnames.as_ptr(), p.fnames.len(), p.fname_start.as_ptr(), p.fname_start.len(),
            p.fname_len.as_ptr(), p.fname_len.len(), p.func_width.as_ptr(), p.func_width.len(),
            out.as_mut_ptr(), out.len(),
        )
    }
}

/// The same with shared terms bound by `let`.
#[rustfmt::skip]
#[allow(dead_code)]
pub fn lets(p: &Problem, out: &mut [u8]) -> Answer {
    // Safety: as above.
    unsafe {
        port::echo_let(
            p.nodes.as_ptr(), p.nodes.len(), p.bits.as_ptr(), p.bits.len(),
            p.side.as_ptr(), p.side.len(), p.roots.as_ptr(), p.roots.len(),
            p.names.as_ptr(), p.names.len(), p.name_start.as_ptr(), p.name_start.len(), p.name_len.as_ptr(), p.name_len.len(),
            p.var_node.as_ptr(), p.var_node.len(), p.var_width.as_ptr(), p.var_width.len(),
            p.anames.as_ptr(), p.anames.len(), p.aname_start.as_ptr(), p.aname_start.len(),
            p.aname_len.as_ptr(), p.aname_len.len(),
            p.index_width.as_ptr(), p.index_width.len(), p.value_width.as_ptr(), p.value_width.len(),
            p.fnames.as_ptr(), p.fnames.len(), p.fname_start.as_ptr(), p.fname_start.len(),
            p.fname_len.as_ptr(), p.fname_len.len(), p.func_width.as_ptr(), p.func_width.len(),
            out.as_mut_ptr(), out.len(),
        )
    }
}

/// The roots as formulas.
#[rustfmt::skip]
#[allow(dead_code)]
pub fn formulas(p: &Problem, out: &mut [u8]) -> Answer {
    // Safety: as above.
    unsafe {
        port::echo_formulas(
            p.nodes.as_ptr(), p.nodes.len(), p.bits.as_ptr(), p.bits.len(),
            p.side.as_ptr(), p.side.len(), p.roots.as_ptr(), p.roots.len(),
            p.names.as_ptr(), p.names.len(), p.name_start.as_ptr(), p.name_start.len(), p.name_len.as_ptr(), p.name_len.len(),
            p.var_node.as_ptr(), p.var_node.len(), p.var_width.as_ptr(), p.var_width.len(),
            p.anames.as_ptr(), p.anames.len(), p.aname_start.as_ptr(), p.aname_start.len(),
            p.aname_len.as_ptr(), p.aname_len.len(),
            p.index_width.as_ptr(), p.index_width.len(), p.value_width.as_ptr(), p.value_width.len(),
            p.fnames.as_ptr(), p.fnames.len(), p.fname_start.as_ptr(), p.fname_start.len(),
            p.fname_len.as_ptr(), p.fname_len.len(), p.func_width.as_ptr(), p.func_width.len(),
            out.as_mut_ptr(), out.len(),
        )
    }
}

/// What the port tells of the script beforehand.
#[rustfmt::skip]
#[allow(dead_code)]
pub fn size(p: &Problem) -> Size {
    // Safety: as above.
    unsafe {
        port::echo_size(
            p.nodes.as_ptr(), p.nodes.len(), p.bits.as_ptr(), p.bits.len(),
            p.side.as_ptr(), p.side.len(), p.roots.as_ptr(), p.roots.len(),
            p.names.as_ptr(), p.names.len(), p.name_start.as_ptr(), p.name_start.len(), p.name_len.as_ptr(), p.name_len.len(),
            p.var_node.as_ptr(), p.var_node.len(), p.var_width.as_ptr(), p.var_width.len(),
            p.anames.as_ptr(), p.anames.len(), p.aname_start.as_ptr(), p.aname_start.len(),
            p.aname_len.as_ptr(), p.aname_len.len(),
            p.index_width.as_ptr(), p.index_width.len(), p.value_width.as_ptr(), p.value_width.len(),
            p.fnames.as_ptr(), p.fnames.len(), p.fname_start.as_ptr(), p.fname_start.len(),
            p.fname_len.as_ptr(), p.fname_len.len(), p.func_width.as_ptr(), p.func_width.len(),
        )
    }
}

/// The fewest roots that still refuse.
#[rustfmt::skip]
#[allow(dead_code)]
pub fn fewest(p: &Problem) -> Fewest {
    // Safety: as above.
    unsafe {
        port::fewest_roots(
            p.nodes.as_ptr(), p.nodes.len(), p.bits.as_ptr(), p.bits.len(),
            p.side.as_ptr(), p.side.len(), p.roots.as_ptr(), p.roots.len(),
            p.names.as_ptr(), p.names.len(), p.name_start.as_ptr(), p.name_start.len(), p.name_len.as_ptr(), p.name_len.len(),
            p.var_node.as_ptr(), p.var_node.len(), p.var_width.as_ptr(), p.var_width.len(),
            p.anames.as_ptr(), p.anames.len(), p.aname_start.as_ptr(), p.aname_start.len(),
            p.aname_len.as_ptr(), p.aname_len.len(),
            p.index_width.as_ptr(), p.index_width.len(), p.value_width.as_ptr(), p.value_width.len(),
            p.fnames.as_ptr(), p.fnames.len(), p.fname_start.as_ptr(), p.fname_start.len(),
            p.fname_len.as_ptr(), p.fname_len.len(), p.func_width.as_ptr(), p.func_width.len(),
        )
    }
}

/// The port's width pass: it writes to the lent slice.
#[rustfmt::skip]
pub fn widths(p: &Problem, out: &mut [u64]) -> Answer {
    // Safety: as above.
    unsafe {
        port::ext_wf(
            p.nodes.as_ptr(), p.nodes.len(), p.bits.as_ptr(), p.bits.len(), p.side.as_ptr(), p.side.len(),
            p.index_width.as_ptr(), p.index_width.len(), p.value_width.as_ptr(), p.value_width.len(),
            out.as_mut_ptr(), out.len(),
        )
    }
}

/// A problem with as much room as the limits ask for, to read a script into.
#[allow(dead_code)]
pub fn room() -> Problem {
    let (bytes, column) = (vec![0; 16_384], vec![0; 512]);
    Problem {
        nodes: vec![0; 34_816],
        bits: vec![0; 131_072],
        side: vec![0; 8_192],
        roots: vec![0; 256],
        names: bytes.clone(),
        name_start: column.clone(),
        name_len: column.clone(),
        var_node: column.clone(),
        var_width: column.clone(),
        anames: bytes.clone(),
        aname_start: column.clone(),
        aname_len: column.clone(),
        index_width: column.clone(),
        value_width: column.clone(),
        fnames: bytes,
        fname_start: column.clone(),
        fname_len: column.clone(),
        func_width: column,
    }
}

/// The problem without what lies past its parts.
#[allow(dead_code)]
pub fn cut(mut p: Problem, Read(_, sizes): Read) -> Problem {
    let [nodes, bits, side, roots, names, variables, anames, arrays, fnames, functions] = sizes.map(|n| n as usize);
    p.nodes.truncate(nodes);
    p.bits.truncate(bits);
    p.side.truncate(side);
    p.roots.truncate(roots);
    p.names.truncate(names);
    p.anames.truncate(anames);
    p.fnames.truncate(fnames);
    for column in [&mut p.name_start, &mut p.name_len, &mut p.var_node, &mut p.var_width] {
        column.truncate(variables);
    }
    for column in [&mut p.aname_start, &mut p.aname_len, &mut p.index_width, &mut p.value_width] {
        column.truncate(arrays);
    }
    for column in [&mut p.fname_start, &mut p.fname_len, &mut p.func_width] {
        column.truncate(functions);
    }
    p
}

/// A script read back into a problem with room for it.
#[rustfmt::skip]
#[allow(dead_code)]
pub fn read(script: &[u8], p: &mut Problem) -> Read {
    // Safety: each pair is a slice's, and none overlaps another.
    unsafe {
        port::read_script(
            script.as_ptr(), script.len(),
            p.nodes.as_mut_ptr(), p.nodes.len(), p.bits.as_mut_ptr(), p.bits.len(),
            p.side.as_mut_ptr(), p.side.len(), p.roots.as_mut_ptr(), p.roots.len(),
            p.names.as_mut_ptr(), p.names.len(), p.name_start.as_mut_ptr(), p.name_start.len(), p.name_len.as_mut_ptr(), p.name_len.len(),
            p.var_node.as_mut_ptr(), p.var_node.len(), p.var_width.as_mut_ptr(), p.var_width.len(),
            p.anames.as_mut_ptr(), p.anames.len(), p.aname_start.as_mut_ptr(), p.aname_start.len(),
            p.aname_len.as_mut_ptr(), p.aname_len.len(),
            p.index_width.as_mut_ptr(), p.index_width.len(), p.value_width.as_mut_ptr(), p.value_width.len(),
            p.fnames.as_mut_ptr(), p.fnames.len(), p.fname_start.as_mut_ptr(), p.fname_start.len(),
            p.fname_len.as_mut_ptr(), p.fname_len.len(), p.func_width.as_mut_ptr(), p.func_width.len(),
        )
    }
}
