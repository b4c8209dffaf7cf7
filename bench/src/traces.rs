//! The replay of a trace: the port, the same evaluation in plain Rust over decoded nodes, and the problems that both are asked.
use crate::problem::{Problem, kind};

#[repr(C)]
#[derive(Debug, PartialEq)]
pub struct Answer {
    pub number: u64,
    pub rows: u64,
}

#[rustfmt::skip]
unsafe extern "C" {
    fn replay_trace(
        nodes: *const u8, nodes_len: usize, bits: *const u8, bits_len: usize, side: *const u64, side_len: usize,
        roots: *const u64, roots_len: usize, names: *const u8, names_len: usize, name_start: *const u64, name_start_len: usize,
        name_len: *const u64, name_len_len: usize, var_node: *const u64, var_node_len: usize, var_width: *const u64,
        var_width_len: usize, anames: *const u8, anames_len: usize, aname_start: *const u64, aname_start_len: usize,
        aname_len: *const u64, aname_len_len: usize, index_width: *const u64, index_width_len: usize, value_width: *const u64,
        value_width_len: usize, fnames: *const u8, fnames_len: usize, fname_start: *const u64, fname_start_len: usize,
        fname_len: *const u64, fname_len_len: usize, func_width: *const u64, func_width_len: usize, values: *const u64,
        values_len: usize, masks: *mut u64, masks_len: usize, counts: *mut u64, counts_len: usize,
    ) -> Answer;
}

#[rustfmt::skip]
pub fn replay(p: &Problem, values: &[u64], masks: &mut [u64], counts: &mut [u64]) -> Answer {
    // Safety: the pointers are those of slices, and the outputs overlap nothing.
    unsafe {
        replay_trace(
            p.nodes.as_ptr(), p.nodes.len(), p.bits.as_ptr(), p.bits.len(), p.side.as_ptr(), p.side.len(),
            p.roots.as_ptr(), p.roots.len(), p.names.as_ptr(), p.names.len(), p.name_start.as_ptr(), p.name_start.len(),
            p.name_len.as_ptr(), p.name_len.len(), p.var_node.as_ptr(), p.var_node.len(), p.var_width.as_ptr(),
            p.var_width.len(), p.anames.as_ptr(), p.anames.len(), p.aname_start.as_ptr(), p.aname_start.len(),
            p.aname_len.as_ptr(), p.aname_len.len(), p.index_width.as_ptr(), p.index_width.len(), p.value_width.as_ptr(),
            p.value_width.len(), p.fnames.as_ptr(), p.fnames.len(), p.fname_start.as_ptr(), p.fname_start.len(),
            p.fname_len.as_ptr(), p.fname_len.len(), p.func_width.as_ptr(), p.func_width.len(), values.as_ptr(),
            values.len(), masks.as_mut_ptr(), masks.len(), counts.as_mut_ptr(), counts.len(),
        )
    }
}

// ---------------------------------------------------------------- plain Rust

pub struct Node {
    kind: u8,
    width: u32,
    operands: [u32; 3],
    /// a variable's column, a constant's number, a rotation's amount
    fixed: u64,
}

pub fn decoded(p: &Problem) -> Vec<Node> {
    let mut nodes: Vec<Node> = vec![];
    for (i, r) in p.nodes.chunks(17).enumerate() {
        let o: Vec<u32> = r[1..].chunks(4).map(|b| u32::from_le_bytes(b.try_into().unwrap())).collect();
        let number = |s: u32, w: u32| (0..w.min(64)).map(|k| u64::from(p.bits[(s + k) as usize]) << k).sum::<u64>();
        let (width, fixed) = match r[0] {
            0 => (o[0], p.var_node.iter().position(|n| *n == i as u64).unwrap_or(0) as u64),
            1 => (o[1], number(o[0], o[1])),
            13 | 34 => {
                let w = nodes[o[0] as usize].width;
                (w, nodes[o[1] as usize].fixed % u64::from(w))
            }
            14 => (o[0] - o[1] + 1, 0),
            15 => (nodes[o[0] as usize].width + nodes[o[1] as usize].width, 0),
            16 | 17 => (nodes[o[0] as usize].width + o[1], 0),
            18 => (nodes[o[1] as usize].width, 0),
            19..=31 => (1, 0),
            _ => (nodes[o[0] as usize].width, 0),
        };
        nodes.push(Node { kind: r[0], width, operands: [o[0], o[1], o[2]], fixed });
    }
    nodes
}

pub fn low(w: u32, x: u64) -> u64 {
    x & (u64::MAX >> (64 - w))
}

fn signed(w: u32, x: u64) -> i64 {
    (x << (64 - w)) as i64 >> (64 - w)
}

fn value(nodes: &[Node], row: &[u64], i: u32) -> u64 {
    let n = &nodes[i as usize];
    let w = n.width;
    let of = |k: usize| value(nodes, row, n.operands[k]);
    let wide = |k: usize| nodes[n.operands[k] as usize].width;
    match n.kind {
        0 => row[n.fixed as usize],
        1 => n.fixed,
        2 => low(w, of(0).wrapping_add(of(1))),
        3 => low(w, of(0).wrapping_sub(of(1))),
        4 => low(w, of(0).wrapping_mul(of(1))),
        5 => {
            let (x, y) = (of(0), of(1));
            x.checked_div(y).unwrap_or(low(w, u64::MAX))
        }
        6 => {
            let (x, y) = (of(0), of(1));
            x.checked_rem(y).unwrap_or(x)
        }
        7 => of(0) & of(1),
        8 => of(0) | of(1),
        9 => of(0) ^ of(1),
        10 => {
            let (x, y) = (of(0), of(1));
            if y < u64::from(w) { low(w, x << y) } else { 0 }
        }
        11 => {
            let (x, y) = (of(0), of(1));
            if y < u64::from(w) { x >> y } else { 0 }
        }
        12 => {
            let (x, y) = (signed(w, of(0)), of(1));
            low(w, (x >> y.min(63)) as u64)
        }
        13 => {
            let (x, k) = (of(0), n.fixed);
            if k == 0 { x } else { low(w, x >> k | x << (u64::from(w) - k)) }
        }
        14 => low(w, of(2) >> n.operands[1]),
        15 => of(0) << wide(1) | of(1),
        16 => of(0),
        17 => low(w, signed(wide(0), of(0)) as u64),
        18 => {
            if of(0) == 1 {
                of(1)
            } else {
                of(2)
            }
        }
        19 => u64::from(of(0) == of(1)),
        20 => u64::from(of(0) != of(1)),
        21 => u64::from(of(0) < of(1)),
        22 => u64::from(of(0) <= of(1)),
        23 => u64::from(of(0) > of(1)),
        24 => u64::from(of(0) >= of(1)),
        25 => u64::from(signed(wide(0), of(0)) < signed(wide(1), of(1))),
        26 => u64::from(signed(wide(0), of(0)) <= signed(wide(1), of(1))),
        27 => u64::from(signed(wide(0), of(0)) > signed(wide(1), of(1))),
        28 => u64::from(signed(wide(0), of(0)) >= signed(wide(1), of(1))),
        29 => 1 - of(0),
        30 => of(0) & of(1),
        31 => of(0) | of(1),
        32 => low(w, !of(0)),
        33 => low(w, of(0).wrapping_neg()),
        34 => {
            let (x, k) = (of(0), n.fixed);
            if k == 0 { x } else { low(w, x << k | x >> (u64::from(w) - k)) }
        }
        35 => {
            let (x, y) = (signed(w, of(0)), signed(w, of(1)));
            let q = if y == 0 { if x < 0 { 1 } else { -1 } } else { x.wrapping_div(y) };
            low(w, q as u64)
        }
        36 => {
            let (x, y) = (signed(w, of(0)), signed(w, of(1)));
            low(w, if y == 0 { x } else { x.wrapping_rem(y) } as u64)
        }
        _ => 0,
    }
}

pub fn plain(nodes: &[Node], columns: usize, roots: &[u64], values: &[u64], masks: &mut [u64], counts: &mut [u64]) {
    for (j, row) in values.chunks(columns).enumerate() {
        let mut m = 0;
        for (k, r) in roots.iter().enumerate() {
            m |= value(nodes, row, *r as u32) << k;
        }
        masks[j] = m;
        counts[j] = u64::from(m.count_ones());
    }
}

/// How many terms a row enters: of an `ite` the condition and the longer branch.
pub fn terms(nodes: &[Node], i: u32) -> u64 {
    let n = &nodes[i as usize];
    let of = |k: usize| terms(nodes, n.operands[k]);
    1 + match n.kind {
        0 | 1 => 0,
        14 => of(2),
        13 | 16 | 17 | 29 | 32 | 33 | 34 => of(0),
        18 => of(0) + of(1).max(of(2)),
        _ => of(0) + of(1),
    }
}

// ---------------------------------------------------------------- shapes

fn leaves(p: &mut Problem, w: u32) -> Vec<u32> {
    let mut all: Vec<u32> = (0..8u8).map(|k| p.var(&[b'a' + k], w)).collect();
    all.extend((0..8).map(|k| p.constant(w, 77 + k)));
    all
}

/// A balanced tree over the leaves, of the kinds in turn, as large as 2,048 nodes allow.
fn tree(w: u32, kinds: &[u8]) -> Problem {
    let mut p = Problem::default();
    let leaves = leaves(&mut p, w);
    let spare = p.left() - 1;
    let mut level: Vec<u32> = (0..=spare).map(|k| leaves[k * 7 % leaves.len()]).collect();
    let mut next = 0;
    while level.len() > 1 {
        let mut up = vec![];
        for pair in level.chunks(2) {
            up.push(if pair.len() == 2 {
                next += 1;
                p.node(kinds[next % kinds.len()], pair)
            } else {
                pair[0]
            });
        }
        level = up;
    }
    p.root_eq(level[0], leaves[0]);
    p
}

/// As many roots as a mask has bits, each a comparison of two small trees of sums.
fn many(w: u32, kinds: &[u8]) -> Problem {
    let mut p = Problem::default();
    let leaves = leaves(&mut p, w);
    for k in 0..64usize {
        let mut side = |from: usize| {
            let mut t = leaves[from % leaves.len()];
            for j in 1..15 {
                t = p.node(kind::ADD, &[t, leaves[(from + j * 5) % leaves.len()]]);
            }
            t
        };
        let (a, b) = (side(k), side(k + 3));
        let r = p.node(kinds[k % kinds.len()], &[a, b]);
        p.root(r);
    }
    p
}

/// One path of 2,046 nodes.
fn chain(w: u32, kind: u8, operands: fn(u32) -> Vec<u32>) -> Problem {
    let mut p = Problem::default();
    let x = p.var(b"x", w);
    let c = p.constant(w, 5);
    assert_eq!(c, 1);
    let mut t = x;
    while p.left() > 1 {
        t = p.node(kind, &operands(t));
    }
    p.root_eq(t, x);
    p
}

/// ite over comparisons that hold, three nodes a level.
fn choices(w: u32) -> Problem {
    let mut p = Problem::default();
    let leaves = leaves(&mut p, w);
    let mut t = leaves[0];
    let mut k = 0;
    while p.left() > 3 {
        let s = p.node(kind::ADD, &[t, leaves[k % 16]]);
        // true, so that the other branch is never entered
        let b = p.node(22, &[leaves[k % 8], leaves[k % 8]]);
        t = p.node(kind::ITE, &[b, s, leaves[(k + 1) % 16]]);
        k += 1;
    }
    p.root_eq(t, leaves[0]);
    p
}

const BINARY: [(&str, u8); 13] = [
    ("bvadd", 2),
    ("bvsub", 3),
    ("bvmul", 4),
    ("bvudiv", 5),
    ("bvurem", 6),
    ("bvand", 7),
    ("bvor", 8),
    ("bvxor", 9),
    ("bvshl", 10),
    ("bvlshr", 11),
    ("bvashr", 12),
    ("bvsdiv", 35),
    ("bvsrem", 36),
];

pub fn shapes() -> Vec<(String, Problem)> {
    let mut all = vec![];
    let every: Vec<u8> = BINARY.iter().map(|b| b.1).collect();
    for w in [8, 32, 64] {
        all.push((format!("tree of every operator, width {w}"), tree(w, &every)));
    }
    for (name, k) in BINARY {
        all.push((format!("tree of `{name}`, width 32"), tree(32, &[k])));
    }
    for (name, k) in [("bvmul", 4), ("bvudiv", 5), ("bvsdiv", 35), ("bvashr", 12)] {
        all.push((format!("tree of `{name}`, width 64"), tree(64, &[k])));
    }
    for (name, k) in [("bvand", 7), ("bvshl", 10), ("bvlshr", 11)] {
        all.push((format!("tree of `{name}` and `bvadd` in turn, width 32"), tree(32, &[k, 2])));
    }
    let comparisons: Vec<u8> = (19..=28).collect();
    all.push(("64 roots, every comparison".to_string(), many(32, &comparisons)));
    all.push(("chain of `bvnot`".to_string(), chain(32, 32, |t| vec![t])));
    all.push(("chain of `bvneg`".to_string(), chain(32, 33, |t| vec![t])));
    all.push(("chain of `rotate_left`".to_string(), chain(32, 34, |t| vec![t, 1])));
    all.push(("chain of `zero_extend` by 0".to_string(), chain(32, 16, |t| vec![t, 0])));
    all.push(("chain of `sign_extend` by 0".to_string(), chain(32, 17, |t| vec![t, 0])));
    all.push(("chain of `extract`".to_string(), chain(32, 14, |t| vec![31, 0, t])));
    all.push(("chain of `ite`, a sum and a comparison a level".to_string(), choices(32)));
    all
}
