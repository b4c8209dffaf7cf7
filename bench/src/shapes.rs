//! The problems that are timed, each with a label. Operator nodes are used once; variables and constants are shared.
#![allow(dead_code)]
use crate::problem::{Problem, kind};

/// Takes leaves in turn.
struct Leaves {
    all: Vec<u32>,
    next: usize,
}

impl Leaves {
    fn take(&mut self) -> u32 {
        self.next += 1;
        self.all[(self.next - 1) % self.all.len()]
    }
}

/// A balanced tree of binary operators, eleven kinds in turn.
fn tree(p: &mut Problem, operators: usize, leaves: &mut Leaves) -> u32 {
    if operators == 0 {
        return leaves.take();
    }
    let a = tree(p, (operators - 1) / 2, leaves);
    let b = tree(p, operators - 1 - (operators - 1) / 2, leaves);
    let k = kind::ADD + (p.count() % usize::from(kind::ASHR - kind::ADD + 1)) as u8;
    p.node(k, &[a, b])
}

/// One root, a comparison of two trees that fill the node list.
fn tree_root(p: &mut Problem, mut leaves: Leaves) {
    let n = p.left() - 1;
    let a = tree(p, n / 2, &mut leaves);
    let b = tree(p, n - n / 2, &mut leaves);
    p.root_eq(a, b);
}

/// Eight variables and eight constants, in turn.
fn mixed(p: &mut Problem, width: u32) -> Leaves {
    let mut all = Vec::new();
    for k in 0..8u8 {
        all.push(p.var(&[b'v', b'a' + k], width));
        all.push(p.constant(width, 77 + u64::from(k)));
    }
    Leaves { all, next: 0 }
}

pub fn balanced(width: u32) -> Problem {
    let mut p = Problem::default();
    let leaves = mixed(&mut p, width);
    tree_root(&mut p, leaves);
    p
}

/// `bvnot`s over a variable, as many as leave room for `spare` nodes.
pub fn nots(p: &mut Problem, x: u32, spare: usize) -> u32 {
    let mut t = x;
    while p.left() > spare {
        t = p.node(kind::BV_NOT, &[t]);
    }
    t
}

pub fn chain() -> Problem {
    let mut p = Problem::default();
    let x = p.var(b"x", 8);
    let t = nots(&mut p, x, 1);
    p.root_eq(t, x);
    p
}

/// Calls of `n` arguments, nested in argument `at`, the others a variable.
pub fn calls(n: usize, at: usize) -> Problem {
    let mut p = Problem::default();
    let x = p.var(b"x", 8);
    let f = p.func(b"f", 8);
    let mut t = x;
    while p.left() > 1 && p.side.len() + n <= 8192 {
        let mut arguments = vec![x; n];
        arguments[at] = t;
        t = p.call(f, 8, &arguments);
    }
    p.root_eq(t, x);
    p
}

/// Selects nested in the index, through an extension from 8 bits to 32.
pub fn selects_index() -> Problem {
    let mut p = Problem::default();
    let j = p.var(b"j", 32);
    let x = p.var(b"x", 8);
    let a = p.array(b"m");
    let mut t = p.select(a, j, &[]);
    while p.left() > 2 {
        let e = p.node(kind::ZERO_EXT, &[t, 24]);
        t = p.select(a, e, &[]);
    }
    p.root_eq(t, x);
    p
}

/// Selects of one store each, nested in the stored value.
pub fn selects_value() -> Problem {
    let mut p = Problem::default();
    let j = p.var(b"j", 32);
    let x = p.var(b"x", 8);
    let a = p.array(b"m");
    let mut t = p.select(a, j, &[]);
    while p.left() > 1 {
        t = p.select(a, j, &[j, t]);
    }
    p.root_eq(t, x);
    p
}

/// Selects of one store each, nested in the store's index.
pub fn selects_store_index() -> Problem {
    let mut p = Problem::default();
    let j = p.var(b"j", 32);
    let x = p.var(b"x", 8);
    let a = p.array(b"m");
    let mut t = p.select(a, j, &[]);
    while p.left() > 2 {
        let e = p.node(kind::ZERO_EXT, &[t, 24]);
        t = p.select(a, j, &[e, x]);
    }
    p.root_eq(t, x);
    p
}

/// One call of 8,192 arguments.
pub fn wide_call() -> Problem {
    let mut p = Problem::default();
    let mut leaves = mixed(&mut p, 8);
    let f = p.func(b"f", 8);
    let arguments: Vec<u32> = (0..8192).map(|_| leaves.take()).collect();
    let t = p.call(f, 8, &arguments);
    p.root_eq(t, leaves.all[0]);
    p
}

/// One select of 4,096 stores.
pub fn wide_select() -> Problem {
    let mut p = Problem::default();
    let j = p.var(b"j", 32);
    let x = p.var(b"x", 8);
    let a = p.array(b"m");
    let stores: Vec<u32> = (0..4096).flat_map(|_| [j, x]).collect();
    let t = p.select(a, j, &stores);
    p.root_eq(t, x);
    p
}

/// 512 variables, the leaves of the tree spread over them.
pub fn many_variables() -> Problem {
    let mut p = Problem::default();
    let all: Vec<u32> = (0..512u32).map(|k| p.var(format!("x{}", k * 7 % 512).as_bytes(), 32)).collect();
    tree_root(&mut p, Leaves { all: (0..512).map(|k| all[k * 37 % 512]).collect(), next: 0 });
    p
}

/// 512 names of 32 bytes that fill the arena, equal but for the last three bytes, in a tree.
pub fn names_of_32() -> Problem {
    let mut p = Problem::default();
    let all = (0..512u32).map(|k| p.var(format!("{:a<29}{k:03}", "").as_bytes(), 8)).collect();
    tree_root(&mut p, Leaves { all, next: 0 });
    p
}

/// 512 names of different lengths, all from the arena's start.
pub fn names_by_length() -> Problem {
    let mut p = Problem { names: vec![b'a'; 16384], ..Problem::default() };
    let all: Vec<u32> = (0..512).map(|k| p.var_at(0, 15873 + k, 8)).collect();
    p.root_eq(all[0], all[511]);
    p
}

/// 512 names of one length that first differ near their ends: one byte of the arena stands out.
pub fn names_by_place() -> Problem {
    let mut p = Problem { names: vec![b'a'; 16384], ..Problem::default() };
    p.names[15871] = b'b';
    let all: Vec<u32> = (0..512).map(|k| p.var_at(k, 15872, 8)).collect();
    p.root_eq(all[0], all[511]);
    p
}

/// One name of 16,384 bytes, at every leaf.
pub fn long_name() -> Problem {
    let mut p = Problem::default();
    let x = p.var(&[b'n'; 16384], 8);
    tree_root(&mut p, Leaves { all: vec![x], next: 0 });
    p
}

/// Extensions and extracts in turn, with numerals of one to four digits.
pub fn indexed() -> Problem {
    let mut p = Problem::default();
    let x = p.var(b"x", 1000);
    let mut t = x;
    let mut k = 0;
    while p.left() > 2 {
        let by = [5, 24, 300, 4096][k % 4];
        let low = [0, 3, 20, 250][k % 4];
        let e = p.node(kind::ZERO_EXT, &[t, by]);
        t = p.node(kind::EXTRACT, &[low + 999, low, e]);
        k += 1;
    }
    p.root_eq(t, x);
    p
}

/// Extensions by numbers of ten digits.
pub fn extended() -> Problem {
    let mut p = Problem::default();
    let x = p.var(b"x", 8);
    let mut t = x;
    while p.left() > 2 {
        t = p.node(kind::ZERO_EXT, &[t, 4_123_456_789 + p.count() as u32]);
    }
    let e = p.node(kind::EXTRACT, &[7, 0, t]);
    p.root_eq(e, x);
    p
}

/// 512 declarations of these widths, one so much less than the one before; the variables are not reached.
pub fn declarations(width: u64, less: u64) -> Problem {
    let mut p = Problem::default();
    for k in 0..512u64 {
        let name = format!("x{k}");
        p.name_start.push(p.names.len() as u64);
        p.name_len.push(name.len() as u64);
        p.names.extend_from_slice(name.as_bytes());
        p.var_node.push(u64::MAX);
        p.var_width.push(width - k * less);
    }
    p
}

pub fn many_roots() -> Problem {
    let mut p = Problem::default();
    let mut leaves = mixed(&mut p, 8);
    for _ in 0..256 {
        let a = tree(&mut p, 3, &mut leaves);
        let b = tree(&mut p, 3, &mut leaves);
        p.root_eq(a, b);
    }
    p
}

/// The longest script known within the limits, about 1.6 * 10^12 bytes.
pub fn longest() -> Problem {
    let mut p = Problem::default();
    let w = 131_072;
    let c = p.constant(w, 5);
    let f = p.func(b"f", w);
    let g = p.func(b"g", w);
    let shared = vec![c; 6148];
    p.entries(&shared);
    let mut last = c;
    for k in 0..2045 {
        last = p.node(kind::CALL, &[f, w, 0, 6148]);
        if k < 2044 {
            p.entries(&[last]);
        }
    }
    let t = p.node(kind::CALL, &[g, w, 0, 8192]);
    p.root_eq(t, last);
    p
}

/// A tree whose last leaf is a variable without a table entry: refused with 4 as the last thing in the walk.
pub fn refused_last() -> Problem {
    let mut p = Problem::default();
    let mut leaves = mixed(&mut p, 32);
    let stray = p.node(kind::VAR, &[32]);
    let n = p.left() - 2;
    let a = tree(&mut p, n, &mut leaves);
    let t = p.node(kind::ADD, &[a, stray]);
    p.root_eq(t, stray);
    p
}

/// One node byte too many.
pub fn over_limit() -> Problem {
    let mut p = balanced(32);
    p.nodes.resize(34_817, 0);
    p
}

pub fn all() -> Vec<(&'static str, Problem)> {
    vec![
        ("tree, width 8", balanced(8)),
        ("tree, width 32", balanced(32)),
        ("tree, width 1,024", balanced(1024)),
        ("chain of bvnot", chain()),
        ("calls of 4, nested in the first", calls(4, 0)),
        ("calls of 4, nested in the last", calls(4, 3)),
        ("selects, nested in the index", selects_index()),
        ("selects, nested in a store's index", selects_store_index()),
        ("selects, nested in a store's value", selects_value()),
        ("one call of 8,192 arguments", wide_call()),
        ("one select of 4,096 stores", wide_select()),
        ("512 variables", many_variables()),
        ("512 names of 32 bytes", names_of_32()),
        ("512 names by length, 16 KB each", names_by_length()),
        ("512 names by place, 16 KB each", names_by_place()),
        ("one name of 16,384 bytes", long_name()),
        ("256 roots", many_roots()),
        ("indexed operators", indexed()),
        ("indexed operators, ten digits", extended()),
        ("512 widths of 1 digit", declarations(8, 0)),
        ("512 widths of 20 digits", declarations(u64::MAX, 12_345_678_901_234_567)),
    ]
}

/// Problems with shared operators, for the printer with `let`.
pub fn shared() -> Vec<(&'static str, Problem)> {
    let mut out = Vec::new();
    // 2,000 sums, each of the one before it twice
    let mut p = Problem::default();
    let x = p.var(b"x", 32);
    let mut last = p.node(kind::ADD, &[x, x]);
    for _ in 1..2000 {
        last = p.node(kind::ADD, &[last, last]);
    }
    p.root_eq(last, last);
    out.push(("2,000 doublings", p));
    // 256 roots over one shared part of 1,500 sums
    let mut p = Problem::default();
    let x = p.var(b"x", 32);
    let mut last = p.node(kind::ADD, &[x, x]);
    for _ in 1..1500 {
        last = p.node(kind::ADD, &[last, last]);
    }
    for _ in 0..256 {
        p.root_eq(last, x);
    }
    out.push(("256 roots over 1,500 shared nodes", p));
    // 256 short roots behind 1,700 nodes that none reaches
    let mut p = Problem::default();
    let x = p.var(b"x", 32);
    let mut last = p.node(kind::ADD, &[x, x]);
    for _ in 1..1700 {
        last = p.node(kind::ADD, &[last, last]);
    }
    for _ in 0..256 {
        p.root_eq(x, x);
    }
    out.push(("256 short roots, 1,700 shared nodes not reached", p));
    out
}

/// Refused problems, for the fewest roots, with the number and the positions.
pub fn refused() -> Vec<(&'static str, Problem, u64, Vec<u64>)> {
    let mut out = Vec::new();
    let mut p = many_roots();
    p.roots[255] = 9_999;
    out.push(("256 roots, the last past the nodes", p, 1, vec![255]));
    let mut p = many_roots();
    p.roots[255] = p.roots[254];
    out.push(("256 roots, the last two one node", p, 6, vec![254, 255]));
    // a root that is the operand of another: its comparison
    let mut p = many_roots();
    let operand = p.roots[254] - 1;
    p.roots[255] = operand;
    out.push(("256 roots, the last an operand too", p, 6, vec![255]));
    let mut p = many_roots();
    p.roots = vec![p.roots[0]; 256];
    out.push(("256 roots, all one node", p, 6, vec![0, 1]));
    let mut p = names_by_place();
    let last = p.roots[0];
    p.roots = (0..255).collect();
    p.roots.push(last);
    out.push(("512 names by place, 255 roots that are variables", p, 3, vec![0]));
    let mut p = names_by_place();
    p.name_start[511] = p.name_start[510];
    out.push(("512 names by place, the last two equal", p, 2, vec![]));
    for (label, p) in shared() {
        out.push((label, p, 6, vec![]));
    }
    out.push(("refused at the end of the walk", refused_last(), 4, vec![0]));
    out.push(("over a limit", over_limit(), 9, vec![]));
    out
}
