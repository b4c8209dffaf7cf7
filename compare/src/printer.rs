//! Problems for the printer. As for the width pass, each has a label and the number that it was made for: the recorder stops where the
//! Rust answers another. A label begins with that number, or with + for an acceptance.
use crate::alphabets;
use crate::both;
use crate::problem::{Problem, Rng, is_bool, is_rotation, is_same_width, kind, operand_count};
use crate::trees::{accepted, kinds};
use crate::widths::{Context, EXTREMES, ways};
use crate::words::{self, RUST, SMTLIB_27};

pub const SEED: u64 = 20_260_902;

/// How much is lent for the script.
#[derive(Clone, Copy)]
pub enum Room {
    Exact,
    OneShort,
    Empty,
    Longer(usize),
    Fixed(usize),
}

pub struct Case {
    pub label: String,
    pub problem: Problem,
    pub room: Room,
    /// None: whatever the Rust says.
    pub want: Option<u32>,
}

const LAST: u32 = u32::MAX;

// ---------------------------------------------------------------- pieces that fit into any problem

/// A name that no other entry has: grown names begin with a letter.
fn fresh(p: &Problem) -> Vec<u8> {
    format!("~{}", p.name_start.len() + p.aname_start.len() + p.fname_start.len()).into_bytes()
}

pub fn var(p: &mut Problem, w: u32) -> u32 {
    let i = p.node(kind::VAR, &[w]);
    let name = fresh(p);
    p.var_entry(&name, i as u64, w as u64);
    i
}

pub fn constant(p: &mut Problem, w: u32) -> u32 {
    let s = p.bits.len() as u32;
    p.bits.extend((0..w).map(|i| (i % 5 == 1) as u8));
    p.node(kind::CONST, &[s, w])
}

pub fn array(p: &mut Problem) -> u32 {
    let name = fresh(p);
    p.array_entry(&name);
    p.aname_start.len() as u32 - 1
}

pub fn func(p: &mut Problem, w: u64) -> u32 {
    let name = fresh(p);
    p.func_entry(&name, w);
    p.fname_start.len() as u32 - 1
}

pub fn call(p: &mut Problem, f: u32, w: u32, args: &[u32]) -> u32 {
    let s = p.side.len() as u32;
    p.side.extend(args.iter().map(|a| *a as u64));
    p.node(kind::CALL, &[f, w, s, args.len() as u32])
}

pub fn formula(p: &mut Problem) -> u32 {
    let a = var(p, 8);
    p.node(kind::EQ, &[a, a])
}

pub fn root(p: &mut Problem, i: u32) {
    p.roots.push(i as u64);
}

/// A node of the kind that the walk accepts, of the smallest width.
fn sound(p: &mut Problem, k: u8) -> u32 {
    let v = match k {
        kind::VAR => return var(p, 1),
        kind::CONST => return constant(p, 1),
        kind::SELECT => {
            let a = array(p);
            let i = var(p, 32);
            let s = p.side.len() as u32;
            return p.node(k, &[a, i, s, 0]);
        }
        kind::CALL => {
            let f = func(p, 1);
            return call(p, f, 1, &[]);
        }
        _ => var(p, 1),
    };
    match k {
        kind::NOT => {
            let a = formula(p);
            p.node(k, &[a])
        }
        kind::BOOL_AND | kind::BOOL_OR => {
            let a = formula(p);
            let b = formula(p);
            p.node(k, &[a, b])
        }
        kind::ITE => {
            let c = formula(p);
            p.node(k, &[c, v, v])
        }
        kind::EXTRACT => p.node(k, &[0, 0, v]),
        kind::ZERO_EXT | kind::SIGN_EXT => p.node(k, &[v, 1]),
        kind::BV_NOT | kind::NEG => p.node(k, &[v]),
        k if is_rotation(k) => {
            let b = constant(p, 1);
            p.node(k, &[v, b])
        }
        _ => p.node(k, &[v, v]),
    }
}

fn width_of(k: u8) -> u32 {
    match k {
        kind::CONCAT | kind::ZERO_EXT | kind::SIGN_EXT => 2,
        kind::SELECT => 8,
        _ => 1,
    }
}

/// Has the walk reach a node of the kind.
fn reach(p: &mut Problem, i: u32, k: u8) {
    if is_bool(k) {
        root(p, i);
    } else {
        let v = var(p, width_of(k));
        let e = p.node(kind::EQ, &[i, v]);
        root(p, e);
    }
}

/// An entry with this name in one of the three tables; a function gets a call.
pub fn named(p: &mut Problem, table: usize, name: &[u8]) {
    match table {
        0 => p.var_entry(name, u64::MAX, 8),
        1 => p.array_entry(name),
        _ => {
            p.func_entry(name, 8);
            let f = p.fname_start.len() as u32 - 1;
            call(p, f, 8, &[]);
        }
    }
}

/// An entry whose name lies at this place of its arena.
fn placed(p: &mut Problem, table: usize, start: u64, len: u64) {
    named(p, table, b"q");
    let (s, l) = match table {
        0 => (&mut p.name_start, &mut p.name_len),
        1 => (&mut p.aname_start, &mut p.aname_len),
        _ => (&mut p.fname_start, &mut p.fname_len),
    };
    *s.last_mut().unwrap() = start;
    *l.last_mut().unwrap() = len;
}

fn arena(p: &mut Problem, table: usize) -> &mut Vec<u8> {
    match table {
        0 => &mut p.names,
        1 => &mut p.anames,
        _ => &mut p.fnames,
    }
}

fn column(p: &mut Problem, c: usize) -> &mut Vec<u64> {
    match c {
        0 => &mut p.name_start,
        1 => &mut p.name_len,
        2 => &mut p.var_node,
        3 => &mut p.var_width,
        4 => &mut p.aname_start,
        5 => &mut p.aname_len,
        6 => &mut p.index_width,
        7 => &mut p.value_width,
        8 => &mut p.fname_start,
        9 => &mut p.fname_len,
        _ => &mut p.func_width,
    }
}

// ---------------------------------------------------------------- defects

/// Something that an accepted problem is refused for. It can be added to any problem, and adds nothing else that is refused.
/// `phase` is its place in the order of documents 01 and 02.
pub struct Defect {
    clause: String,
    phase: u8,
    number: u32,
    add: Box<dyn Fn(&mut Problem)>,
}

const LIMIT: u8 = 0;
const ENCODING: u8 = 1;
const COLUMNS: u8 = 2;
const ARRAYS: u8 = 3;
const WIDTHS: u8 = 4;
const NAMES: u8 = 5;
const SHARING: u8 = 6;
const VARIABLES: u8 = 7;
const FUNCTIONS: u8 = 8;
const WALK: u8 = 9;

type Defects = Vec<Defect>;

fn put(ds: &mut Defects, phase: u8, number: u32, clause: &str, add: impl Fn(&mut Problem) + 'static) {
    ds.push(Defect { clause: clause.to_string(), phase, number, add: Box::new(add) });
}

fn encoding(ds: &mut Defects) {
    for extra in 1..17 {
        put(ds, ENCODING, 8, "bytes that are no whole record", move |p| p.nodes.extend(vec![0; extra]));
    }
    for k in [39u8, 40, 64, 100, 127, 128, 129, 200, 254, 255] {
        put(ds, ENCODING, 8, "an unknown kind", move |p| {
            p.node(k, &[1]);
        });
    }
    for k in 0..kind::COUNT {
        for j in operand_count(k)..4 {
            put(ds, ENCODING, 8, "an unused operand", move |p| {
                let i = sound(p, k) as usize;
                p.set_operand(i, j, 1 << (8 * (k % 4)));
            });
        }
    }
    for b in [2u8, 3, 127, 128, 255] {
        put(ds, ENCODING, 8, "a bit that a constant has", move |p| {
            p.bits.push(b);
            let s = p.bits.len() as u32 - 1;
            p.node(kind::CONST, &[s, 1]);
        });
        put(ds, ENCODING, 8, "a bit that no constant has", move |p| p.bits.push(b));
        put(ds, ENCODING, 8, "the first bit", move |p| {
            constant(p, 1);
            p.bits[0] = b;
        });
    }
}

fn columns(ds: &mut Defects) {
    for c in 0..11 {
        put(ds, COLUMNS, 1, "columns: one is longer", move |p| column(p, c).push(0));
        put(ds, COLUMNS, 1, "columns: one is shorter", move |p| {
            named(p, [0, 0, 0, 0, 1, 1, 1, 1, 2, 2, 2][c], b"~short");
            column(p, c).pop();
        });
        put(ds, COLUMNS, 1, "columns: one is empty", move |p| {
            named(p, [0, 0, 0, 0, 1, 1, 1, 1, 2, 2, 2][c], b"~short");
            column(p, c).clear();
        });
    }
}

fn names(ds: &mut Defects) {
    for t in 0..3 {
        for b in [0u8, 9, 10, 13, 31, 127, b'|', b'\\'] {
            for at in 0..3 {
                put(ds, NAMES, 2, "name: a byte that is not permitted", move |p| {
                    let mut n = b"~ab".to_vec();
                    n[at] = b;
                    named(p, t, &n);
                });
            }
            put(ds, NAMES, 2, "name: a byte that is not permitted", move |p| named(p, t, &[b]));
        }
        for n in ["@", ".", "@x", ".x", "@~", "..", "@.", ".@long name"] {
            put(ds, NAMES, 2, "name: begins with @ or a full stop", move |p| named(p, t, n.as_bytes()));
        }
        put(ds, NAMES, 2, "name: empty", move |p| named(p, t, b""));
        put(ds, NAMES, 2, "name: empty, at the end of its arena", move |p| {
            let n = arena(p, t).len() as u64;
            placed(p, t, n + 1, 0);
        });
        put(ds, NAMES, 2, "name: empty, outside", move |p| placed(p, t, u64::MAX, 0));
        for (s, l) in [
            (0, u64::MAX),
            (1, u64::MAX),
            (u64::MAX, 1),
            (u64::MAX, 2),
            (u64::MAX, u64::MAX),
            (1 << 63, 1 << 63),
            (1 << 32, 1),
            (0, 1 << 32),
            ((1 << 32) - 1, 1),
            (1 << 63, 1),
        ] {
            put(ds, NAMES, 2, "name: outside its arena, by far", move |p| {
                named(p, t, b"~inside");
                placed(p, t, s, l);
            });
        }
        put(ds, NAMES, 2, "name: one byte past its arena", move |p| {
            let n = arena(p, t).len() as u64;
            placed(p, t, n, 2);
        });
        put(ds, NAMES, 2, "name: begins where its arena ends", move |p| {
            let n = arena(p, t).len() as u64;
            placed(p, t, n + 1, 1);
        });
        put(ds, NAMES, 2, "name: all of its arena and one byte more", move |p| {
            let n = arena(p, t).len() as u64;
            placed(p, t, 0, n + 2);
        });
        put(ds, NAMES, 2, "name: its low 32 bits are inside", move |p| {
            let n = arena(p, t).len() as u64;
            placed(p, t, n + (1 << 32), 1);
        });
        put(ds, NAMES, 2, "name: an earlier one of its table", move |p| {
            named(p, t, b"~twice");
            named(p, t, b"~other");
            named(p, t, b"~twice");
        });
        put(ds, NAMES, 2, "name: an earlier one of its table, at the same bytes", move |p| {
            named(p, t, b"~twice");
            let n = arena(p, t).len() as u64;
            placed(p, t, n - 6, 6);
        });
        put(ds, NAMES, 2, "name: an earlier one of its table, among overlapping ones", move |p| {
            let n = arena(p, t).len() as u64;
            arena(p, t).extend_from_slice(b"~abca~abc");
            placed(p, t, n, 5);
            placed(p, t, n + 1, 3);
            placed(p, t, n, 4);
            placed(p, t, n + 5, 4);
        });
        for u in 0..3 {
            if u != t {
                put(ds, NAMES, 2, "name: one of another table", move |p| {
                    named(p, t, b"~both");
                    named(p, u, b"~both");
                });
                put(ds, NAMES, 2, "name: one of another table, not the last", move |p| {
                    named(p, t, b"~both");
                    named(p, t, b"~more");
                    named(p, u, b"~both");
                    named(p, u, b"~most");
                });
            }
        }
    }
    for (j, w) in RUST.iter().enumerate() {
        put(ds, NAMES, 2, "name: reserved", move |p| named(p, j % 3, w.as_bytes()));
        put(ds, NAMES, 2, "name: reserved, in another table", move |p| named(p, (j + 1) % 3, w.as_bytes()));
    }
    // the words of SMT-LIB 2.7, each in each table: alone, before another name, and as a part of a longer stretch
    for w in SMTLIB_27 {
        for t in 0..3 {
            put(ds, NAMES, 2, "name: reserved by SMT-LIB 2.7", move |p| named(p, t, w.as_bytes()));
            put(ds, NAMES, 2, "name: reserved by SMT-LIB 2.7, and a later name", move |p| {
                named(p, t, w.as_bytes());
                named(p, t, b"~later");
            });
            put(ds, NAMES, 2, "name: reserved by SMT-LIB 2.7, inside another name", move |p| {
                let n = arena(p, t).len() as u64;
                named(p, t, format!("~{w}~").as_bytes());
                placed(p, t, n + 1, w.len() as u64);
            });
        }
    }
}

fn sharing(ds: &mut Defects) {
    for k in 2..kind::COUNT {
        // twice in one node, in two nodes that are not reached, as an operand and as a root
        put(ds, SHARING, 6, "shared: both operands", move |p| {
            let i = sound(p, k);
            p.node(if is_bool(k) { kind::BOOL_OR } else { kind::CONCAT }, &[i, i]);
        });
        put(ds, SHARING, 6, "shared: operands of two nodes", move |p| {
            let i = sound(p, k);
            let u = if is_bool(k) { kind::NOT } else { kind::NEG };
            p.node(u, &[i]);
            p.node(u, &[i]);
        });
        put(ds, SHARING, 6, "shared: an operand and a root", move |p| {
            let i = sound(p, k);
            p.node(kind::BV_NOT, &[i]);
            root(p, i);
        });
        put(ds, SHARING, 6, "shared: a root twice", move |p| {
            let i = sound(p, k);
            root(p, i);
            root(p, i);
        });
        put(ds, SHARING, 6, "shared: a side entry and an operand", move |p| {
            let i = sound(p, k);
            p.node(kind::BV_NOT, &[i]);
            call(p, LAST, 8, &[i]);
        });
        put(ds, SHARING, 6, "shared: two side entries of a call", move |p| {
            let i = sound(p, k);
            call(p, LAST, 8, &[i, i]);
        });
        put(ds, SHARING, 6, "shared: a side entry that two calls read", move |p| {
            let i = sound(p, k);
            let s = p.side.len() as u32;
            p.side.push(i as u64);
            p.node(kind::CALL, &[LAST, 8, s, 1]);
            p.node(kind::CALL, &[LAST, 8, s, 1]);
        });
    }
    // each operand of each kind is a use
    for k in 2..kind::CALL {
        for j in node_operands(k) {
            put(ds, SHARING, 6, "shared: at each operand", move |p| {
                let x = if is_formula_operand(k, j) {
                    formula(p)
                } else {
                    let v = var(p, if k == kind::SELECT { 32 } else { 1 });
                    p.node(kind::NEG, &[v])
                };
                with_operand(p, k, j, x);
                p.node(kind::BV_NOT, &[x]);
            });
        }
    }
    put(ds, SHARING, 6, "shared: a select's index and a store's", |p| {
        let v = var(p, 32);
        let i = p.node(kind::NEG, &[v]);
        let b = var(p, 8);
        let s = p.side.len() as u32;
        p.side.extend([i as u64, b as u64]);
        p.node(kind::SELECT, &[LAST, i, s, 1]);
    });
    for place in 0..2usize {
        put(ds, SHARING, 6, "shared: two stores of a select", move |p| {
            let v = var(p, 32);
            let b = var(p, 8);
            let x = if place == 0 { p.node(kind::NEG, &[v]) } else { p.node(kind::NEG, &[b]) };
            let mut pair = [v as u64, b as u64];
            pair[place] = x as u64;
            let s = p.side.len() as u32;
            p.side.extend(pair);
            p.side.extend(pair);
            p.node(kind::SELECT, &[LAST, v, s, 2]);
        });
    }
    for k in [kind::ROTR, kind::ROTL] {
        put(ds, SHARING, 6, "shared: a rotation's amount", move |p| {
            let v = var(p, 8);
            let a = p.node(kind::NEG, &[v]);
            p.node(k, &[v, a]);
            p.node(kind::BV_NOT, &[a]);
        });
        put(ds, SHARING, 6, "shared: a rotation of a term by itself", move |p| {
            let v = var(p, 8);
            let a = p.node(kind::NEG, &[v]);
            p.node(k, &[a, a]);
        });
    }
    for k in [kind::EQ, kind::BOOL_AND] {
        put(ds, SHARING, 6, "shared: as two of an ite's operands", move |p| {
            let i = if k == kind::EQ { formula(p) } else { sound(p, k) };
            p.node(kind::ITE, &[i, i, i]);
        });
    }
}

fn declared(ds: &mut Defects) {
    put(ds, VARIABLES, 4, "a declared variable of width 0", |p| {
        let i = var(p, 8);
        let n = p.var_width.len();
        p.var_width[n - 1] = 0;
        p.node(kind::NEG, &[i]);
    });
    for x in [0, 1, 1 << 32, u64::MAX] {
        put(ds, VARIABLES, 4, "a declared variable of width 0, of no node", move |p| {
            let n = fresh(p);
            p.var_entry(&n, x, 0);
        });
    }
    put(ds, VARIABLES, 4, "a declared variable of width 0, the second entry of a node", |p| {
        let i = var(p, 8);
        let n = fresh(p);
        p.var_entry(&n, i as u64, 0);
        let e = p.node(kind::EQ, &[i, i]);
        root(p, e);
    });

    for w in [1, 8, LAST] {
        put(ds, FUNCTIONS, 7, "a declared function of width 0", move |p| {
            let f = func(p, 0);
            call(p, f, w, &[]);
        });
    }
    put(ds, FUNCTIONS, 7, "a declared function of width 0, never called", |p| {
        func(p, 0);
    });
    for w in [1, 8, 1 << 32, u64::MAX] {
        put(ds, FUNCTIONS, 7, "a function that is never called", move |p| {
            func(p, w);
        });
    }
    put(ds, FUNCTIONS, 7, "a function that is never called, before one that is", |p| {
        func(p, 8);
        let g = func(p, 8);
        call(p, g, 8, &[]);
    });
    for past in [1, 2, LAST / 2] {
        put(ds, FUNCTIONS, 7, "a first call whose arguments start past the side table", move |p| {
            let f = func(p, 8);
            let s = p.side.len() as u32 + past;
            p.node(kind::CALL, &[f, 8, s, 0]);
        });
        put(ds, FUNCTIONS, 7, "a first call whose arguments start past the side table, not the second", move |p| {
            let f = func(p, 8);
            let s = p.side.len() as u32 + past;
            p.node(kind::CALL, &[f, 8, s, 0]);
            call(p, f, 8, &[]);
        });
    }
}

/// Where the operands that are nodes stand.
fn node_operands(k: u8) -> Vec<usize> {
    match k {
        kind::EXTRACT => vec![2],
        kind::ITE => vec![0, 1, 2],
        kind::SELECT => vec![1],
        kind::ZERO_EXT | kind::SIGN_EXT | kind::NOT | kind::BV_NOT | kind::NEG => vec![0],
        _ => vec![0, 1],
    }
}

/// Is a Bool needed there.
fn is_formula_operand(k: u8, j: usize) -> bool {
    (kind::NOT..=kind::BOOL_OR).contains(&k) || (k == kind::ITE && j == 0)
}

/// The kinds with bit-vector operands, and where they stand among the operands.
fn vector_operands(k: u8) -> Vec<usize> {
    match k {
        k if is_rotation(k) => vec![0],
        k if is_same_width(k) => vec![0, 1],
        kind::EXTRACT => vec![2],
        kind::CONCAT => vec![0, 1],
        kind::ZERO_EXT | kind::SIGN_EXT | kind::BV_NOT | kind::NEG => vec![0],
        kind::ITE => vec![1, 2],
        _ => vec![],
    }
}

/// A node of the kind with this operand, of width 1, at place j.
fn with_operand(p: &mut Problem, k: u8, j: usize, x: u32) -> u32 {
    let i = sound(p, k);
    p.set_operand(i as usize, j, x);
    i
}

fn walk_sorts(ds: &mut Defects) {
    for k in (0..kind::COUNT).filter(|k| !is_bool(*k)) {
        put(ds, WALK, 3, "a bit-vector as a root", move |p| {
            let i = sound(p, k);
            root(p, i);
        });
        for u in [kind::NOT, kind::BOOL_AND, kind::BOOL_OR] {
            if width_of(k) == 1 {
                put(ds, WALK, 3, "a bit-vector where a Bool is needed", move |p| {
                    let i = sound(p, k);
                    let b = formula(p);
                    let r = match u {
                        kind::NOT => p.node(u, &[i]),
                        _ if k % 2 == 0 => p.node(u, &[i, b]),
                        _ => p.node(u, &[b, i]),
                    };
                    root(p, r);
                });
            }
        }
        if width_of(k) == 1 {
            put(ds, WALK, 3, "a bit-vector as a condition", move |p| {
                let i = sound(p, k);
                let v = var(p, 8);
                let t = p.node(kind::ITE, &[i, v, v]);
                let r = p.node(kind::EQ, &[t, v]);
                root(p, r);
            });
        }
        for j in vector_operands(k) {
            put(ds, WALK, 3, "a Bool where a bit-vector is needed", move |p| {
                let b = formula(p);
                let n = with_operand(p, k, j, b);
                reach(p, n, k);
            });
        }
    }
    for k in kind::EQ..=kind::SGE {
        for j in 0..2 {
            put(ds, WALK, 3, "a Bool compared", move |p| {
                let v = var(p, 1);
                let b = formula(p);
                let r = p.node(k, &if j == 0 { [b, v] } else { [v, b] });
                root(p, r);
            });
        }
        put(ds, WALK, 3, "two Bools compared", move |p| {
            let a = formula(p);
            let b = formula(p);
            let r = p.node(k, &[a, b]);
            root(p, r);
        });
    }
    for n in [1usize, 2, 5] {
        for j in 0..n {
            put(ds, WALK, 3, "a Bool as an argument", move |p| {
                let f = func(p, 8);
                let mut args: Vec<u32> = (0..n).map(|_| var(p, 1)).collect();
                args[j] = formula(p);
                let c = call(p, f, 8, &args);
                let v = var(p, 8);
                let r = p.node(kind::EQ, &[c, v]);
                root(p, r);
            });
        }
    }
}

fn walk_numbers(ds: &mut Defects) {
    for x in [0u64, 1, 7] {
        put(ds, WALK, 1, "walk: a root past the list", move |p| p.roots.push(p.count() as u64 + x));
    }
    for x in [(1u64 << 32) - 1, 1 << 32, 1 << 63, u64::MAX] {
        put(ds, WALK, 1, "walk: a root past the list, by far", move |p| p.roots.push(x));
    }
    for high in [1u64 << 32, 1 << 63] {
        put(ds, WALK, 1, "walk: a root that is right in its low 32 bits alone", move |p| {
            let r = formula(p) as u64;
            p.roots.push(r + high);
        });
    }
    for far in [0, 1, LAST / 2] {
        put(ds, WALK, 1, "walk: an array number past its table", move |p| {
            let i = var(p, 32);
            let s = p.side.len() as u32;
            let n = p.aname_start.len() as u32;
            let a = p.node(kind::SELECT, &[n + far, i, s, 0]);
            reach(p, a, kind::SELECT);
        });
        put(ds, WALK, 1, "walk: an array number past its table, with stores", move |p| {
            let i = var(p, 32);
            let b = var(p, 8);
            let s = p.side.len() as u32;
            p.side.extend([i as u64, b as u64]);
            let n = p.aname_start.len() as u32;
            let a = p.node(kind::SELECT, &[n + far, i, s, 1]);
            reach(p, a, kind::SELECT);
        });
        put(ds, WALK, 1, "walk: a function number past its table", move |p| {
            let n = p.fname_start.len() as u32;
            let c = call(p, n + far, 1, &[]);
            reach(p, c, kind::CALL);
        });
        put(ds, WALK, 1, "walk: a function number past its table, with arguments", move |p| {
            let v = var(p, 8);
            let n = p.fname_start.len() as u32;
            let c = call(p, n + far, 1, &[v, v]);
            reach(p, c, kind::CALL);
        });
    }
}

fn walk_variables(ds: &mut Defects) {
    for w in [1, 8, 64, LAST] {
        put(ds, WALK, 4, "a reached variable without an entry", move |p| {
            let i = p.node(kind::VAR, &[w]);
            let r = p.node(kind::EQ, &[i, i]);
            root(p, r);
        });
        for x in [w as u64 + 1, w as u64 + (1 << 32), u64::MAX, 1 << 63] {
            put(ds, WALK, 4, "a reached variable of another width", move |p| {
                let i = var(p, w);
                *p.var_width.last_mut().unwrap() = x;
                let r = p.node(kind::EQ, &[i, i]);
                root(p, r);
            });
        }
    }
    for x in [1u64 << 32, 1 << 63] {
        put(ds, WALK, 4, "a reached variable whose entry has its low 32 bits alone", move |p| {
            let i = var(p, 8);
            *p.var_node.last_mut().unwrap() += x;
            let r = p.node(kind::ULT, &[i, i]);
            root(p, r);
        });
    }
    put(ds, WALK, 4, "a reached variable whose first entry has another width", |p| {
        let i = p.node(kind::VAR, &[8]);
        let n = fresh(p);
        p.var_entry(&n, i as u64, 9);
        let n = fresh(p);
        p.var_entry(&n, i as u64, 8);
        let r = p.node(kind::EQ, &[i, i]);
        root(p, r);
    });
    put(ds, WALK, 4, "an entry of another node", |p| {
        let i = p.node(kind::VAR, &[8]);
        let n = fresh(p);
        p.var_entry(&n, i as u64 + 1, 8);
        let r = p.node(kind::EQ, &[i, i]);
        root(p, r);
    });
    // the variable as an operand of each kind
    for k in (2..kind::COUNT).filter(|k| !vector_operands(*k).is_empty()) {
        put(ds, WALK, 4, "a reached variable without an entry, below each kind", move |p| {
            let v = p.node(kind::VAR, &[1]);
            let n = with_operand(p, k, *vector_operands(k).last().unwrap(), v);
            reach(p, n, k);
        });
    }
}

fn walk_rotations(ds: &mut Defects) {
    for k in [kind::ROTR, kind::ROTL] {
        // each kind of width 1 or 8 as the amount
        for a in (0..kind::COUNT).filter(|a| *a != kind::CONST) {
            put(ds, WALK, 5, "a rotation whose amount is no constant", move |p| {
                let w = width_of(a);
                let v = var(p, w);
                let b = sound(p, a);
                let n = p.node(k, &[v, b]);
                let r = p.node(kind::EQ, &[n, v]);
                root(p, r);
            });
        }
        put(ds, WALK, 5, "a rotation of a Bool by a variable", move |p| {
            let v = var(p, 1);
            let b = formula(p);
            let n = p.node(k, &[b, v]);
            let r = p.node(kind::EQ, &[n, v]);
            root(p, r);
        });
        for w in [65_537u32, 65_538, 100_000] {
            put(ds, WALK, 5, "a rotation that is too wide", move |p| {
                let v = var(p, w);
                let s = p.bits.len() as u32;
                p.bits.extend(vec![0; w as usize]);
                let b = p.node(kind::CONST, &[s, w]);
                let n = p.node(k, &[v, b]);
                let r = p.node(kind::EQ, &[n, v]);
                root(p, r);
            });
        }
    }
}

fn walk_calls(ds: &mut Defects) {
    for (declared, own) in [(8u64, 9u32), (9, 8), (1, 8), (8, LAST), ((1 << 32) + 8, 8), (u64::MAX, 8), (1 << 63, 1)] {
        put(ds, WALK, 7, "a reached call of another width", move |p| {
            let f = func(p, declared);
            let v = var(p, own);
            let c = call(p, f, own, &[v]);
            let r = p.node(kind::EQ, &[c, v]);
            root(p, r);
        });
        put(ds, WALK, 7, "a reached call of another width, not the first", move |p| {
            let f = func(p, declared);
            call(p, f, 5, &[]);
            let c = call(p, f, own, &[]);
            let v = var(p, own);
            let r = p.node(kind::EQ, &[c, v]);
            root(p, r);
        });
    }
    // the first call, which no root reaches, and the reached one
    for (first, reached) in [(&[][..], &[8u32][..]), (&[8], &[]), (&[8, 8], &[8]), (&[8], &[8, 8]), (&[1, 2, 3], &[1, 2, 3, 4])] {
        put(ds, WALK, 7, "a reached call with another count of arguments", move |p| {
            let f = func(p, 8);
            let a: Vec<u32> = first.iter().map(|w| var(p, *w)).collect();
            let b: Vec<u32> = reached.iter().map(|w| var(p, *w)).collect();
            call(p, f, 8, &a);
            let c = call(p, f, 8, &b);
            let v = var(p, 8);
            let r = p.node(kind::EQ, &[c, v]);
            root(p, r);
        });
        put(ds, WALK, 7, "a second reached call with another count of arguments", move |p| {
            let f = func(p, 8);
            let a: Vec<u32> = first.iter().map(|w| var(p, *w)).collect();
            let b: Vec<u32> = reached.iter().map(|w| var(p, *w)).collect();
            let x = call(p, f, 8, &a);
            let y = call(p, f, 8, &b);
            let r = p.node(kind::EQ, &[x, y]);
            root(p, r);
        });
    }
    for (first, reached) in
        [(&[8u32][..], &[9u32][..]), (&[8, 16], &[8, 8]), (&[8, 16], &[16, 8]), (&[1, 2, 3], &[2, 2, 3]), (&[LAST], &[1])]
    {
        put(ds, WALK, 7, "a reached call with an argument of another width", move |p| {
            let f = func(p, 8);
            let a: Vec<u32> = first.iter().map(|w| var(p, *w)).collect();
            let b: Vec<u32> = reached.iter().map(|w| var(p, *w)).collect();
            call(p, f, 8, &a);
            let c = call(p, f, 8, &b);
            let v = var(p, 8);
            let r = p.node(kind::EQ, &[c, v]);
            root(p, r);
        });
    }
    for past in [1, 2, LAST / 2] {
        put(ds, WALK, 7, "a reached call without arguments that starts past the side table", move |p| {
            let f = func(p, 8);
            let a = call(p, f, 8, &[]);
            let s = p.side.len() as u32 + past;
            let b = p.node(kind::CALL, &[f, 8, s, 0]);
            let r = p.node(kind::EQ, &[a, b]);
            root(p, r);
        });
    }
}

/// Every defect but those of 9 and of the width pass.
fn defects() -> Defects {
    let mut ds = vec![];
    encoding(&mut ds);
    columns(&mut ds);
    names(&mut ds);
    sharing(&mut ds);
    declared(&mut ds);
    walk_sorts(&mut ds);
    walk_numbers(&mut ds);
    walk_variables(&mut ds);
    walk_rotations(&mut ds);
    walk_calls(&mut ds);
    ds
}

/// One or two of each phase, and several of the walk, for pairs.
fn for_pairs() -> Defects {
    let mut ds = vec![];
    put(&mut ds, LIMIT, 9, "limit", |p| p.roots.resize(257, 0));
    put(&mut ds, ENCODING, 8, "kind", |p| {
        p.node(39, &[]);
    });
    put(&mut ds, ENCODING, 8, "bit", |p| p.bits.push(2));
    put(&mut ds, WIDTHS, 1, "width", |p| {
        p.node(kind::VAR, &[0]);
    });
    put(&mut ds, COLUMNS, 1, "column", |p| p.func_width.push(8));
    put(&mut ds, ARRAYS, 12, "array's width", |p| {
        let n = fresh(p);
        p.array_of(&n, 24, 0);
    });
    put(&mut ds, NAMES, 2, "variable's name", |p| named(p, 0, b"@"));
    put(&mut ds, NAMES, 2, "function's name", |p| named(p, 2, b"let"));
    put(&mut ds, SHARING, 6, "shared", |p| {
        let i = sound(p, kind::NEG);
        p.node(kind::CONCAT, &[i, i]);
    });
    put(&mut ds, VARIABLES, 4, "declared variable", |p| {
        let n = fresh(p);
        p.var_entry(&n, 0xFFFF_FFFF, 0);
    });
    put(&mut ds, FUNCTIONS, 7, "declared function", |p| {
        func(p, 8);
    });
    put(&mut ds, WALK, 3, "root's sort", |p| {
        let i = var(p, 8);
        root(p, i);
    });
    put(&mut ds, WALK, 1, "root past", |p| p.roots.push(u64::MAX));
    put(&mut ds, WALK, 1, "array past", |p| {
        let i = var(p, 32);
        let a = p.node(kind::SELECT, &[LAST, i, 0, 0]);
        reach(p, a, kind::SELECT);
    });
    put(&mut ds, WALK, 4, "reached variable", |p| {
        let i = p.node(kind::VAR, &[8]);
        let r = p.node(kind::EQ, &[i, i]);
        root(p, r);
    });
    put(&mut ds, WALK, 5, "rotation", |p| {
        let v = var(p, 8);
        let n = p.node(kind::ROTL, &[v, v]);
        let r = p.node(kind::EQ, &[n, v]);
        root(p, r);
    });
    put(&mut ds, WALK, 7, "reached call", |p| {
        let f = func(p, 9);
        let c = call(p, f, 8, &[]);
        let v = var(p, 8);
        let r = p.node(kind::EQ, &[c, v]);
        root(p, r);
    });
    ds
}

// ---------------------------------------------------------------- document 01's examples

/// Variable x of width 8 at node 0, the constant 5, their sum, and that it equals x.
fn m2(name: &[u8], value: u8) -> Problem {
    let mut p = Problem::default();
    p.node(kind::VAR, &[8]);
    p.bits = (0..8).map(|i| value >> i & 1).collect();
    p.node(kind::CONST, &[0, 8]);
    p.node(kind::ADD, &[0, 1]);
    p.node(kind::EQ, &[2, 0]);
    p.roots = vec![3];
    p.var_entry(name, 0, 8);
    p
}

fn examples(add: &mut impl FnMut(&str, Problem, Room, Option<u32>)) {
    let f200 = Room::Fixed(200);
    let mut e = |label: &str, p: Problem, room: Room, want: u32| add(&format!("{want} example: {label}"), p, room, Some(want));
    e("M1", Problem::default(), f200, 0);
    e("M2", m2(b"x", 5), f200, 0);
    e("M3", m2(b"x", 5), Room::Fixed(102), 10);
    e("M2 with exact room", m2(b"x", 5), Room::Fixed(103), 0);
    let mut p = m2(b"x", 5);
    p.set_operand(3, 1, 2);
    e("M4", p, f200, 6);
    let mut p = m2(b"x", 5);
    p.roots = vec![0];
    e("M5", p, f200, 3);
    e("M6", m2(b"bvadd", 5), f200, 2);
    e("a letter more", m2(b"bvadd2", 5), f200, 0);
    let mut p = m2(b"x", 5);
    p.roots = vec![4];
    e("M7", p.clone(), f200, 1);
    let mut q = m2(b"@x", 5);
    q.roots = vec![4];
    e("root 4 and the name @x", q, f200, 2);
    for (value, label) in [(11, "M8"), (8, "by 8"), (0, "by 0"), (255, "by 255"), (7, "by 7")] {
        let mut p = m2(b"x", value);
        p.nodes[17 * 2] = kind::ROTL;
        e(label, p.clone(), f200, 0);
        p.nodes[17 * 2] = kind::ROTR;
        e(label, p, f200, 0);
    }
    let mut p = Problem::default();
    p.func_entry(b"f", 8);
    e("M9", p, f200, 7);
    let mut p = Problem::default();
    p.bits = vec![0; 32];
    p.node(kind::CONST, &[0, 32]);
    p.node(kind::SELECT, &[9, 0, 0, 0]);
    e("M10", p, f200, 0);
    for (k, w, want) in [(kind::ROTL, 65_536, 0), (kind::ROTL, 65_537, 5), (kind::ROTR, 65_536, 0), (kind::ROTR, 65_537, 5)] {
        for ones in [0usize, 1] {
            let mut p = Problem::default();
            p.node(kind::VAR, &[w]);
            p.bits = vec![0; w as usize];
            p.bits[3] = 1;
            p.bits[w as usize - 1] = ones as u8;
            p.node(kind::CONST, &[0, w]);
            p.node(k, &[0, 1]);
            p.node(kind::EQ, &[2, 0]);
            p.roots = vec![3];
            p.var_entry(b"wide", 0, w as u64);
            e(&format!("rotation of width {w}"), p, Room::Exact, want);
        }
    }
    // room
    for room in [0, 1, 29, 30, 31] {
        e("M1 by room", Problem::default(), Room::Fixed(room), if room < 30 { 10 } else { 0 });
    }
    for room in [0, 102, 103, 104] {
        e("M2 by room", m2(b"x", 5), Room::Fixed(room), if room < 103 { 10 } else { 0 });
    }
    for room in [0, 50, 200] {
        let mut p = m2(b"x", 5);
        p.roots = vec![3, 0];
        e("a later root is refused, whatever the room", p, Room::Fixed(room), 3);
    }
}

/// What running the Rust showed, and the traps of document 01.
fn found(add: &mut impl FnMut(&str, Problem, Room, Option<u32>)) {
    let f = Room::Exact;
    let mut e = |label: &str, p: Problem, want: u32| add(&format!("{want} found: {label}"), p, f, Some(want));
    let one = |w: u64| {
        let mut p = Problem::default();
        p.func_entry(b"f", w);
        p
    };
    let mut p = one(8);
    p.node(kind::CALL, &[0, 8, 1, 0]);
    e("a first call without arguments past the side table", p, 7);
    let mut p = one(8);
    p.node(kind::CALL, &[0, 8, 0, 0]);
    p.node(kind::CALL, &[0, 8, 1, 0]);
    p.node(kind::EQ, &[0, 1]);
    p.roots = vec![2];
    e("a reached call without arguments past the side table", p.clone(), 7);
    p.roots = vec![];
    e("the same call, not reached", p, 0);
    for n in [0u64, 1, 3] {
        let mut p = one(8);
        p.side = vec![u64::MAX; n as usize];
        p.node(kind::CALL, &[0, 8, n as u32, 0]);
        p.node(kind::CALL, &[0, 8, n as u32, 0]);
        p.node(kind::EQ, &[0, 1]);
        p.roots = vec![2];
        e("calls without arguments that start at the end of the side table", p, 0);
    }
    for s in [0, 1, 7, LAST] {
        let mut p = Problem::default();
        p.node(kind::VAR, &[32]);
        p.var_entry(b"i", 0, 32);
        p.array_entry(b"m");
        p.node(kind::SELECT, &[0, 0, s, 0]);
        p.node(kind::VAR, &[8]);
        p.var_entry(b"v", 2, 8);
        p.node(kind::EQ, &[1, 2]);
        p.roots = vec![3];
        e("a select without stores, from any start", p, 0);
    }
    // sharing
    let mut p = Problem::default();
    p.node(kind::VAR, &[8]);
    p.var_entry(b"x", 0, 8);
    p.node(kind::NEG, &[0]);
    p.node(kind::EQ, &[1, 0]);
    p.roots = vec![2];
    p.side = vec![1, 1, 1];
    e("side entries that no node reads are no uses", p.clone(), 0);
    p.func_entry(b"f", 8);
    p.node(kind::CALL, &[0, 8, 0, 1]);
    e("a side entry that a call reads is a use", p, 6);
    let mut p = Problem::default();
    p.roots = vec![0, 0];
    e("a root past the list is no use", p, 1);
    let mut p = m2(b"x", 5);
    p.roots = vec![0, 0];
    e("a leaf as a root twice", p, 3);
    let mut p = m2(b"x", 5);
    p.roots = vec![3, 3];
    e("a root twice", p, 6);
    let mut p = m2(b"x", 5);
    p.node(kind::NEG, &[2]);
    e("a use in a node that is not reached", p, 6);
    let mut p = one(8);
    p.node(kind::CALL, &[0, 8, 0, 0]);
    p.node(kind::EQ, &[0, 0]);
    p.roots = vec![1];
    e("a call without arguments is no leaf", p, 6);
    // numbers that are no uses: a width, bounds, a by, an array number
    let mut p = Problem::default();
    p.node(kind::VAR, &[3]);
    p.var_entry(b"x", 0, 3);
    p.node(kind::NEG, &[0]);
    p.node(kind::ZERO_EXT, &[1, 1]);
    p.node(kind::EXTRACT, &[1, 1, 2]);
    p.node(kind::VAR, &[1]);
    p.var_entry(b"y", 4, 1);
    p.node(kind::EQ, &[3, 4]);
    p.roots = vec![5];
    e("widths, bounds and amounts are no uses", p, 0);
    // rotations
    for k in [kind::ROTL, kind::ROTR] {
        let mut p = Problem::default();
        p.node(kind::VAR, &[1]);
        p.var_entry(b"x", 0, 1);
        p.node(kind::EQ, &[0, 0]);
        p.node(k, &[0, 1]);
        p.node(kind::EQ, &[2, 0]);
        p.roots = vec![3];
        e("a rotation by a Bool", p.clone(), 5);
        p.set_operand(2, 0, 1);
        p.set_operand(2, 1, 0);
        e("a rotation of a Bool by a variable", p, 5);
    }
    // tables
    let mut p = m2(b"x", 5);
    p.var_entry(b"y", 0, 8);
    e("two entries for a node: the first one's name", p.clone(), 0);
    p.var_width[0] = 9;
    e("two entries for a node: the first one's width", p, 4);
    let mut p = one(8);
    p.node(kind::CALL, &[0, 9, 0, 0]);
    e("the only call has another width and is not reached", p.clone(), 0);
    p.node(kind::VAR, &[9]);
    p.var_entry(b"x", 1, 9);
    p.node(kind::EQ, &[0, 1]);
    p.roots = vec![2];
    e("the only call has another width and is reached", p, 7);
    let mut p = m2(b"x", 5);
    p.var_width[0] = (1 << 32) + 8;
    e("a variable's width in its low 32 bits", p, 4);
    let mut p = one((1 << 32) + 8);
    p.node(kind::CALL, &[0, 8, 0, 0]);
    p.node(kind::VAR, &[8]);
    p.var_entry(b"x", 1, 8);
    p.node(kind::EQ, &[0, 1]);
    p.roots = vec![2];
    e("a function's width in its low 32 bits", p, 7);
    for n in ["let", "a;b", ";", "a b", " ", "'", "\"", "(", ")", "a(b", "#b0", "0", ":x", "|"] {
        e(&format!("the name {n}"), m2(n.as_bytes(), 5), if n == "let" || n == "|" { 2 } else { 0 });
    }
    // the order in a select: last pair first, index before value, its own index last
    for defects in 0..8u32 {
        let mut p = Problem::default();
        p.array_entry(b"m");
        p.node(kind::VAR, &[32]);
        p.var_entry(b"i", 0, 32);
        p.node(kind::VAR, &[8]);
        p.var_entry(b"v", 1, 8);
        p.node(kind::CALL, &[0, 8, 0, 0]);
        p.node(kind::ROTR, &[0, 0]);
        p.node(kind::VAR, &[32]);
        if defects & 1 == 0 {
            p.var_entry(b"j", 4, 32);
        }
        if defects & 2 == 0 {
            p.func_entry(b"f", 8);
        }
        p.side = vec![0, 2, 4, 1];
        p.node(kind::SELECT, &[0, if defects & 4 == 0 { 0 } else { 3 }, 0, 2]);
        p.node(kind::EQ, &[5, 1]);
        p.roots = vec![6];
        let want = if defects & 1 != 0 {
            4
        } else if defects & 2 != 0 {
            1
        } else if defects & 4 != 0 {
            5
        } else {
            0
        };
        e("the order within a select", p, want);
    }
    // an unreached first call with a Bool argument
    let mut p = one(8);
    p.node(kind::VAR, &[8]);
    p.var_entry(b"x", 0, 8);
    p.node(kind::EQ, &[0, 0]);
    p.side = vec![1];
    p.node(kind::CALL, &[0, 8, 0, 1]);
    e("an unreached first call with a Bool argument", p, 0);
    // the signature is that of the first call in node order, not of the first that is reached
    let mut p = one(8);
    p.node(kind::VAR, &[16]);
    p.var_entry(b"a", 0, 16);
    p.node(kind::VAR, &[8]);
    p.var_entry(b"b", 1, 8);
    p.side = vec![0, 1];
    p.node(kind::CALL, &[0, 8, 0, 1]);
    p.node(kind::CALL, &[0, 8, 1, 1]);
    p.node(kind::EQ, &[3, 1]);
    p.roots = vec![4];
    e("the first call in node order", p, 7);
}

// ---------------------------------------------------------------- names that are permitted

/// The names that are one letter away from a word, by the way; none is twice there, and none is reserved.
fn near(word: &str) -> Vec<(&'static str, Vec<Vec<u8>>)> {
    let w = word.as_bytes();
    let (mut changed, mut less, mut more, mut other) = (vec![], vec![], vec![], vec![]);
    for i in 0..=w.len() {
        for b in [b'_', b'q'] {
            let mut n = w.to_vec();
            n.insert(i, b);
            more.push(n);
        }
        if i < w.len() {
            for b in [b'-', w[i] + 1, w[i] - 1] {
                let mut n = w.to_vec();
                n[i] = b;
                changed.push(n);
            }
            let mut n = w.to_vec();
            n.remove(i);
            less.push(n);
            let mut n = w.to_vec();
            n[i] = n[i].to_ascii_uppercase();
            other.push(n);
        }
    }
    other.push(w.to_ascii_uppercase());
    [("with a letter changed", changed), ("with a letter less", less), ("with a letter more", more), ("in the other case", other)]
        .map(|(label, mut names)| {
            names.sort();
            names.dedup();
            names.retain(|n| !words::is_reserved(n));
            (label, names)
        })
        .into()
}

fn good_names(add: &mut impl FnMut(&str, Problem, Room, Option<u32>)) {
    let mut ok = |label: &str, p: Problem| add(&format!("+ name: {label}"), p, Room::Exact, Some(0));
    for t in 0..3 {
        for b in (32u8..127).filter(|b| *b != b'|' && *b != b'\\') {
            let mut p = Problem::default();
            named(&mut p, t, &[b'k', b]);
            if b != b'@' && b != b'.' && b != b'!' && b != b'=' && b != b'_' {
                named(&mut p, t, &[b]);
            }
            ok("each byte below 127 that is permitted", p);
        }
        for n in ["k@", "k.", "~@", "_.", "!@", "let ", " let", "lets", "Let", "LET", "le"] {
            let mut p = Problem::default();
            named(&mut p, t, n.as_bytes());
            ok("near a rule", p);
        }
        let mut p = Problem::default();
        named(&mut p, t, b"case");
        named(&mut p, t, b"Case");
        named(&mut p, t, b"CASE");
        named(&mut p, t, b"cas");
        named(&mut p, t, b"case ");
        ok("case counts, and length", p);
        let mut p = Problem::default();
        named(&mut p, t, b"case");
        named(&mut p, (t + 1) % 3, b"Case");
        named(&mut p, (t + 2) % 3, b"casE");
        ok("case counts across tables", p);
        // the arena as one stretch, with names that overlap and lie in any order
        let mut p = Problem::default();
        arena(&mut p, t).extend_from_slice(b"abcdefab");
        for (s, l) in [(0, 8), (0, 1), (1, 1), (0, 2), (1, 2), (2, 3), (4, 4)] {
            placed(&mut p, t, s, l);
        }
        ok("overlapping ranges", p);
        let mut p = Problem::default();
        arena(&mut p, t).extend_from_slice(b"\x00\xff|last");
        placed(&mut p, t, 3, 4);
        arena(&mut p, t).pop();
        ok("bytes of an arena that no name has", p);
        // a name at the very end of its arena, and one that is all of it
        let mut p = Problem::default();
        arena(&mut p, t).extend_from_slice(b"whole");
        placed(&mut p, t, 0, 5);
        placed(&mut p, t, 4, 1);
        arena(&mut p, t).truncate(5);
        ok("all of an arena, and its end", p);
    }
    // equal places of three arenas, with different bytes
    let mut p = Problem::default();
    p.names = b"one".to_vec();
    p.anames = b"two".to_vec();
    p.fnames = b"six".to_vec();
    for t in 0..3 {
        placed(&mut p, t, 0, 3);
    }
    ok("equal places in three arenas", p);
    // one letter away from a word of SMT-LIB 2.7: each letter changed, left out, in the other case, and one added at each place
    for w in SMTLIB_27 {
        for (label, names) in near(w) {
            for t in 0..3 {
                let mut p = Problem::default();
                for n in &names {
                    named(&mut p, t, n);
                }
                ok(&format!("a word of SMT-LIB 2.7 {label}"), p);
            }
        }
    }
    for (j, w) in RUST.iter().enumerate() {
        let t = j % 3;
        let mut p = Problem::default();
        let mut more = w.as_bytes().to_vec();
        more.push(b"2x -"[j % 4]);
        named(&mut p, t, &more);
        let mut front = vec![b"k0 ~"[j % 4]];
        front.extend_from_slice(w.as_bytes());
        named(&mut p, t, &front);
        ok("a reserved word with a letter more", p);
        let less = &w[..w.len() - 1];
        if !less.is_empty() && !words::is_reserved(less.as_bytes()) {
            let mut p = Problem::default();
            named(&mut p, t, less.as_bytes());
            ok("a reserved word with a letter less", p);
        }
        let other: String =
            w.chars().map(|c| if c.is_ascii_lowercase() { c.to_ascii_uppercase() } else { c.to_ascii_lowercase() }).collect();
        if other != *w && !words::is_reserved(other.as_bytes()) {
            let mut p = Problem::default();
            named(&mut p, t, other.as_bytes());
            ok("a reserved word in the other case", p);
        }
    }
}

// ---------------------------------------------------------------- limits and extremes

fn limits(rng: &mut Rng, add: &mut impl FnMut(&str, Problem, Room, Option<u32>)) {
    // one past each limit, on several problems; a column and an arena are one limit each, by nine and by three inputs
    for turn in 0..10u64 {
        let base = accepted(rng, turn % 4, 2);
        let mut over = |label: &str, f: &dyn Fn(&mut Problem)| {
            let mut p = base.clone();
            f(&mut p);
            add(&format!("9 {label}"), p, Room::Fixed(4_000), Some(9));
        };
        over("node bytes", &|p| p.nodes.resize(34_817, 0));
        over("node bytes, whole records", &|p| {
            while p.count() < 2_049 {
                p.node(kind::VAR, &[8]);
            }
        });
        over("bits", &|p| p.bits.resize(131_073, 0));
        over("side entries", &|p| p.side.resize(8_193, 0));
        over("roots", &|p| p.roots.resize(257, 0));
        if turn >= 4 {
            continue;
        }
        for c in 0..11 {
            over("a column", &|p| column(p, c).resize(513, 0));
        }
        over("all columns", &|p| {
            for c in 0..11 {
                column(p, c).resize(513, 0);
            }
        });
        for t in 0..3 {
            over("an arena", &|p| arena(p, t).resize(16_385, b'a'));
        }
        over("an arena and a kind", &|p| {
            arena(p, 1).resize(16_385, b'a');
            p.node(99, &[]);
        });
    }
    let mut at = |label: &str, p: Problem, want: u32| {
        add(
            &format!("{} at a limit: {label}", if want == 0 { "+".to_string() } else { want.to_string() }),
            p,
            Room::Exact,
            Some(want),
        )
    };
    let chain = |k: u8, n: usize| {
        let mut p = Problem::default();
        let mut i = var(&mut p, 8);
        for _ in 0..n {
            i = p.node(k, &[i]);
        }
        let r = p.node(kind::EQ, &[i, 0]);
        root(&mut p, r);
        p
    };
    at("2,048 nodes", chain(kind::BV_NOT, 2_046), 0);
    at("2,048 nodes", chain(kind::NEG, 2_046), 0);
    let mut p = formula_chain(2_046);
    at("2,048 nodes", p.clone(), 0);
    p.roots = vec![2_046, 2_047];
    at("2,048 nodes, two roots", p, 6);
    let mut p = Problem::default();
    p.bits = vec![1; 131_072];
    p.node(kind::CONST, &[0, 65_000]);
    p.node(kind::CONST, &[131_071, 1]);
    p.node(kind::EQ, &[1, 1]);
    p.roots = vec![2];
    at("131,072 bits", p, 0);
    let mut p = Problem::default();
    let v = var(&mut p, 8);
    let f = func(&mut p, 8);
    let c = call(&mut p, f, 8, &vec![v; 8_192]);
    let r = p.node(kind::EQ, &[c, v]);
    root(&mut p, r);
    at("8,192 side entries of a call", p, 0);
    let mut p = Problem::default();
    let v = var(&mut p, 8);
    let i = var(&mut p, 32);
    let a = array(&mut p);
    for _ in 0..4_096 {
        p.side.extend([i as u64, v as u64]);
    }
    let s = p.node(kind::SELECT, &[a, i, 0, 4_096]);
    let r = p.node(kind::EQ, &[s, v]);
    root(&mut p, r);
    at("8,192 side entries of a select", p, 0);
    let mut p = Problem::default();
    let v = var(&mut p, 8);
    for k in 0..256 {
        let r = p.node(kind::EQ + (k % 10) as u8, &[v, v]);
        root(&mut p, r);
    }
    at("256 roots", p.clone(), 0);
    p.roots[255] = 0;
    at("256 roots, the last a bit-vector", p, 3);
    let mut p = Problem::default();
    p.roots = vec![0; 256];
    at("256 roots over no nodes", p, 1);
    for t in 0..3 {
        let mut p = Problem::default();
        for k in 0..512 {
            named(&mut p, t, format!("n{k}").as_bytes());
        }
        at("512 entries", p.clone(), 0);
        let n = arena(&mut p, t).len() as u64;
        match t {
            0 => (p.name_start[511], p.name_len[511]) = (0, 2),
            1 => (p.aname_start[511], p.aname_len[511]) = (0, 2),
            _ => (p.fname_start[511], p.fname_len[511]) = (0, 2),
        }
        at("512 entries, the last as the first", p.clone(), 2);
        match t {
            0 => (p.name_start[511], p.name_len[511]) = (n, 1),
            1 => (p.aname_start[511], p.aname_len[511]) = (n, 1),
            _ => (p.fname_start[511], p.fname_len[511]) = (n, 1),
        }
        at("512 entries, the last outside", p, 2);
        let mut p = Problem::default();
        *arena(&mut p, t) = vec![b'a'; 16_383];
        placed(&mut p, t, 0, 16_384);
        at("16,384 bytes of an arena", p.clone(), 0);
        placed(&mut p, t, 16_383, 1);
        arena(&mut p, t).truncate(16_384);
        at("16,384 bytes of an arena", p, 0);
    }
    // deep walks
    for last in [false, true] {
        let mut p = chain(kind::BV_NOT, 2_000);
        p.roots.clear();
        let deep = 2_000;
        p.nodes.truncate(17 * 2_001);
        let f = func(&mut p, 8);
        let mut args = vec![0u32; 8_192];
        args[if last { 8_191 } else { 0 }] = deep;
        let c = call(&mut p, f, 8, &args);
        let r = p.node(kind::EQ, &[c, 0]);
        root(&mut p, r);
        at("a call of 8,192 arguments, one a chain", p, 0);
        for n in [4usize, 1, 9] {
            let mut p = Problem::default();
            let v = var(&mut p, 8);
            let f = func(&mut p, 8);
            let mut i = v;
            for _ in 0..2_045.min(8_192 / n) {
                let mut args = vec![v; n];
                args[if last { n - 1 } else { 0 }] = i;
                i = call(&mut p, f, 8, &args);
            }
            let r = p.node(kind::EQ, &[i, v]);
            root(&mut p, r);
            at("nested calls", p, 0);
        }
        // selects in selects: the index is the value before it, made wide
        let mut p = Problem::default();
        let v = var(&mut p, 8);
        let a = array(&mut p);
        let mut i = var(&mut p, 32);
        for _ in 0..if last { 500 } else { 1_000 } {
            let s = p.side.len() as u32;
            let wide = i;
            if last {
                let j = var(&mut p, 32);
                p.side.extend([wide as u64, v as u64]);
                i = p.node(kind::SELECT, &[a, j, s, 1]);
            } else {
                i = p.node(kind::SELECT, &[a, wide, s, 0]);
            }
            i = p.node(kind::ZERO_EXT, &[i, 24]);
        }
        let r = p.node(kind::EQ, &[i, 1]);
        root(&mut p, r);
        at("nested selects", p, 0);
    }
    // a script far longer than any buffer
    let mut p = Problem::default();
    p.bits = vec![1; 131_072];
    let b = p.node(kind::CONST, &[0, 131_072]);
    let f = func(&mut p, 8);
    let c = call(&mut p, f, 8, &[b; 300]);
    let v = var(&mut p, 8);
    let r = p.node(kind::EQ, &[c, v]);
    root(&mut p, r);
    for room in [0, 30, 4_096] {
        add("10 a script of 39 million bytes", p.clone(), Room::Fixed(room), Some(10));
    }
    p.roots.push(v as u64);
    add("3 after 39 million bytes", p, Room::Fixed(4_096), Some(3));
}

/// A chain of nots over one comparison: n nodes after the variable.
fn formula_chain(n: usize) -> Problem {
    let mut p = Problem::default();
    let v = var(&mut p, 8);
    let mut i = p.node(kind::EQ, &[v, v]);
    for _ in 0..n {
        i = p.node(kind::NOT, &[i]);
    }
    root(&mut p, i);
    p
}

fn extremes(add: &mut impl FnMut(&str, Problem, Room, Option<u32>)) {
    for x in EXTREMES {
        let mut p = Problem::default();
        let v = var(&mut p, 8);
        let n = fresh(&p);
        p.var_entry(&n, x, 16);
        let r = p.node(kind::EQ, &[v, v]);
        root(&mut p, r);
        add("+ extremes: an entry's node", p.clone(), Room::Exact, Some(0));
        *p.var_width.last_mut().unwrap() = x;
        add("  extremes: an unreached variable's width", p.clone(), Room::Exact, Some(if x == 0 { 4 } else { 0 }));
        p.var_width[0] = x;
        add("  extremes: a reached variable's width", p, Room::Exact, Some(4));
        let mut p = Problem::default();
        let f = func(&mut p, x);
        let v = var(&mut p, 8);
        let c = call(&mut p, f, 8, &[v]);
        add("  extremes: an unreached function's width", p.clone(), Room::Exact, Some(if x == 0 { 7 } else { 0 }));
        let r = p.node(kind::EQ, &[c, v]);
        root(&mut p, r);
        add("  extremes: a reached function's width", p.clone(), Room::Exact, Some(7));
        p.roots = vec![x];
        p.func_width[0] = 8;
        add("  extremes: a root", p.clone(), Room::Exact, Some(if x == 0 { 3 } else { 1 }));
        p.roots = vec![r as u64];
        p.side[0] = x;
        add("  extremes: a side entry that is read", p.clone(), Room::Exact, Some(if x == 0 { 0 } else { 1 }));
        p.side[0] = v as u64;
        p.side.push(x);
        add("+ extremes: a side entry that is not read", p, Room::Exact, Some(0));
        for t in 0..3 {
            for place in 0..2 {
                let mut p = Problem::default();
                named(&mut p, t, b"aa");
                let c = [0, 4, 8][t] + place;
                column(&mut p, c)[0] = x;
                // a start of 0 is where the name is; a length of 0 is refused
                let want = if x == 0 && place == 0 { 0 } else { 2 };
                add("  extremes: a name's start or length", p, Room::Exact, Some(want));
            }
        }
    }
    // widths that print as the largest numbers
    for (w, by) in [(LAST, 0), (LAST, LAST), (1, LAST)] {
        let mut p = Problem::default();
        let v = var(&mut p, w);
        let i = p.node(kind::ZERO_EXT, &[v, by]);
        let f = func(&mut p, 3);
        let c = call(&mut p, f, 3, &[i]);
        let y = var(&mut p, 3);
        let r = p.node(kind::SLT, &[c, y]);
        root(&mut p, r);
        add("+ extremes: widths in a script", p, Room::Exact, Some(0));
    }
}

// ---------------------------------------------------------------- all

pub fn all() -> Vec<Case> {
    let mut rng = Rng(SEED);
    let mut out: Vec<Case> = vec![];
    let mut add = |label: &str, problem: Problem, room: Room, want: Option<u32>| {
        out.push(Case { label: label.to_string(), problem, room, want });
    };
    examples(&mut add);
    found(&mut add);
    good_names(&mut add);
    alphabets::all(&mut add);
    limits(&mut rng, &mut add);
    extremes(&mut add);

    // every defect on its own, over an accepted problem; a clause with few ways has more rounds
    let all = defects();
    let mut ways_of = std::collections::BTreeMap::new();
    for d in &all {
        *ways_of.entry(d.clause.clone()).or_insert(0u64) += 1;
    }
    for (j, d) in all.iter().enumerate() {
        let heavy = d.clause.contains("too wide");
        let rounds = 10u64.div_ceil(ways_of[&d.clause]);
        for round in j as u64..j as u64 + rounds {
            let mut p = accepted(&mut rng, if heavy { 0 } else { round % 3 }, if heavy { 0 } else { 1 + (round % 2) as u32 });
            (d.add)(&mut p);
            let room = [Room::Fixed(0), Room::Fixed(64), Room::Fixed(3_000)][(round % 3) as usize];
            add(&format!("{} {}", d.number, d.clause), p, room, Some(d.number));
        }
    }

    // the width pass: each way of each clause that fails, at times with tables and a root besides
    for (j, (label, ok, form)) in ways().iter().enumerate() {
        if *ok {
            continue;
        }
        let mut c = Context::new(&mut rng, 0);
        form(&mut c);
        let mut p = c.p;
        if j % 2 == 0 {
            let r = formula(&mut p);
            root(&mut p, r);
        }
        add(&format!("1 widths, {label}"), p, Room::Fixed(500), Some(1));
    }

    // pairs of defects in both orders: the earlier phase decides, and in the walk the earlier root
    let ds = for_pairs();
    for a in &ds {
        for b in &ds {
            let mut p = accepted(&mut rng, 1, 1);
            (a.add)(&mut p);
            (b.add)(&mut p);
            let first = if b.phase < a.phase { b } else { a };
            let (x, y) = if a.number <= b.number { (a, b) } else { (b, a) };
            add(&format!("{} pair: {} and {}", first.number, x.clause, y.clause), p, Room::Fixed(300), Some(first.number));
        }
    }

    // one term with two defects: the sort before the term's own, the term's own before its operands'
    for turn in 0..10u32 {
        let mut p = accepted(&mut rng, 1, 1);
        let v = p.node(kind::VAR, &[8]);
        let n = p.node(kind::ROTL, &[v, v]);
        root(&mut p, n);
        add("3 pair within a term: the sort before the amount", p.clone(), Room::Fixed(300), Some(3));
        p.roots.pop();
        let r = p.node(kind::EQ, &[n, v]);
        root(&mut p, r);
        add("5 pair within a term: the amount before the operand", p, Room::Fixed(300), Some(5));
        let mut p = accepted(&mut rng, 1, 1);
        let b = formula(&mut p);
        let v = p.node(kind::VAR, &[1]);
        let f = func(&mut p, 8 + (turn % 2) as u64);
        let c = call(&mut p, f, 8, &[v, b]);
        let w = var(&mut p, 8);
        let r = p.node(kind::EQ, &[c, w]);
        root(&mut p, r);
        let want = if turn % 2 == 1 { 7 } else { 4 };
        add(
            &format!("{want} pair within a term: a call before its arguments, the first argument first"),
            p,
            Room::Fixed(300),
            Some(want),
        );
        let mut p = accepted(&mut rng, 1, 1);
        let b = formula(&mut p);
        let v = p.node(kind::VAR, &[1]);
        let o = if turn % 2 == 0 { [b, v] } else { [v, b] };
        let n = p.node(kind::ADD + (turn as u8) % 9, &o);
        let w = var(&mut p, 1);
        let r = p.node(kind::EQ, &[n, w]);
        root(&mut p, r);
        let want = if turn % 2 == 0 { 3 } else { 4 };
        add(&format!("{want} pair within a term: the first operand first"), p, Room::Fixed(300), Some(want));
    }

    // accepted problems of every kind, by room
    let mut seen = [0usize; 39];
    for turn in 0..1_200u64 {
        let p = accepted(&mut rng, turn % 5, 1 + (turn % 4) as u32);
        for (k, has) in kinds(&p).iter().enumerate() {
            seen[k] += *has as usize;
        }
        let (room, want) = match turn % 6 {
            0 | 1 => (Room::Exact, 0),
            2 => (Room::Longer(1), 0),
            3 => (Room::Longer(1 + rng.below(500) as usize), 0),
            4 if turn % 12 == 4 => (Room::OneShort, 10),
            4 => (Room::Exact, 0),
            _ if turn % 24 == 5 => (Room::Empty, 10),
            _ => (Room::Exact, 0),
        };
        add(if want == 0 { "+ grown" } else { "10 grown" }, p, room, Some(want));
    }
    assert!(seen.iter().all(|n| *n >= 10), "a kind is hardly ever grown: {seen:?}");

    // accepted problems with numbers changed anywhere
    for turn in 0..600u64 {
        let mut p = accepted(&mut rng, 1 + turn % 3, 2);
        for _ in 0..1 + turn % 2 {
            change(&mut p, &mut rng);
        }
        add("  grown, numbers changed", p, [Room::Exact, Room::Longer(9), Room::OneShort][(turn % 3) as usize], None);
    }
    out.extend(both::of_printer());
    out
}

fn change(p: &mut Problem, rng: &mut Rng) {
    let n = p.count() as u64;
    let near = |rng: &mut Rng, x: u64| {
        rng.pick(&[
            0,
            1,
            x.wrapping_add(1),
            x.wrapping_sub(1),
            x ^ 8,
            n,
            n.wrapping_sub(1),
            1 << 32,
            u64::MAX,
            x.wrapping_add(1 << 32),
        ])
    };
    match rng.below(8) {
        0..=3 if n > 0 => {
            let i = rng.below(n) as usize;
            if rng.one_in(6) {
                // another kind, with the same operands
                let k = rng.below(39) as u8;
                p.nodes[17 * i] = k;
                for j in operand_count(k)..4 {
                    p.set_operand(i, j, 0);
                }
            } else {
                let j = rng.below(operand_count(p.kind_of(i)) as u64) as usize;
                let x = near(rng, p.operand(i, j) as u64) as u32;
                p.set_operand(i, j, x);
            }
        }
        4 if !p.side.is_empty() => {
            let i = rng.below(p.side.len() as u64) as usize;
            p.side[i] = near(rng, p.side[i]);
        }
        5 if !p.roots.is_empty() => {
            let i = rng.below(p.roots.len() as u64) as usize;
            p.roots[i] = near(rng, p.roots[i]);
        }
        6 => {
            let t = rng.below(3) as usize;
            let a = arena(p, t);
            if !a.is_empty() {
                let i = rng.below(a.len() as u64) as usize;
                a[i] = rng.pick(&[b'@', b'.', b'|', 31, 32, 126, 127, 128, 255, b'a']);
            }
        }
        _ => {
            let c = rng.below(11) as usize;
            let col = column(p, c);
            if !col.is_empty() {
                let i = rng.below(col.len() as u64) as usize;
                col[i] = near(rng, col[i]);
            }
        }
    }
}
