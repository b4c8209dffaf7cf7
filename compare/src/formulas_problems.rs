//! Problems for formulas: every pair of operators on either side, a sign before a sign, and signs over names with parentheses.
use crate::printer::{Room, call, constant, func};
use crate::problem::{Problem, kind};

/// Kinds by their numbers in document 01.
const SUB: u8 = 3;
const MUL: u8 = 4;
const UDIV: u8 = 5;
const UREM: u8 = 6;
const AND: u8 = 7;
const OR: u8 = 8;
const XOR: u8 = 9;
const SHL: u8 = 10;
const LSHR: u8 = 11;
const ASHR: u8 = 12;
const NE: u8 = 20;
const ULE: u8 = 22;
const UGT: u8 = 23;
const UGE: u8 = 24;
const SLE: u8 = 26;
const SGT: u8 = 27;

/// The eighteen kinds that stand between operands, and whether their operands are Bools.
const BETWEEN: [(u8, bool); 18] = [
    (kind::BOOL_OR, true),
    (kind::BOOL_AND, true),
    (OR, false),
    (XOR, false),
    (AND, false),
    (kind::EQ, false),
    (NE, false),
    (kind::ULT, false),
    (ULE, false),
    (UGT, false),
    (UGE, false),
    (SHL, false),
    (LSHR, false),
    (kind::ADD, false),
    (SUB, false),
    (MUL, false),
    (UDIV, false),
    (UREM, false),
];

const BEFORE: [u8; 3] = [kind::NOT, kind::BV_NOT, kind::NEG];

/// What takes no brackets behind a sign: a constant, names with parentheses, an array's value, a call.
const CLOSED: [u8; 17] = [
    kind::CONST,
    ASHR,
    kind::ROTR,
    kind::EXTRACT,
    kind::CONCAT,
    kind::ZERO_EXT,
    kind::SIGN_EXT,
    kind::ITE,
    kind::SLT,
    SLE,
    SGT,
    kind::SGE,
    kind::ROTL,
    kind::SDIV,
    kind::SREM,
    kind::SELECT,
    kind::CALL,
];

/// Variables of width 1, so that a Bool and a bit-vector differ by their sort alone; leaves may have many uses.
fn variables() -> Problem {
    let mut p = Problem::default();
    for name in [&b"x"[..], b"y", b"z"] {
        let v = p.node(kind::VAR, &[1]);
        p.var_entry(name, v as u64, 1);
    }
    p
}

/// A leaf where it is one that is wanted, or a comparison of leaves.
fn leaf(p: &mut Problem, x: u32, bool: bool) -> u32 {
    if bool { p.node(kind::EQ, &[x, (x + 1) % 3]) } else { x }
}

/// A node of the kind, of width 1 or a Bool.
fn closed_in_itself(p: &mut Problem, k: u8) -> u32 {
    match k {
        kind::CONST => constant(p, 1),
        kind::EXTRACT => p.node(k, &[0, 0, 0]),
        kind::CONCAT => {
            let t = p.node(k, &[0, 1]);
            p.node(kind::EXTRACT, &[1, 1, t])
        }
        kind::ZERO_EXT | kind::SIGN_EXT => p.node(k, &[0, 0]),
        kind::ITE => {
            let c = leaf(p, 0, true);
            p.node(k, &[c, 1, 2])
        }
        kind::ROTL | kind::ROTR => {
            let amount = constant(p, 1);
            p.node(k, &[0, amount])
        }
        kind::SELECT => {
            p.array_of(b"m", 1, 1);
            p.side.extend([1, 2]);
            p.node(k, &[0, 0, p.side.len() as u32 - 2, 1])
        }
        kind::CALL => {
            let f = func(p, 1);
            call(p, f, 1, &[0])
        }
        k => p.node(k, &[0, 1]),
    }
}

/// The last node as a root, by itself if it is a Bool, else compared with a leaf.
fn asserted(mut p: Problem) -> Problem {
    let last = p.count() as u32 - 1;
    let root = if crate::problem::is_bool(p.kind_of(last as usize)) { last } else { p.node(UGE, &[last, 2]) };
    p.roots.push(root as u64);
    p
}

pub fn all() -> Vec<(&'static str, Problem, Room)> {
    let mut out = vec![];
    for (outer, bools) in BETWEEN {
        for (inner, inside) in BETWEEN {
            for left in [true, false] {
                let mut p = variables();
                let (a, b) = (leaf(&mut p, 0, inside), leaf(&mut p, 1, inside));
                let t = p.node(inner, &[a, b]);
                let c = leaf(&mut p, 2, bools);
                p.node(outer, &if left { [t, c] } else { [c, t] });
                out.push(("pair", asserted(p), if left { Room::Exact } else { Room::Longer(3) }));
            }
        }
        for before in BEFORE {
            let mut p = variables();
            let (a, b) = (leaf(&mut p, 0, bools), leaf(&mut p, 1, bools));
            let t = p.node(outer, &[a, b]);
            p.node(before, &[t]);
            out.push(("before a sign between", asserted(p), Room::Exact));
            for room in [Room::Exact, Room::OneShort] {
                let mut p = variables();
                let a = leaf(&mut p, 0, before == kind::NOT);
                let (t, c) = (p.node(before, &[a]), leaf(&mut p, 1, bools));
                let y = leaf(&mut p, 2, before == kind::NOT);
                let u = p.node(before, &[y]);
                // a comparison is a Bool, and takes none
                let v = if !bools && crate::problem::is_bool(outer) { t } else { p.node(outer, &[t, c]) };
                p.node(outer, &[v, u]);
                out.push(("between signs before", asserted(p), room));
            }
        }
    }
    for a in BEFORE {
        for b in BEFORE {
            for c in BEFORE {
                let mut p = variables();
                let x = leaf(&mut p, 0, c == kind::NOT);
                let t = p.node(c, &[x]);
                let u = p.node(b, &[t]);
                p.node(a, &[u]);
                out.push(("signs before signs", asserted(p), Room::Exact));
            }
        }
    }
    for named in [ASHR, kind::SDIV, kind::SREM, kind::SLT, SLE, SGT, kind::SGE, kind::CONCAT] {
        let mut p = variables();
        let s = p.node(kind::ADD, &[0, 1]);
        let t = p.node(named, &[s, 2]);
        if named == kind::CONCAT {
            p.node(kind::EXTRACT, &[1, 1, t]);
        }
        out.push(("a name over a sum", asserted(p), Room::Exact));
    }
    for before in BEFORE {
        for closed in CLOSED {
            let mut p = variables();
            let t = closed_in_itself(&mut p, closed);
            p.node(before, &[t]);
            out.push(("a sign before what is closed", asserted(p), Room::Exact));
        }
        let mut p = variables();
        let f = func(&mut p, 1);
        let t = call(&mut p, f, 1, &[]);
        p.node(before, &[t]);
        out.push(("a sign before a bare call", asserted(p), Room::Exact));
    }
    out.push(("no roots", variables(), Room::Empty));
    out
}
