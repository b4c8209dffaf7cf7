//! Problems with traces for the model of their replay (traces.rs). Each has a label, and the number that it was made for.
use crate::problem::{Problem, Rng, is_bool, is_rotation, kind};
use crate::traces::answer;
use crate::trees;

pub const SEED: u64 = 20_261_117;

pub struct Case {
    pub label: String,
    pub problem: Problem,
    pub values: Vec<u64>,
    pub masks: usize,
    pub counts: usize,
    pub want: Option<u32>,
}

struct Cases(Vec<Case>);

const WIDTHS: [u64; 9] = [1, 2, 7, 8, 31, 32, 33, 63, 64];

fn most(w: u64) -> u64 {
    if w >= 64 { u64::MAX } else { (1 << w) - 1 }
}

/// 0, 1, all ones, the highest bit alone.
fn corners(w: u64) -> Vec<u64> {
    vec![0, 1 & most(w), most(w), 1 << (w - 1)]
}

fn some(rng: &mut Rng, w: u64) -> u64 {
    match rng.below(4) {
        0 => rng.pick(&corners(w)),
        1 => rng.below(70) & most(w),
        _ => rng.next() & most(w),
    }
}

/// Every two corners, every corner with amounts around the width, and some at random.
fn pairs(rng: &mut Rng, w: u64) -> Vec<u64> {
    let mut vs = vec![];
    for x in corners(w) {
        for y in corners(w) {
            vs.extend([x, y]);
        }
        let x = if x == 0 { rng.next() & most(w) } else { x };
        for y in [2, 3, w - 1, w, w + 1, 64, 65].map(|y| y & most(w)) {
            vs.extend([x, y]);
        }
    }
    for _ in 0..14 {
        let x = some(rng, w);
        let y = if rng.one_in(5) { x } else { some(rng, w) };
        vs.extend([x, y]);
    }
    vs
}

impl Cases {
    fn one(&mut self, label: &str, problem: &Problem, values: &[u64], masks: usize, counts: usize, want: Option<u32>) {
        self.0.push(Case { label: label.to_string(), problem: problem.clone(), values: values.to_vec(), masks, counts, want });
    }
    /// With exact rooms.
    fn exact(&mut self, label: &str, problem: &Problem, values: &[u64], want: Option<u32>) {
        let v = problem.var_width.len();
        let n = if v == 0 { 1 } else { values.len() / v };
        self.one(label, problem, values, n, n, want);
    }
}

// ---------------------------------------------------------------- operators

/// Variables of these widths, x and then y.
fn variables(ws: &[u64]) -> Problem {
    let mut p = Problem::default();
    for (w, name) in ws.iter().zip([b"x", b"y"]) {
        let i = p.node(kind::VAR, &[*w as u32]);
        p.var_entry(name, i as u64, *w);
    }
    p
}

fn constant(p: &mut Problem, x: u64, w: u64) -> u32 {
    let at = p.bits.len() as u32;
    p.bits.extend((0..w).map(|b| (x >> b & 1) as u8));
    p.node(kind::CONST, &[at, w as u32])
}

/// Root k says that bit k of the term is 1, so that a mask is the term's value. The term is made anew for each root, since an operator is used
/// once.
fn by_bits(mut p: Problem, width: u64, mut term: impl FnMut(&mut Problem) -> u32) -> Problem {
    let one = constant(&mut p, 1, 1);
    for k in 0..width as u32 {
        let t = term(&mut p);
        let b = p.node(kind::EXTRACT, &[k, k, t]);
        let r = p.node(kind::EQ, &[b, one]);
        p.roots.push(r as u64);
    }
    p
}

fn operators(c: &mut Cases, rng: &mut Rng) {
    let binary: Vec<u8> = (kind::ADD..kind::ROTR).chain([kind::SDIV, kind::SREM]).collect();
    for w in WIDTHS {
        for k in &binary {
            let p = by_bits(variables(&[w, w]), w, |p| p.node(*k, &[0, 1]));
            c.exact(&format!("kind {k}"), &p, &pairs(rng, w), Some(0));
        }
        for k in [kind::BV_NOT, kind::NEG] {
            let p = by_bits(variables(&[w, w]), w, |p| p.node(k, &[0]));
            c.exact(&format!("kind {k}"), &p, &pairs(rng, w), Some(0));
        }
        let mut amounts = vec![0, 1, w - 1, w, w + 1, most(w), rng.next(), rng.next()];
        amounts.iter_mut().for_each(|a| *a &= most(w));
        amounts.sort();
        amounts.dedup();
        for a in amounts {
            for k in [kind::ROTL, kind::ROTR] {
                let mut p = variables(&[w]);
                let by = constant(&mut p, a, w);
                let p = by_bits(p, w, |p| p.node(k, &[0, by]));
                let mut vs = corners(w);
                vs.extend((0..6).map(|_| rng.next() & most(w)));
                c.exact(&format!("kind {k}"), &p, &vs, Some(0));
            }
        }
        let mut ends = vec![(w - 1, 0), (w - 1, w - 1), (0, 0), (w - 1, w / 2), (w / 2, 0), (w / 2, w / 3)];
        ends.sort();
        ends.dedup();
        for (i, j) in ends {
            let p = by_bits(variables(&[w]), i - j + 1, |p| p.node(kind::EXTRACT, &[i as u32, j as u32, 0]));
            let mut vs = corners(w);
            vs.extend((0..6).map(|_| rng.next() & most(w)));
            c.exact("extract", &p, &vs, Some(0));
        }
        let mut by = vec![0, 1, 7, 64 - w];
        by.retain(|i| w + i <= 64);
        by.sort();
        by.dedup();
        for i in by {
            for k in [kind::ZERO_EXT, kind::SIGN_EXT] {
                let p = by_bits(variables(&[w]), w + i, |p| p.node(k, &[0, i as u32]));
                let mut vs = corners(w);
                vs.extend((0..6).map(|_| rng.next() & most(w)));
                c.exact(&format!("kind {k}"), &p, &vs, Some(0));
            }
        }
        for n in WIDTHS.into_iter().chain([64 - w.min(63)]).filter(|n| n + w <= 64) {
            let p = by_bits(variables(&[w, n]), w + n, |p| p.node(kind::CONCAT, &[0, 1]));
            let mut vs = vec![];
            for x in corners(w) {
                for y in corners(n) {
                    vs.extend([x, y]);
                }
            }
            for _ in 0..4 {
                vs.extend([rng.next() & most(w), rng.next() & most(n)]);
            }
            c.exact("concat", &p, &vs, Some(0));
        }
        let p = by_bits(variables(&[w, w]), w, |p| {
            let b = p.node(kind::SLT, &[0, 1]);
            p.node(kind::ITE, &[b, 0, 1])
        });
        c.exact("ite", &p, &pairs(rng, w), Some(0));
        // every comparison, each alone and under `not`
        let mut p = variables(&[w, w]);
        for k in kind::EQ..=kind::SGE {
            let r = p.node(k, &[0, 1]);
            p.roots.push(r as u64);
            let r = p.node(k, &[0, 1]);
            let n = p.node(kind::NOT, &[r]);
            p.roots.push(n as u64);
        }
        c.exact("comparisons", &p, &pairs(rng, w), Some(0));
    }
    // connectives, on the four pairs of Bools
    let mut p = variables(&[1, 1]);
    let one = constant(&mut p, 1, 1);
    for k in [kind::BOOL_AND, kind::BOOL_OR] {
        let (a, b) = (p.node(kind::EQ, &[0, one]), p.node(kind::EQ, &[1, one]));
        let r = p.node(k, &[a, b]);
        p.roots.push(r as u64);
    }
    c.exact("connectives", &p, &[0, 0, 0, 1, 1, 0, 1, 1], Some(0));
}

// ---------------------------------------------------------------- rooms, rows, roots

/// x of 8 bits; so many roots, of which root k says that x is k.
fn equals(roots: u64) -> Problem {
    let mut p = variables(&[8]);
    for k in 0..roots {
        let n = constant(&mut p, k, 8);
        let r = p.node(kind::EQ, &[0, n]);
        p.roots.push(r as u64);
    }
    p
}

fn shapes(c: &mut Cases, rng: &mut Rng) {
    for roots in [0, 1, 2, 31, 32, 33, 63, 64, 65, 66, 128, 256, 257] {
        let p = equals(roots);
        let want = Some(if roots > 64 { 9 } else { 0 });
        let vs: Vec<u64> = vec![0, 1, 31, 32, 62, 63, 64, 255];
        c.exact(&format!("{roots} roots"), &p, &vs, want);
        c.exact(&format!("{roots} roots, no rows"), &p, &[], want);
    }
    // rooms by the rows: exact, one short, longer, empty, of either output
    for n in [0usize, 1, 2, 3, 9] {
        let p = equals(3);
        let vs: Vec<u64> = (0..n as u64).collect();
        for masks in [0, n.saturating_sub(1), n, n + 1, n + 7] {
            for counts in [0, n.saturating_sub(1), n, n + 1, n + 7] {
                c.one("rooms", &p, &vs, masks, counts, Some(if masks < n || counts < n { 10 } else { 0 }));
            }
        }
    }
    // no variables: one row of no values
    let mut p = Problem::default();
    for (x, y) in [(5, 5), (5, 6), (0, 0)] {
        let (a, b) = (constant(&mut p, x, 8), constant(&mut p, y, 8));
        let r = p.node(kind::EQ, &[a, b]);
        p.roots.push(r as u64);
    }
    for p in [Problem::default(), p] {
        for room in [0, 1, 2] {
            c.one("no variables", &p, &[], room, room, Some(if room == 0 { 10 } else { 0 }));
            c.one("no variables, one short", &p, &[], room, 0, Some(10));
            c.one("no variables, one short", &p, &[], 0, room, Some(10));
            for vs in [vec![0], vec![0, 0], vec![1; 5]] {
                c.one("no variables, and values", &p, &vs, room, room, Some(15));
            }
        }
    }
    // no whole number of rows
    for v in 1..6usize {
        let mut p = Problem::default();
        for i in 0..v {
            let n = p.node(kind::VAR, &[8]);
            p.var_entry(format!("v{i}").as_bytes(), n as u64, 8);
        }
        let r = p.node(kind::ULT, &[0, v as u32 - 1]);
        p.roots.push(r as u64);
        for len in 0..3 * v + 2 {
            let vs: Vec<u64> = (0..len).map(|_| rng.below(256)).collect();
            c.one("values by rows", &p, &vs, 4, 4, Some(if len % v == 0 { 0 } else { 15 }));
        }
    }
    // a value at the edge of its width, in each column of the first and the last row
    for w in (1..=64).chain([65, 100, 65_536]) {
        let mut p = variables(&[8]);
        let r = p.node(kind::EQ, &[0, 0]);
        p.roots.push(r as u64);
        let n = p.node(kind::VAR, &[w as u32]);
        p.var_entry(b"wide", n as u64, w);
        for at in [1, 3, 5] {
            for (x, want) in
                [(most(w), 0), (most(w).wrapping_add(1), if w < 64 { 15 } else { 0 }), (u64::MAX, if w < 64 { 15 } else { 0 })]
            {
                let mut vs = vec![7, 0, 8, 0, 9, 0];
                vs[at] = x;
                c.one("the edge of a width, not reached", &p, &vs, 3, 3, Some(want));
            }
        }
        if w < 64 {
            c.one("the edge of a width", &p, &[7, 0, 256, 0], 2, 2, Some(15));
        }
    }
    // two entries for one node: the first has the value, the second's has to fit
    for (first, second) in [(8u64, 8u64), (8, 3), (8, 64), (8, 100)] {
        let mut p = variables(&[first]);
        p.var_entry(b"again", 0, second);
        let n = constant(&mut p, 5, 8);
        let r = p.node(kind::EQ, &[0, n]);
        p.roots.push(r as u64);
        c.exact("two entries for one node", &p, &[5, 1, 1, 5, 5, 5], Some(0));
        c.exact(
            "two entries for one node, the second too large",
            &p,
            &[5, 1, 5, 9, 5, 1],
            Some(if second == 3 { 15 } else { 0 }),
        );
        c.exact("two entries for one node, the first too large", &p, &[5, 1, 256, 5], Some(15));
    }
    // the table's order is not the nodes'
    let mut p = Problem::default();
    let (a, b) = (p.node(kind::VAR, &[8]), p.node(kind::VAR, &[8]));
    p.var_entry(b"b", b as u64, 8);
    p.var_entry(b"a", a as u64, 8);
    let r = p.node(kind::ULT, &[a, b]);
    p.roots.push(r as u64);
    c.exact("columns by the table", &p, &[1, 2, 2, 1, 3, 3], Some(0));
    // 512 variables, a root at the first and the last
    let mut p = Problem::default();
    for i in 0..512 {
        let n = p.node(kind::VAR, &[64]);
        p.var_entry(format!("v{i}").as_bytes(), n as u64, 64);
    }
    for (i, j) in [(0, 511), (511, 0), (1, 510), (255, 256)] {
        let r = p.node(kind::ULT, &[i, j]);
        p.roots.push(r as u64);
    }
    let vs: Vec<u64> = (0..3 * 512).map(|i| if i % 5 == 0 { u64::MAX - i } else { i }).collect();
    c.exact("512 variables", &p, &vs, Some(0));
    // deep
    for k in [kind::BV_NOT, kind::NEG] {
        let mut p = variables(&[8]);
        let mut t = 0;
        for _ in 0..2_046 {
            t = p.node(k, &[t]);
        }
        let r = p.node(kind::EQ, &[t, 0]);
        p.roots.push(r as u64);
        c.exact("a chain", &p, &[0, 1, 128, 255], Some(0));
    }
}

// ---------------------------------------------------------------- 14

fn wide(c: &mut Cases) {
    let vs = [1, 2, 1, 2];
    for w in [63u32, 64, 65, 66, 128, 65_536] {
        let want = if w > 64 { 14 } else { 0 };
        let over = |f: &dyn Fn(&mut Problem, u32) -> u32| {
            let mut p = variables(&[8]);
            let x = p.node(kind::VAR, &[w]);
            p.var_entry(b"y", x as u64, w as u64);
            let r = f(&mut p, x);
            p.roots.push(r as u64);
            p
        };
        let eq = over(&|p, x| p.node(kind::EQ, &[x, x]));
        c.exact("compared", &eq, &vs, Some(want));
        let low = over(&|p, x| {
            let t = p.node(kind::EXTRACT, &[7, 0, x]);
            p.node(kind::EQ, &[t, 0])
        });
        c.exact("below an extract", &low, &vs, Some(want));
        let chosen = over(&|p, x| {
            let b = p.node(kind::EQ, &[0, 0]);
            let t = p.node(kind::EXTRACT, &[7, 0, x]);
            let i = p.node(kind::ITE, &[b, 0, t]);
            p.node(kind::EQ, &[i, 0])
        });
        c.exact("in the branch that is not taken", &chosen, &vs, Some(want));
        let rotated = over(&|p, x| {
            let by = constant(p, 3, w as u64);
            let t = p.node(kind::ROTL, &[x, by]);
            let t = p.node(kind::EXTRACT, &[7, 0, t]);
            p.node(kind::EQ, &[t, 0])
        });
        c.exact("a rotation", &rotated, &vs, Some(want));
        let apart = over(&|p, x| {
            p.node(kind::BV_NOT, &[x]);
            p.node(kind::EQ, &[0, 0])
        });
        c.exact("not reached", &apart, &vs, Some(0));
        let second = {
            let mut p = over(&|p, _| p.node(kind::EQ, &[0, 0]));
            let r = p.node(kind::EQ, &[1, 1]);
            p.roots.push(r as u64);
            p
        };
        c.exact("in the second root", &second, &vs, Some(want));
    }
    // sums of widths at 64 and past it
    for (a, b) in [(32u64, 32u64), (32, 33), (1, 63), (1, 64), (64, 1), (33, 31)] {
        let mut p = variables(&[a, b]);
        let t = p.node(kind::CONCAT, &[0, 1]);
        let t = p.node(kind::EXTRACT, &[0, 0, t]);
        let one = constant(&mut p, 1, 1);
        let r = p.node(kind::EQ, &[t, one]);
        p.roots.push(r as u64);
        c.exact("concat", &p, &[1, 0, 0, 1], Some(if a + b > 64 { 14 } else { 0 }));
    }
    for k in [kind::ZERO_EXT, kind::SIGN_EXT] {
        for by in [55u32, 56, 57, 1_000] {
            let mut p = variables(&[8]);
            let t = p.node(k, &[0, by]);
            let t = p.node(kind::EXTRACT, &[7, 0, t]);
            let r = p.node(kind::EQ, &[t, 0]);
            p.roots.push(r as u64);
            c.exact("extended", &p, &[200, 1], Some(if by > 56 { 14 } else { 0 }));
        }
    }
    // selects and calls, reached and not
    for reached in [true, false] {
        let want = Some(if reached { 14 } else { 0 });
        let mut p = variables(&[32]);
        p.array_entry(b"m");
        let s = p.node(kind::SELECT, &[0, 0, 0, 0]);
        let five = constant(&mut p, 5, 8);
        let r = if reached { p.node(kind::EQ, &[s, five]) } else { p.node(kind::EQ, &[0, 0]) };
        p.roots.push(r as u64);
        c.exact("a select", &p, &[1, 2], want);
        let mut p = variables(&[8]);
        p.func_entry(b"f", 8);
        let s = p.node(kind::CALL, &[0, 8, 0, 0]);
        let r = if reached { p.node(kind::EQ, &[s, 0]) } else { p.node(kind::EQ, &[0, 0]) };
        p.roots.push(r as u64);
        c.exact("a call", &p, &[1, 2], want);
    }
}

// ---------------------------------------------------------------- each refusal in each order

/// A fault, its number and its place in the order; those of the walk share a place, and the one that was put in first decides.
struct Fault {
    number: u32,
    place: u32,
    put: fn(&mut Trial),
}

struct Trial {
    p: Problem,
    /// faults of the values and of the rooms, put in once the table of variables is whole
    too_long: bool,
    too_large: bool,
    masks_short: bool,
    counts_short: bool,
}

fn root(p: &mut Problem, k: u8, o: &[u32]) {
    let r = p.node(k, o);
    p.roots.push(r as u64);
}

const FAULTS: [Fault; 24] = [
    Fault { number: 9, place: 0, put: |t| (0..64).for_each(|_| root(&mut t.p, kind::EQ, &[0, 0])) },
    Fault { number: 9, place: 0, put: |t| t.p.side.resize(8_193, 0) },
    Fault { number: 8, place: 1, put: |t| t.p.bits[7] = 2 },
    Fault { number: 8, place: 1, put: |t| t.p.nodes.extend([0; 5]) },
    Fault { number: 1, place: 2, put: |t| t.p.name_len.push(1) },
    Fault { number: 12, place: 3, put: |t| t.p.array_of(b"n", 0, 8) },
    Fault { number: 1, place: 4, put: |t| _ = t.p.node(kind::BV_NOT, &[5_000]) },
    Fault { number: 2, place: 5, put: |t| t.p.names[0] = b'@' },
    Fault { number: 6, place: 6, put: |t| _ = t.p.node(kind::NOT, &[3]) },
    Fault { number: 4, place: 7, put: |t| t.p.var_entry(b"z", 9_999, 0) },
    Fault { number: 7, place: 8, put: |t| t.p.func_entry(b"f", 8) },
    Fault { number: 1, place: 9, put: |t| t.p.roots.push(9_999) },
    Fault { number: 3, place: 9, put: |t| t.p.roots.push(0) },
    Fault {
        number: 4,
        place: 9,
        put: |t| {
            let v = t.p.node(kind::VAR, &[8]);
            root(&mut t.p, kind::EQ, &[v, 0])
        },
    },
    Fault {
        number: 5,
        place: 9,
        put: |t| {
            let v = t.p.node(kind::ROTL, &[0, 0]);
            root(&mut t.p, kind::EQ, &[v, 0])
        },
    },
    Fault {
        number: 14,
        place: 10,
        put: |t| {
            let v = t.p.node(kind::VAR, &[65]);
            t.p.var_entry(b"w65", v as u64, 65);
            root(&mut t.p, kind::EQ, &[v, v])
        },
    },
    Fault {
        number: 14,
        place: 10,
        put: |t| {
            let v = t.p.node(kind::VAR, &[100]);
            t.p.var_entry(b"w100", v as u64, 100);
            let e = t.p.node(kind::EXTRACT, &[7, 0, v]);
            root(&mut t.p, kind::EQ, &[e, 0])
        },
    },
    Fault {
        number: 14,
        place: 10,
        put: |t| {
            t.p.array_of(b"m", 8, 8);
            let m = t.p.aname_start.len() as u32 - 1;
            let s = t.p.node(kind::SELECT, &[m, 0, 0, 0]);
            root(&mut t.p, kind::EQ, &[s, 0])
        },
    },
    Fault {
        number: 14,
        place: 10,
        put: |t| {
            t.p.func_entry(b"g", 8);
            let f = t.p.fname_start.len() as u32 - 1;
            let s = t.p.node(kind::CALL, &[f, 8, 0, 0]);
            root(&mut t.p, kind::EQ, &[s, 0])
        },
    },
    Fault { number: 15, place: 11, put: |t| t.too_long = true },
    Fault { number: 15, place: 11, put: |t| t.too_large = true },
    Fault { number: 10, place: 12, put: |t| t.masks_short = true },
    Fault { number: 10, place: 12, put: |t| t.counts_short = true },
    // none
    Fault { number: 0, place: 13, put: |_| () },
];

/// x of 8 bits and y of 16, a constant, x + 5 = x, and y is not reached; the faults, three rows, rooms of four.
fn trial(faults: &[&Fault]) -> (Problem, Vec<u64>, usize, usize) {
    let mut p = variables(&[8]);
    constant(&mut p, 5, 8);
    let s = p.node(kind::ADD, &[0, 1]);
    root(&mut p, kind::EQ, &[s, 0]);
    let y = p.node(kind::VAR, &[16]);
    p.var_entry(b"y", y as u64, 16);
    let mut t = Trial { p, too_long: false, too_large: false, masks_short: false, counts_short: false };
    faults.iter().for_each(|f| (f.put)(&mut t));
    let v = t.p.var_width.len();
    let mut vs: Vec<u64> = (0..3 * v as u64).map(|i| i % 200).collect();
    if t.too_large {
        vs[1] = 65_536;
    }
    if t.too_long {
        vs.push(0);
    }
    (t.p, vs, if t.masks_short { 2 } else { 4 }, if t.counts_short { 2 } else { 4 })
}

fn orders(c: &mut Cases) {
    for (i, f) in FAULTS.iter().enumerate() {
        for (j, g) in FAULTS.iter().enumerate() {
            // the first of the two in the order; of the walk's the one that was put in first
            let want = if f.place <= g.place { f.number } else { g.number };
            let faults: Vec<&Fault> = if i == j { vec![f] } else { vec![f, g] };
            let (p, vs, masks, counts) = trial(&faults);
            c.one("two faults", &p, &vs, masks, counts, Some(want));
        }
    }
    let last = &FAULTS[15..23];
    for f in last {
        for g in last {
            for h in last {
                if f.place < g.place && g.place < h.place {
                    let (p, vs, masks, counts) = trial(&[f, g, h]);
                    c.one("three faults", &p, &vs, masks, counts, Some(14));
                }
            }
        }
    }
}

// ---------------------------------------------------------------- at random

/// Terms of 1 to 64 bits over variables and constants, with no select and no call.
struct Grown<'r> {
    p: Problem,
    rng: &'r mut Rng,
    leaves: Vec<(u32, u64)>,
}

impl Grown<'_> {
    fn leaf(&mut self, w: u64) -> u32 {
        let old: Vec<u32> = self.leaves.iter().filter(|(_, x)| *x == w).map(|(i, _)| *i).collect();
        if !old.is_empty() && !self.rng.one_in(4) {
            return self.rng.pick(&old);
        }
        let i = if self.rng.one_in(3) {
            let x = some(self.rng, w);
            constant(&mut self.p, x, w)
        } else {
            let i = self.p.node(kind::VAR, &[w as u32]);
            let name = format!("v{i}");
            self.p.var_entry(name.as_bytes(), i as u64, w);
            i
        };
        self.leaves.push((i, w));
        i
    }
    fn term(&mut self, w: u64, depth: u32) -> u32 {
        if depth == 0 || self.rng.one_in(8) {
            return self.leaf(w);
        }
        let d = depth - 1;
        let k = self.rng.from_to(2, 36) as u8;
        match k {
            kind::EXTRACT => {
                let more = self.rng.below(65 - w);
                let low = self.rng.below(more + 1);
                let t = self.term(w + more, d);
                self.p.node(k, &[(low + w - 1) as u32, low as u32, t])
            }
            kind::CONCAT if w > 1 => {
                let left = self.rng.from_to(1, w - 1);
                let (a, b) = (self.term(left, d), self.term(w - left, d));
                self.p.node(k, &[a, b])
            }
            kind::ZERO_EXT | kind::SIGN_EXT => {
                let by = self.rng.below(w);
                let t = self.term(w - by, d);
                self.p.node(k, &[t, by as u32])
            }
            kind::ITE => {
                let (b, s, t) = (self.formula(d), self.term(w, d), self.term(w, d));
                self.p.node(k, &[b, s, t])
            }
            _ if is_rotation(k) => {
                let x = self.rng.next() & most(w);
                let by = constant(&mut self.p, x, w);
                let t = self.term(w, d);
                self.p.node(k, &[t, by])
            }
            kind::BV_NOT | kind::NEG => {
                let t = self.term(w, d);
                self.p.node(k, &[t])
            }
            _ => {
                let k = if k == kind::CONCAT || is_bool(k) { kind::ADD } else { k };
                let (a, b) = (self.term(w, d), self.term(w, d));
                self.p.node(k, &[a, b])
            }
        }
    }
    fn formula(&mut self, depth: u32) -> u32 {
        let d = depth.saturating_sub(1);
        match if depth == 0 { 9 } else { self.rng.below(6) } {
            0 => {
                let a = self.formula(d);
                self.p.node(kind::NOT, &[a])
            }
            1 => {
                let (a, b) = (self.formula(d), self.formula(d));
                let k = self.rng.pick(&[kind::BOOL_AND, kind::BOOL_OR]);
                self.p.node(k, &[a, b])
            }
            _ => {
                let w = if self.rng.one_in(2) { self.rng.pick(&WIDTHS) } else { self.rng.from_to(1, 64) };
                let k = self.rng.from_to(kind::EQ as u64, kind::SGE as u64) as u8;
                let (a, b) = (self.term(w, d), self.term(w, d));
                self.p.node(k, &[a, b])
            }
        }
    }
}

fn random_rows(rng: &mut Rng, p: &Problem, rows: u64) -> Vec<u64> {
    (0..rows).flat_map(|_| p.var_width.iter().map(|w| some(rng, (*w).clamp(1, 64))).collect::<Vec<_>>()).collect()
}

/// With small terms, so that most kinds meet in a root and few nodes hide a difference.
fn grown(c: &mut Cases, rng: &mut Rng) {
    for n in 0..700 {
        let roots = if n % 20 == 0 { 64 } else { rng.from_to(1, 12) };
        let depth = rng.from_to(1, 4) as u32;
        let mut g = Grown { p: Problem::default(), rng, leaves: vec![] };
        for _ in 0..roots {
            let r = g.formula(depth);
            g.p.roots.push(r as u64);
        }
        let p = g.p;
        let rows = rng.from_to(1, 6);
        let vs = random_rows(rng, &p, rows);
        if p.count() > 2_048 || vs.len() > 4_000 {
            continue;
        }
        c.exact("grown", &p, &vs, Some(0));
    }
    // the printer's, with selects and calls
    for _ in 0..120 {
        let roots = rng.from_to(1, 5);
        let p = trees::accepted(rng, roots, 3);
        let vs = random_rows(rng, &p, 2);
        c.exact("the printer's", &p, &vs, None);
    }
}

pub fn all() -> Vec<Case> {
    let mut c = Cases(vec![]);
    let rng = &mut Rng(SEED);
    operators(&mut c, rng);
    shapes(&mut c, rng);
    wide(&mut c);
    orders(&mut c);
    grown(&mut c, rng);
    c.0
}

/// That a mask is the value of the operator, on operands that everybody can work out.
pub fn check_model() {
    let of = |k: u8, w: u64, x: u64, y: u64| {
        let p = by_bits(variables(&[w, w]), w, |p| p.node(k, &[0, 1]));
        answer(&p, &[x, y], 1, 1).masks[0]
    };
    // 8 bits: -7 is 249, -128 is 128
    for (k, x, y, r) in [
        (2, 200, 100, 44),
        (3, 3, 5, 254),
        (4, 20, 13, 4),
        (5, 77, 0, 255),
        (6, 77, 0, 77),
        (5, 77, 10, 7),
        (6, 77, 10, 7),
        (10, 255, 8, 0),
        (11, 128, 7, 1),
        (12, 128, 7, 255),
        (12, 128, 200, 255),
        (35, 249, 2, 253),
        (36, 249, 2, 255),
        (35, 249, 0, 1),
        (36, 249, 0, 249),
        (35, 7, 0, 255),
        (35, 128, 255, 128),
        (36, 7, 254, 1),
    ] {
        assert_eq!(of(k, 8, x, y), r, "kind {k}: {x}, {y}");
    }
}
