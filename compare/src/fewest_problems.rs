//! Problems for the fewest roots that still refuse: what the printer's own do not have.
use crate::both;
use crate::printer::{call, constant, formula, func, root, var};
use crate::problem::{Problem, Rng, kind};

pub struct Case {
    pub label: String,
    pub problem: Problem,
    /// None: whatever the model says.
    pub want: Option<u32>,
    pub positions: Option<Vec<usize>>,
}

/// So many roots that matter to nothing.
fn needless(p: &mut Problem, n: usize) {
    for _ in 0..n {
        let f = formula(p);
        root(p, f);
    }
}

/// The roots from `from` on with so many needless ones between each two.
fn spread(p: &mut Problem, from: usize, n: usize) {
    let own = p.roots.split_off(from);
    for (i, r) in own.into_iter().enumerate() {
        if i > 0 {
            needless(p, n);
        }
        p.roots.push(r);
    }
}

/// Every number by each way it comes about, with needless roots before it, within it and after it; once, and twice so that the first decides.
fn ways(add: &mut impl FnMut(String, Problem, Option<u32>, Option<Vec<usize>>)) {
    for (check, f) in both::faults() {
        for (before, between, after) in [(0, 0, 0), (1, 0, 0), (0, 0, 2), (2, 0, 1), (2, 1, 0), (1, 3, 2)] {
            // twice is a name given twice, or over the limit of bits
            let most = if check == "4 of declarations" || f.what == "rotation too wide" { 1 } else { 2 };
            for times in 1..=most {
                let mut p = both::base();
                needless(&mut p, before);
                let from = p.roots.len();
                for _ in 0..times {
                    (f.add)(&mut p);
                }
                spread(&mut p, from, between);
                needless(&mut p, after);
                add(format!("{} {check}: {}", f.number, f.what), p, Some(f.number), None);
            }
        }
    }
}

/// x and eight comparisons of it, of which the last two are operands of a negation each: nodes 0, 1 to 8, and 9 and 10.
fn comparisons() -> Problem {
    let mut p = Problem::default();
    let x = var(&mut p, 8);
    for _ in 0..8 {
        p.node(kind::EQ, &[x, x]);
    }
    p.node(kind::NOT, &[7]);
    p.node(kind::NOT, &[8]);
    p
}

/// By hand, with the positions that document 02's words give.
fn by_hand(add: &mut impl FnMut(String, Problem, Option<u32>, Option<Vec<usize>>)) {
    let mut shared = |label: &str, roots: &[u64], width: u64, positions: &[usize]| {
        let mut p = comparisons();
        p.roots = roots.to_vec();
        p.var_width[0] = width;
        add(format!("6 by hand: {label}"), p, Some(6), Some(positions.to_vec()));
    };
    shared("two positions of one node", &[1, 2, 2], 8, &[1, 2]);
    shared("one node three times", &[2, 2, 2], 8, &[0, 1]);
    shared("one node three times, apart", &[1, 2, 3, 2, 4, 2, 5], 8, &[1, 3]);
    shared("one node three times, with others twice", &[1, 2, 3, 3, 2, 1, 2, 2], 8, &[0, 5]);
    shared("the first position decides, not the second", &[1, 2, 2, 1], 8, &[0, 3]);
    shared("a root that an operand uses too", &[1, 7, 2], 8, &[1]);
    shared("a root that an operand uses too, behind one that is there twice", &[1, 1, 2, 8, 7], 8, &[3]);
    shared("roots that operands use too, each twice", &[1, 7, 8, 7, 8], 8, &[1]);
    shared("a root past the nodes, first", &[99, 1, 1], 8, &[1, 2]);
    shared("a root past the nodes, twice", &[99, 99, 1, 1], 8, &[2, 3]);
    shared("a root past the nodes, in between", &[1, 99, 1, 99], 8, &[0, 2]);
    shared("a root past the nodes, beside one that is enough", &[u64::MAX, 1 << 32, 7], 8, &[2]);
    shared("a root whose low 32 bits are a node", &[(1 << 32) + 1, 1, 2, 1], 8, &[1, 3]);
    shared("the first number past the nodes, twice", &[11, 11, 2, 3, 2], 8, &[2, 4]);
    shared("a variable, twice", &[0, 0, 3, 3], 8, &[2, 3]);
    shared("beside a declared width of 0", &[3, 4, 4], 0, &[1, 2]);
    shared("beside a declared width of 0, one that is enough", &[3, 4, 7], 0, &[2]);
    shared("beside another width", &[3, 4, 4], 9, &[1, 2]);
    shared("200 roots", &(0..200).map(|k| if k == 57 || k == 150 { 5 } else { 99 + k }).collect::<Vec<u64>>(), 8, &[57, 150]);
    shared("256 times one node", &[6; 256], 8, &[0, 1]);
    // an operator that operands share: no root is needed, whatever the roots share
    for roots in [&[][..], &[1], &[1, 1], &[7], &[99]] {
        let mut p = comparisons();
        p.node(kind::BOOL_AND, &[5, 5]);
        p.roots = roots.to_vec();
        add("6 by hand: among operands".to_string(), p, Some(6), Some(vec![]));
    }
    let mut walk = |label: &str, roots: &[u64], number: u32, positions: &[usize]| {
        let mut p = comparisons();
        p.roots = roots.to_vec();
        add(format!("{number} by hand: {label}"), p, Some(number), Some(positions.to_vec()));
    };
    walk("the last root", &[1, 2, 99], 1, &[2]);
    walk("two, the first decides", &[1, 99, 2, 0], 1, &[1]);
    walk("two, the other way about", &[1, 0, 2, 99], 3, &[1]);
    walk("one root three times", &[0, 1, 0, 0], 3, &[0]);
    walk("no root is wrong", &[1, 2, 3, 9, 10], 0, &[]);
    walk("no root", &[], 0, &[]);
}

/// A few formulas, some of which operands use or share, and terms that the walk refuses; roots drawn from all of them.
fn drawn(rng: &mut Rng, most: u64) -> Problem {
    let mut p = Problem::default();
    let x = var(&mut p, 8);
    let stray = p.node(kind::VAR, &[8]);
    let c = constant(&mut p, 8);
    let mut from: Vec<u64> = (0..2 + rng.below(6)).map(|_| p.node(kind::EQ, &[x, c]) as u64).collect();
    for _ in 0..rng.below(3) {
        let f = rng.pick(&from) as u32;
        from.push(p.node(kind::NOT, &[f]) as u64);
    }
    // what the walk refuses: 4, 5, 1, 7, 3
    let mut bad = vec![x as u64, c as u64, 1_000];
    bad.push(p.node(kind::EQ, &[stray, x]) as u64);
    let turned = p.node(kind::ROTL, &[x, x]);
    bad.push(p.node(kind::EQ, &[turned, x]) as u64);
    let none = call(&mut p, u32::MAX, 8, &[]);
    bad.push(p.node(kind::EQ, &[none, x]) as u64);
    if rng.one_in(3) {
        let f = func(&mut p, 8);
        call(&mut p, f, 8, &[]);
        let other = call(&mut p, f, 8, &[x]);
        bad.push(p.node(kind::EQ, &[other, x]) as u64);
    }
    if rng.one_in(8) {
        func(&mut p, 8);
    }
    if rng.one_in(6) {
        p.var_width[0] = rng.pick(&[0, 9]);
    }
    for _ in 0..rng.below(most + 1) {
        let r = if rng.one_in(6) { rng.pick(&bad) } else { rng.pick(&from) };
        // each formula mostly once, so that it is not always 6
        if p.roots.contains(&r) && !rng.one_in(5) {
            continue;
        }
        p.roots.push(r);
    }
    p
}

pub fn all() -> Vec<Case> {
    let mut out = vec![];
    let mut add = |label: String, problem: Problem, want: Option<u32>, positions: Option<Vec<usize>>| {
        out.push(Case { label, problem, want, positions });
    };
    by_hand(&mut add);
    ways(&mut add);
    let mut rng = Rng(0x4C3134);
    for turn in 0..1_500u64 {
        let most = if turn % 10 == 0 { 40 } else { 9 };
        add("  drawn roots".to_string(), drawn(&mut rng, most), None, None);
    }
    out
}
