//! Lays a plan out as a problem: the order of the nodes, where side entries, bits and names stand, and what stands between them.
use super::plan::{At, LAST, Plan};
use crate::problem::{Problem, Rng, kind, operand_count};

pub struct Laid {
    pub p: Problem,
    /// the node of each term
    pub at: Vec<usize>,
}

impl Laid {
    /// The node of the term, if it is still there.
    pub fn node(&self, t: usize) -> Option<usize> {
        self.at.get(t).copied().filter(|i| *i < self.p.count())
    }
}

fn shuffle<T>(rng: &mut Rng, xs: &mut [T]) {
    for i in (1..xs.len()).rev() {
        xs.swap(i, rng.below(i as u64 + 1) as usize);
    }
}

fn visit(plan: &Plan, t: usize, seen: &mut [bool], out: &mut Vec<usize>) {
    if !std::mem::replace(&mut seen[t], true) {
        for k in &plan.terms[t].kids {
            visit(plan, *k, seen, out);
        }
        out.push(t);
    }
}

/// The terms in an order in which operands come first.
fn order(plan: &Plan, rng: &mut Rng) -> Vec<usize> {
    let n = plan.terms.len();
    let mut out = vec![];
    if rng.one_in(3) {
        // any term whose operands are there may be next
        let mut missing: Vec<usize> = plan.terms.iter().map(|t| t.kids.len()).collect();
        let mut users: Vec<Vec<usize>> = vec![vec![]; n];
        for (t, term) in plan.terms.iter().enumerate() {
            term.kids.iter().for_each(|k| users[*k].push(t));
        }
        let mut ready: Vec<usize> = (0..n).filter(|t| missing[*t] == 0).collect();
        while !ready.is_empty() {
            let t = ready.swap_remove(rng.below(ready.len() as u64) as usize);
            out.push(t);
            for u in &users[t] {
                missing[*u] -= 1;
                if missing[*u] == 0 {
                    ready.push(*u);
                }
            }
        }
        return out;
    }
    let mut from: Vec<usize> = plan.roots.iter().filter_map(|r| if let At::Term(t) = r { Some(*t) } else { None }).collect();
    match rng.below(3) {
        0 => from.clear(),
        1 => shuffle(rng, &mut from),
        _ => {}
    }
    let mut rest: Vec<usize> = (0..n).collect();
    if rng.one_in(2) {
        shuffle(rng, &mut rest);
    }
    let mut seen = vec![false; n];
    from.into_iter().chain(rest).for_each(|t| visit(plan, t, &mut seen, &mut out));
    out
}

fn found<T: PartialEq>(all: &[T], part: &[T]) -> Option<usize> {
    all.windows(part.len()).position(|w| w == part)
}

/// The place of a stretch: where it stands already, at times, or at the end, at times after something that nobody reads.
fn place<T: PartialEq + Copy>(rng: &mut Rng, all: &mut Vec<T>, part: &[T], junk: impl Fn(&mut Rng) -> T) -> usize {
    if part.is_empty() {
        return all.len();
    }
    if all.len() < 2_000 && part.len() < 64 && rng.one_in(3) {
        if let Some(s) = found(all, part) {
            return s;
        }
    }
    if rng.one_in(8) {
        for _ in 0..rng.from_to(1, 3) {
            all.push(junk(rng));
        }
    }
    all.extend_from_slice(part);
    all.len() - part.len()
}

fn names(rng: &mut Rng, names: &[&[u8]]) -> (Vec<u8>, Vec<u64>, Vec<u64>) {
    let mut arena = vec![];
    let mut turns: Vec<usize> = (0..names.len()).collect();
    if rng.one_in(2) {
        shuffle(rng, &mut turns);
    }
    let mut start = vec![0; names.len()];
    for t in turns {
        start[t] = place(rng, &mut arena, names[t], |r| r.below(256) as u8) as u64;
    }
    if rng.one_in(6) && !names.is_empty() {
        arena.push(rng.below(256) as u8);
    }
    (arena, start, names.iter().map(|n| n.len() as u64).collect())
}

pub fn lay(plan: &Plan, rng: &mut Rng) -> Laid {
    let order = order(plan, rng);
    let mut at = vec![usize::MAX; plan.terms.len()];
    for (i, t) in order.iter().enumerate() {
        at[*t] = i;
    }
    let mut p = Problem::default();
    let n = order.len() as u64;
    let mut empty = vec![];
    for (i, t) in order.iter().enumerate() {
        let term = &plan.terms[*t];
        let kid = |j: usize| at[term.kids[j]] as u32;
        let side = |from: usize| term.kids[from..].iter().map(|k| at[*k] as u64).collect::<Vec<u64>>();
        let junk = |r: &mut Rng| match r.below(4) {
            0 => r.pick(&[1 << 32, u64::MAX, n]),
            _ => r.below(n),
        };
        let o = match term.kind {
            kind::VAR => [term.nums[0], 0, 0, 0],
            kind::CONST => {
                let s = place(rng, &mut p.bits, &term.bits, |r| r.below(2) as u8);
                [s as u32, term.width as u32, 0, 0]
            }
            kind::EXTRACT => [term.nums[0], term.nums[1], kid(0), 0],
            kind::ZERO_EXT | kind::SIGN_EXT => [kid(0), term.nums[0], 0, 0],
            kind::SELECT => {
                let xs = side(1);
                let s = if xs.is_empty() {
                    rng.pick(&[0, 1, p.side.len() as u32, LAST, 1 << 20])
                } else {
                    place(rng, &mut p.side, &xs, junk) as u32
                };
                [term.nums[0], kid(0), s, xs.len() as u32 / 2]
            }
            kind::CALL => {
                let xs = side(0);
                let s = if xs.is_empty() {
                    empty.push(i);
                    0
                } else {
                    place(rng, &mut p.side, &xs, junk) as u32
                };
                [term.nums[0], term.nums[1], s, xs.len() as u32]
            }
            k => {
                let mut o = [0; 4];
                (0..operand_count(k).min(term.kids.len())).for_each(|j| o[j] = kid(j));
                o
            }
        };
        p.node(term.kind, &o);
    }
    // a call without arguments may start anywhere up to the end
    for i in empty {
        let s = rng.below(p.side.len() as u64 + 1) as u32;
        p.set_operand(i, 2, s);
    }
    let raw = |a: &At| match a {
        At::Term(t) => at[*t] as u64,
        At::Raw(x) => *x,
    };
    p.roots = plan.roots.iter().map(raw).collect();
    (p.names, p.name_start, p.name_len) = names(rng, &plan.vars.iter().map(|v| &v.name[..]).collect::<Vec<_>>());
    p.var_node = plan.vars.iter().map(|v| raw(&v.at)).collect();
    p.var_width = plan.vars.iter().map(|v| v.width).collect();
    (p.anames, p.aname_start, p.aname_len) = names(rng, &plan.arrays.iter().map(|a| &a.name[..]).collect::<Vec<_>>());
    p.index_width = plan.arrays.iter().map(|a| a.index).collect();
    p.value_width = plan.arrays.iter().map(|a| a.value).collect();
    (p.fnames, p.fname_start, p.fname_len) = names(rng, &plan.funcs.iter().map(|f| &f.name[..]).collect::<Vec<_>>());
    p.func_width = plan.funcs.iter().map(|f| f.width).collect();
    Laid { p, at }
}
