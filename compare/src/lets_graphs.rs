//! Problems in which nodes are taken as operands again and again, for scripts with `let`.
use crate::problem::{Problem, Rng, is_bool, kind};

/// A graph over a few variables and constants in which nodes are taken as operands again and again.
pub fn graph(rng: &mut Rng, nodes: u64) -> Problem {
    let mut p = Problem::default();
    for (i, name) in [&b"x"[..], b"y"].iter().enumerate() {
        let v = p.node(kind::VAR, &[8]);
        // now and then a name that a node could have
        let own = format!("d{}", rng.below(nodes + 4));
        let name = if rng.below(12) == 0 { own.as_bytes() } else { name };
        let width = if rng.below(40) == 0 { 9 } else { 8 };
        if i == 0 || rng.below(30) != 0 {
            p.var_entry(name, v as u64, width);
        }
    }
    p.bits.extend((0..8).map(|_| rng.below(2) as u8));
    p.node(kind::CONST, &[0, 8]);
    if rng.below(3) == 0 {
        p.array_of(b"m", 8, 8);
    }
    if rng.below(3) == 0 {
        p.func_entry(b"f", 8);
    }
    let mut vectors = vec![0u32, 1, 2];
    let mut bools = vec![];
    for _ in 0..nodes {
        // the last nodes most often
        let mut take = |from: &[u32]| from[from.len() - 1 - (rng.below(from.len() as u64).min(rng.below(from.len() as u64))) as usize];
        let (a, b) = (take(&vectors), take(&vectors));
        let (c, d) = if bools.is_empty() { (a, b) } else { (take(&bools), take(&bools)) };
        let n = match rng.below(14) {
            0..=2 => p.node(kind::ADD + (rng.below(8) as u8), &[a, b]),
            3 => p.node(kind::NEG, &[a]),
            4 => p.node(kind::ROTL, &[a, if rng.below(4) == 0 { b } else { 2 }]),
            5 if !bools.is_empty() => p.node(kind::ITE, &[c, a, b]),
            6 if !p.fname_start.is_empty() || rng.below(20) == 0 => {
                let at = p.side.len() as u32;
                p.side.push(a as u64);
                p.node(kind::CALL, &[0, 8, at, 1])
            }
            7 if !p.aname_start.is_empty() => {
                let at = p.side.len() as u32;
                p.side.extend([a as u64, b as u64]);
                p.node(kind::SELECT, &[0, b, at, 1])
            }
            8..=10 => p.node(kind::EQ + (rng.below(6) as u8), &[a, b]),
            11 if !bools.is_empty() => p.node(kind::NOT, &[c]),
            12 if !bools.is_empty() => p.node(kind::BOOL_AND, &[c, d]),
            // a Bool is 1 wide, so that this is refused for the sort alone
            13 if bools.len() > 1 && rng.below(4) == 0 => p.node(kind::ADD, &[c, d]),
            _ => p.node(kind::BV_NOT, &[a]),
        };
        if is_bool(p.kind_of(n as usize)) {
            bools.push(n);
        } else if p.kind_of(n as usize) != kind::ADD || !bools.contains(&p.operand(n as usize, 0)) {
            vectors.push(n);
        }
    }
    for _ in 0..=rng.below(4) {
        let from = if rng.below(25) == 0 || bools.is_empty() { &vectors } else { &bools };
        let r = from[rng.below(from.len() as u64) as usize];
        p.roots.push(if rng.below(60) == 0 { 5000 } else { r as u64 });
    }
    p
}
