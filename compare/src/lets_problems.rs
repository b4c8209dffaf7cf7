//! Problems for scripts with `let`: what the printer's own do not have.
use crate::lets_graphs::graph;
use crate::printer::Room;
use crate::problem::{Problem, Rng, kind};

pub fn all() -> Vec<(&'static str, Problem, Room)> {
    let mut out = vec![];
    let mut rng = Rng(0x4C34);
    for k in 0..2400 {
        let size = 1 + rng.below(if k % 4 == 0 { 40 } else { 12 });
        let p = graph(&mut rng, size);
        let room = match k % 9 {
            0 => Room::OneShort,
            1 => Room::Longer(7),
            _ => Room::Exact,
        };
        out.push(("a graph", p, room));
    }
    // a chain of doublings
    for n in [1u32, 2, 9, 10, 90, 99, 100, 101, 400] {
        let mut p = Problem::default();
        let x = p.node(kind::VAR, &[8]);
        p.var_entry(b"x", x as u64, 8);
        let mut last = x;
        for _ in 0..n {
            last = p.node(kind::ADD, &[last, last]);
        }
        let e = p.node(kind::EQ, &[last, last]);
        p.roots.push(e as u64);
        out.push(("a chain of doublings", p, Room::Exact));
    }
    // names beside those of nodes
    for name in [&b"d3"[..], b"d2", b"d03", b"d", b"d3 ", b"D3", b"d33", b"d4", b"d0", b"d3d"] {
        for table in 0..3 {
            let mut p = Problem::default();
            let x = p.node(kind::VAR, &[8]);
            p.var_entry(if table == 0 { name } else { b"x" }, x as u64, 8);
            let y = p.node(kind::NEG, &[x]);
            let z = p.node(kind::NEG, &[y]);
            let s = p.node(kind::ADD, &[z, x]);
            let e = p.node(kind::EQ, &[s, s]);
            p.roots.push(e as u64);
            match table {
                1 => p.array_entry(name),
                2 => p.func_entry(name, 8),
                _ => {}
            }
            if table == 2 {
                p.node(kind::CALL, &[0, 8, 0, 0]);
            }
            out.push(("a name beside a node's", p, Room::Exact));
        }
    }
    out
}
