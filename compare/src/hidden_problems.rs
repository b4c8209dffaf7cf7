//! Problems for the hidden form of a script: what the printer's own do not have.
use crate::printer::{Room, array, call, constant, func, root, var};
use crate::problem::{Problem, kind};

/// A constant of width w with these bits, as long as they go on, and then zeros.
fn bits_of(p: &mut Problem, w: u32, value: u64) -> u32 {
    let at = p.bits.len() as u32;
    p.bits.extend((0..w).map(|i| if i < 64 { (value >> i & 1) as u8 } else { 1 }));
    p.node(kind::CONST, &[at, w])
}

/// Constants of all widths and values beside names that look like constants, rotations by each amount, and amounts whose constants are
/// printed too.
pub fn all() -> Vec<(&'static str, Problem, Room)> {
    let mut out = vec![];
    for name in [&b"#b1"[..], b"#", b"x #b1 1", b"1", b"b1)", b"(#b101)", b"##b11", b"0b1"] {
        let mut p = Problem::default();
        let x = p.node(kind::VAR, &[3]);
        p.var_entry(name, x as u64, 3);
        let c = bits_of(&mut p, 3, 7);
        let e = p.node(kind::EQ, &[x, c]);
        root(&mut p, e);
        out.push(("a name that looks like a constant", p.clone(), Room::Exact));
        out.push(("a name that looks like a constant", p, Room::Longer(5)));
    }
    for w in [1u32, 2, 3, 7, 8, 9, 31, 32, 33, 63, 64, 65, 128, 1000] {
        for value in [0, 1, u64::MAX, 0xAAAA_AAAA_AAAA_AAAA, 1 << (w - 1).min(63)] {
            let mut p = Problem::default();
            let x = var(&mut p, w);
            let c = bits_of(&mut p, w, value);
            let e = p.node(kind::EQ, &[c, x]);
            root(&mut p, e);
            out.push(("a constant of each width", p, Room::Exact));
        }
    }
    for k in [kind::ROTL, kind::ROTR] {
        for amount in 0..24 {
            for printed in [false, true] {
                let mut p = Problem::default();
                let x = var(&mut p, 11);
                let c = bits_of(&mut p, 11, amount);
                let r = p.node(k, &[x, c]);
                let other = if printed { c } else { bits_of(&mut p, 11, 1365) };
                let e = p.node(kind::EQ, &[r, other]);
                root(&mut p, e);
                out.push((if printed { "an amount that is printed too" } else { "each amount" }, p, Room::Exact));
            }
        }
    }
    for room in [Room::Exact, Room::OneShort, Room::Empty, Room::Longer(9)] {
        let mut p = Problem::default();
        let m = array(&mut p);
        let f = func(&mut p, 8);
        let i = constant(&mut p, 32);
        let v = bits_of(&mut p, 8, 0xA5);
        let g = call(&mut p, f, 8, &[v, v]);
        let at = p.side.len() as u32;
        p.side.extend([i as u64, g as u64, i as u64, v as u64]);
        let s = p.node(kind::SELECT, &[m, i, at, 2]);
        let e = p.node(kind::EQ, &[s, v]);
        root(&mut p, e);
        out.push(("stores, an index and arguments", p, room));
    }
    out
}
