//! Problems for the widths of arrays by the table (document 02, L5), for both lists: the answers are the model's (oracle.rs), with 12 and the
//! columns' 1 from added.rs.
use crate::printer::{self, Room, root};
use crate::problem::{Problem, Rng, kind};
use crate::trees;
use crate::widths;

const LAST: u32 = u32::MAX;

/// An index and a value each: smaller and larger than the Rust's, exchanged, width 1, the largest.
const TABLE: [(u64, u64); 10] =
    [(24, 16), (16, 24), (1, 8), (32, 1), (1, 1), (8, 32), (32, 8), (65_536, 65_536), (2, 65_535), (33, 9)];

/// Widths that no array may have: those that are allowed in their low 32 bits alone too.
const NEVER: [u64; 8] = [0, 65_537, 65_538, 131_072, 1 << 32, (1 << 32) + 8, 1 << 63, u64::MAX];

fn tabled() -> Problem {
    let mut p = Problem::default();
    for (k, (index, value)) in TABLE.into_iter().enumerate() {
        p.array_of(format!("a{k}").as_bytes(), index, value);
    }
    p
}

/// The widths of an array, and past the table the Rust's.
fn widths_of(p: &Problem, array: u32) -> (u64, u64) {
    let at = |c: &[u64], past| c.get(array as usize).copied().unwrap_or(past);
    (at(&p.index_width, 32), at(&p.value_width, 8))
}

/// A select from this array after so many stores, over variables of these widths: the index's, and each pair's.
fn select(p: &mut Problem, array: u32, index: u64, pairs: &[(u64, u64)]) -> u32 {
    let i = printer::var(p, index as u32);
    let mut side = vec![];
    for (x, v) in pairs {
        side.push(printer::var(p, *x as u32) as u64);
        side.push(printer::var(p, *v as u32) as u64);
    }
    let s = p.side.len() as u32;
    p.side.extend(side);
    p.node(kind::SELECT, &[array, i, s, pairs.len() as u32])
}

/// Each array, and two past the table, by ways that hold and ways that fail: label, is it well formed, the problem, the select and its width.
fn selects() -> Vec<(String, bool, Problem, u32, u64)> {
    let mut out = vec![];
    let mut arrays: Vec<u32> = (0..TABLE.len() as u32).collect();
    arrays.extend([TABLE.len() as u32, LAST]);
    for a in arrays {
        let (i, v) = widths_of(&tabled(), a);
        let mut add = |label: &str, ok: bool, index: u64, pairs: &[(u64, u64)]| {
            let mut p = tabled();
            let s = select(&mut p, a, index, pairs);
            out.push((format!("array widths: {label}"), ok, p, s, v));
        };
        add("a select", true, i, &[]);
        add("a store", true, i, &[(i, v)]);
        add("stores", true, i, &[(i, v), (i, v), (i, v)]);
        for other in [i - 1, i + 1, v, 32, widths_of(&tabled(), (a.wrapping_add(1)) % 10).0] {
            if other != i && other > 0 {
                add("an index of another width", false, other, &[]);
                add("a store's index of another width", false, i, &[(other, v)]);
                add("a later store's index of another width", false, i, &[(i, v), (other, v)]);
            }
        }
        for other in [v - 1, v + 1, i, 8, widths_of(&tabled(), (a.wrapping_add(1)) % 10).1] {
            if other != v && other > 0 {
                add("a store's value of another width", false, i, &[(i, other)]);
                add("an earlier store's value of another width", false, i, &[(i, other), (i, v)]);
            }
        }
        if i != v {
            add("index and value exchanged", false, v, &[(v, i)]);
            add("a store's index and value exchanged", false, i, &[(v, i)]);
        }
    }
    out
}

/// Two columns that differ in length.
const UNEVEN: [(usize, usize); 8] = [(0, 1), (1, 0), (1, 2), (2, 1), (10, 9), (9, 10), (512, 511), (0, 512)];

pub fn of_widths() -> Vec<widths::Case> {
    let mut rng = Rng(widths::SEED + 1);
    let mut out: Vec<widths::Case> = vec![];
    let mut add = |label: &str, problem: Problem, room: usize, want: Option<u32>| {
        out.push(widths::Case { label: label.to_string(), problem, room, want });
    };
    for (turn, (label, ok, mut p, _, _)) in selects().into_iter().enumerate() {
        if turn % 3 == 1 {
            // a later node that is refused: the first decides
            p.node(kind::VAR, &[(turn % 2) as u32]);
        }
        let n = p.count();
        let sound = ok && !(turn % 3 == 1 && turn % 2 == 0);
        let room = if turn % 4 == 3 { n - 1 } else { n + turn % 3 };
        let want = if !sound {
            1
        } else if room < n {
            10
        } else {
            0
        };
        add(&format!("{} {label}", if sound { "+" } else { "1" }), p, room, Some(want));
    }
    // the two columns alone, whatever there is else
    for (turn, (i, v)) in UNEVEN.into_iter().enumerate() {
        for nodes in 0..3 {
            let mut p = Problem::default();
            for k in 0..nodes {
                p.node(kind::VAR, &[k * (turn as u32 % 2)]);
            }
            p.index_width = vec![if turn % 3 == 2 { 0 } else { 8 }; i];
            p.value_width = vec![8; v];
            add("1 array widths: columns of two lengths, the node count", p, 3 * (turn % 2), Some(1));
        }
    }
    for w in NEVER {
        for (column, place) in (0..2).flat_map(|c| [0, 4, 9].map(|k| (c, k))) {
            let mut p = tabled();
            if place != 9 {
                select(&mut p, place, TABLE[place as usize].0, &[]);
            }
            if w % 2 == 1 {
                p.node(kind::VAR, &[0]);
            }
            [&mut p.index_width, &mut p.value_width][column][place as usize] = w;
            let room = p.count() - p.count().min(w as usize % 3 % 2);
            add("12 array widths: one that is not allowed", p, room, Some(12));
        }
    }
    for w in [1, 2, 65_535, 65_536] {
        let mut p = Problem::default();
        p.array_of(b"m", w, 65_537 - w);
        select(&mut p, 0, w, &[(w, 65_537 - w)]);
        add("+ array widths: the smallest and the largest", p, 4, Some(0));
    }
    for (i, v, want) in
        [(512, 512, 0), (513, 512, 9), (512, 513, 9), (513, 513, 9), (513, 0, 9), (0, 513, 9), (512, 0, 1), (511, 511, 0)]
    {
        let mut p = Problem::default();
        p.node(kind::VAR, &[24]);
        p.node(kind::SELECT, &[510, 0, 0, 0]);
        p.index_width = vec![24; i];
        p.value_width = vec![16; v];
        add("array widths: 512 entries", p.clone(), 2, Some(want));
        p.bits = vec![2];
        add("array widths: 512 entries, and 8", p, 2, Some(if want == 9 { 9 } else { 8 }));
    }
    for turn in 0..160 {
        let depth = rng.from_to(1, 4) as u32;
        let mut p = trees::accepted_by_table(&mut rng, 1 + turn % 3, depth);
        for _ in 0..turn % 4 {
            change(&mut p, &mut rng);
        }
        let n = p.count();
        let room = [n, n.saturating_sub(1), n + 7, n][turn as usize % 4];
        add("array widths: grown", p, room, None);
    }
    out
}

/// Something of the table, or a node that reads it, becomes another.
fn change(p: &mut Problem, rng: &mut Rng) {
    let selects: Vec<usize> = (0..p.count()).filter(|i| p.kind_of(*i) == kind::SELECT).collect();
    let n = p.index_width.len() as u64;
    match rng.below(6) {
        0 | 1 if n > 0 => {
            let k = rng.below(n) as usize;
            let w = rng.pick(&[1, 8, 16, 24, 32, 0, 65_536, 65_537]);
            [&mut p.index_width, &mut p.value_width][rng.below(2) as usize][k] = w;
        }
        2 if n > 1 => {
            let (a, b) = (rng.below(n) as usize, rng.below(n) as usize);
            p.index_width.swap(a, b);
        }
        3 if n > 0 => {
            let k = rng.below(n) as usize;
            (p.index_width[k], p.value_width[k]) = (p.value_width[k], p.index_width[k]);
        }
        _ if !selects.is_empty() => {
            let i = rng.pick(&selects);
            let a = rng.pick(&[0, 1, 2, n as u32, n.saturating_sub(1) as u32]);
            p.set_operand(i, 0, a);
        }
        _ => {}
    }
}

/// A term of width w, compared with a variable, as a root.
fn compared(p: &mut Problem, x: u32, w: u64) {
    let v = printer::var(p, w as u32);
    let r = p.node(kind::EQ, &[x, v]);
    root(p, r);
}

pub fn of_printer() -> Vec<printer::Case> {
    let mut rng = Rng(printer::SEED + 1);
    let mut out: Vec<printer::Case> = vec![];
    let mut add = |label: &str, problem: Problem, room: Room, want: Option<u32>| {
        out.push(printer::Case { label: label.to_string(), problem, room, want });
    };
    for (turn, (label, ok, mut p, s, w)) in selects().into_iter().enumerate() {
        let past = p.operand(s as usize, 0) as usize >= TABLE.len();
        if turn % 3 != 2 {
            compared(&mut p, s, w);
        }
        // past the table a select that is well formed is 1 once it is reached
        let sound = ok && (!past || turn % 3 == 2);
        let room = [Room::Exact, Room::Longer(3), Room::OneShort, Room::Exact][turn % 4];
        let want = if !sound {
            1
        } else if turn % 4 == 2 {
            10
        } else {
            0
        };
        add(&format!("{} {label}", if sound { "+" } else { "1" }), p, room, Some(want));
    }
    // declarations of arrays that nothing selects from
    for (i, v) in
        [(1, 1), (9, 10), (10, 9), (99, 100), (100, 99), (999, 1_000), (9_999, 10_000), (65_535, 65_536), (65_536, 65_535)]
    {
        let mut p = Problem::default();
        p.array_of(b"m", i, v);
        add("+ array widths: a declaration alone", p.clone(), Room::Exact, Some(0));
        p.array_of(b"k", v, i);
        add("+ array widths: two declarations", p.clone(), Room::Longer(5), Some(0));
        p.array_of(b"m", v, i);
        add("2 array widths: one name, other widths", p, Room::Fixed(200), Some(2));
    }
    for (turn, (i, v)) in UNEVEN.into_iter().enumerate() {
        let mut p = Problem::default();
        for k in 0..i.max(v) {
            p.array_of(format!("a{k}").as_bytes(), 24, 16);
        }
        p.index_width.truncate(i);
        p.value_width.truncate(v);
        if turn % 2 == 0 {
            p.node(kind::VAR, &[0]);
        }
        add("1 array widths: columns of two lengths", p.clone(), Room::Fixed(64), Some(1));
        p.index_width.resize(i.max(v), 24);
        p.value_width.resize(i.max(v), 16);
        p.index_width.push(24);
        p.value_width.push(16);
        add("1 array widths: both columns longer than the names'", p, Room::Fixed(64), Some(if i.max(v) == 512 { 9 } else { 1 }));
    }
    for w in NEVER {
        for (column, place) in (0..2).flat_map(|c| [0, 4, 9].map(|k| (c, k))) {
            let mut p = tabled();
            if place != 9 {
                let (index, value) = TABLE[place as usize];
                let s = select(&mut p, place, index, &[]);
                compared(&mut p, s, value);
            }
            if w % 2 == 1 {
                // what is refused with another number later on
                match place {
                    0 => p.node(kind::VAR, &[0]),
                    4 => printer::formula(&mut p),
                    _ => {
                        p.var_entry(b"let", 0, 8);
                        0
                    }
                };
            }
            [&mut p.index_width, &mut p.value_width][column][place as usize] = w;
            add("12 array widths: one that is not allowed", p, Room::Fixed(2_000), Some(12));
        }
    }
    // a Bool of width 1 as an index and in a store: the width pass takes it, and the walk does not
    for (index, value) in [(1, 1), (1, 8), (32, 1), (1, 65_536)] {
        let table = || {
            let mut p = Problem::default();
            p.array_of(b"other", 32, 8);
            p.array_of(b"m", index, value);
            p
        };
        let mut p = table();
        let s = select(&mut p, 1, index, &[(index, value)]);
        compared(&mut p, s, value);
        add("+ array widths: width 1", p.clone(), Room::Exact, Some(0));
        if value == 1 {
            // the equation no longer uses the select
            let e = p.count() - 1;
            p.set_operand(e, 0, p.operand(e, 1));
            p.roots = vec![s as u64];
            add("3 array widths: a select of width 1 as a root", p.clone(), Room::Fixed(500), Some(3));
            p.roots = vec![];
            let r = p.node(kind::NOT, &[s]);
            root(&mut p, r);
            add("3 array widths: a select of width 1 below not", p, Room::Fixed(500), Some(3));
        }
        for place in 0..5 {
            // the index, and index and value of two stores
            let wanted = if place % 2 == 0 && place > 0 { value } else { index };
            if wanted != 1 {
                continue;
            }
            let mut p = table();
            let b = printer::formula(&mut p);
            let s = select(&mut p, 1, index, &[(index, value), (index, value)]);
            if place == 0 {
                p.set_operand(s as usize, 1, b);
            } else {
                let at = p.operand(s as usize, 2) as usize;
                p.side[at + place - 1] = b as u64;
            }
            compared(&mut p, s, value);
            add("3 array widths: a Bool of width 1", p.clone(), Room::Fixed(900), Some(3));
            p.roots.clear();
            add("+ array widths: a Bool of width 1, not reached", p, Room::Exact, Some(0));
        }
    }
    // the limits of the two columns
    for (i, v, want) in [(512, 512, 0), (513, 512, 9), (512, 513, 9), (513, 513, 9)] {
        let mut p = Problem::default();
        for k in 0..512 {
            p.array_of(format!("a{k}").as_bytes(), 1 + k, 512 - k);
        }
        p.index_width.resize(i, 24);
        p.value_width.resize(v, 16);
        let s = select(&mut p, 511, 512, &[(512, 1)]);
        compared(&mut p, s, 1);
        add("array widths: 512 arrays", p, Room::Exact, Some(want));
    }
    // grown, whole and changed
    for turn in 0..240 {
        let depth = rng.from_to(1, 4) as u32;
        let p = trees::accepted_by_table(&mut rng, 1 + turn % 4, depth);
        let (room, want) = match turn % 6 {
            0..=2 => (Room::Exact, 0),
            3 => (Room::Longer(1 + turn as usize % 40), 0),
            4 => (Room::OneShort, 10),
            _ => (Room::Empty, 10),
        };
        add("array widths: grown", p.clone(), room, Some(want));
        let mut q = p;
        for _ in 0..1 + turn % 3 {
            change(&mut q, &mut rng);
        }
        add("array widths: grown and changed", q, Room::Exact, None);
    }
    out
}
