//! What an accepted problem has, as far as the tally asks.
use super::show::KINDS;
use crate::problem::{Problem, is_rotation, kind, operand_count};

/// The next of the sizes that the tally has.
pub fn size(n: usize) -> usize {
    [0, 1, 5, 20, 50, 100, 200, 500, 1_000, 2_047, 2_048].into_iter().find(|m| n <= *m).unwrap_or(usize::MAX)
}

/// The operands that the walk goes to.
fn walked(p: &Problem, i: usize) -> Vec<usize> {
    let o = |j: usize| p.operand(i, j) as usize;
    let side = |n: usize| p.side[o(2)..o(2) + n].iter().map(|x| *x as usize);
    match p.kind_of(i) {
        kind::VAR | kind::CONST => vec![],
        kind::EXTRACT => vec![o(2)],
        kind::SELECT if o(3) == 0 => vec![o(1)],
        kind::SELECT => side(2 * o(3)).chain([o(1)]).collect(),
        kind::CALL => side(o(3)).collect(),
        kind::ZERO_EXT | kind::SIGN_EXT => vec![o(0)],
        k if is_rotation(k) => vec![o(0)],
        k => (0..operand_count(k)).map(o).collect(),
    }
}

/// Of an accepted problem.
pub fn features(p: &Problem) -> Vec<String> {
    let n = p.count();
    let mut reached = vec![false; n];
    let mut twice = false;
    let mut todo: Vec<usize> = p.roots.iter().map(|r| *r as usize).collect();
    while let Some(i) = todo.pop() {
        twice |= reached[i];
        if !std::mem::replace(&mut reached[i], true) {
            todo.extend(walked(p, i));
        }
    }
    let mut out: Vec<String> = vec![];
    let mut kinds = [false; 39];
    let mut other = [false; 6];
    for i in (0..n).filter(|i| reached[*i]) {
        let k = p.kind_of(i);
        kinds[k as usize] = true;
        match k {
            kind::CALL if p.operand(i, 3) == 0 => other[0] = true,
            kind::SELECT => other[1 + p.operand(i, 3).min(2) as usize] = true,
            k if is_rotation(k) => {
                let by = p.operand(i, 1) as usize;
                let (s, w) = (p.operand(by, 0) as usize, p.operand(by, 1) as usize);
                let value = (0..w).filter(|j| p.bits[s + j] == 1).map(|j| 2f64.powi(j as i32)).sum::<f64>();
                other[4] |= value >= w as f64;
            }
            _ => {}
        }
    }
    out.extend((0..39).filter(|k| kinds[*k]).map(|k| format!("kind: {}", KINDS[k])));
    let labels = ["a call without arguments", "a select without stores", "a select with one store", "a select with more stores"];
    out.extend((0..4).filter(|j| other[*j]).map(|j| labels[j].to_string()));
    let mut put = |has: bool, label: &str| {
        if has {
            out.push(label.to_string());
        }
    };
    put(other[4], "a rotation by its width or more");
    let logic = match (p.fname_start.is_empty(), p.aname_start.is_empty()) {
        (false, _) => "logic: QF_AUFBV",
        (_, false) => "logic: QF_ABV",
        _ => "logic: QF_BV",
    };
    put(true, logic);
    put(n == 0, "no node");
    put(p.roots.is_empty(), "no root");
    put(twice, "a leaf reached twice");
    put(reached.iter().any(|r| !r), "a node that is not reached");
    let tables = [
        (&p.names, &p.name_start, &p.name_len),
        (&p.anames, &p.aname_start, &p.aname_len),
        (&p.fnames, &p.fname_start, &p.fname_len),
    ];
    let any = |f: &dyn Fn(&[u8], usize, usize) -> bool| {
        tables.iter().any(|(a, s, l)| s.iter().zip(l.iter()).any(|(s, l)| f(a, *s as usize, *l as usize)))
    };
    put(any(&|_, _, l| l == 1), "a name of one byte");
    put(any(&|_, _, l| l > 100), "a name of more than 100 bytes");
    put(any(&|_, s, _| s == 0), "a name at the beginning of its arena");
    put(any(&|a, s, l| s + l == a.len()), "a name at the end of its arena");
    put(any(&|a, s, l| a[s..s + l].contains(&32)), "a name with byte 32");
    put(any(&|a, s, l| a[s..s + l].contains(&126)), "a name with byte 126");
    put(any(&|a, s, l| a[s..s + l].contains(&128)), "a name with byte 128");
    put(any(&|a, s, l| a[s..s + l].contains(&255)), "a name with byte 255");
    put(any(&|a, s, _| a[s] >= 128), "a name that begins with a byte from 128 on");
    put(any(&|a, s, l| a[s + l - 1] >= 128), "a name that ends with a byte from 128 on");
    put(!any(&|a, s, l| a[s..s + l].iter().any(|b| *b >= 128)), "no name with a byte from 128 on");
    put(any(&|a, s, l| a[s + 1..s + l].iter().any(|b| matches!(b, b'@' | b'.'))), "a name with @ or a full stop inside");
    let arrays = || p.index_width.iter().zip(&p.value_width);
    put(arrays().any(|(i, v)| (*i, *v) != (32, 8)), "an array of other widths than the Rust's");
    put(!p.index_width.is_empty() && arrays().all(|(i, v)| (*i, *v) == (32, 8)), "arrays, all of the Rust's widths");
    put(p.index_width.contains(&1), "an array with an index of width 1");
    put(p.value_width.contains(&1), "an array with a value of width 1");
    put(p.index_width.iter().chain(&p.value_width).any(|w| *w == 65_536), "an array with the largest width");
    let read = |i: usize| p.kind_of(i) == kind::SELECT && reached[i];
    let other = |i: usize| {
        let a = p.operand(i, 0) as usize;
        (p.index_width[a], p.value_width[a]) != (32, 8)
    };
    put((0..n).any(|i| read(i) && other(i)), "a select from an array of other widths than the Rust's");
    put((0..n).any(|i| read(i) && other(i) && p.operand(i, 3) > 0), "a store into an array of other widths than the Rust's");
    put(p.var_width.iter().chain(&p.func_width).any(|w| *w > u32::MAX as u64), "a declared width above 32 bits");
    out
}
