//! NOT THE RUST'S: the replay of a trace, of document 02. A model of the values of terms, of 14 and 15 and of the whole answer, written from
//! that paper and SMT-LIB 2.6: a bit-vector is a list of bits, the lowest first, and every operator goes over the bits. Printing's own
//! refusals and the widths are those of the other lists.
use crate::added::{print_answer, width_answer};
use crate::problem::{Problem, is_rotation, kind};

type Bits = Vec<bool>;

// ---------------------------------------------------------------- the operators

fn zeros(w: usize) -> Bits {
    vec![false; w]
}

fn is_zero(s: &[bool]) -> bool {
    !s.contains(&true)
}

fn top(s: &[bool]) -> bool {
    s[s.len() - 1]
}

fn not(s: &[bool]) -> Bits {
    s.iter().map(|b| !b).collect()
}

fn bitwise(s: &[bool], t: &[bool], f: impl Fn(bool, bool) -> bool) -> Bits {
    s.iter().zip(t).map(|(a, b)| f(*a, *b)).collect()
}

/// The sum with a carry into the lowest place; the one out of the highest is dropped.
fn sum(s: &[bool], t: &[bool], mut carry: bool) -> Bits {
    let mut r = vec![];
    for (a, b) in s.iter().zip(t) {
        let ones = *a as u8 + *b as u8 + carry as u8;
        r.push(ones % 2 == 1);
        carry = ones > 1;
    }
    r
}

fn neg(s: &[bool]) -> Bits {
    sum(&not(s), &zeros(s.len()), true)
}

/// One place up, with this bit at the lowest.
fn up(s: &[bool], lowest: bool) -> Bits {
    let mut r = vec![lowest];
    r.extend_from_slice(&s[..s.len() - 1]);
    r
}

/// One place down, with this bit at the highest.
fn down(s: &[bool], highest: bool) -> Bits {
    let mut r = s[1..].to_vec();
    r.push(highest);
    r
}

fn product(s: &[bool], t: &[bool]) -> Bits {
    let mut r = zeros(s.len());
    for b in t.iter().rev() {
        r = up(&r, false);
        if *b {
            r = sum(&r, s, false);
        }
    }
    r
}

/// By the highest place where the two differ.
fn below(s: &[bool], t: &[bool]) -> bool {
    s.iter().zip(t).rev().find(|(a, b)| a != b).is_some_and(|(_, b)| *b)
}

/// Long division, a place at a time; by zero all ones, and the dividend is left.
fn divided(s: &[bool], t: &[bool]) -> (Bits, Bits) {
    if is_zero(t) {
        return (vec![true; s.len()], s.to_vec());
    }
    let mut quotient = zeros(s.len());
    // one place more, so that twice the remainder has room
    let by: Bits = t.iter().copied().chain([false]).collect();
    let mut rest = zeros(by.len());
    for k in (0..s.len()).rev() {
        rest = up(&rest, s[k]);
        if !below(&rest, &by) {
            rest = sum(&rest, &not(&by), true);
            quotient[k] = true;
        }
    }
    rest.pop();
    (quotient, rest)
}

/// The two abbreviations of QF_BV, by the signs.
fn divided_signed(s: &[bool], t: &[bool]) -> (Bits, Bits) {
    match (top(s), top(t)) {
        (false, false) => divided(s, t),
        (true, false) => {
            let (q, r) = divided(&neg(s), t);
            (neg(&q), neg(&r))
        }
        (false, true) => {
            let (q, r) = divided(s, &neg(t));
            (neg(&q), r)
        }
        (true, true) => {
            let (q, r) = divided(&neg(s), &neg(t));
            (q, neg(&r))
        }
    }
}

/// For each one of the amount that many single steps; all places are gone after the width's number of them.
fn shifted(s: &[bool], t: &[bool], step: impl Fn(&[bool]) -> Bits) -> Bits {
    let mut r = s.to_vec();
    for (k, b) in t.iter().enumerate() {
        if *b {
            let steps = if k < 7 { 1usize << k } else { s.len() };
            for _ in 0..steps.min(s.len()) {
                r = step(&r);
            }
        }
    }
    r
}

/// The amount modulo the width, from the highest bit down.
fn amount(bits: &[bool], w: usize) -> usize {
    bits.iter().rev().fold(0, |r, b| (2 * r + *b as usize) % w)
}

fn rotated(k: u8, s: &[bool], by: usize) -> Bits {
    let mut r = s.to_vec();
    for _ in 0..by {
        r = if k == kind::ROTL { up(&r, top(&r)) } else { down(&r, r[0]) };
    }
    r
}

fn two(k: u8, s: &[bool], t: &[bool]) -> Bits {
    match k {
        2 => sum(s, t, false),
        3 => sum(s, &neg(t), false),
        4 => product(s, t),
        5 => divided(s, t).0,
        6 => divided(s, t).1,
        7 => bitwise(s, t, |a, b| a && b),
        8 => bitwise(s, t, |a, b| a || b),
        9 => bitwise(s, t, |a, b| a != b),
        10 => shifted(s, t, |r| up(r, false)),
        11 => shifted(s, t, |r| down(r, false)),
        12 => shifted(s, t, |r| down(r, top(r))),
        35 => divided_signed(s, t).0,
        36 => divided_signed(s, t).1,
        _ => unreachable!(),
    }
}

/// Signed: the highest place counts the other way.
fn below_signed(s: &[bool], t: &[bool]) -> bool {
    if top(s) != top(t) { top(s) } else { below(s, t) }
}

fn compared(k: u8, s: &[bool], t: &[bool]) -> bool {
    match k {
        19 => s == t,
        20 => s != t,
        21 => below(s, t),
        22 => !below(t, s),
        23 => below(t, s),
        24 => !below(s, t),
        25 => below_signed(s, t),
        26 => !below_signed(t, s),
        27 => below_signed(t, s),
        28 => !below_signed(s, t),
        _ => unreachable!(),
    }
}

// ---------------------------------------------------------------- terms

/// A Bool is one bit; sorts were checked by printing.
fn value(p: &Problem, row: &[u64], i: usize) -> Bits {
    let k = p.kind_of(i);
    let o = |j: usize| p.operand(i, j) as usize;
    let of = |j: usize| value(p, row, o(j));
    match k {
        kind::VAR => {
            // the first entry with the node
            let column = p.var_node.iter().position(|n| *n == i as u64).unwrap();
            (0..o(0)).map(|b| row[column] >> b & 1 == 1).collect()
        }
        kind::CONST => p.bits[o(0)..o(0) + o(1)].iter().map(|b| *b == 1).collect(),
        kind::EXTRACT => of(2)[o(1)..=o(0)].to_vec(),
        kind::CONCAT => [of(1), of(0)].concat(),
        kind::ZERO_EXT => [of(0), zeros(o(1))].concat(),
        kind::SIGN_EXT => {
            let s = of(0);
            [s.clone(), vec![top(&s); o(1)]].concat()
        }
        kind::ITE => {
            if of(0)[0] {
                of(1)
            } else {
                of(2)
            }
        }
        kind::NOT | kind::BV_NOT => not(&of(0)),
        kind::NEG => neg(&of(0)),
        kind::BOOL_AND => bitwise(&of(0), &of(1), |a, b| a && b),
        kind::BOOL_OR => bitwise(&of(0), &of(1), |a, b| a || b),
        _ if is_rotation(k) => {
            let s = of(0);
            let by = amount(&value(p, row, o(1)), s.len());
            rotated(k, &s, by)
        }
        kind::EQ..=kind::SGE => vec![compared(k, &of(0), &of(1))],
        _ => two(k, &of(0), &of(1)),
    }
}

/// The operands that are terms: a rotation's amount is none.
fn entered(p: &Problem, i: usize) -> Vec<usize> {
    let o = |j: usize| p.operand(i, j) as usize;
    match p.kind_of(i) {
        kind::VAR | kind::CONST => vec![],
        kind::EXTRACT => vec![o(2)],
        kind::ITE => vec![o(0), o(1), o(2)],
        kind::ZERO_EXT | kind::SIGN_EXT | kind::NOT | kind::BV_NOT | kind::NEG => vec![o(0)],
        k if is_rotation(k) => vec![o(0)],
        _ => vec![o(0), o(1)],
    }
}

fn too_wide(p: &Problem, widths: &[u64], i: usize) -> bool {
    widths[i] > 64 || p.kind_of(i) >= kind::SELECT || entered(p, i).into_iter().any(|j| too_wide(p, widths, j))
}

// ---------------------------------------------------------------- the answer

#[derive(Debug, PartialEq)]
pub struct Replay {
    pub number: u32,
    pub masks: Vec<u64>,
    pub counts: Vec<u64>,
}

fn refused(number: u32) -> Replay {
    Replay { number, masks: vec![], counts: vec![] }
}

/// The rows, or nothing where 15 is due.
fn rows<'a>(p: &Problem, values: &'a [u64]) -> Option<Vec<&'a [u64]>> {
    let v = p.var_width.len();
    if v == 0 {
        return values.is_empty().then(|| vec![values]);
    }
    if values.len() % v != 0 {
        return None;
    }
    let rows: Vec<&[u64]> = values.chunks(v).collect();
    let fits = |row: &[u64]| row.iter().zip(&p.var_width).all(|(x, w)| *w >= 64 || *x < 1 << *w);
    rows.iter().all(|r| fits(r)).then_some(rows)
}

pub fn answer(p: &Problem, values: &[u64], masks: usize, counts: usize) -> Replay {
    if p.roots.len() > 64 {
        return refused(9);
    }
    let printed = print_answer(p, usize::MAX).number;
    if printed != 0 {
        return refused(printed);
    }
    let widths = width_answer(p, usize::MAX).result;
    if p.roots.iter().any(|r| too_wide(p, &widths, *r as usize)) {
        return refused(14);
    }
    let Some(rows) = rows(p, values) else { return refused(15) };
    if rows.len() > masks || rows.len() > counts {
        return refused(10);
    }
    let mut a = refused(0);
    for row in rows {
        let holds: Vec<bool> = p.roots.iter().map(|r| value(p, row, *r as usize)[0]).collect();
        a.masks.push(holds.iter().enumerate().map(|(k, b)| (*b as u64) << k).sum());
        a.counts.push(holds.iter().filter(|b| **b).count() as u64);
    }
    a
}
