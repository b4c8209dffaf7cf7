//! What a script with `let` has to say (document 02, L4): the plain script of the same problem with its shared parts copied, which the Rust prints. The
//! trees are the problem's; no `let` is in it.
use crate::added;
use crate::oracle;
use crate::problem::{Problem, is_rotation, kind};
use std::collections::BTreeMap;

/// More nodes than this no copy gets, and no more bits for one constant.
const MOST: usize = 2_000;
const MOST_BITS: usize = 131_072;

struct Copier<'a> {
    p: &'a Problem,
    /// The number that a variable or constant has in the copy.
    leaves: BTreeMap<usize, u32>,
    copy: Problem,
}

impl Copier<'_> {
    fn sides(&mut self, start: u32, n: usize) -> Option<u32> {
        let start = start as usize;
        let all: Option<Vec<u64>> = (start..start + n).map(|k| self.node(self.p.side[k] as usize).map(u64::from)).collect();
        let all = all?;
        let at = self.copy.side.len() as u32;
        self.copy.side.extend(all);
        Some(at)
    }

    /// A node of its own for this place, behind those of its operands.
    fn node(&mut self, i: usize) -> Option<u32> {
        if let Some(leaf) = self.leaves.get(&i) {
            return Some(*leaf);
        }
        if self.copy.count() >= MOST {
            return None;
        }
        let k = self.p.kind_of(i);
        let o = [0, 1, 2, 3].map(|j| self.p.operand(i, j));
        let o = match k {
            kind::SELECT => {
                let index = self.node(o[1] as usize)?;
                [o[0], index, self.sides(o[2], 2 * o[3] as usize)?, o[3]]
            }
            kind::CALL => [o[0], o[1], self.sides(o[2], o[3] as usize)?, o[3]],
            kind::EXTRACT => [o[0], o[1], self.node(o[2] as usize)?, 0],
            kind::ZERO_EXT | kind::SIGN_EXT => [self.node(o[0] as usize)?, o[1], 0, 0],
            kind::NOT | kind::BV_NOT | kind::NEG => [self.node(o[0] as usize)?, 0, 0, 0],
            kind::ITE => [self.node(o[0] as usize)?, self.node(o[1] as usize)?, self.node(o[2] as usize)?, 0],
            k if is_rotation(k) => [self.node(o[0] as usize)?, self.leaves[&(o[1] as usize)], 0, 0],
            _ => [self.node(o[0] as usize)?, self.node(o[1] as usize)?, 0, 0],
        };
        Some(self.copy.node(k, &o))
    }
}

/// The problem with a node for each place where an operator stands, of one whose roots pass every check. Of a function that no root calls one call
/// is left, on zeros of the widths of its first call. None where the copy is too large.
pub fn copied(p: &Problem) -> Option<Problem> {
    let widths = oracle::widths(p).expect("the widths passed");
    let copy = Problem { nodes: vec![], side: vec![], roots: vec![], ..p.clone() };
    let mut c = Copier { p, leaves: BTreeMap::new(), copy };
    for i in (0..p.count()).filter(|i| p.kind_of(*i) <= kind::CONST) {
        let n = c.copy.node(p.kind_of(i), &[p.operand(i, 0), p.operand(i, 1)]);
        c.leaves.insert(i, n);
    }
    let moved = |n: &u64| c.leaves.get(&(*n as usize)).map_or(u64::MAX, |m| u64::from(*m));
    c.copy.var_node = p.var_node.iter().map(moved).collect();
    for r in &p.roots {
        let n = c.node(*r as usize)?;
        c.copy.roots.push(n.into());
    }
    let calls = |q: &Problem, f: usize| (0..q.count()).find(|i| q.kind_of(*i) == kind::CALL && q.operand(*i, 0) as usize == f);
    for f in 0..p.func_width.len() {
        if calls(&c.copy, f).is_some() {
            continue;
        }
        let first = calls(p, f).expect("it is called");
        let (s, n) = (p.operand(first, 2) as usize, p.operand(first, 3) as usize);
        let mut arguments = vec![];
        for x in &p.side[s..s + n] {
            let w = widths[*x as usize] as usize;
            if w > MOST_BITS || c.copy.count() >= MOST {
                return None;
            }
            let at = c.copy.bits.len() as u32;
            c.copy.bits.resize(c.copy.bits.len() + w, 0);
            arguments.push(u64::from(c.copy.node(kind::CONST, &[at, w as u32])));
        }
        let at = c.copy.side.len() as u32;
        c.copy.side.extend(arguments);
        c.copy.node(kind::CALL, &[f as u32, 1, at, n as u32]);
    }
    Some(c.copy)
}

/// The Rust's script of the copy.
pub fn script(p: &Problem) -> Option<Vec<u8>> {
    let a = added::print_answer(&copied(p)?, usize::MAX);
    assert!(matches!(a.number, 0 | 9), "the copy is refused with {}", a.number);
    (a.number == 0).then_some(a.result)
}

/// An expression of a script: a word, a name or a constant, or a list in brackets.
enum Expression<'a> {
    Word(&'a [u8]),
    List(Vec<Expression<'a>>),
}

/// The expressions up to the closing bracket, and what follows it. Between two of them is one blank at most.
fn expressions(mut s: &[u8]) -> (Vec<Expression<'_>>, &[u8]) {
    let mut out = vec![];
    loop {
        match s.first() {
            None => return (out, s),
            Some(b')') => return (out, &s[1..]),
            Some(b' ') => s = &s[1..],
            Some(b'(') => {
                let (list, rest) = expressions(&s[1..]);
                out.push(Expression::List(list));
                s = rest;
            }
            Some(b'|') => {
                let n = 2 + s[1..].iter().position(|b| *b == b'|').expect("a name ends");
                out.push(Expression::Word(&s[..n]));
                s = &s[n..];
            }
            Some(_) => {
                let n = s.iter().position(|b| matches!(b, b' ' | b')')).unwrap_or(s.len());
                out.push(Expression::Word(&s[..n]));
                s = &s[n..];
            }
        }
    }
}

/// Its text, in which each bound name is the text that it was bound to.
fn unfold<'a>(e: &Expression<'a>, names: &mut Vec<(&'a [u8], Vec<u8>)>, out: &mut Vec<u8>) {
    match e {
        Expression::Word(w) => match names.iter().rev().find(|(n, _)| n == w) {
            Some((_, text)) => out.extend(text),
            None => out.extend(*w),
        },
        Expression::List(all) => {
            if let [Expression::Word(b"let"), Expression::List(bindings), body] = &all[..] {
                let [Expression::List(binding)] = &bindings[..] else { panic!("one binding") };
                let [Expression::Word(name), term] = &binding[..] else { panic!("a name and a term") };
                let mut text = vec![];
                unfold(term, names, &mut text);
                names.push((*name, text));
                unfold(body, names, out);
                names.pop();
                return;
            }
            out.push(b'(');
            for (k, x) in all.iter().enumerate() {
                if k > 0 {
                    out.push(b' ');
                }
                unfold(x, names, out);
            }
            out.push(b')');
        }
    }
}

/// A script with every `let` unfolded, by the text alone and SMT-LIB's scopes: a bound term is read outside, the body inside.
pub fn unfolded(script: &[u8]) -> Vec<u8> {
    let mut out = vec![];
    for line in script.split_inclusive(|b| *b == b'\n') {
        if !line.starts_with(b"(assert ") {
            out.extend(line);
            continue;
        }
        for e in expressions(&line[..line.len() - 1]).0 {
            unfold(&e, &mut vec![], &mut out);
        }
        out.push(b'\n');
    }
    out
}
