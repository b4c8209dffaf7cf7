//! Scripts with `let` (document 02, L4), by a printer of their own: the Rust has none. What comes before the check of sharing is the Rust's
//! answer; uses, what is reached and bound, the checks of terms and their text are written here from documents 01 and 02, not from the port.
use crate::added::{self, Answer};
use crate::oracle;
use crate::problem::{Problem, is_bool, is_rotation, kind};
use std::collections::BTreeSet;

/// SMT-LIB's names of the kinds from 2 to 36.
const SYMBOLS: [&str; 35] = [
    "bvadd", "bvsub", "bvmul", "bvudiv", "bvurem", "bvand", "bvor", "bvxor", "bvshl", "bvlshr", "bvashr", "rotate_right", "extract", "concat",
    "zero_extend", "sign_extend", "ite", "=", "distinct", "bvult", "bvule", "bvugt", "bvuge", "bvslt", "bvsle", "bvsgt", "bvsge", "not", "and",
    "or", "bvnot", "bvneg", "rotate_left", "bvsdiv", "bvsrem",
];

struct Printer<'a> {
    p: &'a Problem,
    widths: Vec<u64>,
}

fn name(arena: &[u8], start: &[u64], len: &[u64], i: usize) -> Vec<u8> {
    let (s, l) = (start[i] as usize, len[i] as usize);
    arena[s..s + l].to_vec()
}

impl Printer<'_> {
    fn operand(&self, i: usize, k: usize) -> usize {
        self.p.operand(i, k) as usize
    }
    fn leaf(&self, i: usize) -> bool {
        self.p.kind_of(i) <= kind::CONST
    }
    fn side(&self, start: usize, n: usize) -> Vec<usize> {
        self.p.side.iter().skip(start).take(n).map(|x| *x as usize).collect()
    }

    /// The operands that are terms, in the order of the text, with whether a Bool is wanted; then a rotation's amount.
    fn operands(&self, i: usize) -> (Vec<(usize, bool)>, Option<usize>) {
        let o = |k| self.operand(i, k);
        match self.p.kind_of(i) {
            kind::VAR | kind::CONST => (vec![], None),
            k if is_rotation(k) => (vec![(o(0), false)], Some(o(1))),
            kind::EXTRACT => (vec![(o(2), false)], None),
            kind::ZERO_EXT | kind::SIGN_EXT | kind::BV_NOT | kind::NEG => (vec![(o(0), false)], None),
            kind::ITE => (vec![(o(0), true), (o(1), false), (o(2), false)], None),
            kind::NOT => (vec![(o(0), true)], None),
            kind::BOOL_AND | kind::BOOL_OR => (vec![(o(0), true), (o(1), true)], None),
            kind::SELECT => {
                let pairs = self.side(o(2), 2 * o(3));
                let mut all: Vec<(usize, bool)> = pairs.chunks(2).rev().flatten().map(|x| (*x, false)).collect();
                all.push((o(1), false));
                (all, None)
            }
            kind::CALL => (self.side(o(2), o(3)).into_iter().map(|x| (x, false)).collect(), None),
            _ => (vec![(o(0), false), (o(1), false)], None),
        }
    }

    /// Operators with two uses or more, over all nodes, side entries and roots.
    fn shared(&self) -> BTreeSet<usize> {
        let mut uses = vec![0u32; self.p.count()];
        for i in 0..self.p.count() {
            let (terms, amount) = self.operands(i);
            for j in terms.iter().map(|t| t.0).chain(amount) {
                uses[j] += 1;
            }
        }
        for r in &self.p.roots {
            if let Some(u) = uses.get_mut(*r as usize) {
                *u += 1;
            }
        }
        (0..self.p.count()).filter(|i| !self.leaf(*i) && uses[*i] > 1).collect()
    }

    fn reached(&self, root: usize) -> BTreeSet<usize> {
        let mut seen = BTreeSet::new();
        let mut todo = vec![root];
        while let Some(i) = todo.pop() {
            if i < self.p.count() && seen.insert(i) {
                todo.extend(self.operands(i).0.iter().map(|t| t.0));
            }
        }
        seen
    }

    fn first_call(&self, f: usize) -> Option<usize> {
        (0..self.p.count()).find(|i| self.p.kind_of(*i) == kind::CALL && self.operand(*i, 0) == f)
    }

    /// 4 and 7 of what is declared.
    fn declared(&self) -> u32 {
        if self.p.var_width.contains(&0) {
            return 4;
        }
        for (f, w) in self.p.func_width.iter().enumerate() {
            let Some(c) = self.first_call(f) else { return 7 };
            if *w == 0 || self.operand(c, 2) + self.operand(c, 3) > self.p.side.len() {
                return 7;
            }
        }
        0
    }

    fn arguments(&self, i: usize) -> Option<Vec<u64>> {
        let (s, n) = (self.operand(i, 2), self.operand(i, 3));
        (s + n <= self.p.side.len()).then(|| self.side(s, n).into_iter().map(|x| self.widths[x]).collect())
    }

    /// What the tables ask of a node.
    fn asked(&self, i: usize) -> u32 {
        let o = |k| self.operand(i, k);
        match self.p.kind_of(i) {
            kind::VAR => match self.p.var_node.iter().position(|n| *n == i as u64) {
                Some(e) if self.p.var_width[e] == o(0) as u64 => 0,
                _ => 4,
            },
            k if is_rotation(k) => {
                let w = self.widths[i];
                if (1..=65_536).contains(&w) && self.p.kind_of(o(1)) == kind::CONST { 0 } else { 5 }
            }
            kind::SELECT if o(0) >= self.p.aname_start.len() => 1,
            kind::CALL => {
                let f = o(0);
                if f >= self.p.fname_start.len() {
                    return 1;
                }
                let first = self.first_call(f).expect("the node itself");
                let mine = self.arguments(i);
                let same = mine.is_some() && mine == self.arguments(first);
                if self.p.func_width[f] == o(1) as u64 && same { 0 } else { 7 }
            }
            _ => 0,
        }
    }

    /// A node where it is used.
    fn used(&self, i: usize, wanted: bool, bound: &BTreeSet<usize>) -> Result<Vec<u8>, u32> {
        if i >= self.p.count() {
            return Err(1);
        }
        if is_bool(self.p.kind_of(i)) != wanted {
            return Err(3);
        }
        if bound.contains(&i) { Ok(format!("|d{i}|").into_bytes()) } else { self.own(i, bound) }
    }

    /// A node written out.
    fn own(&self, i: usize, bound: &BTreeSet<usize>) -> Result<Vec<u8>, u32> {
        match self.asked(i) {
            0 => {}
            e => return Err(e),
        }
        let o = |k| self.operand(i, k);
        let terms = self.operands(i).0.into_iter().map(|(j, b)| self.used(j, b, bound)).collect::<Result<Vec<_>, _>>()?;
        let quoted = |n: Vec<u8>| [&b"|"[..], &n, b"|"].concat();
        let k = self.p.kind_of(i);
        let mut out = match k {
            kind::VAR => {
                let e = self.p.var_node.iter().position(|n| *n == i as u64).expect("it was asked for");
                return Ok(quoted(name(&self.p.names, &self.p.name_start, &self.p.name_len, e)));
            }
            kind::CONST => {
                let digits: Vec<u8> = self.p.bits[o(0)..o(0) + o(1)].iter().rev().map(|b| b'0' + b).collect();
                return Ok([&b"#b"[..], &digits].concat());
            }
            kind::SELECT => {
                let mut array = quoted(name(&self.p.anames, &self.p.aname_start, &self.p.aname_len, o(0)));
                for pair in terms[..terms.len() - 1].chunks(2) {
                    array = [&b"(store "[..], &array, b" ", &pair[0], b" ", &pair[1], b")"].concat();
                }
                return Ok([&b"(select "[..], &array, b" ", &terms[terms.len() - 1], b")"].concat());
            }
            kind::CALL => {
                let f = quoted(name(&self.p.fnames, &self.p.fname_start, &self.p.fname_len, o(0)));
                if terms.is_empty() {
                    return Ok(f);
                }
                f
            }
            _ => SYMBOLS[k as usize - 2].as_bytes().to_vec(),
        };
        let numbers: Vec<u64> = match k {
            kind::EXTRACT => vec![o(0) as u64, o(1) as u64],
            kind::ZERO_EXT | kind::SIGN_EXT => vec![o(1) as u64],
            k if is_rotation(k) => {
                let (at, n) = (self.operand(o(1), 0), self.operand(o(1), 1));
                let w = self.widths[i];
                vec![self.p.bits[at..at + n].iter().rev().fold(0, |v, b| (2 * v + *b as u64) % w)]
            }
            _ => vec![],
        };
        if !numbers.is_empty() {
            let numerals: String = numbers.iter().map(|n| format!(" {n}")).collect();
            out = [&b"(_ "[..], &out, numerals.as_bytes(), b")"].concat();
        }
        let mut text = [&b"("[..], &out].concat();
        for t in terms {
            text.push(b' ');
            text.extend(t);
        }
        text.push(b')');
        Ok(text)
    }

    fn assertion(&self, root: usize, shared: &BTreeSet<usize>) -> Result<Vec<u8>, u32> {
        let bound: BTreeSet<usize> = self.reached(root).intersection(shared).copied().collect();
        let mut text = b"(assert ".to_vec();
        for i in &bound {
            text.extend(format!("(let ((|d{i}| ").into_bytes());
            text.extend(self.own(*i, &bound)?);
            text.extend(b")) ");
        }
        text.extend(self.used(root, true, &bound)?);
        text.extend(vec![b')'; bound.len()]);
        text.extend(b")\n");
        Ok(text)
    }
}

/// The lines of the logic, the variables and the arrays.
fn declarations(p: &Problem) -> Vec<u8> {
    let mut out = b"(set-logic QF_".to_vec();
    let logic = match (p.fname_start.is_empty(), p.aname_start.is_empty()) {
        (false, _) => "AUFBV)\n",
        (true, false) => "ABV)\n",
        (true, true) => "BV)\n",
    };
    out.extend(logic.bytes());
    let sort = |w: u64| format!("(_ BitVec {w})").into_bytes();
    for i in 0..p.name_start.len() {
        let n = name(&p.names, &p.name_start, &p.name_len, i);
        out.extend([&b"(declare-const |"[..], &n, b"| ", &sort(p.var_width[i]), b")\n"].concat());
    }
    for i in 0..p.aname_start.len() {
        let n = name(&p.anames, &p.aname_start, &p.aname_len, i);
        out.extend([&b"(declare-const |"[..], &n, b"| (Array ", &sort(p.index_width[i]), b" ", &sort(p.value_width[i]), b"))\n"].concat());
    }
    out
}

/// With endless room.
fn script(p: &Problem) -> Result<Vec<u8>, u32> {
    let early = added::print_answer(p, usize::MAX).number;
    if matches!(early, 2 | 8 | 9 | 12) {
        return Err(early);
    }
    // without roots 1 is told of columns and widths alone
    if added::print_answer(&Problem { roots: vec![], ..p.clone() }, usize::MAX).number == 1 {
        return Err(1);
    }
    let printer = Printer { p, widths: oracle::widths(p).expect("the widths passed") };
    let shared = printer.shared();
    let tables = [(&p.names, &p.name_start, &p.name_len), (&p.anames, &p.aname_start, &p.aname_len), (&p.fnames, &p.fname_start, &p.fname_len)];
    for (arena, start, len) in tables {
        for i in 0..start.len() {
            let n = name(arena, start, len, i);
            if shared.iter().any(|s| n == format!("d{s}").as_bytes()) {
                return Err(11);
            }
        }
    }
    match printer.declared() {
        0 => {}
        e => return Err(e),
    }
    let mut out = declarations(p);
    for (f, w) in p.func_width.iter().enumerate() {
        let c = printer.first_call(f).expect("it is called");
        let sorts: Vec<String> = printer.arguments(c).expect("they are there").iter().map(|w| format!("(_ BitVec {w})")).collect();
        let n = name(&p.fnames, &p.fname_start, &p.fname_len, f);
        out.extend([&b"(declare-fun |"[..], &n, format!("| ({}) (_ BitVec {w}))\n", sorts.join(" ")).as_bytes()].concat());
    }
    for r in &p.roots {
        out.extend(printer.assertion(*r as usize, &shared)?);
    }
    out.extend(b"(check-sat)\n");
    if shared.is_empty() {
        assert!(out == added::print_answer(p, usize::MAX).result, "without sharing it is not the plain script");
    }
    Ok(out)
}

pub fn answer(p: &Problem, room: usize) -> Answer<u8> {
    match script(p) {
        Err(number) => Answer { number, count: 0, result: vec![] },
        Ok(s) if s.len() > room => Answer { number: 10, count: 0, result: vec![] },
        Ok(s) => Answer { number: 0, count: s.len(), result: s },
    }
}

/// The length of the script, where there is one.
pub fn script_len(p: &Problem) -> Option<usize> {
    script(p).ok().map(|s| s.len())
}
