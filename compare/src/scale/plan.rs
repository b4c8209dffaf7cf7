//! A problem before it is laid out: terms that point at one another. Damage can be done anywhere in it, and the order of the nodes,
//! the side entries, the bits and the arenas is chosen afterwards (lay.rs).
use crate::problem::{Rng, is_bool, is_rotation, kind};
use crate::words::{self, RUST, SMTLIB_27};
use std::collections::{HashMap, HashSet};

pub const LAST: u32 = u32::MAX;

#[derive(Clone)]
pub struct Term {
    pub kind: u8,
    /// what is no node: a width; high and low index; an amount; an array; a function and a width
    pub nums: [u32; 2],
    /// of a constant
    pub bits: Vec<u8>,
    /// operands; of a select the index and then the stores' pairs
    pub kids: Vec<usize>,
    pub width: u64,
}

/// A node by its term, or any number.
#[derive(Clone, Copy, PartialEq)]
pub enum At {
    Term(usize),
    Raw(u64),
}

pub struct Var {
    pub name: Vec<u8>,
    pub at: At,
    pub width: u64,
}

pub struct Func {
    pub name: Vec<u8>,
    pub width: u64,
    pub args: Vec<u64>,
}

pub struct Array {
    pub name: Vec<u8>,
    pub index: u64,
    pub value: u64,
}

#[derive(Default)]
pub struct Plan {
    pub terms: Vec<Term>,
    pub roots: Vec<At>,
    pub vars: Vec<Var>,
    pub arrays: Vec<Array>,
    pub funcs: Vec<Func>,
}

/// A place that the walk reaches: an operand of a term, or a root.
#[derive(Clone, Copy)]
pub struct Slot {
    pub parent: Option<usize>,
    pub at: usize,
    pub width: u64,
    pub boolean: bool,
}

pub fn is_leaf(k: u8) -> bool {
    k == kind::VAR || k == kind::CONST
}

/// Is a Bool needed at this operand.
pub fn needs_bool(k: u8, at: usize) -> bool {
    (kind::NOT..=kind::BOOL_OR).contains(&k) || (k == kind::ITE && at == 0)
}

pub const OPERATORS: [u8; 13] = [2, 3, 4, 5, 6, 7, 8, 9, 10, 11, 12, kind::SDIV, kind::SREM];
pub const COMPARISONS: [u8; 10] = [19, 20, 21, 22, 23, 24, 25, 26, 27, 28];
pub const ROTATIONS: [u8; 2] = [kind::ROTR, kind::ROTL];
pub const CONNECTIVES: [u8; 2] = [kind::BOOL_AND, kind::BOOL_OR];
pub const EXTENSIONS: [u8; 2] = [kind::ZERO_EXT, kind::SIGN_EXT];
pub const UNARY: [u8; 2] = [kind::BV_NOT, kind::NEG];

impl Plan {
    /// The terms that the walk reaches. A rotation's amount is not walked.
    pub fn reached(&self) -> Vec<usize> {
        let mut seen = vec![false; self.terms.len()];
        let mut todo: Vec<usize> = self.roots.iter().filter_map(|r| if let At::Term(t) = r { Some(*t) } else { None }).collect();
        let mut out = vec![];
        while let Some(t) = todo.pop() {
            if !std::mem::replace(&mut seen[t], true) {
                out.push(t);
                let kids = &self.terms[t].kids;
                todo.extend(if is_rotation(self.terms[t].kind) { &kids[..1] } else { &kids[..] });
            }
        }
        out
    }
    /// The reached places that pass the test: parent's kind (None: a root), operand, width, Bool or not.
    pub fn slots(&self, pass: impl Fn(Option<u8>, &Slot) -> bool) -> Vec<Slot> {
        let mut out = vec![];
        for (at, r) in self.roots.iter().enumerate() {
            if let At::Term(_) = r {
                out.push(Slot { parent: None, at, width: 1, boolean: true });
            }
        }
        out.retain(|s| pass(None, s));
        for t in self.reached() {
            let k = self.terms[t].kind;
            for (at, kid) in self.terms[t].kids.iter().enumerate().take(if is_rotation(k) { 1 } else { usize::MAX }) {
                let s = Slot { parent: Some(t), at, width: self.terms[*kid].width, boolean: needs_bool(k, at) };
                if pass(Some(k), &s) {
                    out.push(s);
                }
            }
        }
        out
    }
    pub fn put(&mut self, s: Slot, t: usize) {
        match s.parent {
            None => self.roots[s.at] = At::Term(t),
            Some(p) => self.terms[p].kids[s.at] = t,
        }
    }
    /// Is b below a, or a itself.
    pub fn below(&self, a: usize, b: usize) -> bool {
        let mut seen = vec![false; self.terms.len()];
        let mut todo = vec![a];
        while let Some(t) = todo.pop() {
            if t == b {
                return true;
            }
            if !std::mem::replace(&mut seen[t], true) {
                todo.extend(&self.terms[t].kids);
            }
        }
        false
    }
    /// How often each term is used.
    pub fn uses(&self) -> Vec<usize> {
        let mut n = vec![0; self.terms.len()];
        for t in &self.terms {
            t.kids.iter().for_each(|k| n[*k] += 1);
        }
        for r in &self.roots {
            if let At::Term(t) = r {
                n[*t] += 1;
            }
        }
        n
    }
    pub fn bits(&self) -> usize {
        self.terms.iter().map(|t| t.bits.len()).sum()
    }
}

/// A plan under way. The manners are drawn once a problem, so that problems differ in more than their places.
pub struct Grower<'r> {
    pub plan: Plan,
    pub rng: &'r mut Rng,
    named: HashSet<Vec<u8>>,
    arena: [usize; 3],
    /// declared variables and constants by width
    leaves: HashMap<u64, Vec<usize>>,
    widths: Vec<u64>,
    new_leaf: u64,
    calls: u64,
    selects: u64,
    /// every array has the Rust's widths
    rusts: bool,
    formulas: u64,
    short_names: bool,
    /// one byte in so many of a name is from 128 on; 0: none, so that the Rust is asked with the names themselves
    high: u64,
}

const WIDTHS: [u64; 26] =
    [1, 1, 1, 1, 2, 2, 3, 4, 5, 7, 8, 8, 8, 8, 9, 16, 31, 32, 32, 33, 64, 65, 100, 255, 65_536, u32::MAX as u64];

fn permitted(name: &[u8]) -> bool {
    !name.is_empty()
        && !matches!(name[0], b'@' | b'.')
        && name.iter().all(|b| *b >= 32 && !matches!(b, b'|' | b'\\' | 127))
        && !words::is_reserved(name)
}

impl<'r> Grower<'r> {
    pub fn new(rng: &'r mut Rng) -> Grower<'r> {
        let mut widths: Vec<u64> = (0..1 + rng.below(6)).map(|_| rng.pick(&WIDTHS)).collect();
        if rng.one_in(3) {
            widths.push(rng.from_to(1, 130));
        }
        Grower {
            plan: Plan::default(),
            named: HashSet::new(),
            arena: [0; 3],
            leaves: HashMap::new(),
            widths,
            new_leaf: rng.from_to(2, 8),
            calls: rng.pick(&[0, 0, 1, 2, 5]),
            selects: rng.pick(&[0, 0, 1, 2, 5]),
            rusts: rng.one_in(2),
            formulas: rng.from_to(1, 4),
            short_names: rng.one_in(2),
            high: rng.pick(&[0, 0, 0, 0, 0, 1, 3, 20]),
            rng,
        }
    }

    // ------------------------------------------------------------ names

    /// Any permitted name; not yet known to be new.
    fn some_name(&mut self) -> Vec<u8> {
        let n = match self.rng.below(60) {
            0 if !self.short_names => self.rng.from_to(20, 120),
            1..=9 => 1,
            _ => self.rng.from_to(1, if self.short_names { 3 } else { 12 }),
        };
        if self.rng.one_in(12) {
            return self.near_reserved();
        }
        let mut s: Vec<u8> = vec![];
        while (s.len() as u64) < n {
            s.push(if self.high > 0 && self.rng.one_in(self.high) {
                self.rng.from_to(128, 255)
            } else if self.rng.one_in(3) {
                self.rng.from_to(32, 126)
            } else {
                self.rng.from_to(97, 122)
            } as u8);
        }
        s
    }
    /// A reserved word with a letter more or less, another letter, or one in the other case; or the beginning of one.
    pub fn near_reserved(&mut self) -> Vec<u8> {
        let words = if self.rng.one_in(4) { SMTLIB_27 } else { RUST };
        self.near(words)
    }
    pub fn near(&mut self, words: &[&str]) -> Vec<u8> {
        let mut s = self.rng.pick(words).as_bytes().to_vec();
        match self.rng.below(6) {
            0 => s.push(self.rng.pick(b"a2 _")),
            1 => s.truncate(s.len() - 1),
            2 => s.insert(0, self.rng.pick(b"x ")),
            3 => {
                let i = self.rng.below(s.len() as u64) as usize;
                s[i] ^= 32;
            }
            4 => {
                let i = self.rng.below(s.len() as u64) as usize;
                s[i] = self.rng.pick(b"bitv_- ");
            }
            _ => {
                let n = self.rng.from_to(1, s.len() as u64) as usize;
                s.truncate(n);
            }
        }
        s
    }
    /// A permitted name that no table has.
    pub fn name(&mut self, table: usize) -> Vec<u8> {
        for _ in 0..20 {
            let s = self.some_name();
            if self.claim(table, &s) {
                return s;
            }
        }
        let mut s = format!("n{}", self.named.len()).into_bytes();
        while !self.claim(table, &s) {
            s.push(b'+');
        }
        s
    }
    /// Takes the name if it is permitted, new and fits.
    pub fn claim(&mut self, table: usize, s: &[u8]) -> bool {
        if !permitted(s) || self.named.contains(s) || self.arena[table] + s.len() > 14_000 {
            return false;
        }
        self.arena[table] += s.len();
        self.named.insert(s.to_vec())
    }

    // ------------------------------------------------------------ terms

    pub fn add(&mut self, kind: u8, nums: [u32; 2], kids: &[usize], width: u64) -> usize {
        self.plan.terms.push(Term { kind, nums, bits: vec![], kids: kids.to_vec(), width });
        self.plan.terms.len() - 1
    }
    /// A variable without an entry.
    pub fn bare(&mut self, w: u32) -> usize {
        self.add(kind::VAR, [w, 0], &[], w as u64)
    }
    pub fn var(&mut self, w: u32) -> usize {
        let t = self.bare(w);
        let name = self.name(0);
        self.plan.vars.push(Var { name, at: At::Term(t), width: w as u64 });
        self.leaves.entry(w as u64).or_default().push(t);
        t
    }
    pub fn constant(&mut self, w: u64) -> usize {
        let t = self.add(kind::CONST, [0, 0], &[], w);
        let ones = self.rng.below(4);
        self.plan.terms[t].bits = (0..w).map(|_| if ones < 2 { self.rng.below(2) } else { ones - 2 } as u8).collect();
        if w > 1 && self.rng.one_in(3) {
            let i = self.rng.below(w) as usize;
            self.plan.terms[t].bits[i] ^= 1;
        }
        t
    }
    /// A variable or a constant, old or new; where neither fits, a term over a narrower one.
    pub fn leaf(&mut self, w: u64) -> usize {
        if let Some(old) = self.leaves.get(&w) {
            if self.plan.terms.len() >= 1_900 || !self.rng.one_in(self.new_leaf) {
                return self.rng.pick(old);
            }
        }
        if w > 1 << 40 {
            // such widths come of damage; no leaf has them
            return self.bare(LAST);
        }
        let full = self.plan.vars.len() >= 480;
        if w <= 300 && (full || self.rng.one_in(3)) {
            let t = self.constant(w);
            self.leaves.entry(w).or_default().push(t);
            return t;
        }
        if full || w > LAST as u64 {
            let less = self.rng.from_to(1, (w - 1).min(LAST as u64));
            let part = self.leaf(w - less);
            return self.fit(part, w);
        }
        self.var(w as u32)
    }
    pub fn width(&mut self) -> u64 {
        self.rng.pick(&self.widths)
    }
    /// Another width than w.
    pub fn other_width(&mut self, w: u64) -> u64 {
        loop {
            let x = match self.rng.below(4) {
                0 => w.wrapping_add(1),
                1 => w.wrapping_sub(1),
                _ => self.rng.pick(&WIDTHS),
            };
            if x != w && (1..=LAST as u64).contains(&x) {
                return x;
            }
        }
    }
    /// A bit-vector of width w over t.
    pub fn fit(&mut self, t: usize, w: u64) -> usize {
        let have = self.plan.terms[t].width;
        if have == w {
            t
        } else if have > w {
            let lo = self.rng.below((have - w).min(LAST as u64 - w) + 1);
            self.add(kind::EXTRACT, [(lo + w - 1) as u32, lo as u32], &[t], w)
        } else if w - have > LAST as u64 {
            let wider = self.add(kind::ZERO_EXT, [LAST, 0], &[t], have + LAST as u64);
            self.fit(wider, w)
        } else if w - have <= 64 && self.rng.one_in(2) {
            let other = self.leaf(w - have);
            let kids = if self.rng.one_in(2) { [t, other] } else { [other, t] };
            self.add(kind::CONCAT, [0, 0], &kids, w)
        } else {
            let k = self.rng.pick(&EXTENSIONS);
            self.add(k, [(w - have) as u32, 0], &[t], w)
        }
    }
    fn split(&mut self, budget: u64) -> (u64, u64) {
        let a = self.rng.below(budget + 1);
        (a, budget - a)
    }

    /// A bit-vector of the width, of about so many nodes.
    pub fn vector(&mut self, w: u64, budget: u64) -> usize {
        if budget <= 1 || self.plan.terms.len() > 1_900 {
            return self.leaf(w);
        }
        let b = budget - 1;
        let turn = self.rng.below(16 + self.calls + self.selects);
        match turn {
            0 | 1 => {
                let k = self.rng.pick(&UNARY);
                self.of_kind(k, w, b)
            }
            2 | 3 if w <= 300 => {
                let k = self.rng.pick(&ROTATIONS);
                self.of_kind(k, w, b)
            }
            4 if w < LAST as u64 - 20 => self.of_kind(kind::EXTRACT, w, b),
            5 | 6 if w >= 2 => self.of_kind(kind::CONCAT, w, b),
            7 | 8 => {
                let k = self.rng.pick(&EXTENSIONS);
                self.of_kind(k, w, b)
            }
            9 | 10 => self.of_kind(kind::ITE, w, b),
            _ if turn >= 16 && turn < 16 + self.calls && w <= LAST as u64 => self.of_kind(kind::CALL, w, b),
            _ if turn >= 16 + self.calls => {
                let value = self.value_width(w);
                let t = self.of_kind(kind::SELECT, value, b);
                self.fit(t, w)
            }
            _ => {
                let k = self.rng.pick(&OPERATORS);
                self.of_kind(k, w, b)
            }
        }
    }

    pub fn formula(&mut self, budget: u64) -> usize {
        let b = budget.saturating_sub(1);
        let k = match self.rng.below(3 + self.formulas) {
            0 if b > 2 => kind::NOT,
            1 if b > 4 => self.rng.pick(&CONNECTIVES),
            2 if b > 4 => self.rng.pick(&CONNECTIVES),
            _ => self.rng.pick(&COMPARISONS),
        };
        self.of_kind(k, 1, b)
    }

    /// A term of the kind with this width, as far as the kind has a choice; its operands have about so many nodes.
    pub fn of_kind(&mut self, k: u8, w: u64, b: u64) -> usize {
        match k {
            kind::VAR => self.var(w as u32),
            kind::CONST => self.constant(w),
            kind::NOT => {
                let a = self.formula(b);
                self.add(k, [0, 0], &[a], 1)
            }
            kind::BOOL_AND | kind::BOOL_OR => {
                let (x, y) = self.split(b);
                let kids = [self.formula(x), self.formula(y)];
                self.add(k, [0, 0], &kids, 1)
            }
            kind::BV_NOT | kind::NEG => {
                let a = self.vector(w, b);
                self.add(k, [0, 0], &[a], w)
            }
            kind::EXTRACT => {
                let more = self.rng.below(10);
                let lo = self.rng.below(more + 1);
                let a = self.vector(w + more, b);
                self.add(k, [(lo + w - 1) as u32, lo as u32], &[a], w)
            }
            kind::CONCAT => {
                let w = w.max(2);
                let left = if w > 400 { self.rng.pick(&[1, w / 2, w - 1]) } else { self.rng.from_to(1, w - 1) };
                let (x, y) = self.split(b);
                let kids = [self.vector(left, x), self.vector(w - left, y)];
                self.add(k, [0, 0], &kids, w)
            }
            kind::ZERO_EXT | kind::SIGN_EXT => {
                let by = match self.rng.below(4) {
                    0 => 0,
                    1 => (w - 1).min(LAST as u64),
                    _ => self.rng.below(w.min(LAST as u64)),
                };
                let a = self.vector(w - by, b);
                self.add(k, [by as u32, 0], &[a], w)
            }
            kind::ITE => {
                let (x, rest) = self.split(b);
                let (y, z) = self.split(rest);
                let kids = [self.formula(x), self.vector(w, y), self.vector(w, z)];
                self.add(k, [0, 0], &kids, w)
            }
            kind::SELECT => {
                let n = if self.rng.one_in(40) { self.rng.below(40) } else { self.rng.below(4) };
                let mut left = b;
                let mut kids = vec![];
                let array = self.array(w);
                let index = self.plan.arrays[array as usize].index;
                for j in 0..2 * n + 1 {
                    let part = if self.rng.one_in(2) { self.rng.below(left + 1) } else { 0 };
                    left -= part;
                    kids.push(self.vector(if j == 0 || j % 2 == 1 { index } else { w }, part));
                }
                self.add(k, [array, 0], &kids, w)
            }
            kind::CALL => {
                let f = self.func(w);
                self.call(f, b)
            }
            k if is_rotation(k) => {
                let a = self.vector(w, b);
                let by = self.constant(w);
                self.add(k, [0, 0], &[a, by], w)
            }
            _ => {
                let (x, y) = self.split(b);
                let of = if is_bool(k) { self.width() } else { w };
                let kids = [self.vector(of, x), self.vector(of, y)];
                self.add(k, [0, 0], &kids, if is_bool(k) { 1 } else { w })
            }
        }
    }
    /// A term of the kind, of any width that it can have.
    pub fn sound(&mut self, k: u8) -> usize {
        let b = self.rng.below(5);
        let w = loop {
            let w = self.width();
            if !(k == kind::CONST || is_rotation(k)) || w <= 300 {
                break w;
            }
            self.widths.push(8);
        };
        let w = match k {
            kind::EXTRACT => w.min(LAST as u64 - 20),
            kind::SELECT => self.value_width(w),
            _ => w,
        };
        self.of_kind(k, w, b)
    }
    /// The width of an array's value where a term of width w is wanted: that one, or one to be fitted.
    fn value_width(&mut self, w: u64) -> u64 {
        if self.rusts {
            8
        } else if w <= 65_536 && self.rng.one_in(2) {
            w
        } else {
            self.rng.pick(&[1, 1, 2, 7, 8, 9, 16, 32, 64, 65, 255, 65_535, 65_536])
        }
    }
    /// An array with values of this width, old or new.
    pub fn array(&mut self, value: u64) -> u32 {
        let old: Vec<usize> = (0..self.plan.arrays.len()).filter(|a| self.plan.arrays[*a].value == value).collect();
        if old.is_empty() || (self.plan.arrays.len() < 480 && self.rng.one_in(5)) {
            let index = self.index_width();
            return self.new_array_of(index, value);
        }
        self.rng.pick(&old) as u32
    }
    /// An array with these widths, old or new.
    pub fn array_of(&mut self, index: u64, value: u64) -> u32 {
        let fits = |a: &Array| (a.index, a.value) == (index, value);
        match self.plan.arrays.iter().position(fits) {
            Some(a) => a as u32,
            None => self.new_array_of(index, value),
        }
    }
    fn index_width(&mut self) -> u64 {
        if self.rusts { 32 } else { self.rng.pick(&[1, 1, 2, 8, 15, 16, 24, 31, 32, 32, 33, 64, 65_535, 65_536]) }
    }
    fn new_array_of(&mut self, index: u64, value: u64) -> u32 {
        let name = self.name(1);
        self.plan.arrays.push(Array { name, index, value });
        self.plan.arrays.len() as u32 - 1
    }
    /// Of any widths that are allowed.
    pub fn new_array(&mut self) {
        let (index, value) = (self.index_width(), self.value_width(8));
        self.new_array_of(index, value);
    }
    /// A function of the width, old or new.
    fn func(&mut self, w: u64) -> usize {
        let old: Vec<usize> = (0..self.plan.funcs.len()).filter(|f| self.plan.funcs[*f].width == w).collect();
        if !old.is_empty() && (self.plan.funcs.len() >= 480 || !self.rng.one_in(4)) {
            return self.rng.pick(&old);
        }
        let n = if self.rng.one_in(40) { self.rng.below(30) } else { self.rng.below(5) };
        let args = (0..n).map(|_| self.width()).collect();
        self.new_func(w, args)
    }
    pub fn new_func(&mut self, width: u64, args: Vec<u64>) -> usize {
        let name = self.name(2);
        self.plan.funcs.push(Func { name, width, args });
        self.plan.funcs.len() - 1
    }
    pub fn call(&mut self, f: usize, budget: u64) -> usize {
        let widths = self.plan.funcs[f].args.clone();
        let mut left = budget;
        let mut kids = vec![];
        for w in widths {
            let part = self.rng.below(left + 1);
            left -= part;
            kids.push(self.vector(w, part));
        }
        let w = self.plan.funcs[f].width;
        self.add(kind::CALL, [f as u32, w as u32], &kids, w)
    }

    // ------------------------------------------------------------ places

    /// Puts what is made at a reached place of the sort, fitted to its width; where there is none, and at times, below a new root.
    pub fn plant(&mut self, boolean: bool, make: impl FnOnce(&mut Self, u64) -> usize) -> usize {
        let slots = self.plan.slots(|_, s| s.boolean == boolean && s.width < LAST as u64 - 20);
        if slots.is_empty() || self.rng.one_in(8) {
            let w = if boolean { 1 } else { self.width() };
            let t = make(self, w);
            let root = if boolean { t } else { self.over(t) };
            let at = self.rng.below(self.plan.roots.len() as u64 + 1) as usize;
            self.plan.roots.insert(at, At::Term(root));
            return t;
        }
        let s = self.rng.pick(&slots);
        let t = make(self, s.width);
        let fitted = if boolean { t } else { self.fit(t, s.width) };
        self.plan.put(s, fitted);
        t
    }
    /// A comparison with t.
    pub fn over(&mut self, t: usize) -> usize {
        let other = self.leaf(self.plan.terms[t].width);
        let k = self.rng.pick(&COMPARISONS);
        let kids = if self.rng.one_in(2) { [t, other] } else { [other, t] };
        self.add(k, [0, 0], &kids, 1)
    }
    /// Any term of these kinds; a new one, that no root reaches or that is planted, where there is none.
    pub fn some(&mut self, kinds: &[u8]) -> usize {
        let all: Vec<usize> = (0..self.plan.terms.len()).filter(|t| kinds.contains(&self.plan.terms[*t].kind)).collect();
        if !all.is_empty() {
            return self.rng.pick(&all);
        }
        let k = self.rng.pick(kinds);
        if self.rng.one_in(2) { self.sound(k) } else { self.plant(is_bool(k), |g, _| g.sound(k)) }
    }
    /// A reached term of these kinds that passes the test, if there is one.
    pub fn reached_of(&mut self, kinds: &[u8], pass: impl Fn(&Plan, usize) -> bool) -> Option<usize> {
        let all: Vec<usize> = self
            .plan
            .reached()
            .into_iter()
            .filter(|t| kinds.contains(&self.plan.terms[*t].kind) && pass(&self.plan, *t))
            .collect();
        if all.is_empty() { None } else { Some(self.rng.pick(&all)) }
    }

    // ------------------------------------------------------------ what no root reaches

    /// A term that would be refused if it were reached, or is merely not reached.
    fn wild(&mut self) {
        let w = self.rng.from_to(1, 40) as u32;
        match self.rng.below(9) {
            0 => {
                self.bare(w);
            }
            1 => {
                let a = self.leaf(32);
                // past the table, however many arrays there come to be
                let array = self.rng.pick(&[512, 513, LAST]);
                self.add(kind::SELECT, [array, 0], &[a], 8);
            }
            2 => {
                let kids: Vec<usize> = (0..self.rng.below(3)).map(|_| self.leaf(8)).collect();
                let f = self.rng.pick(&[LAST, LAST - 1, 1 << 31]);
                self.add(kind::CALL, [f, w], &kids, w as u64);
            }
            3 => {
                let b = self.formula(1);
                self.add(kind::NEG, [0, 0], &[b], 1);
            }
            4 => {
                let v = self.leaf(1);
                self.add(kind::NOT, [0, 0], &[v], 1);
            }
            5 => {
                let v = self.leaf(w as u64);
                self.add(kind::ROTL, [0, 0], &[v, v], w as u64);
            }
            6 if !self.plan.funcs.is_empty() => {
                // another width than declared: the signature has only the arguments' from a call
                let f = self.rng.below(self.plan.funcs.len() as u64) as usize;
                let t = self.call(f, 0);
                self.plan.terms[t].nums[1] = w;
                self.plan.terms[t].width = w as u64;
            }
            _ => {
                let w = self.width();
                let b = self.rng.below(6);
                self.vector(w, b);
            }
        }
    }
    /// Entries that no term needs.
    fn spare(&mut self) {
        match self.rng.below(4) {
            0 if self.plan.arrays.len() < 480 => self.new_array(),
            1 if !self.plan.vars.is_empty() && self.plan.vars.len() < 480 => {
                // a second entry of a node, after the first
                let i = self.rng.below(self.plan.vars.len() as u64) as usize;
                let (at, width) = (self.plan.vars[i].at, self.rng.pick(&[1, 8, 1 << 32, u64::MAX]));
                let name = self.name(0);
                self.plan.vars.push(Var { name, at, width });
            }
            _ if self.plan.vars.len() < 480 => {
                let name = self.name(0);
                let at = At::Raw(self.rng.pick(&[1 << 32, u64::MAX, 5_000, (1 << 63) + 1]));
                let width = self.rng.pick(&[1, 2, 77, u32::MAX as u64, 1 << 32, u64::MAX, 10_000_000_000]);
                let i = self.rng.below(self.plan.vars.len() as u64 + 1) as usize;
                self.plan.vars.insert(i, Var { name, at, width });
            }
            _ => {}
        }
    }

    /// A problem that is accepted.
    pub fn grow(&mut self) {
        let target = match self.rng.below(200) {
            0..=5 => self.rng.below(4),
            6..=130 => self.rng.from_to(4, 40),
            131..=182 => self.rng.from_to(40, 150),
            183..=196 => self.rng.from_to(150, 400),
            _ => self.rng.from_to(400, 1_800),
        } as usize;
        let most = self.rng.pick(&[2, 6, 12, 40, 200]);
        while self.plan.terms.len() < target && self.plan.roots.len() < 240 {
            let b = self.rng.from_to(1, most.min((target - self.plan.terms.len()) as u64).max(1));
            let r = self.formula(b);
            self.plan.roots.push(At::Term(r));
            if self.rng.one_in(6) {
                self.wild();
            }
        }
        for _ in 0..self.rng.below(6) / 3 {
            self.spare();
        }
        if self.rng.one_in(3) {
            let n = self.plan.roots.len();
            for i in (1..n).rev() {
                self.plan.roots.swap(i, self.rng.below(i as u64 + 1) as usize);
            }
        }
        if self.rng.one_in(30) {
            self.plan.roots.clear();
        }
    }
}
