//! Accepted problems for the printer, grown from a random number generator: operators used once, leaves shared, tables that fit.
use crate::problem::{Problem, Rng, kind};

/// A problem under way, with what is known of its tables.
pub struct Grower<'r> {
    pub p: Problem,
    pub rng: &'r mut Rng,
    /// node and width of each named variable
    vars: Vec<(u32, u64)>,
    /// argument widths and width of each function
    funcs: Vec<(Vec<u64>, u64)>,
    /// bit strings that a constant can be given again
    consts: Vec<(u32, u64)>,
    /// arrays have any widths
    by_table: bool,
}

const LETTERS: &[u8] = b"abcdefghijklmnopqrstuvwxyzABCDEFGHIJKLMNOPQRSTUVWXYZ";
const OTHERS: &[u8] = b"0123456789 !\"#$%&'()*+,-./:;<=>?@[]^_`{}";

impl<'r> Grower<'r> {
    pub fn new(rng: &'r mut Rng) -> Grower<'r> {
        Grower { p: Problem::default(), rng, vars: vec![], funcs: vec![], consts: vec![], by_table: false }
    }

    /// A name that no table has yet: its last bytes are a number of its own.
    pub fn name(&mut self) -> Vec<u8> {
        let n = self.p.name_start.len() + self.p.aname_start.len() + self.p.fname_start.len();
        let mut s = vec![self.rng.pick(LETTERS)];
        for _ in 0..self.rng.below(5) {
            let from = if self.rng.one_in(2) { LETTERS } else { OTHERS };
            s.push(self.rng.pick(from));
        }
        s.extend(format!("_{n}").bytes());
        s
    }

    pub fn variable(&mut self, w: u64) -> u32 {
        let i = self.p.node(kind::VAR, &[w as u32]);
        let name = self.name();
        self.p.var_entry(&name, i as u64, w);
        self.vars.push((i, w));
        i
    }

    pub fn constant(&mut self, w: u64) -> u32 {
        let s = self.p.bits.len() as u32;
        for _ in 0..w {
            let b = self.rng.below(2) as u8;
            self.p.bits.push(b);
        }
        self.p.node(kind::CONST, &[s, w as u32])
    }

    fn leaf(&mut self, w: u64) -> u32 {
        let old: Vec<u32> = self.vars.iter().filter(|(_, x)| *x == w).map(|(i, _)| *i).collect();
        let again: Vec<u32> = self.consts.iter().filter(|(_, x)| *x == w).map(|(i, _)| *i).collect();
        match self.rng.below(4) {
            0 | 1 if !old.is_empty() => self.rng.pick(&old),
            2 if !again.is_empty() => self.rng.pick(&again),
            3 if w <= 64 => {
                let i = self.constant(w);
                self.consts.push((i, w));
                i
            }
            _ => self.variable(w),
        }
    }

    pub fn width(&mut self) -> u64 {
        self.rng.pick(&[1, 1, 2, 3, 8, 8, 8, 16, 32, 32, 64, 7, 5])
    }

    /// A bit-vector of the width.
    pub fn vector(&mut self, w: u64, depth: u32) -> u32 {
        if depth == 0 || self.rng.one_in(6) {
            return self.leaf(w);
        }
        let d = depth - 1;
        match self.rng.below(12) {
            0 => {
                let a = self.vector(w, d);
                let k = self.rng.pick(&[kind::BV_NOT, kind::NEG]);
                self.p.node(k, &[a])
            }
            1 if w <= 128 => {
                let a = self.vector(w, d);
                let b = self.constant(w);
                let k = self.rng.pick(&[kind::ROTR, kind::ROTL]);
                self.p.node(k, &[a, b])
            }
            2 => {
                let more = self.rng.below(9);
                let lo = self.rng.below(more + 1);
                let a = self.vector(w + more, d);
                self.p.node(kind::EXTRACT, &[(lo + w - 1) as u32, lo as u32, a])
            }
            3 if w >= 2 => {
                let left = self.rng.from_to(1, w - 1);
                let a = self.vector(left, d);
                let b = self.vector(w - left, d);
                self.p.node(kind::CONCAT, &[a, b])
            }
            4 => {
                let by = if w >= 2 { self.rng.below(w) } else { 0 };
                let a = self.vector(w - by, d);
                let k = self.rng.pick(&[kind::ZERO_EXT, kind::SIGN_EXT]);
                self.p.node(k, &[a, by as u32])
            }
            5 => {
                let c = self.formula(d);
                let a = self.vector(w, d);
                let b = self.vector(w, d);
                self.p.node(kind::ITE, &[c, a, b])
            }
            6 if w == 8 || self.by_table => self.select(w, d),
            7 => self.call(w, d),
            _ => {
                let a = self.vector(w, d);
                let b = self.vector(w, d);
                let ks: Vec<u8> = (kind::ADD..kind::ROTR).chain([kind::SDIV, kind::SREM]).collect();
                let k = self.rng.pick(&ks);
                self.p.node(k, &[a, b])
            }
        }
    }

    fn select(&mut self, w: u64, d: u32) -> u32 {
        let arrays = self.p.aname_start.len() as u64;
        let fits: Vec<u64> = (0..arrays).filter(|a| self.p.value_width[*a as usize] == w).collect();
        let array = if fits.is_empty() || self.rng.one_in(4) {
            let name = self.name();
            let index = if self.by_table { self.rng.pick(&[1, 2, 8, 16, 24, 31, 32, 33, 64]) } else { 32 };
            self.p.array_of(&name, index, w);
            arrays
        } else {
            fits[self.rng.below(fits.len() as u64) as usize]
        };
        let index = self.p.index_width[array as usize];
        let n = self.rng.below(4);
        let mut pairs = vec![];
        for _ in 0..n {
            pairs.push(self.vector(index, d) as u64);
            pairs.push(self.vector(w, d) as u64);
        }
        let i = self.vector(index, d);
        let s = self.place_side(&pairs);
        self.p.node(kind::SELECT, &[array as u32, i, s, n as u32])
    }

    /// The entries, at the end of the side table, at times after one that no node reads.
    fn place_side(&mut self, xs: &[u64]) -> u32 {
        if self.rng.one_in(5) {
            let x = self.rng.pick(&[0, 1, 1 << 32, u64::MAX]);
            self.p.side.push(x);
        }
        let s = self.p.side.len();
        self.p.side.extend_from_slice(xs);
        s as u32
    }

    pub fn call(&mut self, w: u64, d: u32) -> u32 {
        let old: Vec<usize> = (0..self.funcs.len()).filter(|f| self.funcs[*f].1 == w).collect();
        let f = if old.is_empty() || self.rng.one_in(3) {
            let args: Vec<u64> = (0..self.rng.below(4)).map(|_| self.width()).collect();
            let name = self.name();
            self.p.func_entry(&name, w);
            self.funcs.push((args, w));
            self.funcs.len() - 1
        } else {
            self.rng.pick(&old)
        };
        let widths = self.funcs[f].0.clone();
        let args: Vec<u64> = widths.iter().map(|x| self.vector(*x, d) as u64).collect();
        let s = self.place_side(&args);
        self.p.node(kind::CALL, &[f as u32, w as u32, s, args.len() as u32])
    }

    pub fn formula(&mut self, depth: u32) -> u32 {
        let d = depth.saturating_sub(1);
        match if depth == 0 { 9 } else { self.rng.below(6) } {
            0 => {
                let a = self.formula(d);
                self.p.node(kind::NOT, &[a])
            }
            1 => {
                let a = self.formula(d);
                let b = self.formula(d);
                let k = self.rng.pick(&[kind::BOOL_AND, kind::BOOL_OR]);
                self.p.node(k, &[a, b])
            }
            _ => {
                let w = self.width();
                let a = self.vector(w, d);
                let b = self.vector(w, d);
                let ks: Vec<u8> = (kind::EQ..=kind::SGE).collect();
                let k = self.rng.pick(&ks);
                self.p.node(k, &[a, b])
            }
        }
    }
}

/// An accepted problem with so many roots, each so deep; some nodes besides are reached from no root.
pub fn accepted(rng: &mut Rng, roots: u64, depth: u32) -> Problem {
    grown(Grower::new(rng), roots, depth)
}

/// The same with arrays of any widths.
pub fn accepted_by_table(rng: &mut Rng, roots: u64, depth: u32) -> Problem {
    let mut g = Grower::new(rng);
    g.by_table = true;
    grown(g, roots, depth)
}

fn grown(mut g: Grower, roots: u64, depth: u32) -> Problem {
    for _ in 0..roots {
        let r = g.formula(depth);
        g.p.roots.push(r as u64);
        if g.rng.one_in(4) {
            let w = g.width();
            g.vector(w, 1);
        }
    }
    g.p
}

/// Which kinds a problem has.
pub fn kinds(p: &Problem) -> [bool; 39] {
    let mut has = [false; 39];
    for i in 0..p.count() {
        has[p.kind_of(i) as usize] = true;
    }
    has
}
