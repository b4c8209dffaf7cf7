//! Makes a problem on which the two differ smaller, as long as they still differ.
use crate::problem::{Problem, is_bool, kind};
use std::time::{Duration, Instant};

/// Which operands of a kind are nodes.
fn node_operands(k: u8) -> &'static [usize] {
    match k {
        kind::VAR | kind::CONST => &[],
        kind::EXTRACT => &[2],
        kind::SELECT => &[1],
        kind::CALL => &[],
        kind::ITE => &[0, 1, 2],
        kind::ZERO_EXT | kind::SIGN_EXT | kind::NOT | kind::BV_NOT | kind::NEG => &[0],
        k if k < kind::COUNT => &[0, 1],
        _ => &[],
    }
}

/// The side entries that a node reads, as far as there are any.
fn entries(p: &Problem, i: usize) -> std::ops::Range<usize> {
    let each = match p.kind_of(i) {
        kind::SELECT => 2,
        kind::CALL => 1,
        _ => return 0..0,
    };
    let s = (p.operand(i, 2) as usize).min(p.side.len());
    s..(s + each * p.operand(i, 3) as usize).min(p.side.len())
}

fn read(p: &Problem) -> Vec<bool> {
    let mut r = vec![false; p.side.len()];
    for i in 0..p.count() {
        r[entries(p, i)].iter_mut().for_each(|x| *x = true);
    }
    r
}

fn columns(p: &mut Problem) -> [&mut Vec<u64>; 11] {
    [
        &mut p.name_start,
        &mut p.name_len,
        &mut p.var_node,
        &mut p.var_width,
        &mut p.aname_start,
        &mut p.aname_len,
        &mut p.index_width,
        &mut p.value_width,
        &mut p.fname_start,
        &mut p.fname_len,
        &mut p.func_width,
    ]
}

fn length(x: u64) -> u64 {
    64 - x.leading_zeros() as u64
}

/// What is to become less.
fn cost(p: &Problem, room: usize) -> u64 {
    let mut c = 40 * p.nodes.len() as u64 + length(room as u64);
    for i in 0..p.count() {
        c += if p.kind_of(i) == kind::VAR { 0 } else { 60 };
        c += (0..4).map(|j| length(p.operand(i, j) as u64)).sum::<u64>();
    }
    c += 4 * p.bits.len() as u64 + p.bits.iter().map(|b| *b as u64).sum::<u64>();
    for xs in [&p.side, &p.roots] {
        c += xs.iter().map(|x| 80 + length(*x)).sum::<u64>();
    }
    for xs in columns(&mut p.clone()) {
        c += xs.iter().map(|x| 80 + length(*x)).sum::<u64>();
    }
    for a in [&p.names, &p.anames, &p.fnames] {
        c += a.iter().map(|b| 8 + (*b != b'a') as u64).sum::<u64>();
    }
    c
}

/// The problem without a node; what pointed at it points at `instead`.
fn without_node(p: &Problem, i: usize, instead: usize) -> Problem {
    let mut q = p.clone();
    let map = |x: u64| match x {
        x if x == i as u64 => instead as u64,
        x if x > i as u64 && x < p.count() as u64 => x - 1,
        x => x,
    };
    for n in 0..p.count() {
        for j in node_operands(p.kind_of(n)) {
            q.set_operand(n, *j, map(p.operand(n, *j) as u64) as u32);
        }
    }
    for (s, used) in read(p).into_iter().enumerate() {
        if used {
            q.side[s] = map(p.side[s]);
        }
    }
    q.roots = p.roots.iter().map(|x| map(*x)).collect();
    q.var_node = p.var_node.iter().map(|x| if *x == i as u64 { u64::MAX >> 1 } else { map(*x) }).collect();
    q.nodes.drain(17 * i..17 * (i + 1));
    q
}

fn without_entry(p: &Problem, s: usize) -> Problem {
    let mut q = p.clone();
    for i in 0..p.count() {
        if matches!(p.kind_of(i), kind::SELECT | kind::CALL) {
            let r = entries(p, i);
            if s < r.start {
                q.set_operand(i, 2, p.operand(i, 2).saturating_sub(1));
            } else if r.contains(&s) && p.kind_of(i) == kind::CALL {
                q.set_operand(i, 3, p.operand(i, 3) - 1);
            }
        }
    }
    q.side.remove(s);
    q
}

/// A pair of a select's stores less.
fn without_store(p: &Problem, i: usize, pair: usize) -> Option<Problem> {
    let r = entries(p, i);
    let s = r.start + 2 * pair;
    if p.kind_of(i) != kind::SELECT || s + 1 >= r.end {
        return None;
    }
    let mut q = p.clone();
    q.set_operand(i, 3, p.operand(i, 3) - 1);
    for n in 0..p.count() {
        if n != i && matches!(p.kind_of(n), kind::SELECT | kind::CALL) && p.operand(n, 2) as usize > s {
            q.set_operand(n, 2, p.operand(n, 2).saturating_sub(2));
        }
    }
    q.side.drain(s..s + 2);
    Some(q)
}

fn without_row(p: &Problem, table: usize, row: usize) -> Problem {
    let mut q = p.clone();
    let of = [0..4, 4..8, 8..11][table].clone();
    for c in &mut columns(&mut q)[of] {
        if row < c.len() {
            c.remove(row);
        }
    }
    let k = [255, kind::SELECT, kind::CALL][table];
    for i in (0..p.count()).filter(|i| p.kind_of(*i) == k) {
        let x = p.operand(i, 0);
        if x as usize > row && x != u32::MAX {
            q.set_operand(i, 0, x - 1);
        }
    }
    q
}

/// Every name that lies inside its arena stands for itself; with `letters` it is one letter of its own.
fn packed(p: &Problem, letters: bool) -> Problem {
    let mut q = p.clone();
    let mut next = b'a';
    let mut pack = |arena: &mut Vec<u8>, starts: &mut [u64], lens: &mut [u64]| {
        let old = std::mem::take(arena);
        for (s, l) in starts.iter_mut().zip(lens) {
            let Some(bytes) = s.checked_add(*l).filter(|e| *e <= old.len() as u64).map(|e| &old[*s as usize..e as usize]) else {
                continue;
            };
            *s = arena.len() as u64;
            if letters && !bytes.is_empty() && next <= b'z' {
                arena.push(next);
                *l = 1;
                next += 1;
            } else {
                arena.extend_from_slice(bytes);
            }
        }
    };
    pack(&mut q.names, &mut q.name_start, &mut q.name_len);
    pack(&mut q.anames, &mut q.aname_start, &mut q.aname_len);
    pack(&mut q.fnames, &mut q.fname_start, &mut q.fname_len);
    q
}

struct Reducer<'a> {
    p: Problem,
    room: usize,
    differs: &'a dyn Fn(&Problem, usize) -> bool,
    need: &'a dyn Fn(&Problem) -> Option<usize>,
    /// the room less what is needed
    over: Option<isize>,
    until: Instant,
    gained: bool,
}

impl Reducer<'_> {
    fn late(&self) -> bool {
        Instant::now() > self.until
    }
    fn try_with(&mut self, q: Problem, room: usize) -> bool {
        if self.late() || cost(&q, room) >= cost(&self.p, self.room) || !(self.differs)(&q, room) {
            return false;
        }
        self.p = q;
        self.room = room;
        self.gained = true;
        true
    }
    /// With the room there is, or with as much more or less than the result needs as at the start.
    fn attempt(&mut self, q: Problem) -> bool {
        let room = self.room;
        if self.late() {
            return false;
        }
        if self.try_with(q.clone(), room) {
            return true;
        }
        match (self.over, (self.need)(&q)) {
            (Some(over), Some(need)) if need as isize + over >= 0 && need as isize + over != room as isize => {
                self.try_with(q, (need as isize + over) as usize)
            }
            _ => false,
        }
    }
    /// Stretches of a list left out, long ones first.
    fn stretches(&mut self, len: impl Fn(&Problem) -> usize, without: impl Fn(&Problem, usize, usize) -> Problem) {
        let mut step = len(&self.p);
        // of thousands, not each one by one
        while step > len(&self.p) / 4_096 && !self.late() {
            let mut end = len(&self.p);
            while end > 0 && !self.late() {
                let q = without(&self.p, end.saturating_sub(step), end);
                self.attempt(q);
                end = end.saturating_sub(step).min(len(&self.p));
            }
            step /= 2;
        }
    }
    fn numbers(&mut self, get: impl Fn(&Problem) -> Vec<u64>, set: impl Fn(&mut Problem, usize, u64)) {
        for i in 0..get(&self.p).len().min(4_096) {
            if self.late() {
                return;
            }
            let Some(x) = get(&self.p).get(i).copied() else { return };
            for y in [0, 1, 2, x / 2, x.wrapping_sub(1)] {
                if length(y) < length(x) || y < x {
                    let mut q = self.p.clone();
                    set(&mut q, i, y);
                    if self.attempt(q) {
                        break;
                    }
                }
            }
        }
    }
    fn round(&mut self) {
        self.stretches(
            |p| p.roots.len(),
            |p, a, b| {
                let mut q = p.clone();
                q.roots.drain(a..b);
                q
            },
        );
        self.one_root();
        // whole ends of the list, then node by node: what used a node uses one of its operands, or any lower node, instead
        self.stretches(
            |p| p.count(),
            |p, a, b| {
                let mut q = p.clone();
                (a..b).rev().for_each(|i| q = without_node(&q, i, i.saturating_sub(1)));
                q
            },
        );
        for i in (0..self.p.count()).rev() {
            if self.late() || i >= self.p.count() {
                continue;
            }
            let mut instead: Vec<usize> =
                node_operands(self.p.kind_of(i)).iter().map(|j| self.p.operand(i, *j) as usize).collect();
            instead.extend(self.p.side[entries(&self.p, i)].iter().take(4).map(|x| *x as usize));
            instead.extend((0..i).rev().take(12));
            instead.extend(0..i.min(4));
            let gone = instead.into_iter().filter(|x| *x < i).any(|x| {
                let q = without_node(&self.p, i, x);
                self.attempt(q)
            });
            if !gone && !matches!(self.p.kind_of(i), kind::VAR) {
                // a variable with an entry of its own
                for w in [1, 8, 32, 2] {
                    let mut q = self.p.clone();
                    let r = crate::problem::record(kind::VAR, [w, 0, 0, 0]);
                    q.nodes[17 * i..17 * (i + 1)].copy_from_slice(&r);
                    let bare = q.clone();
                    let n = format!("v{i}");
                    q.var_entry(n.as_bytes(), i as u64, w as u64);
                    if self.attempt(bare) || self.attempt(q) {
                        break;
                    }
                }
            }
        }
        for table in 0..3 {
            let rows = move |p: &Problem| [p.name_start.len(), p.aname_start.len(), p.fname_start.len()][table];
            self.stretches(rows, move |p, a, b| (a..b).rev().fold(p.clone(), |q, r| without_row(&q, table, r)));
        }
        self.stretches(|p| p.side.len(), |p, a, b| (a..b).rev().fold(p.clone(), |q, s| without_entry(&q, s)));
        for i in 0..self.p.count() {
            let mut pair = 0;
            while i < self.p.count()
                && let Some(q) = without_store(&self.p, i, pair)
            {
                if !self.attempt(q) {
                    pair += 1;
                }
            }
        }
        self.stretches(
            |p| p.bits.len(),
            |p, a, b| {
                let mut q = p.clone();
                q.bits.drain(a..b);
                for i in (0..q.count()).filter(|i| p.kind_of(*i) == kind::CONST && p.operand(*i, 0) as usize >= b) {
                    q.set_operand(i, 0, p.operand(i, 0) - (b - a) as u32);
                }
                q
            },
        );
        for letters in [true, false] {
            let q = packed(&self.p, letters);
            self.attempt(q);
        }
        for table in 0..3 {
            // a byte of an arena less, and of the name that has it
            for at in (0..[self.p.names.len(), self.p.anames.len(), self.p.fnames.len()][table]).rev() {
                let mut q = self.p.clone();
                let (a, s, l) = match table {
                    0 => (&mut q.names, &mut q.name_start, &mut q.name_len),
                    1 => (&mut q.anames, &mut q.aname_start, &mut q.aname_len),
                    _ => (&mut q.fnames, &mut q.fname_start, &mut q.fname_len),
                };
                if at >= a.len() {
                    continue;
                }
                a.remove(at);
                for (s, l) in s.iter_mut().zip(l.iter_mut()) {
                    if *s > at as u64 {
                        *s -= 1;
                    } else if s.checked_add(*l).is_some_and(|e| e > at as u64) {
                        *l -= 1;
                    }
                }
                self.attempt(q);
            }
        }
        self.together();
        self.stretches(
            |p| p.nodes.len() % 17,
            |p, a, b| {
                let mut q = p.clone();
                q.nodes.drain(17 * p.count() + a..17 * p.count() + b);
                q
            },
        );
        self.numbers(
            |p| (0..4 * p.count()).map(|x| p.operand(x / 4, x % 4) as u64).collect(),
            |p, x, y| p.set_operand(x / 4, x % 4, y as u32),
        );
        self.numbers(|p| p.side.clone(), |p, i, y| p.side[i] = y);
        self.numbers(|p| p.roots.clone(), |p, i, y| p.roots[i] = y);
        for c in 0..9 {
            self.numbers(|p| columns(&mut p.clone())[c].clone(), |p, i, y| columns(p)[c][i] = y);
        }
        self.numbers(|p| p.bits.iter().map(|b| *b as u64).collect(), |p, i, y| p.bits[i] = y as u8);
        for room in [0, 1, 30, 64, self.room / 2, self.room.saturating_sub(1)] {
            let q = self.p.clone();
            self.try_with(q, room);
        }
    }
    /// One node as the only root, what follows it left out; a bit-vector is compared with a leaf.
    fn one_root(&mut self) {
        if (0..self.p.count()).any(|i| self.p.kind_of(i) >= kind::COUNT) {
            return;
        }
        let Ok(ws) = crate::oracle::widths(&self.p) else { return };
        for x in 0..ws.len() {
            let mut q = self.p.clone();
            q.nodes.truncate(17 * (x + 1));
            if is_bool(q.kind_of(x)) {
                q.roots = vec![x as u64];
                if self.attempt(q) {
                    return;
                }
                continue;
            }
            let leaves: Vec<usize> =
                (0..x).filter(|l| matches!(q.kind_of(*l), kind::VAR | kind::CONST) && ws[*l] == ws[x]).collect();
            let mut others: Vec<Problem> = vec![];
            for l in leaves.into_iter().take(3) {
                let mut r = q.clone();
                r.node(kind::EQ, &[x as u32, l as u32]);
                r.roots = vec![x as u64 + 1];
                others.push(r);
            }
            let v = q.node(kind::VAR, &[ws[x] as u32]);
            q.var_entry(format!("v{v}").as_bytes(), v as u64, ws[x]);
            q.node(kind::EQ, &[x as u32, v]);
            q.roots = vec![v as u64 + 1];
            others.push(q);
            if others.into_iter().any(|q| self.attempt(q)) {
                return;
            }
        }
    }
    /// A width wherever it stands.
    fn together(&mut self) {
        let all = |p: &Problem| {
            let mut ws: Vec<u64> = vec![];
            for i in 0..p.count() {
                match p.kind_of(i) {
                    kind::VAR => ws.push(p.operand(i, 0) as u64),
                    kind::CONST | kind::CALL => ws.push(p.operand(i, 1) as u64),
                    _ => {}
                }
            }
            ws.extend(p.index_width.iter().chain(&p.value_width));
            ws.sort();
            ws.dedup();
            ws
        };
        for old in all(&self.p) {
            for new in [1, 2, 8] {
                if new >= old {
                    continue;
                }
                let mut q = self.p.clone();
                for i in 0..q.count() {
                    let j = match q.kind_of(i) {
                        kind::VAR => 0,
                        kind::CONST | kind::CALL => 1,
                        _ => continue,
                    };
                    if q.operand(i, j) as u64 == old {
                        q.set_operand(i, j, new as u32);
                    }
                }
                for xs in [&mut q.var_width, &mut q.func_width, &mut q.index_width, &mut q.value_width] {
                    xs.iter_mut().filter(|x| **x == old).for_each(|x| *x = new);
                }
                if self.attempt(q) {
                    break;
                }
            }
        }
    }
}

/// The smallest that was found within the time. `need` says how much room a problem needs, if it is accepted.
pub fn reduce(
    p: &Problem,
    room: usize,
    time: Duration,
    differs: &dyn Fn(&Problem, usize) -> bool,
    need: &dyn Fn(&Problem) -> Option<usize>,
) -> (Problem, usize) {
    let over = need(p).map(|n| room as isize - n as isize);
    let mut r = Reducer { p: p.clone(), room, differs, need, over, until: Instant::now() + time, gained: true };
    while std::mem::replace(&mut r.gained, false) {
        r.round();
    }
    (r.p, r.room)
}
