//! The clauses: each way that a number of document 01 can come about, with the damage that brings it about in an accepted problem.
//! Damage is done to the plan, before it is laid out, or to the laid out problem, or to both.
use super::lay::Laid;
use super::plan::{At, COMPARISONS, CONNECTIVES, EXTENSIONS, Func, Grower, LAST, OPERATORS, ROTATIONS, UNARY, Var, is_leaf};
use crate::problem::{Problem, Rng, is_bool, kind, operand_count};
use crate::words::{RUST, SMTLIB_27};

/// Answers a term that the second half is to look at; None if the damage does not fit this plan.
type Before = Box<dyn Fn(&mut Grower) -> Option<usize>>;
/// Answers false if the damage does not fit.
type After = Box<dyn Fn(&mut Laid, usize, &mut Rng) -> bool>;

pub struct Clause {
    pub number: u32,
    pub label: String,
    pub before: Before,
    pub after: After,
}

pub struct Clauses(pub Vec<Clause>);

impl Clauses {
    /// Any clause, by number first: seldom 0, 8 or 9, which decide before the others are looked at or do nothing.
    pub fn any(&self, rng: &mut Rng) -> usize {
        let number = if rng.one_in(5) { rng.pick(&[0, 8, 9]) } else { rng.pick(&[1, 2, 3, 4, 5, 6, 7, 12]) };
        loop {
            let c = rng.below(self.0.len() as u64) as usize;
            if self.0[c].number == number {
                return c;
            }
        }
    }
    fn both(
        &mut self,
        number: u32,
        label: &str,
        before: impl Fn(&mut Grower) -> Option<usize> + 'static,
        after: impl Fn(&mut Laid, usize, &mut Rng) -> bool + 'static,
    ) {
        self.0.push(Clause { number, label: label.to_string(), before: Box::new(before), after: Box::new(after) });
    }
    fn plan(&mut self, number: u32, label: &str, f: impl Fn(&mut Grower) -> Option<usize> + 'static) {
        self.both(number, label, f, |_, _, _| true);
    }
    fn laid(&mut self, number: u32, label: &str, f: impl Fn(&mut Problem, &mut Rng) -> bool + 'static) {
        self.both(number, label, |_| Some(0), move |l, _, rng| f(&mut l.p, rng));
    }
    /// At a node of these kinds.
    fn node(
        &mut self,
        number: u32,
        label: &str,
        kinds: &'static [u8],
        f: impl Fn(&mut Problem, usize, &mut Rng) -> bool + 'static,
    ) {
        self.both(
            number,
            label,
            |g| Some(g.some(kinds)),
            move |l, t, rng| match l.node(t) {
                Some(i) => f(&mut l.p, i, rng),
                None => false,
            },
        );
    }
}

/// All of them.
pub fn all() -> Clauses {
    let mut c = Clauses(vec![]);
    widths(&mut c);
    columns(&mut c);
    array_widths(&mut c);
    walked_numbers(&mut c);
    names(&mut c);
    sorts(&mut c);
    variables(&mut c);
    rotations(&mut c);
    sharing(&mut c);
    signatures(&mut c);
    encoding(&mut c);
    limits(&mut c);
    accepted(&mut c);
    c
}

// ---------------------------------------------------------------- 1

/// A number that is no lower node than i.
fn late(p: &Problem, i: usize, rng: &mut Rng) -> u32 {
    let (i, n) = (i as u32, p.count() as u32);
    let some = i + rng.below((n - i) as u64) as u32;
    rng.pick(&[i, i + 1, n - 1, n, n + 1, LAST, some])
}

fn widths(c: &mut Clauses) {
    c.node(1, "width pass: a variable of width 0", &[kind::VAR], |p, i, _| {
        p.set_operand(i, 0, 0);
        true
    });
    c.node(1, "width pass: a constant of width 0", &[kind::CONST], |p, i, _| {
        p.set_operand(i, 1, 0);
        true
    });
    c.node(1, "width pass: a constant that starts past the bits", &[kind::CONST], |p, i, rng| {
        let n = p.bits.len() as u32;
        p.set_operand(i, 0, rng.pick(&[n, n + 1, n + 7, LAST]));
        true
    });
    c.node(1, "width pass: a constant that ends past the bits", &[kind::CONST], |p, i, rng| {
        let over = (p.bits.len() as u32).saturating_sub(p.operand(i, 0)) + 1;
        p.set_operand(i, 1, rng.pick(&[over, over + 1, over + 30, LAST]));
        true
    });
    const LOWER: [(&str, &[u8], usize); 18] = [
        ("an operator's first operand", &OPERATORS, 0),
        ("an operator's second operand", &OPERATORS, 1),
        ("a rotation's operand", &ROTATIONS, 0),
        ("a rotation's amount", &ROTATIONS, 1),
        ("a comparison's first operand", &COMPARISONS, 0),
        ("a comparison's second operand", &COMPARISONS, 1),
        ("an extract's operand", &[kind::EXTRACT], 2),
        ("a concat's first operand", &[kind::CONCAT], 0),
        ("a concat's second operand", &[kind::CONCAT], 1),
        ("an extension's operand", &EXTENSIONS, 0),
        ("an ite's condition", &[kind::ITE], 0),
        ("an ite's first arm", &[kind::ITE], 1),
        ("an ite's second arm", &[kind::ITE], 2),
        ("a not's operand", &[kind::NOT], 0),
        ("a connective's first operand", &CONNECTIVES, 0),
        ("a connective's second operand", &CONNECTIVES, 1),
        ("a bvnot's or bvneg's operand", &UNARY, 0),
        ("a select's index", &[kind::SELECT], 1),
    ];
    for (what, kinds, j) in LOWER {
        c.node(1, &format!("width pass: {what} no lower node"), kinds, move |p, i, rng| {
            let x = late(p, i, rng);
            p.set_operand(i, j, x);
            true
        });
    }
    // an operand of another width: a leaf, so that nothing else changes
    const OTHER: [(&str, &[u8], &[usize]); 9] = [
        ("an operator's operands of two widths", &OPERATORS, &[0, 1]),
        ("a rotation's operand and amount of two widths", &ROTATIONS, &[0, 1]),
        ("a comparison's operands of two widths", &COMPARISONS, &[0, 1]),
        ("an ite's condition of another width than 1", &[kind::ITE], &[0]),
        ("an ite's arms of two widths", &[kind::ITE], &[1, 2]),
        ("a not's operand of another width than 1", &[kind::NOT], &[0]),
        ("a connective's first operand of another width than 1", &CONNECTIVES, &[0]),
        ("a connective's second operand of another width than 1", &CONNECTIVES, &[1]),
        ("a select's index of another width than its array's", &[kind::SELECT], &[0]),
    ];
    for (what, kinds, places) in OTHER {
        c.plan(1, &format!("width pass: {what}"), move |g| {
            let t = g.some(kinds);
            let j = g.rng.pick(places);
            other_kid(g, t, j);
            Some(t)
        });
    }
    c.plan(1, "width pass: a store's index of another width than the array's", |g| {
        let (t, j) = a_store(g);
        other_kid(g, t, 1 + 2 * j);
        Some(t)
    });
    c.plan(1, "width pass: a store's value of another width than the array's", |g| {
        let (t, j) = a_store(g);
        other_kid(g, t, 2 + 2 * j);
        Some(t)
    });
    c.node(1, "width pass: an extract's low index above the high one", &[kind::EXTRACT], |p, i, rng| {
        let hi = p.operand(i, 0);
        p.set_operand(i, 1, rng.pick(&[hi.saturating_add(1), hi.saturating_add(2), LAST]));
        true
    });
    c.both(
        1,
        "width pass: an extract's high index at or past the width",
        |g| {
            let t = g.some(&[kind::EXTRACT]);
            let w = g.plan.terms[g.plan.terms[t].kids[0]].width.min(LAST as u64) as u32;
            let hi = g.rng.pick(&[w, w.saturating_add(1), w.saturating_add(50), LAST]);
            g.plan.terms[t].nums[0] = hi;
            (g.plan.terms[g.plan.terms[t].kids[0]].width <= hi as u64).then_some(t)
        },
        |_, _, _| true,
    );
    c.plan(1, "width pass: a concat's width past 64 bits", |g| {
        let t = g.some(&[kind::CONCAT]);
        let a = wide(g, 64);
        let b = if g.rng.one_in(2) { a } else { wide(g, 64) };
        if g.plan.terms[a].width.checked_add(g.plan.terms[b].width).is_some() {
            return None;
        }
        g.plan.terms[t].kids = vec![a, b];
        Some(t)
    });
    c.plan(1, "width pass: an extension's width past 64 bits", |g| {
        let t = g.some(&EXTENSIONS);
        let less = g.rng.below(1000) as u32;
        g.plan.terms[t].kids = vec![widest(g, less)];
        g.plan.terms[t].nums[0] = less + 1 + g.rng.pick(&[0, 1, 5, LAST / 2]);
        Some(t)
    });
    c.plan(1, "width pass: a call of width 0", |g| {
        let t = g.some(&[kind::CALL]);
        g.plan.terms[t].nums[1] = 0;
        Some(t)
    });
    c.both(
        1,
        "width pass: a store's index no lower node",
        |g| Some(a_store(g).0),
        |l, t, rng| late_entry(l, t, rng, |n, rng| 2 * rng.below(n)),
    );
    c.both(
        1,
        "width pass: a store's value no lower node",
        |g| Some(a_store(g).0),
        |l, t, rng| late_entry(l, t, rng, |n, rng| 2 * rng.below(n) + 1),
    );
    c.both(
        1,
        "width pass: an argument no lower node",
        |g| Some(an_argument(g)),
        |l, t, rng| late_entry(l, t, rng, |n, rng| rng.below(n)),
    );
    c.both(1, "width pass: stores past the side table", |g| Some(a_store(g).0), |l, t, rng| past_side(l, t, rng, 2));
    c.both(1, "width pass: arguments past the side table", |g| Some(an_argument(g)), |l, t, rng| past_side(l, t, rng, 1));
}

/// A leaf of another width in place of an operand.
fn other_kid(g: &mut Grower, t: usize, j: usize) {
    let w = g.plan.terms[g.plan.terms[t].kids[j]].width;
    let x = g.other_width(w);
    let kid = if g.rng.one_in(2) && x <= 300 { g.constant(x) } else { g.bare(x as u32) };
    g.plan.terms[t].kids[j] = kid;
}

/// A term of at least 2^bits / 2 bits, by doublings.
fn wide(g: &mut Grower, bits: u32) -> usize {
    let w = g.rng.from_to(1 << 31, LAST as u64);
    let mut a = g.bare(w as u32);
    for _ in 32..bits {
        let width = 2 * g.plan.terms[a].width;
        a = g.add(kind::CONCAT, [0, 0], &[a, a], width);
    }
    a
}

/// A term of 2^64 - 1 bits, or so many less: 2^64 - 2^32 by doublings, then the rest.
fn widest(g: &mut Grower, less: u32) -> usize {
    let mut a = g.bare(LAST);
    for _ in 0..32 {
        let width = 2 * g.plan.terms[a].width;
        a = g.add(kind::CONCAT, [0, 0], &[a, a], width);
    }
    let k = g.rng.pick(&EXTENSIONS);
    g.add(k, [LAST - less, 0], &[a], u64::MAX - less as u64)
}

/// A select with stores, and one of the stores.
fn a_store(g: &mut Grower) -> (usize, usize) {
    let all: Vec<usize> =
        (0..g.plan.terms.len()).filter(|t| g.plan.terms[*t].kind == kind::SELECT && g.plan.terms[*t].kids.len() > 1).collect();
    let t = if all.is_empty() {
        let t = g.plant(false, |g, _| {
            let n = 1 + g.rng.below(4);
            let array = g.array(8);
            let index = g.plan.arrays[array as usize].index;
            let kids: Vec<usize> =
                (0..2 * n + 1).map(|j| g.vector(if j == 0 || j % 2 == 1 { index } else { 8 }, j % 3)).collect();
            g.add(kind::SELECT, [array, 0], &kids, 8)
        });
        t
    } else {
        g.rng.pick(&all)
    };
    let n = g.plan.terms[t].kids.len() as u64 / 2;
    (t, g.rng.below(n) as usize)
}

/// A call with arguments.
fn an_argument(g: &mut Grower) -> usize {
    let all: Vec<usize> =
        (0..g.plan.terms.len()).filter(|t| g.plan.terms[*t].kind == kind::CALL && !g.plan.terms[*t].kids.is_empty()).collect();
    if !all.is_empty() {
        return g.rng.pick(&all);
    }
    g.plant(false, |g, w| {
        let args = (0..1 + g.rng.below(4)).map(|_| g.width()).collect();
        let f = g.new_func(w, args);
        g.call(f, 3)
    })
}

fn late_entry(l: &mut Laid, t: usize, rng: &mut Rng, which: impl Fn(u64, &mut Rng) -> u64) -> bool {
    let Some(i) = l.node(t) else { return false };
    let n = l.p.operand(i, 3) as u64;
    if n == 0 {
        return false;
    }
    let at = l.p.operand(i, 2) as usize + which(n, rng) as usize;
    if at >= l.p.side.len() {
        return false;
    }
    let x = late(&l.p, i, rng) as u64;
    l.p.side[at] = rng.pick(&[x, x, l.p.side[at] + (1 << 32), l.p.side[at] | 1 << 63, u64::MAX]);
    true
}

fn past_side(l: &mut Laid, t: usize, rng: &mut Rng, each: u32) -> bool {
    let Some(i) = l.node(t) else { return false };
    let (m, s, n) = (l.p.side.len() as u32, l.p.operand(i, 2), l.p.operand(i, 3));
    if n == 0 || s > m {
        return false;
    }
    match rng.below(3) {
        // one more than there are, or many
        0 => {
            let over = (m - s) / each + 1;
            l.p.set_operand(i, 3, rng.pick(&[over, over + 1, LAST / 2, LAST]));
        }
        1 => {
            let first = m - (each * n).min(m) + 1;
            l.p.set_operand(i, 2, rng.pick(&[first, m, m + 1, LAST]));
        }
        // the table ends before
        _ => l.p.side.truncate((s + each * n - 1) as usize),
    }
    true
}

fn column(p: &mut Problem, c: usize) -> &mut Vec<u64> {
    match c {
        0 => &mut p.name_start,
        1 => &mut p.name_len,
        2 => &mut p.var_node,
        3 => &mut p.var_width,
        4 => &mut p.aname_start,
        5 => &mut p.aname_len,
        6 => &mut p.index_width,
        7 => &mut p.value_width,
        8 => &mut p.fname_start,
        9 => &mut p.fname_len,
        _ => &mut p.func_width,
    }
}

fn arena(p: &mut Problem, table: usize) -> &mut Vec<u8> {
    match table {
        0 => &mut p.names,
        1 => &mut p.anames,
        _ => &mut p.fnames,
    }
}

const COLUMNS: [&str; 11] = [
    "name_start",
    "name_len",
    "var_node",
    "var_width",
    "aname_start",
    "aname_len",
    "index_width",
    "value_width",
    "fname_start",
    "fname_len",
    "func_width",
];

fn columns(c: &mut Clauses) {
    for (j, name) in COLUMNS.into_iter().enumerate() {
        c.laid(1, &format!("columns: {name} of another length"), move |p, rng| {
            let col = column(p, j);
            let n = col.len() as u64;
            match rng.below(3) {
                0 if n > 0 => col.truncate(rng.below(n) as usize),
                1 if n > 0 => {
                    col.remove(rng.below(n) as usize);
                }
                _ => {
                    for _ in 0..rng.from_to(1, 3) {
                        col.push(rng.pick(&[0, 1, 8, u64::MAX]));
                    }
                }
            }
            true
        });
    }
}

// ---------------------------------------------------------------- 12

/// A width that no array may have.
fn no_width(rng: &mut Rng) -> u64 {
    rng.pick(&[0, 0, 65_537, 65_537, 65_600, 1 << 32, (1 << 32) + 8, 1 << 63, u64::MAX])
}

fn array_widths(c: &mut Clauses) {
    // 6 and 7 are the two columns
    for (j, what) in [(6, "an index"), (7, "a value")] {
        c.node(12, &format!("{what} of an array that is selected from"), &[kind::SELECT], move |p, i, rng| {
            let a = p.operand(i, 0) as usize;
            let widths = column(p, j);
            if a < widths.len() {
                widths[a] = no_width(rng);
                return true;
            }
            false
        });
        c.laid(12, &format!("{what} of an array that nothing needs"), move |p, rng| {
            if p.aname_start.len() >= 512 {
                return false;
            }
            // a name that is refused is told after 12
            p.array_entry(b"@");
            *column(p, j).last_mut().unwrap() = no_width(rng);
            true
        });
    }
}

fn walked_numbers(c: &mut Clauses) {
    c.laid(1, "walk: a root past the nodes", |p, rng| {
        let n = p.count() as u64;
        let low = rng.below(n + 1);
        let x = rng.pick(&[n, n, n + 1, n + 300, low + (1 << 32), low + (1 << 63), u64::MAX]);
        let at = rng.below(p.roots.len() as u64 + 1) as usize;
        p.roots.insert(at, x);
        true
    });
    c.plan(1, "walk: an array number past its table", |g| {
        let n = g.plan.arrays.len() as u32;
        let x = g.rng.pick(&[n, n, n + 1, n + 200, LAST]);
        // past the table the index has 32 bits and the value 8
        let t = g.plant(false, |g, _| {
            let b = g.rng.below(6);
            let index = g.vector(32, b);
            let array = g.array_of(32, 8);
            g.add(kind::SELECT, [array, 0], &[index], 8)
        });
        // planting may have added an array
        g.plan.terms[t].nums[0] = x.max(g.plan.arrays.len() as u32);
        Some(t)
    });
    c.plan(1, "walk: a function number past its table", |g| {
        let n = g.plan.funcs.len() as u32;
        let x = g.rng.pick(&[n, n, n + 1, n + 200, LAST]);
        Some(g.plant(false, |g, w| {
            let kids: Vec<usize> = (0..g.rng.below(4))
                .map(|_| {
                    let w = g.width();
                    g.leaf(w)
                })
                .collect();
            g.add(kind::CALL, [x, w as u32], &kids, w)
        }))
    });
}

// ---------------------------------------------------------------- 2

const TABLES: [&str; 3] = ["a variable's", "an array's", "a function's"];

/// An entry of the table; a new one where there is none, and at times.
fn an_entry(g: &mut Grower, table: usize) -> usize {
    let n = [g.plan.vars.len(), g.plan.arrays.len(), g.plan.funcs.len()][table];
    if n > 0 && !g.rng.one_in(6) {
        return g.rng.below(n as u64) as usize;
    }
    match table {
        0 => {
            let w = g.width() as u32;
            if g.rng.one_in(2) {
                g.var(w);
            } else {
                let name = g.name(0);
                g.plan.vars.push(Var { name, at: At::Raw(u64::MAX), width: 1 });
            }
        }
        1 => g.new_array(),
        _ => {
            let w = g.width();
            let args = (0..g.rng.below(3)).map(|_| g.width()).collect();
            let f = g.new_func(w, args);
            g.call(f, 2);
        }
    }
    n
}

/// The name of one entry and a new name that differs from it in one byte, which is from 128 on in both, at the first, a middle or the last
/// place: they go to the two entries. False if there is no such name.
fn alike(g: &mut Grower, (t, i): (usize, usize), (u, j): (usize, usize), place: usize) -> bool {
    let mut s = name_of(g, t, i).clone();
    while s.len() < 3 {
        s.push(g.rng.from_to(97, 122) as u8);
    }
    let at = [0, g.rng.from_to(1, s.len() as u64 - 2) as usize, s.len() - 1][place];
    s[at] = g.rng.from_to(128, 254) as u8;
    let mut r = s.clone();
    r[at] = g.rng.from_to(s[at] as u64 + 1, 255) as u8;
    if !g.claim(t, &s) || !g.claim(u, &r) {
        return false;
    }
    *name_of(g, t, i) = s;
    *name_of(g, u, j) = r;
    true
}

const PLACES: [&str; 3] = ["the first", "a middle", "the last"];

fn name_of<'a>(g: &'a mut Grower, table: usize, i: usize) -> &'a mut Vec<u8> {
    match table {
        0 => &mut g.plan.vars[i].name,
        1 => &mut g.plan.arrays[i].name,
        _ => &mut g.plan.funcs[i].name,
    }
}

fn names(c: &mut Clauses) {
    for t in 0..3 {
        let whose = TABLES[t];
        let mut name = |label: &str, change: fn(&mut Vec<u8>, &mut Rng)| {
            c.plan(2, &format!("name, {whose}: {label}"), move |g| {
                let i = an_entry(g, t);
                let mut s = name_of(g, t, i).clone();
                change(&mut s, g.rng);
                *name_of(g, t, i) = s;
                Some(i)
            });
        };
        fn with(s: &mut Vec<u8>, rng: &mut Rng, b: u8) {
            if s.is_empty() {
                s.push(b'a');
            }
            let at = rng.below(s.len() as u64) as usize;
            if rng.one_in(2) { s[at] = b } else { s.insert(at + rng.below(2) as usize, b) }
        }
        name("empty", |s, _| s.clear());
        name("a byte below 32", |s, rng| {
            let b = rng.below(32) as u8;
            with(s, rng, b);
        });
        name("byte 127", |s, rng| with(s, rng, 127));
        name("a bar", |s, rng| with(s, rng, b'|'));
        name("a backslash", |s, rng| with(s, rng, b'\\'));
        name("begins with @", |s, rng| {
            if s.is_empty() || rng.one_in(2) {
                s.insert(0, b'@');
            } else {
                s[0] = b'@';
            }
        });
        name("begins with a full stop", |s, rng| {
            if s.is_empty() || rng.one_in(2) {
                s.insert(0, b'.');
            } else {
                s[0] = b'.';
            }
        });
        name("reserved", |s, rng| *s = rng.pick(RUST).as_bytes().to_vec());
        name("reserved by SMT-LIB 2.7", |s, rng| *s = rng.pick(SMTLIB_27).as_bytes().to_vec());
        c.both(
            2,
            &format!("name, {whose}: outside its arena"),
            move |g| Some(an_entry(g, t)),
            move |l, i, rng| {
                let n = arena(&mut l.p, t).len() as u64;
                let first = [0, 4, 8][t];
                let (Some(s), Some(len)) = (column(&mut l.p, first).get(i).copied(), column(&mut l.p, first + 1).get(i).copied())
                else {
                    return false;
                };
                let (s, len) = match rng.below(5) {
                    // past the end by one or more, by far, or by a sum of 2^64
                    0 => (s, rng.pick(&[n - s.min(n) + 1, n - s.min(n) + 2, n + 1])),
                    1 => (rng.pick(&[n, n - len.min(n) + 1, n + 1]), len),
                    2 => (rng.pick(&[1 << 32, 1 << 63, u64::MAX, s + (1 << 32)]), len),
                    3 => (s, rng.pick(&[1 << 32, 1 << 63, u64::MAX, u64::MAX - s, len + (1 << 32)])),
                    _ => (rng.pick(&[1 << 63, u64::MAX]), rng.pick(&[1 << 63, u64::MAX, 1, 2])),
                };
                column(&mut l.p, first)[i] = s;
                column(&mut l.p, first + 1)[i] = len;
                true
            },
        );
        c.plan(2, &format!("name, {whose}: twice in the table, with a byte from 128 on"), move |g| {
            let (i, j) = (an_entry(g, t), an_entry(g, t));
            let place = g.rng.below(3) as usize;
            if i == j || !alike(g, (t, i), (t, j), place) {
                return None;
            }
            let s = name_of(g, t, i).clone();
            *name_of(g, t, j) = s;
            Some(i)
        });
        c.plan(2, &format!("name, {whose}: twice in the table"), move |g| {
            let i = an_entry(g, t);
            let mut j = an_entry(g, t);
            for _ in 0..8 {
                if i == j {
                    j = an_entry(g, t);
                }
            }
            let s = name_of(g, t, i).clone();
            *name_of(g, t, j) = s;
            (i != j).then_some(i)
        });
    }
    for (t, u, label) in
        [(0, 1, "a variable's and an array's"), (0, 2, "a variable's and a function's"), (1, 2, "an array's and a function's")]
    {
        c.plan(2, &format!("name: {label}, with a byte from 128 on"), move |g| {
            let (i, j) = (an_entry(g, t), an_entry(g, u));
            let place = g.rng.below(3) as usize;
            if !alike(g, (t, i), (u, j), place) {
                return None;
            }
            let s = name_of(g, t, i).clone();
            *name_of(g, u, j) = s;
            Some(i)
        });
        c.plan(0, &format!("names, {label}, that differ in one byte from 128 on"), move |g| {
            let (i, j) = (an_entry(g, t), an_entry(g, u));
            let place = g.rng.below(3) as usize;
            alike(g, (t, i), (u, j), place).then_some(i)
        });
        c.plan(2, &format!("name: {label}"), move |g| {
            let (i, j) = (an_entry(g, t), an_entry(g, u));
            if g.rng.one_in(2) {
                let s = name_of(g, t, i).clone();
                *name_of(g, u, j) = s;
            } else {
                let s = name_of(g, u, j).clone();
                *name_of(g, t, i) = s;
            }
            Some(i)
        });
    }
}

// ---------------------------------------------------------------- 3

/// A bit-vector of width 1 where a Bool is needed, or a Bool where a bit-vector is: at a place below one of the kinds, or below a new
/// term of the kind.
fn wrong_sort(g: &mut Grower, kinds: &'static [u8], at: fn(usize) -> bool) -> Option<usize> {
    let slots = g.plan.slots(|k, s| k.is_some_and(|k| kinds.contains(&k)) && at(s.at) && s.width == 1);
    let b = g.rng.below(6);
    if !slots.is_empty() && !g.rng.one_in(3) {
        let s = g.rng.pick(&slots);
        let t = if s.boolean { g.vector(1, b) } else { g.formula(b) };
        g.plan.put(s, t);
        return Some(t);
    }
    let k = g.rng.pick(kinds);
    Some(g.plant(is_bool(k), |g, w| {
        let t = match k {
            kind::CALL => {
                let args: Vec<u64> = (0..1 + g.rng.below(4)).map(|_| g.rng.pick(&[1, 1, 8])).chain([1]).collect();
                let f = g.new_func(w, args);
                g.call(f, b)
            }
            kind::SELECT => {
                let array = g.array_of(1, 1);
                let n = 1 + g.rng.below(3);
                let kids: Vec<usize> = (0..2 * n + 1).map(|_| g.vector(1, b / 4)).collect();
                g.add(k, [array, 0], &kids, 1)
            }
            kind::EXTRACT => {
                let v = g.leaf(1);
                g.add(k, [0, 0], &[v], 1)
            }
            kind::CONCAT => {
                let (x, y) = (g.leaf(1), g.leaf(1));
                g.add(k, [0, 0], &[x, y], 2)
            }
            kind::ZERO_EXT | kind::SIGN_EXT => {
                let v = g.leaf(1);
                let by = g.rng.below(9);
                g.add(k, [by as u32, 0], &[v], 1 + by)
            }
            k if COMPARISONS.contains(&k) => {
                let (x, y) = (g.vector(1, b), g.leaf(1));
                g.add(k, [0, 0], &[x, y], 1)
            }
            _ => g.of_kind(k, 1, b),
        };
        let places: Vec<usize> = (0..g.plan.terms[t].kids.len())
            .filter(|j| at(*j) && g.plan.terms[g.plan.terms[t].kids[*j]].width == 1 && !(ROTATIONS.contains(&k) && *j == 1))
            .collect();
        if places.is_empty() {
            return t;
        }
        let j = g.rng.pick(&places);
        let wants_bool = super::plan::needs_bool(k, j);
        let x = if wants_bool { g.vector(1, b) } else { g.formula(b) };
        g.plan.terms[t].kids[j] = x;
        t
    }))
}

fn sorts(c: &mut Clauses) {
    c.plan(3, "a leaf as a root", |g| {
        let w = g.width();
        let t = g.leaf(w);
        at_root(g, t)
    });
    c.plan(3, "another bit-vector as a root", |g| {
        let w = g.width();
        let b = g.rng.from_to(2, 8);
        let t = g.vector(w, b);
        at_root(g, t)
    });
    const PLACES: [(&str, &[u8], fn(usize) -> bool); 15] = [
        ("a bit-vector below not", &[kind::NOT], |_| true),
        ("a bit-vector below and or or", &CONNECTIVES, |_| true),
        ("a bit-vector as an ite's condition", &[kind::ITE], |j| j == 0),
        ("a Bool below an operator of two operands", &OPERATORS, |_| true),
        ("a Bool compared", &COMPARISONS, |_| true),
        ("a Bool rotated", &ROTATIONS, |_| true),
        ("a Bool below extract", &[kind::EXTRACT], |_| true),
        ("a Bool below concat", &[kind::CONCAT], |_| true),
        ("a Bool extended", &EXTENSIONS, |_| true),
        ("a Bool as an ite's arm", &[kind::ITE], |j| j > 0),
        ("a Bool below bvnot or bvneg", &UNARY, |_| true),
        ("a Bool as an argument", &[kind::CALL], |_| true),
        ("a Bool as a select's index", &[kind::SELECT], |j| j == 0),
        ("a Bool as a store's index", &[kind::SELECT], |j| j % 2 == 1),
        ("a Bool as a store's value", &[kind::SELECT], |j| j > 0 && j % 2 == 0),
    ];
    for (label, kinds, at) in PLACES {
        c.plan(3, label, move |g| wrong_sort(g, kinds, at));
    }
}

fn at_root(g: &mut Grower, t: usize) -> Option<usize> {
    if !is_leaf(g.plan.terms[t].kind) && g.plan.uses()[t] > 0 {
        return None;
    }
    let n = g.plan.roots.len() as u64;
    if n > 0 && g.rng.one_in(2) {
        let i = g.rng.below(n) as usize;
        g.plan.roots[i] = At::Term(t);
    } else {
        let i = g.rng.below(n + 1) as usize;
        g.plan.roots.insert(i, At::Term(t));
    }
    Some(t)
}

// ---------------------------------------------------------------- 4

/// The first entry of a reached variable, which is planted where there is none.
fn reached_entry(g: &mut Grower) -> usize {
    for _ in 0..2 {
        let reached = g.plan.reached();
        let firsts: Vec<usize> = (0..g.plan.vars.len())
            .filter(|i| {
                let at = g.plan.vars[*i].at;
                matches!(at, At::Term(t) if reached.contains(&t)) && !g.plan.vars[..*i].iter().any(|v| v.at == at)
            })
            .collect();
        if !firsts.is_empty() {
            return g.rng.pick(&firsts);
        }
        g.plant(false, |g, w| g.var(w as u32));
    }
    unreachable!("a variable was planted")
}

fn variables(c: &mut Clauses) {
    c.plan(4, "a declared variable of width 0", |g| {
        let i = an_entry(g, 0);
        g.plan.vars[i].width = 0;
        Some(i)
    });
    c.plan(4, "a reached variable without an entry", |g| {
        if g.rng.one_in(3) {
            return Some(g.plant(false, |g, w| g.bare(w as u32)));
        }
        let i = reached_entry(g);
        let at = g.plan.vars[i].at;
        g.plan.vars.retain(|v| v.at != at);
        Some(0)
    });
    c.both(
        4,
        "a reached variable whose entry has its node in the low 32 bits alone",
        |g| {
            let i = reached_entry(g);
            let at = g.plan.vars[i].at;
            let alone = g.plan.vars.iter().filter(|v| v.at == at).count() == 1;
            alone.then_some(i)
        },
        |l, i, rng| match l.p.var_node.get_mut(i) {
            Some(x) => {
                *x |= rng.pick(&[1 << 32, 1 << 63, 0xFFFF_FFFF << 32]);
                true
            }
            None => false,
        },
    );
    c.plan(4, "a reached variable of another width", |g| {
        let i = reached_entry(g);
        let w = g.plan.vars[i].width;
        let other = g.other_width(w);
        g.plan.vars[i].width = g.rng.pick(&[other, other, other, w + (1 << 32), u64::MAX, w | 1 << 63]);
        Some(i)
    });
    c.plan(4, "a reached variable whose first of two entries has another width", |g| {
        let i = reached_entry(g);
        let (at, w) = (g.plan.vars[i].at, g.plan.vars[i].width);
        let name = g.name(0);
        let width = g.other_width(w);
        let before = g.rng.below(i as u64 + 1) as usize;
        g.plan.vars.insert(before, Var { name, at, width });
        Some(i)
    });
}

// ---------------------------------------------------------------- 5

/// What stands as the amount of a reached rotation, which is planted where there is none.
fn amount(g: &mut Grower, fits: fn(u64) -> bool, make: impl Fn(&mut Grower, u64) -> usize) -> Option<usize> {
    let t = match g.reached_of(&ROTATIONS, |p, t| fits(p.terms[t].width)) {
        Some(t) if !g.rng.one_in(4) => t,
        _ => g.plant(false, |g, w| {
            let w = if fits(w) && w <= 300 {
                w
            } else if fits(8) {
                8
            } else {
                1
            };
            let k = g.rng.pick(&ROTATIONS);
            let b = g.rng.below(5);
            g.of_kind(k, w, b)
        }),
    };
    let w = g.plan.terms[t].width;
    let by = make(g, w);
    g.plan.terms[t].kids[1] = by;
    Some(t)
}

fn rotations(c: &mut Clauses) {
    c.plan(5, "the amount a variable", |g| {
        amount(g, |_| true, |g, w| if g.rng.one_in(3) { g.bare(w as u32) } else { g.var(w as u32) })
    });
    c.plan(5, "the amount an operator over constants", |g| {
        amount(
            g,
            |_| true,
            |g, w| {
                let a = g.constant(w);
                let b = g.constant(w);
                match g.rng.below(3) {
                    0 => g.add(kind::BV_NOT, [0, 0], &[a], w),
                    1 => g.add(kind::ZERO_EXT, [0, 0], &[a], w),
                    _ => {
                        let k = g.rng.pick(&OPERATORS);
                        g.add(k, [0, 0], &[a, b], w)
                    }
                }
            },
        )
    });
    c.plan(5, "the amount a call", |g| {
        amount(
            g,
            |_| true,
            |g, w| {
                let args = (0..g.rng.below(3)).map(|_| g.width()).collect();
                let f = g.new_func(w, args);
                g.call(f, 0)
            },
        )
    });
    c.plan(5, "the amount a select", |g| amount(g, |w| w == 8, |g, _| g.of_kind(kind::SELECT, 8, 0)));
    c.plan(5, "the amount a Bool", |g| {
        amount(
            g,
            |w| w == 1,
            |g, _| {
                let b = g.rng.below(4);
                g.formula(b)
            },
        )
    });
    c.plan(5, "wider than 65,536", |g| {
        let w = g.rng.pick(&[65_537, 65_537, 65_538, 66_000, 131_000]);
        rotation_of(g, w)
    });
}

/// Plants a rotation of this many bits, if there are so many left.
fn rotation_of(g: &mut Grower, w: u64) -> Option<usize> {
    if g.plan.bits() as u64 + w > 130_000 + w / 131 {
        return None;
    }
    Some(g.plant(false, |g, _| {
        let k = g.rng.pick(&ROTATIONS);
        let b = g.rng.below(4);
        let v = g.vector(w, b);
        let by = g.constant(w);
        g.add(k, [0, 0], &[v, by], w)
    }))
}

// ---------------------------------------------------------------- 6

/// A term that is no leaf, of the width if one is named, with one use at least.
fn to_share(g: &mut Grower, w: Option<u64>) -> usize {
    let uses = g.plan.uses();
    let all: Vec<usize> = (0..g.plan.terms.len())
        .filter(|t| {
            let term = &g.plan.terms[*t];
            !is_leaf(term.kind) && uses[*t] > 0 && term.width <= LAST as u64 && w.is_none_or(|w| w == term.width)
        })
        .collect();
    if !all.is_empty() {
        return g.rng.pick(&all);
    }
    g.plant(false, |g, slot| {
        let w = w.unwrap_or(slot);
        let v = g.leaf(w);
        let t = g.add(kind::NEG, [0, 0], &[v], w);
        // a use of its own, so that what fits it to its place is another
        g.add(kind::BV_NOT, [0, 0], &[t], w)
    });
    g.plan.terms.iter().rposition(|t| t.kind == kind::NEG).unwrap()
}

fn use_again(g: &mut Grower, x: usize) -> Option<usize> {
    let w = g.plan.terms[x].width;
    // in place of a leaf somewhere, as far as that makes no circle; else in a new node
    for _ in 0..4 {
        let t = g.rng.below(g.plan.terms.len() as u64) as usize;
        let k = g.plan.terms[t].kind;
        let places: Vec<usize> = (0..g.plan.terms[t].kids.len())
            .filter(|j| {
                let kid = &g.plan.terms[g.plan.terms[t].kids[*j]];
                is_leaf(kid.kind) && kid.width == w
            })
            .collect();
        if !places.is_empty() && k != kind::SELECT && k != kind::CALL && !g.plan.below(x, t) {
            let j = g.rng.pick(&places);
            g.plan.terms[t].kids[j] = x;
            return Some(t);
        }
    }
    Some(match g.rng.below(5) {
        0 => g.add(kind::BV_NOT, [0, 0], &[x], w),
        1 if w == 1 => g.add(kind::NOT, [0, 0], &[x], 1),
        2 => g.add(kind::EXTRACT, [0, 0], &[x], 1),
        3 if w <= LAST as u64 => {
            let v = g.leaf(w);
            let c = g.leaf(1);
            g.add(kind::ITE, [0, 0], &[c, v, x], w)
        }
        _ => g.add(kind::SIGN_EXT, [3, 0], &[x], w + 3),
    })
}

fn sharing(c: &mut Clauses) {
    c.plan(6, "an operand again", |g| {
        let x = to_share(g, None);
        use_again(g, x)
    });
    c.plan(6, "both operands of one node", |g| {
        let x = to_share(g, None);
        let w = g.plan.terms[x].width;
        let k = if w == 1 && g.rng.one_in(2) { g.rng.pick(&CONNECTIVES) } else { g.rng.pick(&OPERATORS) };
        let t = match g.reached_of(&OPERATORS, |p, t| !is_leaf(p.terms[p.terms[t].kids[0]].kind)) {
            Some(t) if g.rng.one_in(2) => {
                g.plan.terms[t].kids[1] = g.plan.terms[t].kids[0];
                t
            }
            _ => g.add(k, [0, 0], &[x, x], w),
        };
        Some(t)
    });
    c.plan(6, "a select's index", |g| {
        let x = to_share(g, Some(32));
        let array = g.array_of(32, 8);
        let array = g.rng.pick(&[array, LAST]);
        Some(g.add(kind::SELECT, [array, 0], &[x], 8))
    });
    for (place, w, label) in [(0, 32, "a store's index"), (1, 8, "a store's value")] {
        c.plan(6, label, move |g| {
            let x = to_share(g, Some(w));
            let n = 1 + g.rng.below(5) as usize;
            let mut kids = vec![g.leaf(32)];
            for _ in 0..n {
                kids.push(g.leaf(32));
                kids.push(g.leaf(8));
            }
            kids[1 + 2 * g.rng.below(n as u64) as usize + place] = x;
            let array = g.array_of(32, 8);
            let array = g.rng.pick(&[array, LAST]);
            Some(g.add(kind::SELECT, [array, 0], &kids, 8))
        });
    }
    c.plan(6, "an argument", |g| {
        let x = to_share(g, None);
        let n = 1 + g.rng.below(5) as usize;
        let mut kids = vec![];
        for _ in 0..n {
            let w = g.width();
            kids.push(g.leaf(w));
        }
        kids[g.rng.below(n as u64) as usize] = x;
        let w = g.rng.from_to(1, 99);
        Some(g.add(kind::CALL, [LAST, w as u32], &kids, w))
    });
    c.plan(6, "a root", |g| {
        let x = to_share(g, None);
        let at = g.rng.below(g.plan.roots.len() as u64 + 1) as usize;
        g.plan.roots.insert(at, At::Term(x));
        Some(x)
    });
    c.plan(6, "a root twice", |g| {
        if g.plan.roots.is_empty() {
            let r = g.formula(3);
            g.plan.roots.push(At::Term(r));
        }
        let n = g.plan.roots.len() as u64;
        let r = g.plan.roots[g.rng.below(n) as usize];
        g.plan.roots.insert(g.rng.below(n + 1) as usize, r);
        Some(0)
    });
    c.plan(6, "a rotation's amount", |g| {
        let x = to_share(g, None);
        let w = g.plan.terms[x].width;
        let all: Vec<usize> = (0..g.plan.terms.len())
            .filter(|t| ROTATIONS.contains(&g.plan.terms[*t].kind) && g.plan.terms[*t].width == w && !g.plan.below(x, *t))
            .collect();
        if !all.is_empty() && g.rng.one_in(2) {
            let t = g.rng.pick(&all);
            g.plan.terms[t].kids[1] = x;
            return Some(t);
        }
        let v = g.leaf(w);
        let k = g.rng.pick(&ROTATIONS);
        Some(g.add(k, [0, 0], &[v, x], w))
    });
    c.plan(6, "a concat of itself, up to 2^64 - 1 bits", |g| {
        let less = g.rng.pick(&[0, 0, 1, 77]);
        let t = widest(g, less);
        Some(match g.rng.below(3) {
            0 if less > 0 => {
                let v = g.leaf(1);
                g.add(kind::CONCAT, [0, 0], &[t, v], u64::MAX - less as u64 + 1)
            }
            1 => g.add(kind::SIGN_EXT, [less, 0], &[t], u64::MAX),
            _ => g.add(kind::EXTRACT, [LAST, LAST - 3], &[t], 4),
        })
    });
    c.plan(6, "a call without arguments", |g| {
        let w = g.width();
        let f = g.new_func(w, vec![]);
        let x = g.call(f, 0);
        if g.rng.one_in(2) {
            return Some(g.plant(true, |g, _| {
                let k = g.rng.pick(&COMPARISONS);
                g.add(k, [0, 0], &[x, x], 1)
            }));
        }
        g.add(kind::NEG, [0, 0], &[x], w);
        use_again(g, x)
    });
}

// ---------------------------------------------------------------- 7

/// A reached call of a declared function; planted where there is none.
fn reached_call(g: &mut Grower) -> usize {
    let n = g.plan.funcs.len() as u32;
    match g.reached_of(&[kind::CALL], |p, t| p.terms[t].nums[0] < n) {
        Some(t) => t,
        None => g.plant(false, |g, w| g.of_kind(kind::CALL, w, 3)),
    }
}

/// A second call of the reached call's function, its argument widths changed; reached or not. If the signature comes from it, the
/// other one is refused.
fn another_call(g: &mut Grower, change: impl Fn(&mut Grower, &mut Vec<u64>) -> bool) -> Option<usize> {
    let t = reached_call(g);
    let f = g.plan.terms[t].nums[0] as usize;
    let mut args = g.plan.funcs[f].args.clone();
    if !change(g, &mut args) {
        return None;
    }
    let w = g.plan.terms[t].width;
    let kids: Vec<usize> = args.iter().map(|w| g.leaf(*w)).collect();
    if g.rng.one_in(3) {
        return Some(g.add(kind::CALL, [f as u32, w as u32], &kids, w));
    }
    // planted beside the other: in place of it, the other would not be reached any more
    let new = g.add(kind::CALL, [f as u32, w as u32], &kids, w);
    let root = g.over(new);
    let at = g.rng.below(g.plan.roots.len() as u64 + 1) as usize;
    g.plan.roots.insert(at, At::Term(root));
    Some(new)
}

fn signatures(c: &mut Clauses) {
    c.plan(7, "a declared function of width 0", |g| {
        let i = an_entry(g, 2);
        g.plan.funcs[i].width = 0;
        Some(i)
    });
    c.plan(7, "a function that is never called", |g| {
        let n = g.plan.funcs.len() as u64;
        let i = g.rng.below(n + 1) as u32;
        for t in g.plan.terms.iter_mut().filter(|t| t.kind == kind::CALL && t.nums[0] >= i && (t.nums[0] as u64) < n) {
            t.nums[0] += 1;
        }
        let name = g.name(2);
        let width = g.rng.pick(&[1, 8, 64, u64::MAX]);
        g.plan.funcs.insert(i as usize, Func { name, width, args: vec![] });
        Some(0)
    });
    c.both(
        7,
        "a first call that starts past the side table",
        |g| {
            let all: Vec<usize> = (0..g.plan.funcs.len()).filter(|f| g.plan.funcs[*f].args.is_empty()).collect();
            if !all.is_empty() && !g.rng.one_in(4) {
                return Some(g.rng.pick(&all));
            }
            let w = g.width();
            let f = g.new_func(w, vec![]);
            if g.rng.one_in(2) {
                g.call(f, 0);
            } else {
                g.plant(false, |g, _| g.call(f, 0));
            }
            Some(f)
        },
        |l, f, rng| {
            let first = (0..l.p.count()).find(|i| l.p.kind_of(*i) == kind::CALL && l.p.operand(*i, 0) as usize == f);
            past_start(l, first, rng)
        },
    );
    c.plan(7, "a reached call of another width than declared", |g| {
        let t = reached_call(g);
        let f = g.plan.terms[t].nums[0] as usize;
        let w = g.plan.funcs[f].width;
        let other = g.other_width(w);
        g.plan.funcs[f].width = g.rng.pick(&[other, other, w + (1 << 32), w | 1 << 63, u64::MAX]);
        Some(t)
    });
    c.plan(7, "one of two reached calls of another width", |g| {
        let t = reached_call(g);
        let f = g.plan.terms[t].nums[0] as usize;
        Some(g.plant(false, |g, _| {
            let t = g.call(f, 0);
            let w = g.other_width(g.plan.terms[t].width);
            g.plan.terms[t].nums[1] = w as u32;
            g.plan.terms[t].width = w;
            t
        }))
    });
    c.plan(7, "a reached call with fewer or more arguments than the first", |g| {
        another_call(g, |g, args| {
            let n = args.len() as u64;
            if n == 0 || g.rng.one_in(2) {
                let w = g.width();
                args.insert(g.rng.below(n + 1) as usize, w);
            } else {
                args.remove(g.rng.below(n) as usize);
            }
            true
        })
    });
    c.plan(7, "a reached call with an argument of another width than the first's", |g| {
        let t = an_argument(g);
        if g.reached_of(&[kind::CALL], |p, x| x == t && (p.terms[t].nums[0] as usize) < p.funcs.len()).is_none() {
            return None;
        }
        let f = g.plan.terms[t].nums[0] as usize;
        let mut args = g.plan.funcs[f].args.clone();
        if args.is_empty() {
            return None;
        }
        let j = g.rng.below(args.len() as u64) as usize;
        args[j] = g.other_width(args[j]);
        let w = g.plan.funcs[f].width;
        let kids: Vec<usize> = args.iter().map(|w| g.leaf(*w)).collect();
        let new = g.add(kind::CALL, [f as u32, w as u32], &kids, w);
        if g.rng.one_in(2) {
            let root = g.over(new);
            let at = g.rng.below(g.plan.roots.len() as u64 + 1) as usize;
            g.plan.roots.insert(at, At::Term(root));
        }
        Some(new)
    });
    c.both(
        7,
        "a reached call without arguments that starts past the side table",
        |g| {
            let w = g.width();
            let f = g.new_func(w, vec![]);
            for _ in 0..g.rng.from_to(1, 3) {
                g.call(f, 0);
            }
            Some(g.plant(false, |g, _| g.call(f, 0)))
        },
        |l, t, rng| {
            // the first call would be refused as such
            let Some(i) = l.node(t) else { return false };
            let f = l.p.operand(i, 0);
            let earlier = (0..i).any(|j| l.p.kind_of(j) == kind::CALL && l.p.operand(j, 0) == f);
            earlier && past_start(l, Some(i), rng)
        },
    );
}

fn past_start(l: &mut Laid, node: Option<usize>, rng: &mut Rng) -> bool {
    let m = l.p.side.len() as u32;
    match node {
        Some(i) if l.p.operand(i, 3) == 0 => {
            l.p.set_operand(i, 2, rng.pick(&[m + 1, m + 1, m + 2, m + 100, LAST]));
            true
        }
        _ => false,
    }
}

// ---------------------------------------------------------------- 8

fn encoding(c: &mut Clauses) {
    c.laid(8, "node bytes that are no whole number of records", |p, rng| {
        let n = rng.from_to(1, 16) as usize;
        if rng.one_in(2) && p.nodes.len() >= 17 {
            p.nodes.truncate(p.nodes.len() - n);
        } else {
            for _ in 0..n {
                p.nodes.push(rng.pick(&[0, 0, 1, 255]));
            }
        }
        true
    });
    c.laid(8, "an unknown kind", |p, rng| {
        let any = rng.from_to(39, 255) as u8;
        let k = rng.pick(&[39, 40, 64, 128, 255, any]);
        if p.count() == 0 || rng.one_in(8) {
            p.node(k, &[]);
        } else {
            let i = rng.below(p.count() as u64) as usize;
            p.nodes[17 * i] = k;
            if rng.one_in(2) {
                (0..4).for_each(|j| p.set_operand(i, j, 0));
            }
        }
        true
    });
    c.laid(8, "an unused operand that is not 0", |p, rng| {
        let all: Vec<usize> = (0..p.count()).filter(|i| operand_count(p.kind_of(*i)) < 4).collect();
        if all.is_empty() {
            return false;
        }
        let i = rng.pick(&all);
        let j = rng.from_to(operand_count(p.kind_of(i)) as u64, 3) as usize;
        let x = 1 << rng.below(32);
        p.set_operand(i, j, rng.pick(&[x, x, 1, LAST]));
        true
    });
    c.both(
        8,
        "a bit above 1 that a constant has",
        |g| Some(g.some(&[kind::CONST])),
        |l, t, rng| {
            let Some(i) = l.node(t) else { return false };
            let at = l.p.operand(i, 0) as u64 + rng.below(l.p.operand(i, 1).max(1) as u64);
            match l.p.bits.get_mut(at as usize) {
                Some(b) => {
                    *b = rng.pick(&[2, 3, 128, 254, 255]);
                    true
                }
                None => false,
            }
        },
    );
    c.laid(8, "a bit above 1 that no constant has", |p, rng| {
        p.bits.push(rng.from_to(2, 255) as u8);
        for _ in 0..rng.below(3) {
            p.bits.push(0);
        }
        true
    });
}

// ---------------------------------------------------------------- 9

fn padded<T: Copy>(v: &mut Vec<T>, limit: usize, x: T, rng: &mut Rng) {
    let n = limit + rng.pick(&[1, 1, 1, 2, 17, 100]);
    v.resize(n.max(v.len()), x);
}

fn limits(c: &mut Clauses) {
    c.laid(9, "node bytes", |p, rng| {
        let mut r = vec![0; 17];
        r[1] = 8;
        while p.nodes.len() < 34_816 {
            p.nodes.extend(&r);
        }
        p.nodes.extend(if rng.one_in(2) { &r[..] } else { &r[..1] });
        true
    });
    c.laid(9, "bits", |p, rng| {
        let b = rng.pick(&[0, 1, 2]);
        padded(&mut p.bits, 131_072, b, rng);
        true
    });
    c.laid(9, "side entries", |p, rng| {
        let x = rng.pick(&[0, u64::MAX]);
        padded(&mut p.side, 8_192, x, rng);
        true
    });
    c.laid(9, "roots", |p, rng| {
        let x = rng.pick(&[0, u64::MAX]);
        padded(&mut p.roots, 256, x, rng);
        true
    });
    for (j, name) in COLUMNS.into_iter().enumerate() {
        c.laid(9, name, move |p, rng| {
            let x = rng.pick(&[0, 1, 8]);
            padded(column(p, j), 512, x, rng);
            true
        });
    }
    for (t, name) in ["names", "anames", "fnames"].into_iter().enumerate() {
        c.laid(9, name, move |p, rng| {
            let b = rng.pick(b"a|\x00\xff");
            padded(arena(p, t), 16_384, b, rng);
            true
        });
    }
}

// ---------------------------------------------------------------- 0

fn accepted(c: &mut Clauses) {
    c.plan(0, "2,048 nodes", |g| {
        let mut last = g.leaf(8);
        while g.plan.terms.len() < 2_048 {
            // chains that no root reaches; a chain ends at times
            let k = g.rng.pick(&UNARY);
            last = if g.rng.one_in(200) { g.bare(8) } else { g.add(k, [0, 0], &[last], 8) };
        }
        (g.plan.terms.len() == 2_048).then_some(0)
    });
    c.plan(0, "a term over 2,000 deep", |g| {
        if g.plan.terms.len() > 30 {
            return None;
        }
        let w = g.width().min(300);
        let mut t = g.leaf(w);
        for _ in 0..2_001 {
            t = match g.rng.below(6) {
                0 => {
                    let o = g.leaf(w);
                    g.add(kind::ADD, [0, 0], &[t, o], w)
                }
                _ => {
                    let k = g.rng.pick(&UNARY);
                    g.add(k, [0, 0], &[t], w)
                }
            };
            if g.plan.terms.len() > 2_040 {
                return None;
            }
        }
        let r = g.over(t);
        g.plan.roots.push(At::Term(r));
        Some(r)
    });
    c.laid(0, "131,072 bits", |p, rng| {
        while p.bits.len() < 131_072 {
            p.bits.push(rng.below(2) as u8);
        }
        true
    });
    c.both(
        0,
        "8,192 side entries",
        |g| {
            if g.plan.terms.len() > 200 {
                return None;
            }
            // a call with thousands of arguments
            let n = g.rng.from_to(1, 6_000);
            let v = g.width();
            let args = vec![v; n as usize];
            g.plant(false, |g, w| {
                let f = g.new_func(w, args);
                g.call(f, 4)
            });
            Some(0)
        },
        |l, _, rng| {
            while l.p.side.len() < 8_192 {
                l.p.side.push(rng.below(3_000));
            }
            l.p.side.len() == 8_192
        },
    );
    c.plan(0, "256 roots", |g| {
        while g.plan.roots.len() < 256 {
            let b = g.rng.below(4);
            let r = g.formula(b);
            g.plan.roots.push(At::Term(r));
        }
        (g.plan.terms.len() <= 2_048).then_some(0)
    });
    c.plan(0, "512 variables", |g| {
        while g.plan.vars.len() < 512 {
            let name = g.name(0);
            let width = g.rng.from_to(1, 70);
            g.plan.vars.push(Var { name, at: At::Raw(3_000), width });
        }
        Some(0)
    });
    c.plan(0, "512 arrays", |g| {
        while g.plan.arrays.len() < 512 {
            g.new_array();
        }
        Some(0)
    });
    c.plan(0, "512 functions", |g| {
        if g.plan.terms.len() > 1_200 {
            return None;
        }
        while g.plan.funcs.len() < 512 {
            let w = g.rng.from_to(1, 70);
            let f = g.new_func(w, vec![]);
            g.call(f, 0);
        }
        Some(0)
    });
    for t in 0..3 {
        c.both(
            0,
            &format!("16,384 bytes of names, {} fills the rest", TABLES[t]),
            move |g| Some(an_entry(g, t)),
            move |l, i, rng| {
                // the name goes to the end of the arena, which it fills
                let first = [0, 4, 8][t];
                let a = arena(&mut l.p, t);
                let start = a.len();
                if start >= 16_384 {
                    return false;
                }
                while a.len() < 16_384 {
                    a.push(rng.pick(b"abcz ~09"));
                }
                let at = if rng.one_in(4) { 16_384 - 100 } else { start };
                for (c, x) in [(first, at), (first + 1, 16_384 - at)] {
                    match column(&mut l.p, c).get_mut(i) {
                        Some(y) => *y = x as u64,
                        None => return false,
                    }
                }
                true
            },
        );
        for place in 0..3 {
            c.plan(0, &format!("{} name differs from another in {} byte, from 128 on", TABLES[t], PLACES[place]), move |g| {
                let (i, j) = (an_entry(g, t), an_entry(g, t));
                (i != j && alike(g, (t, i), (t, j), place)).then_some(i)
            });
        }
        for (label, words) in [("a reserved word", RUST), ("a word of SMT-LIB 2.7", SMTLIB_27)] {
            c.plan(0, &format!("{} name close to {label}", TABLES[t]), move |g| {
                let i = an_entry(g, t);
                for _ in 0..20 {
                    let s = g.near(words);
                    if g.claim(t, &s) {
                        *name_of(g, t, i) = s;
                        return Some(i);
                    }
                }
                None
            });
        }
    }
    c.plan(0, "a rotation of 65,536 bits", |g| rotation_of(g, 65_536));
    c.plan(0, "a variable with two entries, the second of another width", |g| {
        let i = reached_entry(g);
        let (at, w) = (g.plan.vars[i].at, g.plan.vars[i].width);
        let name = g.name(0);
        let width = g.other_width(w);
        let after = g.rng.from_to(i as u64 + 1, g.plan.vars.len() as u64) as usize;
        g.plan.vars.insert(after, Var { name, at, width });
        Some(i)
    });
    c.plan(0, "a function whose first call is not reached and has another width", |g| {
        let w = g.width();
        let args = (0..g.rng.below(4)).map(|_| g.width()).collect();
        let f = g.new_func(w, args);
        let t = g.call(f, 0);
        let other = g.other_width(w);
        g.plan.terms[t].nums[1] = other as u32;
        g.plan.terms[t].width = other;
        g.plant(false, |g, _| g.call(f, 3));
        Some(t)
    });
}

// ---------------------------------------------------------------- changes anywhere

fn near(rng: &mut Rng, x: u64, n: u64) -> u64 {
    let any = rng.next();
    let low = rng.below(n + 2);
    rng.pick(&[0, 1, x.wrapping_add(1), x.wrapping_sub(1), x ^ 8, n, low, low, 1 << 32, u64::MAX, x.wrapping_add(1 << 32), any])
}

/// One number or byte of any input, or an input's length.
pub fn change(p: &mut Problem, rng: &mut Rng) {
    let n = p.count() as u64;
    match rng.below(12) {
        0..=3 if n > 0 => {
            let i = rng.below(n) as usize;
            if rng.one_in(5) {
                // another kind, with the same operands
                let k = rng.below(39) as u8;
                p.nodes[17 * i] = k;
                (operand_count(k)..4).for_each(|j| p.set_operand(i, j, 0));
            } else {
                let j = rng.below(operand_count(p.kind_of(i)) as u64) as usize;
                let x = near(rng, p.operand(i, j) as u64, n) as u32;
                p.set_operand(i, j, x);
            }
        }
        4 if n > 0 => {
            let at = rng.below(p.nodes.len() as u64) as usize;
            p.nodes[at] = if rng.one_in(2) { rng.below(256) as u8 } else { rng.below(40) as u8 };
        }
        5 | 6 if !p.side.is_empty() => {
            let i = rng.below(p.side.len() as u64) as usize;
            p.side[i] = near(rng, p.side[i], n);
        }
        7 if !p.roots.is_empty() => {
            let i = rng.below(p.roots.len() as u64) as usize;
            p.roots[i] = near(rng, p.roots[i], n);
        }
        8 if !p.bits.is_empty() => {
            let i = rng.below(p.bits.len() as u64) as usize;
            p.bits[i] = if rng.one_in(8) { rng.below(256) as u8 } else { p.bits[i] ^ 1 };
        }
        9 => {
            let a = arena(p, rng.below(3) as usize);
            if !a.is_empty() {
                let i = rng.below(a.len() as u64) as usize;
                a[i] = if rng.one_in(2) { rng.below(256) as u8 } else { rng.pick(b"@.ab c~") };
            }
        }
        10 if rng.one_in(3) => match rng.below(4) {
            0 => {
                p.side.pop();
            }
            1 => {
                p.bits.pop();
            }
            2 => {
                p.roots.pop();
            }
            _ => {
                let c = column(p, rng.below(11) as usize);
                c.pop();
            }
        },
        _ => {
            let c = column(p, rng.below(11) as usize);
            if !c.is_empty() {
                let i = rng.below(c.len() as u64) as usize;
                c[i] = near(rng, c[i], n);
            }
        }
    }
}
