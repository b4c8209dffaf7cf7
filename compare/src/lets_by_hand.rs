//! Problems for scripts with `let`, each made for one sentence of document 02's L4, with the number that it has to get: what is bound and what is
//! not, what is refused first, and which names clash.
use crate::printer::Room;
use crate::problem::{Problem, kind};

pub struct Case {
    pub label: &'static str,
    pub want: u32,
    pub problem: Problem,
    pub room: Room,
}

/// Nodes of every problem here: the variable `x`, a constant, and a variable that is not declared, all of width 8.
const X: u32 = 0;
const FIVE: u32 = 1;
const LOST: u32 = 2;

fn base() -> Problem {
    let mut p = Problem::default();
    let x = p.node(kind::VAR, &[8]);
    p.var_entry(b"x", x as u64, 8);
    p.bits.extend([1, 0, 1, 0, 0, 0, 0, 0]);
    p.node(kind::CONST, &[0, 8]);
    p.node(kind::VAR, &[8]);
    p
}

fn call(p: &mut Problem, f: u32, w: u32, args: &[u32]) -> u32 {
    let s = p.side.len() as u32;
    p.side.extend(args.iter().map(|a| *a as u64));
    p.node(kind::CALL, &[f, w, s, args.len() as u32])
}

fn equal(p: &mut Problem, a: u32, b: u32) -> u32 {
    p.node(kind::EQ, &[a, b])
}

fn root(p: &mut Problem, i: u32) {
    p.roots.push(i as u64);
}

struct Cases(Vec<Case>);

impl Cases {
    /// What `make` adds to the nodes of every problem.
    fn put(&mut self, label: &'static str, want: u32, make: impl Fn(&mut Problem)) {
        let mut problem = base();
        make(&mut problem);
        self.0.push(Case { label, want, problem, room: Room::Exact });
    }

    /// One that is accepted, into rooms of every kind.
    fn accepted(&mut self, label: &'static str, make: impl Fn(&mut Problem)) {
        for (room, want) in [(Room::Exact, 0), (Room::OneShort, 10), (Room::Empty, 10), (Room::Longer(5), 0)] {
            let mut problem = base();
            make(&mut problem);
            self.0.push(Case { label, want, problem, room });
        }
    }
}

fn bound(cs: &mut Cases) {
    cs.accepted("bound: two roots with one use each", |p| {
        let n = p.node(kind::NEG, &[X]);
        for other in [X, FIVE] {
            let e = equal(p, n, other);
            root(p, e);
        }
    });
    cs.accepted("bound: the other use is not reached", |p| {
        let n = p.node(kind::NEG, &[X]);
        let e = equal(p, n, X);
        p.node(kind::BV_NOT, &[n]);
        root(p, e);
    });
    cs.accepted("bound: the other use is a rotation's amount that is not reached", |p| {
        let n = p.node(kind::NEG, &[X]);
        p.node(kind::ROTL, &[X, n]);
        let e = equal(p, n, X);
        root(p, e);
    });
    cs.accepted("not bound: the root does not reach it", |p| {
        let n = p.node(kind::NEG, &[X]);
        equal(p, n, n);
        let e = equal(p, X, FIVE);
        root(p, e);
    });
    cs.accepted("not bound: another root alone reaches it", |p| {
        let n = p.node(kind::NEG, &[X]);
        let a = equal(p, X, FIVE);
        let b = equal(p, n, n);
        root(p, a);
        root(p, b);
        let c = p.node(kind::NOT, &[a]);
        root(p, c);
    });
    cs.accepted("bound: a root that is given twice", |p| {
        let e = equal(p, X, FIVE);
        root(p, e);
        root(p, e);
    });
    cs.accepted("bound: a root that another root uses", |p| {
        let e = equal(p, X, FIVE);
        let n = p.node(kind::NOT, &[e]);
        root(p, e);
        root(p, n);
    });
    cs.accepted("bound: a call without arguments", |p| {
        p.func_entry(b"f", 8);
        let c = call(p, 0, 8, &[]);
        let e = equal(p, c, c);
        root(p, e);
    });
    cs.accepted("not bound: a variable, and a constant", |p| {
        let e = equal(p, X, FIVE);
        let f = p.node(kind::ULT, &[X, FIVE]);
        root(p, e);
        root(p, f);
    });
    cs.accepted("bound: a side entry that two calls read", |p| {
        p.func_entry(b"f", 8);
        let n = p.node(kind::NEG, &[X]);
        p.side.push(n as u64);
        let a = p.node(kind::CALL, &[0, 8, 0, 1]);
        let b = p.node(kind::CALL, &[0, 8, 0, 1]);
        let e = equal(p, a, b);
        root(p, e);
    });
    cs.accepted("not bound: a side entry that no node reads", |p| {
        let n = p.node(kind::NEG, &[X]);
        p.side.push(n as u64);
        let e = equal(p, n, X);
        root(p, e);
    });
    cs.accepted("bound: a store's index and value, and the select itself", |p| {
        p.array_of(b"m", 8, 8);
        let n = p.node(kind::NEG, &[X]);
        p.side.extend([n as u64, n as u64, X as u64, n as u64]);
        let s = p.node(kind::SELECT, &[0, n, 0, 2]);
        let e = equal(p, s, s);
        root(p, e);
    });
    cs.accepted("bound: one inside another, and one inside a term with one use", |p| {
        let a = p.node(kind::NEG, &[X]);
        let b = p.node(kind::ADD, &[a, a]);
        let c = p.node(kind::BV_NOT, &[a]);
        let d = p.node(kind::ADD, &[b, c]);
        let e = equal(p, d, b);
        root(p, e);
    });
    cs.accepted("bound: a Bool, as a condition and below connectives", |p| {
        let b = equal(p, X, FIVE);
        let t = p.node(kind::ITE, &[b, X, FIVE]);
        let e = equal(p, t, X);
        let n = p.node(kind::NOT, &[b]);
        let o = p.node(kind::BOOL_OR, &[e, n]);
        let a = p.node(kind::BOOL_AND, &[o, b]);
        root(p, a);
    });
    cs.accepted("bound: a rotation, an extract and an extension", |p| {
        let r = p.node(kind::ROTL, &[X, FIVE]);
        let s = p.node(kind::EXTRACT, &[3, 0, r]);
        let z = p.node(kind::ZERO_EXT, &[s, 4]);
        let y = p.node(kind::SIGN_EXT, &[s, 4]);
        let c = p.node(kind::ADD, &[z, y]);
        let d = p.node(kind::SUB, &[z, r]);
        let e = equal(p, c, d);
        root(p, e);
    });
}

/// Over a shared `bvneg` of a variable that is declared, or not, whatever is refused above it: the bound term is checked first.
fn below_a_refusal(cs: &mut Cases) {
    for (v, lost) in [(X, false), (LOST, true)] {
        let number = |n| if lost { 4 } else { n };
        cs.put("reached below a select of no array", number(1), move |p| {
            let n = p.node(kind::NEG, &[v]);
            let z = p.node(kind::ZERO_EXT, &[n, 24]);
            p.side.extend([z as u64, FIVE as u64]);
            let s = p.node(kind::SELECT, &[9, z, 0, 1]);
            let e = equal(p, s, FIVE);
            root(p, e);
        });
        cs.put("reached below a store of no array", number(1), move |p| {
            let n = p.node(kind::NEG, &[v]);
            let z = p.node(kind::ZERO_EXT, &[X, 24]);
            p.side.extend([z as u64, n as u64, z as u64, n as u64]);
            let s = p.node(kind::SELECT, &[9, z, 0, 2]);
            let e = equal(p, s, FIVE);
            root(p, e);
        });
        cs.put("reached below a call of no function", number(1), move |p| {
            let n = p.node(kind::NEG, &[v]);
            let c = call(p, 9, 8, &[n, n]);
            let e = equal(p, c, FIVE);
            root(p, e);
        });
        cs.put("reached below a call of another width", number(7), move |p| {
            p.func_entry(b"f", 8);
            call(p, 0, 8, &[FIVE, FIVE]);
            let n = p.node(kind::NEG, &[v]);
            let c = call(p, 0, 9, &[n, n]);
            let z = p.node(kind::ZERO_EXT, &[X, 1]);
            let e = equal(p, c, z);
            root(p, e);
        });
        cs.put("reached below a call with other arguments", number(7), move |p| {
            p.func_entry(b"f", 8);
            call(p, 0, 8, &[FIVE]);
            let n = p.node(kind::NEG, &[v]);
            let c = call(p, 0, 8, &[n, n]);
            let e = equal(p, c, FIVE);
            root(p, e);
        });
        cs.put("reached below a rotation by no constant", number(5), move |p| {
            let n = p.node(kind::NEG, &[v]);
            let r = p.node(kind::ROTL, &[n, X]);
            let e = equal(p, r, n);
            root(p, e);
        });
        cs.put("reached below a term of the wrong sort", number(3), move |p| {
            let n = p.node(kind::NEG, &[v]);
            let b = equal(p, n, n);
            let z = p.node(kind::ZERO_EXT, &[b, 7]);
            let e = equal(p, z, X);
            root(p, e);
        });
        cs.put("reached below a root of the wrong sort", number(3), move |p| {
            let n = p.node(kind::NEG, &[v]);
            let a = p.node(kind::ADD, &[n, n]);
            root(p, a);
        });
        cs.put("a root of the wrong sort that is bound", number(3), move |p| {
            let n = p.node(kind::NEG, &[v]);
            root(p, n);
            root(p, n);
        });
    }
    cs.put("a root past the nodes, twice", 1, |p| {
        root(p, 99);
        root(p, 99);
    });
}

fn amounts(cs: &mut Cases) {
    cs.put("a rotation's amount is not reached", 5, |p| {
        let m = p.node(kind::NEG, &[LOST]);
        let r = p.node(kind::ROTL, &[X, m]);
        let s = p.node(kind::ROTR, &[r, m]);
        let e = equal(p, s, X);
        root(p, e);
    });
    cs.put("what is below a rotation's amount is not reached", 5, |p| {
        let n = p.node(kind::NEG, &[LOST]);
        let m = p.node(kind::ADD, &[n, n]);
        let r = p.node(kind::ROTL, &[X, m]);
        let e = equal(p, r, X);
        root(p, e);
    });
}

/// Two bound terms that are refused, in either order of their nodes, each with the later one first in the text.
fn order(cs: &mut Cases) {
    cs.put("the lower bound term is told: 5 before 4", 5, |p| {
        let a = p.node(kind::ROTL, &[X, X]);
        let b = p.node(kind::NEG, &[LOST]);
        let c = p.node(kind::ADD, &[b, b]);
        let d = p.node(kind::ADD, &[a, a]);
        let e = equal(p, c, d);
        root(p, e);
    });
    cs.put("the lower bound term is told: 4 before 5", 4, |p| {
        let b = p.node(kind::NEG, &[LOST]);
        let a = p.node(kind::ROTL, &[X, X]);
        let c = p.node(kind::ADD, &[a, a]);
        let d = p.node(kind::ADD, &[b, b]);
        let e = equal(p, c, d);
        root(p, e);
    });
    cs.put("a bound term is told before what stands before it in the text", 4, |p| {
        let a = p.node(kind::ROTL, &[X, X]);
        let b = p.node(kind::NEG, &[LOST]);
        let d = p.node(kind::ADD, &[b, b]);
        let e = equal(p, a, d);
        root(p, e);
    });
    cs.put("an earlier root is told before a later root's bound term", 3, |p| {
        let b = p.node(kind::NEG, &[LOST]);
        let e = equal(p, b, b);
        root(p, X);
        root(p, e);
    });
    cs.put("an earlier root's bound term is told before a later root", 4, |p| {
        let b = p.node(kind::NEG, &[LOST]);
        let e = equal(p, b, b);
        root(p, e);
        root(p, X);
    });
    cs.put("the tables are asked before the operands of a bound term", 5, |p| {
        let r = p.node(kind::ROTL, &[LOST, X]);
        let e = equal(p, r, r);
        root(p, e);
    });
}

/// Widths fit everywhere here, so that only sorts are wrong.
fn sorts(cs: &mut Cases) {
    let bit = |p: &mut Problem| p.node(kind::EXTRACT, &[0, 0, X]);
    cs.put("a bound Bool, compared", 3, |p| {
        let b = equal(p, X, FIVE);
        let e = equal(p, b, b);
        root(p, e);
    });
    cs.put("a bound Bool, rotated", 3, |p| {
        let b = equal(p, X, FIVE);
        let one = p.node(kind::CONST, &[0, 1]);
        let r = p.node(kind::ROTL, &[b, one]);
        let e = equal(p, r, one);
        let a = p.node(kind::BOOL_AND, &[b, e]);
        root(p, a);
    });
    cs.put("a bound Bool as an argument", 3, |p| {
        p.func_entry(b"f", 8);
        let b = equal(p, X, FIVE);
        let c = call(p, 0, 8, &[b, b]);
        let e = equal(p, c, X);
        root(p, e);
    });
    for place in 0..3 {
        cs.put("a bound Bool as an index, and a store's index and value", 3, move |p| {
            p.array_of(b"m", 1, 1);
            let b = equal(p, X, FIVE);
            let n = bit(p);
            let m = p.node(kind::EXTRACT, &[1, 1, X]);
            let at = |k| if place == k { b } else { n } as u64;
            p.side.extend([at(0), at(1)]);
            let s = p.node(kind::SELECT, &[0, at(2) as u32, 0, 1]);
            let e = equal(p, s, m);
            let a = p.node(kind::BOOL_AND, &[b, e]);
            root(p, a);
        });
    }
    cs.put("a bound bit-vector below not", 3, |p| {
        let n = bit(p);
        let a = p.node(kind::NOT, &[n]);
        let b = p.node(kind::NOT, &[n]);
        let c = p.node(kind::BOOL_OR, &[a, b]);
        root(p, c);
    });
    cs.put("a bound bit-vector below or", 3, |p| {
        let n = bit(p);
        let c = p.node(kind::BOOL_OR, &[n, n]);
        root(p, c);
    });
    cs.put("a bound bit-vector as a condition", 3, |p| {
        let n = bit(p);
        let t = p.node(kind::ITE, &[n, n, n]);
        let m = p.node(kind::EXTRACT, &[1, 1, X]);
        let e = equal(p, t, m);
        root(p, e);
    });
}

/// A problem in which node `at` alone is an operator with two uses, and the name of an entry of one table. Node 0 is `x`, but where `at` is 0.
fn with_name(at: u32, table: usize, name: &[u8]) -> Problem {
    let mut p = Problem::default();
    if at == 0 {
        p.func_entry(if table == 2 { name } else { b"f" }, 8);
        call(&mut p, 0, 8, &[]);
        equal(&mut p, 0, 0);
        p.roots.push(1);
    } else {
        p.bits.extend([1, 0, 1, 0, 0, 0, 0, 0]);
        p.node(kind::VAR, &[8]);
        while p.count() < at as usize {
            p.node(kind::CONST, &[0, 8]);
        }
        equal(&mut p, 0, 0);
        p.roots.extend([at as u64, at as u64]);
    }
    match table {
        0 => p.var_entry(name, 0, 8),
        1 => p.array_entry(name),
        _ if at != 0 => {
            // its call takes the place of a constant, or comes behind
            p.func_entry(name, 8);
            if at > 1 {
                let record = crate::problem::record(kind::CALL, [0, 8, 0, 0]);
                p.nodes[17..34].copy_from_slice(&record);
            } else {
                call(&mut p, 0, 8, &[]);
            }
        }
        _ => {}
    }
    if table != 0 && at != 0 {
        p.var_entry(b"x", 0, 8);
    }
    p
}

fn clashes(cs: &mut Cases) {
    for at in [0u32, 1, 9, 10, 99, 100, 999, 1000, 2047] {
        for table in 0..3 {
            let mut put = |label, want, name: String| {
                cs.0.push(Case { label, want, problem: with_name(at, table, name.as_bytes()), room: Room::Exact })
            };
            put("a name that is a bound node's", 11, format!("d{at}"));
            let wide = at as u128;
            let mut others = vec![
                format!("d0{at}"),
                format!("d00{at}"),
                format!("d{at}0"),
                format!("d{}", at + 1),
                format!("d{at} "),
                format!("d {at}"),
                format!("d+{at}"),
                format!("D{at}"),
                format!("e{at}"),
                format!("{at}"),
                format!("dd{at}"),
                format!("d{}", wide + (1 << 11)),
                format!("d{}", wide + (1 << 16)),
                format!("d{}", wide + (1 << 32)),
                format!("d{}", wide + (1 << 64)),
            ];
            if at >= 10 {
                // a last byte that counts ten more than a digit, behind a number that is one lower
                let last = (b'0' + 10 + (at % 10) as u8) as char;
                others.push(format!("d{}{last}", at / 10 - 1));
            }
            // with many nodes most of them in one table alone
            let taken = if table == 0 || at < 100 { others.len() } else { 2 };
            for name in others.into_iter().take(taken) {
                put("a name close to a bound node's", 0, name);
            }
        }
    }
    cs.put("a name that is a node's, which the root does not reach", 11, |p| {
        let n = p.node(kind::NEG, &[X]);
        equal(p, n, n);
        let e = equal(p, X, FIVE);
        root(p, e);
        p.array_entry(format!("d{n}").as_bytes());
    });
    cs.put("a name that is a node's, without any root", 11, |p| {
        let n = p.node(kind::NEG, &[X]);
        equal(p, n, n);
        p.array_entry(format!("d{n}").as_bytes());
    });
    cs.put("a name that is a node's, twice an amount", 11, |p| {
        let n = p.node(kind::NEG, &[X]);
        p.node(kind::ROTL, &[X, n]);
        p.node(kind::ROTR, &[X, n]);
        p.array_entry(format!("d{n}").as_bytes());
    });
    cs.put("a name that is a node's with one use", 0, |p| {
        let n = p.node(kind::NEG, &[X]);
        let e = equal(p, n, X);
        root(p, e);
        p.array_entry(format!("d{n}").as_bytes());
    });
    cs.put("a name that is a variable's node, used twice", 0, |p| {
        let e = equal(p, X, X);
        root(p, e);
        p.array_entry(b"d0");
        p.array_entry(b"d1");
    });
    cs.put("a name that is a node's, the last of many", 11, |p| {
        let n = p.node(kind::NEG, &[X]);
        let e = equal(p, n, n);
        root(p, e);
        for name in [&b"d"[..], b"d0", b"d4", b"d33"] {
            p.array_entry(name);
        }
        p.var_entry(format!("d{n}").as_bytes(), u64::MAX, 8);
    });
}

/// A clash and one thing more: what comes before it and what comes after.
fn around_a_clash(cs: &mut Cases) {
    // node 3 is shared, and an array has its name
    fn clash(p: &mut Problem) {
        let n = p.node(kind::NEG, &[X]);
        let e = equal(p, n, n);
        root(p, e);
        p.array_entry(b"d3");
    }
    cs.put("9 before 11", 9, |p| {
        clash(p);
        p.roots.resize(257, 4);
    });
    cs.put("8 before 11", 8, |p| {
        clash(p);
        p.bits.push(2);
    });
    cs.put("1 of columns before 11", 1, |p| {
        clash(p);
        p.name_len.push(1);
    });
    cs.put("12 before 11", 12, |p| {
        clash(p);
        p.index_width[0] = 0;
    });
    cs.put("1 of widths before 11", 1, |p| {
        clash(p);
        p.node(kind::NEG, &[77]);
    });
    for table in 0..3 {
        for name in [&b"let"[..], b"int_to_bv", b"@d3", b"", b"d3"] {
            cs.put("2 before 11", 2, move |p| {
                clash(p);
                match table {
                    0 => p.var_entry(name, u64::MAX, 8),
                    1 => p.array_entry(name),
                    _ => {
                        p.func_entry(name, 8);
                        call(p, 0, 8, &[]);
                    }
                }
            });
        }
    }
    cs.put("11 before 4 of declarations", 11, |p| {
        clash(p);
        p.var_entry(b"v", u64::MAX, 0);
    });
    cs.put("11 before 7 of declarations: never called", 11, |p| {
        clash(p);
        p.func_entry(b"f", 8);
    });
    cs.put("11 before 7 of declarations: width 0", 11, |p| {
        clash(p);
        p.func_entry(b"f", 0);
        call(p, 0, 8, &[]);
    });
    cs.put("11 before 7 of declarations: a first call past the side entries", 11, |p| {
        clash(p);
        p.func_entry(b"f", 8);
        p.node(kind::CALL, &[0, 8, 1, 0]);
    });
    cs.put("11 before 1 of the walk", 11, |p| {
        p.roots.push(99);
        clash(p);
    });
    cs.put("11 before 3 of the walk", 11, |p| {
        p.roots.push(X as u64);
        clash(p);
    });
    cs.put("11 before 4 of the walk", 11, |p| {
        let e = equal(p, LOST, X);
        root(p, e);
        let n = p.node(kind::NEG, &[X]);
        let e = equal(p, n, n);
        root(p, e);
        p.array_entry(format!("d{n}").as_bytes());
    });
    cs.put("11 before 5 of the walk", 11, |p| {
        let r = p.node(kind::ROTL, &[X, X]);
        let e = equal(p, r, r);
        root(p, e);
        p.array_entry(format!("d{r}").as_bytes());
    });
    let mut problem = base();
    clash(&mut problem);
    cs.0.push(Case { label: "11 before 10", want: 11, problem, room: Room::Empty });
    cs.put("4 of declarations before the walk of a bound term", 4, |p| {
        let r = p.node(kind::ROTL, &[X, X]);
        let e = equal(p, r, r);
        root(p, e);
        p.var_entry(b"v", u64::MAX, 0);
    });
}

pub fn all() -> Vec<Case> {
    let mut cs = Cases(vec![]);
    bound(&mut cs);
    below_a_refusal(&mut cs);
    amounts(&mut cs);
    order(&mut cs);
    sorts(&mut cs);
    clashes(&mut cs);
    around_a_clash(&mut cs);
    cs.0
}
