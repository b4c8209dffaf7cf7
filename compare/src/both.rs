//! Problems with two faults at once: the one that comes first in document 01's order decides. Each fault is tried without the other too,
//! and has to have its own number by itself, so that both are really there.
use crate::added::{print_answer, width_answer};
use crate::printer::{self, Room, array, call, constant, formula, func, named, root, var};
use crate::problem::{Problem, is_same_width, kind};
use crate::widths;

const LAST: u32 = u32::MAX;

/// More than any script here has.
const AMPLE: usize = 100_000;

fn number(p: &Problem, room: usize) -> u32 {
    print_answer(p, room).number
}

// ---------------------------------------------------------------- faults by the check that finds them

pub struct Fault {
    pub what: &'static str,
    pub number: u32,
    /// After everything else: what would come behind it would be out of place.
    last: bool,
    pub add: Box<dyn Fn(&mut Problem)>,
}

/// A check and the faults that it finds. Checks stand in document 01's order.
struct Check {
    name: &'static str,
    faults: Vec<Fault>,
}

fn check(name: &'static str) -> Check {
    Check { name, faults: vec![] }
}

impl Check {
    fn finds(mut self, number: u32, what: &'static str, add: impl Fn(&mut Problem) + 'static) -> Check {
        self.faults.push(Fault { what, number, last: false, add: Box::new(add) });
        self
    }
    fn finds_last(mut self, number: u32, what: &'static str, add: impl Fn(&mut Problem) + 'static) -> Check {
        self.faults.push(Fault { what, number, last: true, add: Box::new(add) });
        self
    }
}

fn limits() -> Check {
    check("9")
        .finds(9, "nodes", |p| {
            while p.count() < 2_049 {
                p.node(kind::VAR, &[8]);
            }
        })
        .finds(9, "bits", |p| p.bits.resize(131_073, 0))
        .finds(9, "side entries", |p| p.side.resize(8_193, 0))
}

fn more_limits(c: Check) -> Check {
    c.finds(9, "roots", |p| {
        let v = var(p, 8);
        while p.roots.len() < 257 {
            let r = p.node(kind::EQ, &[v, v]);
            root(p, r);
        }
    })
    .finds(9, "variables", |p| {
        for k in 0..513 {
            named(p, 0, format!("n{k}").as_bytes());
        }
    })
    .finds(9, "arrays", |p| {
        for k in 0..513 {
            named(p, 1, format!("n{k}").as_bytes());
        }
    })
    .finds(9, "functions", |p| {
        for k in 0..513 {
            named(p, 2, format!("n{k}").as_bytes());
        }
    })
    .finds(9, "names' arena", |p| p.names.resize(16_385, b'a'))
    .finds(9, "array names' arena", |p| p.anames.resize(16_385, b'a'))
    .finds(9, "function names' arena", |p| p.fnames.resize(16_385, b'a'))
}

fn encodings() -> Check {
    check("8")
        .finds(8, "kind", |p| {
            p.node(kind::COUNT, &[]);
        })
        .finds(8, "unused operand", |p| {
            p.node(kind::VAR, &[8, 1]);
        })
        .finds(8, "bit", |p| p.bits.push(2))
        .finds_last(8, "bytes left over", |p| p.nodes.push(0))
}

fn node_widths() -> Check {
    check("1 of widths")
        .finds(1, "variable of width 0", |p| {
            p.node(kind::VAR, &[0]);
        })
        .finds(1, "negation of a width of 8", |p| {
            let v = p.node(kind::VAR, &[8]);
            p.node(kind::NOT, &[v]);
        })
        .finds(1, "constant past the bits", |p| {
            p.node(kind::CONST, &[LAST, 1]);
        })
        .finds(1, "operand that is no lower node", |p| {
            p.node(kind::NEG, &[LAST]);
        })
}

fn array_widths() -> Check {
    check("12")
        .finds(12, "index of width 0", |p| p.array_of(b"~a", 0, 8))
        .finds(12, "value of width 0", |p| p.array_of(b"~b", 32, 0))
        .finds(12, "index of width 65,537", |p| p.array_of(b"~c", 65_537, 8))
        .finds(12, "value of a width over 32 bits", |p| p.array_of(b"~d", 32, (1 << 32) + 8))
}

fn before_the_walk() -> Vec<Check> {
    vec![
        more_limits(limits()),
        encodings(),
        check("1 of columns")
            .finds_last(1, "lengths of names", |p| p.name_len.push(1))
            .finds_last(1, "variables' nodes", |p| p.var_node.push(0))
            .finds_last(1, "lengths of array names", |p| p.aname_len.push(1))
            .finds_last(1, "index widths", |p| p.index_width.push(32))
            .finds_last(1, "value widths", |p| p.value_width.push(8))
            .finds_last(1, "functions' widths", |p| p.func_width.push(8)),
        array_widths(),
        node_widths(),
        check("2")
            .finds(2, "variable's name", |p| named(p, 0, b"@"))
            .finds(2, "array's name", |p| named(p, 1, b"let"))
            .finds(2, "function's name, a word of SMT-LIB 2.7", |p| named(p, 2, b"int_to_bv"))
            .finds(2, "array's name, 127 after a byte from 128 on", |p| named(p, 1, b"\xc3\x7f"))
            .finds(2, "name given twice", |p| {
                named(p, 0, b"~both");
                named(p, 2, b"~both");
            }),
        check("6")
            .finds(6, "both operands", |p| {
                let v = var(p, 8);
                let i = p.node(kind::NEG, &[v]);
                p.node(kind::CONCAT, &[i, i]);
            })
            .finds(6, "root given twice", |p| {
                let r = formula(p);
                root(p, r);
                root(p, r);
            }),
        check("4 of declarations").finds(4, "variable of width 0", |p| {
            named(p, 0, b"~none");
            *p.var_width.last_mut().unwrap() = 0;
        }),
        check("7 of declarations")
            .finds(7, "function never called", |p| {
                func(p, 8);
            })
            .finds(7, "function of width 0", |p| {
                let f = func(p, 0);
                call(p, f, 8, &[]);
            })
            .finds(7, "first call past the side entries", |p| {
                let f = func(p, 8);
                p.node(kind::CALL, &[f, 8, LAST / 2, 0]);
            }),
    ]
}

/// What the walk finds below one root.
fn walk() -> Check {
    let mut c = check("the walk")
        .finds(1, "root past the nodes", |p| p.roots.push(u64::MAX))
        .finds(1, "array past its table", |p| {
            let i = var(p, 32);
            let s = p.node(kind::SELECT, &[LAST, i, 0, 0]);
            compared(p, s, 8);
        })
        .finds(3, "root's sort", |p| {
            let v = var(p, 8);
            root(p, v);
        })
        .finds(4, "another width", |p| {
            let v = var(p, 8);
            *p.var_width.last_mut().unwrap() = 9;
            compared(p, v, 8);
        })
        .finds(5, "rotation too wide", |p| {
            let v = var(p, 65_537);
            let b = constant(p, 65_537);
            let n = p.node(kind::ROTR, &[v, b]);
            compared(p, n, 65_537);
        })
        .finds(7, "another count", |p| {
            let f = func(p, 8);
            let v = var(p, 8);
            call(p, f, 8, &[]);
            let c = call(p, f, 8, &[v]);
            compared(p, c, 8);
        })
        .finds(7, "argument of another width", |p| {
            let f = func(p, 8);
            let v = var(p, 8);
            let w = var(p, 9);
            call(p, f, 8, &[v]);
            let c = call(p, f, 8, &[w]);
            compared(p, c, 8);
        });
    for (n, what) in [(1, "function past its table"), (4, "no entry"), (5, "amount"), (7, "call's width")] {
        c = c.finds(n, what, move |p| {
            let x = term(p, n, 8);
            compared(p, x, 8);
        });
    }
    c
}

/// A root that compares the term with a variable.
fn compared(p: &mut Problem, x: u32, w: u32) {
    let v = var(p, w);
    let r = p.node(kind::EQ, &[x, v]);
    root(p, r);
}

// ---------------------------------------------------------------- two checks

/// Every fault but those over a limit, each with its check.
pub fn faults() -> Vec<(&'static str, Fault)> {
    let checks = before_the_walk().into_iter().skip(1).chain([walk()]);
    checks.flat_map(|c| c.faults.into_iter().map(move |f| (c.name, f))).collect()
}

/// Something of each table, a select, a call and a root; nothing is wrong with it.
pub fn base() -> Problem {
    let mut p = Problem::default();
    let v = var(&mut p, 8);
    let i = var(&mut p, 32);
    let m = array(&mut p);
    let f = func(&mut p, 8);
    let s = p.node(kind::SELECT, &[m, i, 0, 0]);
    let c = call(&mut p, f, 8, &[v]);
    let r = p.node(kind::EQ, &[s, c]);
    root(&mut p, r);
    p
}

/// Faults in this order, those that go last behind the others.
fn with(mut p: Problem, faults: &[&Fault]) -> Problem {
    for last in [false, true] {
        for f in faults.iter().filter(|f| f.last == last) {
            (f.add)(&mut p);
        }
    }
    p
}

/// Which faults of two checks go together: each with each, or as many as it takes to have each once.
fn matched(n: usize, m: usize, each: bool) -> Vec<(usize, usize)> {
    if each {
        (0..n).flat_map(|i| (0..m).map(move |j| (i, j))).collect()
    } else {
        (0..n.max(m)).map(|i| (i % n, i % m)).collect()
    }
}

fn two_checks(add: &mut impl FnMut(&str, Problem, Room, u32)) {
    let mut checks = before_the_walk();
    checks.push(walk());
    for f in checks.iter().flat_map(|c| &c.faults) {
        assert!(number(&with(base(), &[f]), AMPLE) == f.number, "alone it is another number: {}", f.what);
    }
    assert!(number(&base(), AMPLE) == 0);
    for (i, a) in checks.iter().enumerate() {
        for (j, b) in checks.iter().enumerate().skip(i + 1) {
            // a problem over a limit is large: away from its neighbour 9 has the three faults of the width pass
            let n = if i == 0 && j > 1 { 3 } else { a.faults.len() };
            for (turn, (x, y)) in matched(n, b.faults.len(), i > 0 && j == i + 1).into_iter().enumerate() {
                let (x, y) = (&a.faults[x], &b.faults[y]);
                let p = with(base(), &if turn % 2 == 0 { [x, y] } else { [y, x] });
                add(&format!("{} before {}: {}, {}", a.name, b.name, x.what, y.what), p, Room::Fixed(500), x.number);
            }
        }
        // and the script, as far as there is one, does not fit
        for (turn, x) in a.faults.iter().enumerate() {
            let room = Room::Fixed([0, 20, 29][turn % 3]);
            add(&format!("{} before 10: {}", a.name, x.what), with(base(), &[x]), room, x.number);
        }
    }
    let roots = walk().faults;
    for (i, x) in roots.iter().enumerate() {
        for (j, y) in roots.iter().enumerate() {
            if i != j {
                let p = with(base(), &[x, y]);
                add(&format!("an earlier root before a later: {}, {}", x.what, y.what), p, Room::Fixed(500), x.number);
            }
        }
    }
}

// ---------------------------------------------------------------- two faults in one term

/// A term of this width that is refused with this number; 0 is none. 3 is a Bool, and has width 1.
fn term(p: &mut Problem, number: u32, w: u32) -> u32 {
    match number {
        0 => var(p, w),
        1 => call(p, LAST, w, &[]),
        3 => formula(p),
        4 => p.node(kind::VAR, &[w]),
        5 => {
            let v = var(p, w);
            p.node(kind::ROTL, &[v, v])
        }
        7 => {
            let f = func(p, w as u64 + 1);
            call(p, f, w, &[])
        }
        _ => unreachable!("no term has this number: {number}"),
    }
}

/// The same where a Bool is needed: 3 is a bit-vector.
fn formula_of(p: &mut Problem, number: u32) -> u32 {
    if number == 3 {
        return var(p, 1);
    }
    let x = term(p, number, 8);
    let v = var(p, 8);
    p.node(kind::EQ, &[x, v])
}

/// Two different ones of these numbers, in either order.
fn ordered(numbers: &[u32]) -> Vec<(u32, u32)> {
    numbers.iter().flat_map(|x| numbers.iter().map(move |y| (*x, *y))).filter(|(x, y)| x != y).collect()
}

/// The problem with both faults, of which the first decides. `build` makes it with either, with both and with none.
fn two(add: &mut impl FnMut(&str, Problem, Room, u32), label: &str, x: u32, y: u32, build: impl Fn(&mut Problem, u32, u32)) {
    let made = |x, y| {
        let mut p = Problem::default();
        build(&mut p, x, y);
        p
    };
    for (a, b, want) in [(0, 0, 0), (x, 0, x), (0, y, y)] {
        let n = number(&made(a, b), AMPLE);
        assert!(n == want, "{label}: by itself {n}, meant as {want}");
    }
    add(&format!("{label}: {x}, {y}"), made(x, y), Room::Fixed(300), x);
}

fn sort_first(add: &mut impl FnMut(&str, Problem, Room, u32)) {
    // where a Bool is needed: a root, below a negation, below a connective, a condition
    let needs_bool = |p: &mut Problem, t: u32, place: u32| match place {
        0 => t,
        1 => p.node(kind::NOT, &[t]),
        2 => {
            let f = formula(p);
            p.node(kind::BOOL_AND, &[t, f])
        }
        3 => {
            let f = formula(p);
            p.node(kind::BOOL_OR, &[f, t])
        }
        _ => {
            let v = var(p, 8);
            let i = p.node(kind::ITE, &[t, v, v]);
            p.node(kind::EQ, &[i, v])
        }
    };
    let placed = |p: &mut Problem, t: u32, x: u32, place: u32| {
        if x == 3 {
            let r = needs_bool(p, t, place);
            root(p, r);
        } else {
            compared(p, t, 1);
        }
    };
    for place in 0..5 {
        for y in [1, 4, 5, 7] {
            two(add, "a term's sort before what the tables ask", 3, y, move |p, x, y| {
                let t = term(p, y, 1);
                placed(p, t, x, place);
            });
            two(add, "a term's sort before its operand", 3, y, move |p, x, y| {
                let o = term(p, y, 1);
                let t = p.node(kind::BV_NOT, &[o]);
                placed(p, t, x, place);
            });
        }
    }
    for (y, n) in [(1, 0), (4, 0), (5, 1), (7, 1)] {
        two(add, "a select's sort before its array, index and pairs", 3, y, move |p, x, y| {
            let m = if y == 1 { LAST } else { array(p) };
            let i = term(p, if y == 1 || n == 1 { 0 } else { y }, 32);
            let v = term(p, if n == 1 { y } else { 0 }, 8);
            p.side = [i as u64, v as u64][..2 * n as usize].to_vec();
            let s = p.node(kind::SELECT, &[m, i, 0, n]);
            if x == 3 { root(p, s) } else { compared(p, s, 8) }
        });
    }
}

fn term_first(add: &mut impl FnMut(&str, Problem, Room, u32)) {
    for k in [kind::ROTR, kind::ROTL] {
        for y in [1, 3, 4, 7] {
            two(add, "a rotation's amount before its operand", 5, y, move |p, x, y| {
                let o = term(p, y, 1);
                let b = if x == 5 { var(p, 1) } else { constant(p, 1) };
                let t = p.node(k, &[o, b]);
                compared(p, t, 1);
            });
        }
        for y in [1, 4, 7] {
            two(add, "a rotation's width before its operand", 5, y, move |p, x, y| {
                let w = if x == 5 { 65_537 } else { 8 };
                let o = term(p, y, w);
                let b = constant(p, w);
                let t = p.node(k, &[o, b]);
                compared(p, t, w);
            });
        }
    }
    // place 0 is the index, then come two pairs
    for place in 0..5 {
        for y in [4, 5, 7] {
            two(add, "a select's array before its index and pairs", 1, y, move |p, x, y| select(p, x, &[(place, y)]));
        }
    }
    calls(add);
}

/// A select with two pairs, with terms of these numbers at some of its places: its index, the first pair's index and value, the second's.
fn select(p: &mut Problem, x: u32, at: &[(usize, u32)]) {
    let m = if x == 1 { LAST } else { array(p) };
    let of = |place| at.iter().find(|(a, _)| *a == place).map_or(0, |(_, n)| *n);
    let o: Vec<u32> = (0..5).map(|place| term(p, of(place), if place == 2 || place == 4 { 8 } else { 32 })).collect();
    let from = p.side.len() as u32;
    p.side.extend(o[1..].iter().map(|x| *x as u64));
    let s = p.node(kind::SELECT, &[m, o[0], from, 2]);
    compared(p, s, 8);
}

/// What is wrong with a call itself.
#[derive(Clone, Copy, PartialEq)]
enum Own {
    Number,
    Width,
    Count,
    Widths,
}

/// A reached call with these arguments, after a first call that is not reached and has the same widths, unless it is to be refused.
fn reached_call(p: &mut Problem, args: &[u32], own: &[Own]) {
    let f = if own.contains(&Own::Number) { LAST } else { func(p, if own.contains(&Own::Width) { 9 } else { 8 }) };
    let other = if own.contains(&Own::Widths) { 2 } else { 1 };
    let mut first: Vec<u32> = args.iter().map(|_| var(p, 1)).collect();
    first[0] = var(p, other);
    if own.contains(&Own::Count) {
        first.pop();
    }
    call(p, f, 8, &first);
    let c = call(p, f, 8, args);
    compared(p, c, 8);
}

fn calls(add: &mut impl FnMut(&str, Problem, Room, u32)) {
    for (label, own, x) in [
        ("a call's number before its arguments", Own::Number, 1),
        ("a call's width before its arguments", Own::Width, 7),
        ("a call's count against its first call before its arguments", Own::Count, 7),
        ("a call's widths against its first call before its arguments", Own::Widths, 7),
    ] {
        for y in [1, 3, 4, 5, 7].into_iter().filter(|y| *y != x) {
            for place in 0..2 {
                two(add, label, x, y, move |p, x, y| {
                    let args: Vec<u32> = (0..2).map(|j| term(p, if j == place { y } else { 0 }, 1)).collect();
                    reached_call(p, &args, if x == 0 { &[] } else { std::slice::from_ref(&own) });
                });
            }
        }
    }
    for (label, a, b, x) in [
        ("a call's number before its count against its first call", Own::Number, Own::Count, 1),
        ("a call's number before its widths against its first call", Own::Number, Own::Widths, 1),
        ("a call's width and its count against its first call", Own::Width, Own::Count, 7),
        ("a call's width and its widths against its first call", Own::Width, Own::Widths, 7),
        ("a call's count and its widths against its first call", Own::Count, Own::Widths, 7),
    ] {
        two(add, label, x, 7, move |p, x, y| {
            let args: Vec<u32> = (0..2).map(|_| var(p, 1)).collect();
            let own: Vec<Own> = [(x, a), (y, b)].into_iter().filter(|(n, _)| *n != 0).map(|(_, o)| o).collect();
            reached_call(p, &args, &own);
        });
    }
}

fn operands(add: &mut impl FnMut(&str, Problem, Room, u32)) {
    let any = ordered(&[1, 3, 4, 5, 7]);
    let twos: Vec<u8> =
        (0..kind::COUNT).filter(|k| is_same_width(*k) && *k != kind::ROTR && *k != kind::ROTL).chain([kind::CONCAT]).collect();
    for (j, k) in twos.into_iter().enumerate() {
        for t in 0..4 {
            let (x, y) = any[(4 * j + 5 * t) % any.len()];
            two(add, "the first operand before the second", x, y, move |p, x, y| {
                let a = term(p, x, 1);
                let b = term(p, y, 1);
                let n = p.node(k, &[a, b]);
                if (kind::EQ..=kind::SGE).contains(&k) {
                    root(p, n)
                } else {
                    compared(p, n, if k == kind::CONCAT { 2 } else { 1 })
                }
            });
        }
    }
    for (j, (x, y)) in any.iter().copied().enumerate() {
        two(add, "what is below the first operand before the second", x, y, move |p, x, y| {
            let a = term(p, x, 1);
            let a = p.node(kind::NEG, &[a]);
            let b = term(p, y, 1);
            let n = p.node(kind::ADD, &[a, b]);
            compared(p, n, 1);
        });
        let k = [kind::BOOL_AND, kind::BOOL_OR][j % 2];
        two(add, "the first of two formulas before the second", x, y, move |p, x, y| {
            let a = formula_of(p, x);
            let b = formula_of(p, y);
            let n = p.node(k, &[a, b]);
            root(p, n);
        });
        for (first, second) in [(0usize, 1usize), (0, 2), (1, 2)] {
            if (j + first + second) % 3 == 0 {
                continue;
            }
            two(add, &format!("operand {first} of an ite before operand {second}"), x, y, move |p, x, y| {
                let of = |place| {
                    if place == first {
                        x
                    } else if place == second {
                        y
                    } else {
                        0
                    }
                };
                let c = formula_of(p, of(0));
                let a = term(p, of(1), 1);
                let b = term(p, of(2), 1);
                let i = p.node(kind::ITE, &[c, a, b]);
                compared(p, i, 1);
            });
        }
        for (first, second) in [(0, 1), (0, 2), (1, 2)] {
            two(add, &format!("argument {first} of a call before argument {second}"), x, y, move |p, x, y| {
                let args: Vec<u32> = (0..3)
                    .map(|j| {
                        term(
                            p,
                            if j == first {
                                x
                            } else if j == second {
                                y
                            } else {
                                0
                            },
                            1,
                        )
                    })
                    .collect();
                reached_call(p, &args, &[]);
            });
        }
    }
    // printing order: the last pair first, its index before its value, and the select's own index behind all pairs
    let order = [3, 4, 1, 2, 0];
    let what = ["index", "index of pair 0", "value of pair 0", "index of pair 1", "value of pair 1"];
    for i in 0..5 {
        for j in i + 1..5 {
            let (first, second) = (order[i], order[j]);
            for (x, y) in ordered(&[1, 4, 5, 7]).into_iter().filter(|(x, y)| (x + y) % 2 == 1 || i == 0) {
                two(add, &format!("a select's {} before its {}", what[first], what[second]), x, y, move |p, x, y| {
                    select(p, 0, &[(first, x), (second, y)])
                });
            }
        }
    }
}

pub fn of_printer() -> Vec<printer::Case> {
    let mut out = vec![];
    let mut add = |label: &str, problem: Problem, room: Room, want: u32| {
        out.push(printer::Case { label: format!("{want} two faults, {label}"), problem, room, want: Some(want) });
    };
    two_checks(&mut add);
    sort_first(&mut add);
    term_first(&mut add);
    operands(&mut add);
    out
}

// ---------------------------------------------------------------- the width pass

pub fn of_widths() -> Vec<widths::Case> {
    let mut out = vec![];
    let mut add = |label: String, problem: Problem, short: bool, want: u32| {
        let n = problem.count();
        let room = if short { n - 1 } else { n };
        out.push(widths::Case { label: format!("{want} two faults, {label}"), problem, room, want: Some(want) });
    };
    let grown = || {
        let mut p = Problem::default();
        let v = p.node(kind::VAR, &[8]);
        p.bits = vec![1, 0, 1];
        p.node(kind::CONST, &[0, 3]);
        p.node(kind::NEG, &[v]);
        p
    };
    let uneven =
        check("1 of columns")
            .finds_last(1, "index widths", |p| p.index_width.push(32))
            .finds_last(1, "value widths", |p| p.value_width.push(0));
    let checks = [limits(), encodings(), uneven, array_widths(), node_widths()];
    for f in checks.iter().flat_map(|c| &c.faults) {
        let p = with(grown(), &[f]);
        assert!(width_answer(&p, p.count()).number == f.number, "alone it is another number: {}", f.what);
    }
    for (i, a) in checks.iter().enumerate() {
        for b in checks.iter().skip(i + 1) {
            for (x, y) in a.faults.iter().flat_map(|x| b.faults.iter().map(move |y| (x, y))) {
                for o in [[x, y], [y, x]] {
                    let p = with(grown(), &o);
                    add(format!("{} before {}: {}, {}", a.name, b.name, x.what, y.what), p, false, x.number);
                }
            }
        }
        for x in &a.faults {
            add(format!("{} before 10: {}", a.name, x.what), with(grown(), &[x]), true, x.number);
        }
    }
    let refused = node_widths().faults;
    for x in &refused {
        for y in &refused {
            let p = with(grown(), &[x, y]);
            add(format!("an earlier node before a later: {}, {}", x.what, y.what), p, false, 1);
        }
    }
    out
}
