//! Problems for the width pass. Each is made for a purpose, which is its label, with the number that the purpose calls for: the
//! recorder stops where the Rust answers another.
use crate::both;
use crate::problem::{Problem, Rng, is_same_width, kind, operand_count};

pub const SEED: u64 = 20_260_901;

pub struct Case {
    pub label: String,
    pub problem: Problem,
    pub room: usize,
    /// None: whatever the Rust says.
    pub want: Option<u32>,
}

/// Numbers at which 64 bits and 32 bits part ways.
pub const EXTREMES: [u64; 5] = [0, (1 << 32) - 1, 1 << 32, 1 << 63, u64::MAX];

const LAST: u32 = u32::MAX;

/// The context in front of a node under test: fillers, then one node of each width that the rules speak of, and one on each side of
/// it. `at` of a width is the first node that has it; `second` the next.
pub struct Context {
    pub p: Problem,
    shift: u32,
}

const WIDTHS: [u32; 14] = [8, 8, 1, 1, 32, 32, 16, 9, 7, 31, 33, 2, 16, LAST];

impl Context {
    pub fn new(rng: &mut Rng, fillers: u32) -> Context {
        let mut p = Problem::default();
        for _ in 0..fillers {
            p.node(kind::VAR, &[rng.from_to(1, 40) as u32]);
        }
        for w in WIDTHS {
            p.node(kind::VAR, &[w]);
        }
        p.bits = (0..24).map(|_| rng.below(2) as u8).collect();
        Context { p, shift: fillers }
    }
    pub fn of(&self, w: u32) -> u32 {
        self.shift + WIDTHS.iter().position(|x| *x == w).unwrap() as u32
    }
    pub fn second(&self, w: u32) -> u32 {
        self.shift + WIDTHS.iter().rposition(|x| *x == w).unwrap() as u32
    }
    /// The number that the node under test will have.
    pub fn own(&self) -> u32 {
        self.p.count() as u32
    }
    /// A node of 2^64 - 2^32 bits, by 32 doublings, and one of 2^63, by 32 doublings of 2^31.
    pub fn widest(&mut self) -> (u32, u32) {
        let mut a = self.of(LAST);
        for _ in 0..32 {
            a = self.p.node(kind::CONCAT, &[a, a]);
        }
        let mut b = self.p.node(kind::VAR, &[1 << 31]);
        for _ in 0..32 {
            b = self.p.node(kind::CONCAT, &[b, b]);
        }
        (a, b)
    }
}

/// The numbers that are no earlier node: the node itself, the next, the largest.
fn late(own: u32) -> [u32; 3] {
    [own, own + 1, LAST]
}

/// One way a node can be formed: a label, whether it is well formed, and how to add it to a context.
type Way = (String, bool, Box<dyn Fn(&mut Context)>);

fn way(ways: &mut Vec<Way>, label: &str, ok: bool, add: impl Fn(&mut Context) + 'static) {
    ways.push((label.to_string(), ok, Box::new(add)));
}

/// A node whose operands come from the context.
fn plain(ways: &mut Vec<Way>, k: u8, label: &str, ok: bool, operands: impl Fn(&Context) -> Vec<u32> + 'static) {
    way(ways, &format!("kind {k}: {label}"), ok, move |c| {
        let o = operands(c);
        c.p.node(k, &o);
    });
}

/// Every clause of every kind, by each way it can hold or fail.
pub fn ways() -> Vec<Way> {
    let mut w: Vec<Way> = vec![];
    for x in [1, 2, 64, 65_536, LAST] {
        plain(&mut w, kind::VAR, "a width above 0", true, move |_| vec![x]);
    }
    plain(&mut w, kind::VAR, "width 0", false, |_| vec![0]);

    for (s, n) in [(0, 24), (0, 1), (23, 1), (10, 14), (3, 8)] {
        plain(&mut w, kind::CONST, "inside the bits", true, move |_| vec![s, n]);
    }
    for s in [0, 3, 24, 25, LAST] {
        plain(&mut w, kind::CONST, "width 0", false, move |_| vec![s, 0]);
    }
    for (s, n) in [(25, 1), (26, 8), (LAST, 1), (LAST, LAST)] {
        plain(&mut w, kind::CONST, "starts past the bits", false, move |_| vec![s, n]);
    }
    for (s, n) in [(0, 25), (23, 2), (24, 1), (1, 24), (0, LAST), (1, LAST), (24, LAST)] {
        plain(&mut w, kind::CONST, "ends past the bits", false, move |_| vec![s, n]);
    }

    for k in (0..kind::COUNT).filter(|k| is_same_width(*k)) {
        plain(&mut w, k, "two operands of one width", true, |c| vec![c.of(8), c.second(8)]);
        plain(&mut w, k, "one operand twice", true, |c| vec![c.of(LAST), c.of(LAST)]);
        plain(&mut w, k, "two Bools or bits", true, |c| vec![c.of(1), c.second(1)]);
        for i in 0..3 {
            plain(&mut w, k, "first operand no lower node", false, move |c| vec![late(c.own())[i], c.of(8)]);
            plain(&mut w, k, "second operand no lower node", false, move |c| vec![c.of(8), late(c.own())[i]]);
        }
        for (a, b) in [(8, 9), (8, 7), (7, 8), (16, 8), (1, 32), (LAST, 1)] {
            plain(&mut w, k, "operands of two widths", false, move |c| vec![c.of(a), c.of(b)]);
        }
    }

    for (hi, lo) in [(7, 0), (7, 7), (0, 0), (5, 3)] {
        plain(&mut w, kind::EXTRACT, "inside its operand", true, move |c| vec![hi, lo, c.of(8)]);
    }
    plain(&mut w, kind::EXTRACT, "inside its operand", true, |c| vec![LAST - 1, 0, c.of(LAST)]);
    plain(&mut w, kind::EXTRACT, "inside its operand", true, |c| vec![0, 0, c.of(1)]);
    for i in 0..3 {
        plain(&mut w, kind::EXTRACT, "operand no lower node", false, move |c| vec![7, 0, late(c.own())[i]]);
    }
    for (hi, lo) in [(3, 4), (0, 1), (7, 8), (0, LAST), (6, LAST)] {
        plain(&mut w, kind::EXTRACT, "low index above high", false, move |c| vec![hi, lo, c.of(8)]);
    }
    for (hi, lo) in [(8, 0), (8, 8), (9, 2), (LAST, 0), (LAST, LAST)] {
        plain(&mut w, kind::EXTRACT, "high index at or past the width", false, move |c| vec![hi, lo, c.of(8)]);
    }
    plain(&mut w, kind::EXTRACT, "high index at or past the width", false, |c| vec![LAST, 0, c.of(LAST)]);
    way(&mut w, "kind 14: inside an operand above 2^32", true, |c| {
        let (a, _) = c.widest();
        c.p.node(kind::EXTRACT, &[LAST, 0, a]);
    });

    plain(&mut w, kind::CONCAT, "a sum of 64 bits", true, |c| vec![c.of(8), c.of(16)]);
    plain(&mut w, kind::CONCAT, "a sum of 64 bits", true, |c| vec![c.of(LAST), c.of(LAST)]);
    for i in 0..3 {
        plain(&mut w, kind::CONCAT, "first operand no lower node", false, move |c| vec![late(c.own())[i], c.of(8)]);
        plain(&mut w, kind::CONCAT, "second operand no lower node", false, move |c| vec![c.of(8), late(c.own())[i]]);
    }
    for first in [true, false] {
        let pair = move |a, b| if first { [a, b] } else { [b, a] };
        way(&mut w, "kind 15: a sum of 2^64 - 1", true, move |c| {
            let (a, _) = c.widest();
            let b = c.of(LAST);
            c.p.node(kind::CONCAT, &pair(a, b));
        });
        way(&mut w, "kind 15: a sum of 2^64", false, move |c| {
            let (a, _) = c.widest();
            let b = c.of(LAST);
            let b = c.p.node(kind::ZERO_EXT, &[b, 1]);
            c.p.node(kind::CONCAT, &pair(a, b));
        });
        way(&mut w, "kind 15: a sum past 2^64", false, move |c| {
            let (a, b) = c.widest();
            c.p.node(kind::CONCAT, &pair(a, b));
        });
        way(&mut w, "kind 15: a sum just below 2^64", true, move |c| {
            let (a, _) = c.widest();
            let b = c.of(8);
            c.p.node(kind::CONCAT, &pair(a, b));
        });
    }
    way(&mut w, "kind 15: a sum of 2^64 by 33 doublings", false, |c| {
        let (_, b) = c.widest();
        c.p.node(kind::CONCAT, &[b, b]);
    });
    way(&mut w, "kind 15: a sum past 2^64", false, |c| {
        let (a, _) = c.widest();
        c.p.node(kind::CONCAT, &[a, a]);
    });

    for k in [kind::ZERO_EXT, kind::SIGN_EXT] {
        for by in [0, 1, 24, LAST] {
            plain(&mut w, k, "a sum of 64 bits", true, move |c| vec![c.of(8), by]);
            plain(&mut w, k, "a sum of 64 bits", true, move |c| vec![c.of(LAST), by]);
        }
        for i in 0..3 {
            plain(&mut w, k, "operand no lower node", false, move |c| vec![late(c.own())[i], 1]);
        }
        for by in [0, 1, LAST - 1, LAST] {
            way(&mut w, &format!("kind {k}: a sum up to 2^64 - 1"), true, move |c| {
                let (a, _) = c.widest();
                c.p.node(k, &[a, by]);
            });
        }
        for by in [1, LAST] {
            way(&mut w, &format!("kind {k}: a sum of 2^64 or past it"), false, move |c| {
                let (a, _) = c.widest();
                let a = c.p.node(kind::ZERO_EXT, &[a, LAST]);
                c.p.node(k, &[a, by]);
            });
        }
        way(&mut w, &format!("kind {k}: a sum of 2^64"), false, move |c| {
            let (a, _) = c.widest();
            let a = c.p.node(kind::ZERO_EXT, &[a, 1]);
            c.p.node(k, &[a, LAST]);
        });
        way(&mut w, &format!("kind {k}: by 0 at 2^64 - 1"), true, move |c| {
            let (a, _) = c.widest();
            let a = c.p.node(kind::SIGN_EXT, &[a, LAST]);
            c.p.node(k, &[a, 0]);
        });
    }

    plain(&mut w, kind::ITE, "a bit, and two of one width", true, |c| vec![c.of(1), c.of(8), c.second(8)]);
    plain(&mut w, kind::ITE, "a bit, and two of one width", true, |c| vec![c.of(1), c.second(1), c.of(1)]);
    plain(&mut w, kind::ITE, "a bit, and two of one width", true, |c| vec![c.second(1), c.of(LAST), c.of(LAST)]);
    for i in 0..3 {
        plain(&mut w, kind::ITE, "condition no lower node", false, move |c| vec![late(c.own())[i], c.of(8), c.of(8)]);
        plain(&mut w, kind::ITE, "second operand no lower node", false, move |c| vec![c.of(1), late(c.own())[i], c.of(8)]);
        plain(&mut w, kind::ITE, "third operand no lower node", false, move |c| vec![c.of(1), c.of(8), late(c.own())[i]]);
    }
    for x in [2, 8, 32, LAST] {
        plain(&mut w, kind::ITE, "condition of another width than 1", false, move |c| vec![c.of(x), c.of(8), c.of(8)]);
    }
    for (a, b) in [(8, 9), (9, 8), (1, 8), (8, 1)] {
        plain(&mut w, kind::ITE, "arms of two widths", false, move |c| vec![c.of(1), c.of(a), c.of(b)]);
    }

    plain(&mut w, kind::NOT, "a bit", true, |c| vec![c.of(1)]);
    for i in 0..3 {
        plain(&mut w, kind::NOT, "operand no lower node", false, move |c| vec![late(c.own())[i]]);
        plain(&mut w, kind::BV_NOT, "operand no lower node", false, move |c| vec![late(c.own())[i]]);
        plain(&mut w, kind::NEG, "operand no lower node", false, move |c| vec![late(c.own())[i]]);
    }
    for x in [2, 8, 32, LAST] {
        plain(&mut w, kind::NOT, "operand of another width than 1", false, move |c| vec![c.of(x)]);
    }
    for x in [1, 8, 33, LAST] {
        plain(&mut w, kind::BV_NOT, "a lower node", true, move |c| vec![c.of(x)]);
        plain(&mut w, kind::NEG, "a lower node", true, move |c| vec![c.of(x)]);
    }
    for k in [kind::BOOL_AND, kind::BOOL_OR] {
        plain(&mut w, k, "two bits", true, |c| vec![c.of(1), c.second(1)]);
        plain(&mut w, k, "two bits", true, |c| vec![c.of(1), c.of(1)]);
        for i in 0..3 {
            plain(&mut w, k, "first operand no lower node", false, move |c| vec![late(c.own())[i], c.of(1)]);
            plain(&mut w, k, "second operand no lower node", false, move |c| vec![c.of(1), late(c.own())[i]]);
        }
        for x in [2, 8, LAST] {
            plain(&mut w, k, "first operand of another width than 1", false, move |c| vec![c.of(x), c.of(1)]);
            plain(&mut w, k, "second operand of another width than 1", false, move |c| vec![c.of(1), c.of(x)]);
            plain(&mut w, k, "both operands of another width than 1", false, move |c| vec![c.of(x), c.of(x)]);
        }
    }
    selects(&mut w);
    calls(&mut w);
    w
}

fn selects(w: &mut Vec<Way>) {
    let k = kind::SELECT;
    for array in [0, 1, 9, LAST] {
        plain(w, k, "no stores", true, move |c| vec![array, c.of(32), 0, 0]);
    }
    for start in [1, 7, LAST] {
        plain(w, k, "no stores, start past the side entries", true, move |c| vec![0, c.of(32), start, 0]);
    }
    for i in 0..3 {
        plain(w, k, "index no lower node", false, move |c| vec![0, late(c.own())[i], 0, 0]);
    }
    for x in [1, 8, 31, 33, LAST] {
        plain(w, k, "index of another width than 32", false, move |c| vec![0, c.of(x), 0, 0]);
    }
    // pairs stores from start on, after so many entries that no node reads
    let stored =
        |w: &mut Vec<Way>, label: &str, ok: bool, start: u32, pairs: u32, n: u32, change: fn(&Context, &mut Vec<u64>)| {
            way(w, &format!("kind 37: {label}"), ok, move |c| {
                let mut side: Vec<u64> = vec![u64::MAX; start as usize];
                for j in 0..pairs {
                    side.push(if j % 2 == 0 { c.of(32) } else { c.second(32) } as u64);
                    side.push(if j % 2 == 0 { c.of(8) } else { c.second(8) } as u64);
                }
                change(c, &mut side);
                c.p.side = side;
                let i = c.of(32);
                c.p.node(kind::SELECT, &[0, i, start, n]);
            });
        };
    for start in [0, 1, 6] {
        for pairs in [1, 2, 5] {
            stored(w, "stores", true, start, pairs, pairs, |_, _| {});
            stored(w, "stores, with an entry left over", true, start, pairs, pairs, |_, s| s.push(u64::MAX));
            stored(w, "a store past the side entries", false, start, pairs, pairs + 1, |_, _| {});
            stored(w, "half a store at the end of the side entries", false, start, pairs, pairs, |_, s| {
                s.pop();
            });
            stored(w, "a store's index no lower node", false, start, pairs, pairs, |c, s| {
                let n = s.len();
                s[n - 2] = c.own() as u64;
            });
            stored(w, "a store's value no lower node", false, start, pairs, pairs, |c, s| {
                let n = s.len();
                s[n - 1] = c.own() as u64;
            });
            stored(w, "a store's index of width 8", false, start, pairs, pairs, |c, s| {
                let n = s.len();
                s[n - 2] = c.of(8) as u64;
            });
            stored(w, "a store's value of width 32", false, start, pairs, pairs, |c, s| {
                let n = s.len();
                s[n - 1] = c.of(32) as u64;
            });
            stored(w, "a store's index of width 33", false, start, pairs, pairs, |c, s| {
                let n = s.len();
                s[n - 2] = c.of(33) as u64;
            });
            stored(w, "a store's value of width 9", false, start, pairs, pairs, |c, s| {
                let n = s.len();
                s[n - 1] = c.of(9) as u64;
            });
        }
    }
    stored(w, "the first store's value of width 7, the last is fine", false, 0, 4, 4, |c, s| s[1] = c.of(7) as u64);
    stored(w, "the first store's index of width 31, the last is fine", false, 2, 4, 4, |c, s| s[2] = c.of(31) as u64);
    for n in [1, 2, LAST / 2, LAST] {
        plain(w, k, "stores without side entries", false, move |c| vec![0, c.of(32), 0, n]);
        plain(w, k, "stores from the largest start", false, move |c| vec![0, c.of(32), LAST, n]);
    }
    for (e, x) in EXTREMES.into_iter().enumerate() {
        // node 0 is a filler or has width 8, so an index of 0 is refused too
        for place in 0..2usize {
            way(w, &format!("kind 37: a store's {} is 64-bit extreme {e}", ["index", "value"][place]), false, move |c| {
                let mut side = vec![c.of(32) as u64, c.of(8) as u64];
                side[place] = if e == 0 { [c.of(16), c.of(9)][place] as u64 } else { x };
                c.p.side = side;
                let i = c.of(32);
                c.p.node(kind::SELECT, &[0, i, 0, 1]);
            });
        }
    }
    for high in [1u64 << 32, 1 << 63, u64::MAX << 32] {
        for place in 0..2usize {
            way(w, "kind 37: a store's number is right in its low 32 bits alone", false, move |c| {
                let mut side = vec![c.of(32) as u64, c.of(8) as u64];
                side[place] += high;
                c.p.side = side;
                let i = c.of(32);
                c.p.node(kind::SELECT, &[0, i, 0, 1]);
            });
        }
    }
    way(w, "kind 37: store's value of node 0", true, |c| {
        let mut p = Problem::default();
        p.node(kind::VAR, &[8]);
        let i = p.node(kind::VAR, &[32]);
        p.side = vec![i as u64, 0];
        p.node(kind::SELECT, &[0, i, 0, 1]);
        c.p = p;
    });
    way(w, "kind 37: store's index of node 0", true, |c| {
        let mut p = Problem::default();
        p.node(kind::VAR, &[32]);
        let v = p.node(kind::VAR, &[8]);
        p.side = vec![0, v as u64];
        p.node(kind::SELECT, &[0, 0, 0, 1]);
        c.p = p;
    });
    // two selects over the same stores, and one in the other's stores
    way(w, "kind 37: stores read twice, and a select as a value", true, |c| {
        c.p.side = vec![c.of(32) as u64, c.of(8) as u64];
        let i = c.of(32);
        let a = c.p.node(kind::SELECT, &[0, i, 0, 1]);
        c.p.side.extend([c.second(32) as u64, a as u64]);
        c.p.node(kind::SELECT, &[1, i, 0, 2]);
    });
}

fn calls(w: &mut Vec<Way>) {
    let k = kind::CALL;
    for (f, width) in [(0, 1), (3, 8), (LAST, LAST)] {
        plain(w, k, "no arguments", true, move |_| vec![f, width, 0, 0]);
        plain(w, k, "no arguments, start past the side entries", true, move |_| vec![f, width, 1, 0]);
        plain(w, k, "no arguments, start past the side entries", true, move |_| vec![f, width, LAST, 0]);
        plain(w, k, "width 0", false, move |_| vec![f, 0, 0, 0]);
        for n in [1, 2, LAST] {
            plain(w, k, "arguments without side entries", false, move |_| vec![f, width, 0, n]);
            plain(w, k, "arguments from the largest start", false, move |_| vec![f, width, LAST, n]);
        }
    }
    let called = |w: &mut Vec<Way>,
                  label: &str,
                  ok: bool,
                  width: u32,
                  start: u32,
                  args: u32,
                  n: u32,
                  change: fn(&Context, &mut Vec<u64>)| {
        way(w, &format!("kind 38: {label}"), ok, move |c| {
            let mut side: Vec<u64> = vec![u64::MAX; start as usize];
            for j in 0..args {
                side.push(((c.own() - 1) - j % 7) as u64);
            }
            change(c, &mut side);
            c.p.side = side;
            c.p.node(kind::CALL, &[0, width, start, n]);
        });
    };
    for start in [0, 1, 5] {
        for args in [1, 2, 9] {
            called(w, "arguments", true, 8, start, args, args, |_, _| {});
            called(w, "arguments, with entries left over", true, 1, start, args, args, |_, s| s.extend([0, u64::MAX]));
            called(w, "arguments, width 0", false, 0, start, args, args, |_, _| {});
            called(w, "an argument past the side entries", false, 8, start, args, args + 1, |_, _| {});
            called(w, "an argument that is the call itself", false, 8, start, args, args, |c, s| {
                let n = s.len();
                s[n - 1] = c.own() as u64;
            });
            called(w, "an argument that is a later node", false, 8, start, args, args, |c, s| {
                let n = s.len();
                s[n - 1] = c.own() as u64 + 1;
            });
        }
    }
    called(w, "the first of several arguments is no lower node", false, 8, 0, 6, 6, |c, s| s[0] = c.own() as u64);
    for (e, x) in EXTREMES.into_iter().enumerate() {
        for place in [0usize, 2] {
            way(w, &format!("kind 38: an argument is 64-bit extreme {e}"), e == 0, move |c| {
                let mut side = vec![0, 1, 2];
                side[place] = x;
                c.p.side = side;
                c.p.node(kind::CALL, &[0, 8, 0, 3]);
            });
        }
    }
    for high in [1u64 << 32, 1 << 63, u64::MAX << 32] {
        way(w, "kind 38: an argument is right in its low 32 bits alone", false, move |c| {
            c.p.side = vec![0, high + 1];
            c.p.node(kind::CALL, &[0, 8, 0, 2]);
        });
    }
    way(w, "kind 38: arguments read twice, and a call as an argument", true, |c| {
        c.p.side = vec![c.of(32) as u64, c.of(8) as u64];
        let a = c.p.node(kind::CALL, &[0, 8, 0, 2]);
        c.p.side.push(a as u64);
        c.p.node(kind::CALL, &[1, 5, 0, 3]);
    });
}

/// A well-formed node over what is there, of any kind.
pub fn grow(p: &mut Problem, ws: &mut Vec<u64>, rng: &mut Rng) {
    let n = ws.len() as u64;
    for _ in 0..60 {
        let k = rng.below(kind::COUNT as u64) as u8;
        let a = if n == 0 { 0 } else { rng.below(n) };
        let same: Vec<u64> = (0..n).filter(|i| ws[*i as usize] == ws[a as usize]).collect();
        let bits: Vec<u64> = (0..n).filter(|i| ws[*i as usize] == 1).collect();
        let b = if n == 0 { 0 } else { rng.below(n) };
        if n == 0 && k > kind::CONST && k != kind::CALL {
            continue;
        }
        let (o, w): ([u64; 4], u64) = match k {
            kind::VAR => {
                let w = if rng.one_in(20) {
                    rng.pick(&[LAST as u64, 1 << 31, 65_536])
                } else {
                    rng.pick(&[1, 1, 8, 8, 32, 32, 16, 64, 3])
                };
                ([w, 0, 0, 0], w)
            }
            kind::CONST => {
                let m = p.bits.len() as u64;
                if m == 0 {
                    continue;
                }
                let s = rng.below(m);
                let w = rng.from_to(1, m - s);
                ([s, w, 0, 0], w)
            }
            k if is_same_width(k) => {
                let b = rng.pick(&same);
                ([a, b, 0, 0], if (kind::EQ..=kind::SGE).contains(&k) { 1 } else { ws[a as usize] })
            }
            kind::EXTRACT => {
                let top = ws[a as usize].min(1 << 32) - 1;
                let hi = rng.from_to(0, top);
                let lo = rng.from_to(0, hi);
                ([hi, lo, a, 0], hi - lo + 1)
            }
            kind::CONCAT => match ws[a as usize].checked_add(ws[b as usize]) {
                Some(w) => ([a, b, 0, 0], w),
                None => continue,
            },
            kind::ZERO_EXT | kind::SIGN_EXT => {
                let by = if rng.one_in(20) { LAST as u64 } else { rng.below(33) };
                match ws[a as usize].checked_add(by) {
                    Some(w) => ([a, by, 0, 0], w),
                    None => continue,
                }
            }
            kind::ITE => {
                if bits.is_empty() {
                    continue;
                }
                ([rng.pick(&bits), a, rng.pick(&same), 0], ws[a as usize])
            }
            kind::NOT | kind::BOOL_AND | kind::BOOL_OR => {
                if bits.is_empty() {
                    continue;
                }
                let b = if k == kind::NOT { 0 } else { rng.pick(&bits) };
                ([rng.pick(&bits), b, 0, 0], 1)
            }
            kind::BV_NOT | kind::NEG => ([a, 0, 0, 0], ws[a as usize]),
            kind::SELECT => {
                let words: Vec<u64> = (0..n).filter(|i| ws[*i as usize] == 32).collect();
                let bytes: Vec<u64> = (0..n).filter(|i| ws[*i as usize] == 8).collect();
                if words.is_empty() {
                    continue;
                }
                let stores = if bytes.is_empty() { 0 } else { rng.below(4) };
                let s = p.side.len() as u64;
                for _ in 0..stores {
                    p.side.push(rng.pick(&words));
                    p.side.push(rng.pick(&bytes));
                }
                ([rng.below(3), rng.pick(&words), s, stores], 8)
            }
            _ => {
                let args = if n == 0 { 0 } else { rng.below(5) };
                let s = p.side.len() as u64;
                for _ in 0..args {
                    p.side.push(rng.below(n));
                }
                let w = rng.pick(&[1, 8, 32, 7]);
                ([rng.below(3), w, s, args], w)
            }
        };
        p.node(k, &o.map(|x| x as u32)[..operand_count(k)]);
        ws.push(w);
        return;
    }
    p.node(kind::VAR, &[8]);
    ws.push(8);
}

fn grown(rng: &mut Rng, n: usize) -> Problem {
    let mut p = Problem::default();
    p.bits = (0..rng.below(40)).map(|_| rng.below(2) as u8).collect();
    let mut ws = vec![];
    for _ in 0..n {
        grow(&mut p, &mut ws, rng);
    }
    p
}

fn rooms(rng: &mut Rng, n: usize, turn: usize) -> usize {
    match turn % 5 {
        0 => n,
        1 => n.saturating_sub(1),
        2 => n + 1,
        3 => n + 2 + rng.below(30) as usize,
        _ => 0,
    }
}

pub fn all() -> Vec<Case> {
    let mut rng = Rng(SEED);
    let mut out: Vec<Case> = vec![];
    let mut add = |label: &str, problem: Problem, room: usize, want: Option<u32>| {
        out.push(Case { label: label.to_string(), problem, room, want });
    };

    // the example of the findings: a refused node is told before the want of room
    let mut p = Problem::default();
    p.node(kind::VAR, &[8]);
    p.node(kind::NOT, &[0]);
    add("refused node and no room", p, 0, Some(1));
    for room in [0, 1, 5] {
        add("nothing at all", Problem::default(), room, Some(0));
    }

    // each way of each clause, alone and between other nodes
    for (j, (label, ok, form)) in ways().iter().enumerate() {
        for round in 0..2usize {
            let mut c = Context::new(&mut rng, if round == 0 { 0 } else { j as u32 % 9 });
            form(&mut c);
            let mut p = c.p;
            if round == 1 && !*ok {
                // a later node that is refused too, or is well formed: the first decides
                p.node(kind::VAR, &[rng.below(2) as u32]);
            }
            let n = p.count();
            let room = rooms(&mut rng, n, if round == 0 { 0 } else { 1 + j % 4 });
            let want = if !*ok {
                1
            } else if n > room {
                10
            } else {
                0
            };
            add(&format!("{} {label}", if *ok { "+" } else { "1" }), p, room, Some(want));
        }
    }

    // rooms
    for n in [1usize, 2, 3, 17, 60, 200] {
        for room in [0, n - 1, n, n + 1, n + 7] {
            let p = grown(&mut rng, n);
            add(&format!("room: {} nodes", n), p, room, Some(if n > room { 10 } else { 0 }));
        }
    }

    damage(&mut rng, &mut add);
    limits(&mut add);

    // grown problems, whole
    for turn in 0..260usize {
        let n = match turn % 13 {
            12 => 300,
            t => rng.from_to(1, 6 + 4 * t as u64) as usize,
        };
        let p = grown(&mut rng, n);
        let room = rooms(&mut rng, n, if turn % 3 == 0 { turn / 3 } else { 2 });
        add("grown", p, room, Some(if n > room { 10 } else { 0 }));
    }
    // and with one number changed somewhere
    for turn in 0..420usize {
        let n = rng.from_to(1, 40) as usize;
        let mut p = grown(&mut rng, n);
        let i = rng.below(n as u64) as usize;
        if rng.one_in(4) && !p.side.is_empty() {
            let at = rng.below(p.side.len() as u64) as usize;
            p.side[at] = rng.pick(&[0, 1, n as u64 - 1, n as u64, 1 << 32, u64::MAX, (1 << 32) + p.side[at]]);
        } else {
            let k = rng.below(operand_count(p.kind_of(i)) as u64) as usize;
            let x = p.operand(i, k);
            p.set_operand(i, k, rng.pick(&[0, 1, i as u32, x.wrapping_add(1), x.wrapping_sub(1), LAST, x ^ 8]));
        }
        let room = rooms(&mut rng, n, turn);
        add("grown, a number changed", p, room, None);
    }
    // bytes changed: 8, 1 or an acceptance
    for turn in 0..200usize {
        let n = rng.from_to(1, 20) as usize;
        let mut p = grown(&mut rng, n);
        for _ in 0..rng.from_to(1, 3) {
            let at = rng.below(p.nodes.len() as u64) as usize;
            p.nodes[at] = rng.pick(&[0, 1, 2, 15, 37, 38, 39, 128, 255]);
        }
        let room = rooms(&mut rng, n, turn);
        add("grown, bytes changed", p, room, None);
    }
    out.extend(both::of_widths());
    out
}

fn damage(rng: &mut Rng, add: &mut impl FnMut(&str, Problem, usize, Option<u32>)) {
    let mut turn = 0usize;
    let mut put = |rng: &mut Rng, label: &str, p: Problem, want: u32| {
        turn += 1;
        let room = rooms(rng, p.count(), turn);
        add(label, p, room, Some(want));
    };
    // bytes that are no whole record
    for extra in 1..17 {
        for n in [0usize, 2, 9] {
            let mut p = grown(rng, n);
            p.nodes.extend(vec![0u8; extra]);
            put(rng, "8 bytes left over", p, 8);
        }
    }
    // unknown kinds, first, in the middle and last, with the operands of none
    for k in [39u8, 40, 64, 127, 128, 200, 254, 255] {
        for (n, at) in [(1, 0), (5, 0), (5, 2), (5, 4)] {
            let mut p = grown(rng, n);
            p.nodes[17 * at] = k;
            put(rng, "8 unknown kind", p, 8);
        }
    }
    // an unused operand that is not 0, in each of its bytes
    for k in 0..kind::COUNT {
        for j in operand_count(k)..4 {
            for byte in 0..4usize {
                let mut c = Context::new(rng, 0);
                let o = sound(&c, k);
                c.p.node(k, &o[..operand_count(k)]);
                let at = c.p.nodes.len() - 17 + 1 + 4 * j + byte;
                c.p.nodes[at] = rng.pick(&[1, 128, 255]);
                put(rng, &format!("8 unused operand of kind {k}"), c.p, 8);
            }
        }
    }
    // bits
    for b in [2u8, 3, 128, 254, 255] {
        for (m, at) in [(1usize, 0usize), (9, 0), (9, 4), (9, 8), (300, 299)] {
            let mut p = grown(rng, 3);
            p.bits = vec![1; m.max(p.bits.len())];
            p.bits[at] = b;
            put(rng, "8 a bit that is not 0 or 1", p, 8);
        }
        let mut p = Problem::default();
        p.bits = vec![b];
        put(rng, "8 a bit that is not 0 or 1, no node", p, 8);
    }
    // 8 before 1, whichever node comes first
    for late in [true, false] {
        for form in 0..6 {
            let mut p = grown(rng, 4);
            let bad = |p: &mut Problem| {
                p.node(kind::VAR, &[0]);
            };
            if !late {
                bad(&mut p);
            }
            match form {
                0 => {
                    p.node(kind::COUNT, &[]);
                }
                1 => {
                    p.node(kind::VAR, &[8, 0, 0, 1]);
                }
                2 => p.bits.push(2),
                3 => {
                    p.node(kind::NOT, &[LAST, 1]);
                }
                4 => {
                    p.node(255, &[LAST, LAST, LAST, LAST]);
                }
                _ => p.bits.insert(0, 255),
            }
            if late {
                bad(&mut p);
            }
            put(rng, "8 with a refused node", p.clone(), 8);
            p.nodes.pop();
            put(rng, "8 with a refused node and bytes left over", p, 8);
        }
    }
}

/// Operands with which a node of the kind is well formed in a context.
fn sound(c: &Context, k: u8) -> [u32; 4] {
    match k {
        kind::VAR => [8, 0, 0, 0],
        kind::CONST => [0, 8, 0, 0],
        kind::EXTRACT => [3, 1, c.of(8), 0],
        kind::ITE => [c.of(1), c.of(8), c.of(8), 0],
        kind::NOT | kind::BV_NOT | kind::NEG => [c.of(1), 0, 0, 0],
        kind::BOOL_AND | kind::BOOL_OR => [c.of(1), c.of(1), 0, 0],
        kind::SELECT => [0, c.of(32), 0, 0],
        kind::CALL => [0, 8, 0, 0],
        kind::ZERO_EXT | kind::SIGN_EXT => [c.of(8), 3, 0, 0],
        _ => [c.of(8), c.of(8), 0, 0],
    }
}

fn limits(add: &mut impl FnMut(&str, Problem, usize, Option<u32>)) {
    let chain = |n: usize| {
        let mut p = Problem::default();
        p.node(kind::VAR, &[8]);
        for i in 1..n {
            p.node(kind::BV_NOT, &[i as u32 - 1]);
        }
        p
    };
    for room in [2_048, 2_047, 2_049, 0, 2_060] {
        add("2,048 nodes", chain(2_048), room, Some(if room < 2_048 { 10 } else { 0 }));
    }
    add("2,047 nodes", chain(2_047), 2_047, Some(0));
    for room in [2_049, 2_048, 0] {
        add("9 2,049 nodes", chain(2_049), room, Some(9));
    }
    let mut p = chain(2_048);
    p.nodes.push(0);
    add("9 node bytes one past, no whole record", p, 2_048, Some(9));
    let mut p = chain(2_048);
    p.nodes.pop();
    add("8 node bytes one short", p, 2_048, Some(8));
    let mut p = chain(2_048);
    p.set_operand(2_047, 0, 2_047);
    add("1 the last of 2,048 nodes", p, 2_048, Some(1));
    let mut p = chain(2_048);
    p.set_operand(0, 0, 0);
    add("1 the first of 2,048 nodes", p, 2_048, Some(1));
    let mut p = chain(2_048);
    p.nodes[17 * 2_047] = 39;
    add("8 the last of 2,048 nodes", p, 2_048, Some(8));
    let mut p = chain(2_049);
    p.nodes[0] = 39;
    add("9 before 8: nodes", p, 3, Some(9));

    let bits = |m: usize, s: u32, n: u32| {
        let mut p = Problem::default();
        p.bits = (0..m).map(|i| (i % 3 == 0) as u8).collect();
        p.node(kind::CONST, &[s, n]);
        p
    };
    for (s, n, want) in
        [(0, 131_072, 0), (131_071, 1, 0), (131_072, 1, 1), (1, 131_072, 1), (0, 131_073, 1), (131_072, 0, 1), (131_073, 1, 1)]
    {
        add("131,072 bits", bits(131_072, s, n), 1, Some(want));
    }
    add("131,072 bits, no room", bits(131_072, 0, 131_072), 0, Some(10));
    add("9 131,073 bits", bits(131_073, 0, 131_072), 1, Some(9));
    add("9 131,073 bits", bits(131_073, 131_072, 1), 0, Some(9));
    let mut p = bits(131_073, 0, 8);
    p.bits[131_072] = 2;
    add("9 before 8: bits", p, 1, Some(9));
    let mut p = bits(131_072, 0, 8);
    p.bits[131_071] = 2;
    add("8 the last of 131,072 bits", p, 1, Some(8));

    let side = |m: usize, k: u8, n: u32| {
        let mut p = Problem::default();
        p.node(kind::VAR, &[32]);
        p.node(kind::VAR, &[8]);
        p.side = (0..m).map(|i| i as u64 % 2).collect();
        p.node(k, &[0, if k == kind::CALL { 8 } else { 0 }, 0, n]);
        p
    };
    for (k, n, want) in [(kind::CALL, 8_192, 0), (kind::CALL, 8_193, 1), (kind::SELECT, 4_096, 0), (kind::SELECT, 4_097, 1)] {
        add("8,192 side entries", side(8_192, k, n), 3, Some(want));
        add("9 8,193 side entries", side(8_193, k, n), 3, Some(9));
        add("8,191 side entries", side(8_191, k, n), 4, Some(1));
        add("8,191 side entries", side(8_191, k, n - 2), 4, Some(0));
    }
    let mut p = side(8_192, kind::CALL, 8_192);
    p.side[8_191] = 2;
    add("1 the last of 8,192 side entries", p, 3, Some(1));
    let mut p = side(8_193, kind::CALL, 1);
    p.bits = vec![2];
    add("9 before 8: side entries", p, 3, Some(9));
    let mut p = side(8_193, kind::CALL, 1);
    p.node(kind::VAR, &[0]);
    add("9 before 1", p, 3, Some(9));
    let mut p = Problem::default();
    p.side = vec![0; 8_193];
    add("9 side entries, no node", p, 0, Some(9));
    let mut p = Problem::default();
    p.side = vec![u64::MAX; 8_192];
    add("8,192 side entries, no node", p, 0, Some(0));
}
