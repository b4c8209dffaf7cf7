//! Scripts for the model of reading them back (reads.rs), with how much is lent. Each has a label, and mostly the number that it was made for.
use crate::added;
use crate::arrays;
use crate::fewest_problems;
use crate::formulas_problems;
use crate::hidden;
use crate::hidden_problems;
use crate::lets;
use crate::lets_problems;
use crate::printer;
use crate::problem::{Problem, Rng, kind};
use crate::reads::{Lengths, Read, lengths, read, with_room};
use crate::traces_problems;
use crate::trees;
use crate::words;
use std::collections::HashSet;

pub const SEED: u64 = 20_261_118;

/// How much is lent. Of a refusal the result's lengths are not known, and a few elements of each output are lent.
#[derive(Clone, Copy, PartialEq)]
pub enum Lent {
    Exact,
    /// so many more of each
    Longer(usize),
    /// of one output one less, or one more
    Short(usize),
    OneMore(usize),
    /// of one output nothing
    Without(usize),
    /// of all outputs one less, as far as they have any
    AllShort,
    Nothing,
    /// as much as a problem can have
    Whole,
}

pub struct Case {
    pub label: String,
    pub script: Vec<u8>,
    pub lent: Lent,
    pub want: Option<u32>,
}

struct Cases(Vec<Case>);

impl Cases {
    fn one(&mut self, label: &str, script: impl AsRef<[u8]>, lent: Lent, want: Option<u32>) {
        self.0.push(Case { label: label.to_string(), script: script.as_ref().to_vec(), lent, want });
    }
    fn exact(&mut self, label: &str, script: impl AsRef<[u8]>, want: u32) {
        self.one(label, script, Lent::Exact, Some(want));
    }
}

/// The most elements of each output.
const WHOLE: Lengths =
    [34_816, 131_072, 8_192, 256, 16_384, 512, 512, 512, 512, 16_384, 512, 512, 512, 512, 16_384, 512, 512, 512];

/// How many elements of an output are lent for a refusal.
fn few(k: usize) -> usize {
    3 + k % 4
}

pub fn room(r: &Read, lent: Lent) -> Lengths {
    let known = lengths(&r.problem);
    std::array::from_fn(|k| {
        let n = if r.number == 0 { known[k] } else { few(k) };
        match lent {
            Lent::Exact => n,
            Lent::Longer(more) => n + more,
            Lent::Short(j) => n - (j == k && n > 0) as usize,
            Lent::OneMore(j) => n + (j == k) as usize,
            Lent::Without(j) => n * (j != k) as usize,
            Lent::AllShort => n.saturating_sub(1),
            Lent::Nothing => 0,
            Lent::Whole => WHOLE[k],
        }
    })
}

pub fn answer(c: &Case) -> (Lengths, Read) {
    let r = read(&c.script);
    let room = room(&r, c.lent);
    (room, with_room(r, &room))
}

// ---------------------------------------------------------------- scripts by hand

/// A script of these declarations and assertions, with the logic that they need.
pub fn script(declared: &[&str], asserted: &[&str]) -> String {
    let any = |s: &str| declared.iter().any(|d| d.contains(s));
    let logic = if any("(declare-fun") {
        "QF_AUFBV"
    } else if any("(Array") {
        "QF_ABV"
    } else {
        "QF_BV"
    };
    let mut out = format!("(set-logic {logic})\n");
    declared.iter().for_each(|d| out += &format!("{d}\n"));
    asserted.iter().for_each(|a| out += &format!("(assert {a})\n"));
    out + "(check-sat)\n"
}

pub fn all_of(lines: &[String]) -> Vec<&str> {
    lines.iter().map(|s| s.as_str()).collect()
}

pub fn variable(name: &str, w: u64) -> String {
    format!("(declare-const |{name}| (_ BitVec {w}))")
}

pub fn array(name: &str, i: u64, v: u64) -> String {
    format!("(declare-const |{name}| (Array (_ BitVec {i}) (_ BitVec {v})))")
}

pub fn function(name: &str, of: &[u64], w: u64) -> String {
    let sorts: Vec<String> = of.iter().map(|w| format!("(_ BitVec {w})")).collect();
    format!("(declare-fun |{name}| ({}) (_ BitVec {w}))", sorts.join(" "))
}

const X8: &str = "(declare-const |x| (_ BitVec 8))";
const Y8: &str = "(declare-const |y| (_ BitVec 8))";
const X2: &str = "(declare-const |x| (_ BitVec 2))";
const F: &str = "(declare-fun |f| ((_ BitVec 8) (_ BitVec 4)) (_ BitVec 8))";
const G: &str = "(declare-fun |g| () (_ BitVec 8))";

/// The smallest, document 01's M2, one with numerals, one with a store, one with calls.
fn bases() -> Vec<String> {
    vec![
        script(&[], &[]),
        script(&[X8], &["(= (bvadd |x| #b00000101) |x|)"]),
        script(&[X2], &["(and (bvult ((_ rotate_left 1) |x|) (concat #b0 #b1)) (not (= |x| ((_ extract 1 0) #b011))))"]),
        script(&[&variable("i", 2), &array("m", 2, 3)], &["(= (select (store |m| |i| #b001) #b10) #b001)"]),
        script(&[&function("f", &[1, 12], 1), &function("g", &[], 1)], &["(= (|f| |g| #b000000000001) |g|)"]),
    ]
}

/// Every output has something.
fn full() -> Vec<String> {
    let (x, m, n, f, g) =
        (variable("x", 8), array("m", 4, 8), array("n n", 4, 8), function("f", &[8, 4], 8), function("g", &[], 8));
    vec![
        script(&[&x, &m, &f, &g], &["(bvuge (|f| |g| #b0001) (select (store |m| #b0010 |x|) #b0011))"]),
        script(&[&x, &m, &n, &f, &g], &[]),
    ]
}

/// That the model places as document 02 says, on scripts whose nodes are written here.
pub fn check_model() {
    let is = |declared: &[&str], asserted: &[&str], nodes: &[(u8, &[u32])], bits: &[u8], side: &[u64], roots: &[u64]| {
        let mut p = Problem::default();
        nodes.iter().for_each(|(k, o)| _ = p.node(*k, o));
        let text = script(declared, asserted);
        let r = read(text.as_bytes());
        assert_eq!(r.number, 0, "{text}");
        let q = &r.problem;
        assert!(q.nodes == p.nodes && q.bits == bits && q.side == side && q.roots == roots, "{text}: {:?} {:?}", q.nodes, q.bits);
    };
    // document 01's M2
    is(
        &[X8],
        &["(= (bvadd |x| #b00000101) |x|)"],
        &[(0, &[8]), (1, &[0, 8]), (2, &[0, 1]), (19, &[2, 0])],
        &[1, 0, 1, 0, 0, 0, 0, 0],
        &[],
        &[3],
    );
    // a constant of an outer term that an inner one uses first, and one that it does not use
    is(
        &[X2],
        &["(= |x| (bvadd #b01 (bvmul |x| #b01)))"],
        &[(0, &[2]), (1, &[0, 2]), (4, &[0, 1]), (2, &[1, 2]), (19, &[0, 3])],
        &[1, 0],
        &[],
        &[4],
    );
    is(
        &[X2],
        &["(= |x| (bvadd #b01 (bvmul |x| #b10)))"],
        &[(0, &[2]), (1, &[0, 2]), (4, &[0, 1]), (1, &[2, 2]), (2, &[3, 2]), (19, &[0, 4])],
        &[0, 1, 1, 0],
        &[],
        &[5],
    );
    // an amount before the operand; the same constant as both
    is(
        &[],
        &["(= ((_ rotate_left 3) #b1110) #b0011)"],
        &[(1, &[0, 4]), (1, &[4, 4]), (34, &[1, 0]), (19, &[2, 0])],
        &[1, 1, 0, 0, 0, 1, 1, 1],
        &[],
        &[3],
    );
    is(
        &[],
        &["(= ((_ rotate_right 1) #b01) #b10)"],
        &[(1, &[0, 2]), (13, &[0, 0]), (1, &[2, 2]), (19, &[1, 2])],
        &[1, 0, 0, 1],
        &[],
        &[3],
    );
    // the innermost store first, an index before its value, the select's own index last; the outermost is pair 0
    is(
        &[&array("m", 2, 3)],
        &["(= (select (store (store |m| #b01 #b001) #b10 #b010) #b11) #b001)"],
        &[(1, &[0, 2]), (1, &[2, 3]), (1, &[5, 2]), (1, &[7, 3]), (1, &[10, 2]), (37, &[0, 4, 0, 2]), (19, &[5, 1])],
        &[1, 0, 1, 0, 0, 0, 1, 0, 1, 0, 1, 1],
        &[2, 3, 0, 1],
        &[6],
    );
    // functions that no assertion calls: zeros in the order of the arguments, equal ones once; then one that is called
    is(
        &[&variable("x", 2), &function("f", &[2, 3, 2], 4), &function("g", &[], 3), &function("h", &[2], 2)],
        &["(= (|h| #b00) |x|)"],
        &[(0, &[2]), (1, &[0, 2]), (1, &[2, 3]), (38, &[0, 4, 0, 3]), (38, &[1, 3, 3, 0]), (38, &[2, 2, 3, 1]), (19, &[5, 0])],
        &[0; 5],
        &[1, 2, 1, 1],
        &[6],
    );
    // an empty list of stores starts at the end so far
    is(
        &[&variable("x", 2), &array("m", 2, 2), &function("f", &[2, 2], 2)],
        &["(= (|f| |x| |x|) (select |m| |x|))"],
        &[(0, &[2]), (38, &[0, 2, 0, 2]), (37, &[0, 0, 2, 0]), (19, &[1, 2])],
        &[],
        &[0, 0],
        &[3],
    );
    // far deeper than those of the list
    let far = format!("(= {}|x|{} |x|)", "(bvnot ".repeat(100_000), ")".repeat(100_000));
    assert_eq!(read(script(&[X8], &[&far]).as_bytes()).number, 9);
    assert_eq!(read(script(&[X8], &[&far[..far.len() - 1]]).as_bytes()).number, 13);
    let p =
        read(script(&[&variable("ab", 3), &variable("c", 4), &array("m", 7, 9), &function("\u{fc}", &[], 5)], &[]).as_bytes())
            .problem;
    assert!(p.names == b"abc" && p.name_start == [0, 2] && p.name_len == [2, 1] && p.var_node == [0, 1] && p.var_width == [3, 4]);
    assert!(p.anames == b"m" && p.aname_start == [0] && p.aname_len == [1] && p.index_width == [7] && p.value_width == [9]);
    assert!(p.fnames == [0xc3, 0xbc] && p.fname_start == [0] && p.fname_len == [2] && p.func_width == [5]);
}

// ---------------------------------------------------------------- recorded problems

/// The scripts of the problems of the other lists, each once: what the plain printer accepts.
fn recorded() -> Vec<(String, Vec<u8>)> {
    let mut problems: Vec<(&str, Problem)> = vec![];
    problems.extend(printer::all().into_iter().chain(arrays::of_printer()).map(|c| ("the printer's", c.problem)));
    problems.extend(hidden_problems::all().into_iter().map(|c| ("the hidden list's", c.1)));
    problems.extend(lets_problems::all().into_iter().map(|c| ("the let list's", c.1)));
    problems.extend(formulas_problems::all().into_iter().map(|c| ("the formulas'", c.1)));
    problems.extend(fewest_problems::all().into_iter().map(|c| ("the fewest roots'", c.problem)));
    problems.extend(traces_problems::all().into_iter().map(|c| ("the traces'", c.problem)));
    let mut seen = HashSet::new();
    let mut all = vec![];
    for (label, p) in problems {
        let a = added::print_answer(&p, usize::MAX);
        if a.number == 0 && seen.insert(a.result.clone()) {
            all.push((format!("recorded, {label}"), a.result));
        }
    }
    all
}

/// Every one is read, and what is read prints the same (reads.rs). The list has every third of those that have at most 1,000 bytes, of the
/// traces' every sixteenth, since most of these are alike, and all that are over a limit.
fn of_recorded(c: &mut Cases) {
    let (mut kept, mut read_back, mut over) = (0, 0, 0);
    for (i, (label, s)) in recorded().into_iter().enumerate() {
        let number = read(&s).number;
        assert!(number == 0 || number == 9, "a printed script is refused: {}", String::from_utf8_lossy(&s));
        read_back += (number == 0) as usize;
        over += (number == 9) as usize;
        let every = if label.contains("traces") { 16 } else { 3 };
        if s.len() <= 1_000 && i % every == 0 || number == 9 && s.len() <= LONGEST {
            let lent = [Lent::Exact, Lent::Longer(1), Lent::Longer(3)][kept % 3];
            kept += 1;
            c.one(&label, s, lent, Some(number));
        }
    }
    println!("recorded scripts read: {read_back}, over a limit: {over}; in the list: {kept}");
}

/// The other two ways to print: a script with `let` is none of the plain printer's, a hidden one is.
fn other_ways(c: &mut Cases) {
    let mut n = 0;
    for (_, p, _) in lets_problems::all() {
        let a = lets::answer(&p, usize::MAX);
        if a.number == 0 && a.result.len() < 600 && a.result.windows(6).any(|w| w == b"(let (") {
            n += 1;
            if n % 12 == 0 {
                c.exact("a script with let", a.result, 13);
            }
        }
    }
    let mut seen = HashSet::new();
    for (i, (_, p, _)) in hidden_problems::all().into_iter().enumerate() {
        let a = hidden::answer(&p, usize::MAX);
        if a.number == 0 && seen.insert(a.result.clone()) && i % 3 == 0 {
            c.exact("a hidden script", a.result, 0);
        }
    }
}

// ---------------------------------------------------------------- placement

fn placement(c: &mut Cases) {
    let mut put = |label: &str, declared: &[&str], asserted: &[&str]| {
        let s = script(declared, asserted);
        c.one(&format!("placement: {label}"), &s, Lent::Exact, Some(0));
        c.one(&format!("placement: {label}"), &s, Lent::Longer(2), Some(0));
    };
    put("a constant first met under another term", &[X2], &["(= |x| (bvadd #b01 (bvmul |x| #b01)))"]);
    put("a constant first met under another term", &[X2], &["(= (bvadd #b01 (bvmul |x| #b10)) (bvsub #b11 (bvneg #b01)))"]);
    put("a constant first met under another term", &[X2], &["(= (bvand #b00 (bvor #b01 (bvxor #b10 (bvshl #b11 |x|)))) #b01)"]);
    put("a constant of a later assertion", &[X2], &["(= |x| #b01)", "(= (bvadd |x| #b10) #b01)", "(bvult #b11 (bvnot #b10))"]);
    put("several constants for one term", &[], &["(= #b10 #b01)", "(= #b01 #b11)"]);
    put("equal constants", &[], &["(= #b10 #b10)", "(and (= #b10 #b10) (= #b010 #b010))"]);
    put("constants of one value and other widths", &[], &["(= (concat #b1 #b01) #b001)", "(= (concat #b0 #b00) #b000)"]);
    put("below ite", &[X2], &["(= (ite (= |x| #b01) #b10 #b01) (ite (= #b11 |x|) |x| #b00))"]);
    put("below ite", &[X2], &["(= (ite (not (= |x| |x|)) (bvnot #b00) (bvneg #b11)) #b11)"]);
    for k in ["rotate_left", "rotate_right"] {
        for (w, by) in
            [(1, 0), (2, 1), (3, 2), (8, 0), (8, 3), (8, 7), (16, 15), (33, 32), (64, 63), (65, 64), (300, 255), (300, 256)]
        {
            put("a rotation", &[&variable("x", w)], &[&format!("(= ((_ {k} {by}) |x|) |x|)")]);
        }
        put("amount and operand", &[], &[&format!("(= ((_ {k} 3) #b1110) #b0011)")]);
        put("amount and operand equal", &[], &[&format!("(= ((_ {k} 1) #b01) #b10)"), &format!("(= ((_ {k} 2) #b0010) #b0010)")]);
        put(
            "one amount at two widths",
            &[&variable("x", 5), &variable("y", 6)],
            &[&format!("(= ((_ {k} 4) |x|) |x|)"), &format!("(= ((_ {k} 4) |y|) ((_ {k} 5) |y|))")],
        );
        put("rotations of rotations", &[X8], &[&format!("(= ((_ {k} 1) ((_ {k} 2) ((_ {k} 1) |x|))) #b00000010)")]);
        put("an amount that is a constant below", &[X8], &[&format!("(= ((_ {k} 1) (bvadd |x| #b00000001)) |x|)")]);
        put("an amount that is zeros of a call", &[X8, &function("f", &[8], 8)], &[&format!("(= ((_ {k} 0) |x|) #b00000000)")]);
    }
    let m = array("m", 2, 3);
    put("a select without stores", &[&m], &["(= (select |m| #b01) #b001)"]);
    put("selects with stores", &[&m], &["(= (select (store |m| #b01 #b001) #b10) #b010)"]);
    put("selects with stores", &[&m], &["(= (select (store (store |m| #b01 #b001) #b10 #b010) #b11) #b011)"]);
    put("selects with stores", &[&m], &["(= (select (store (store (store |m| #b00 #b000) #b01 #b001) #b10 #b010) #b11) #b011)"]);
    put(
        "selects with stores",
        &[&variable("i", 2), &variable("v", 3), &m],
        &["(= (select (store (store |m| |i| |v|) (bvnot |i|) (bvneg |v|)) (bvadd |i| #b01)) (bvadd |v| #b001))"],
    );
    put("a constant in two stores", &[&m], &["(= (select (store (store |m| #b01 #b001) #b01 #b001) #b01) #b001)"]);
    put(
        "terms and constants in stores",
        &[&variable("i", 2), &variable("v", 3), &m],
        &["(= (select (store (store |m| #b01 (bvnot #b001)) (bvneg #b10) #b010) (bvadd |i| #b11)) (bvadd |v| #b011))"],
    );
    put(
        "a select in a store",
        &[&array("m", 2, 2)],
        &["(= (select (store |m| (select |m| #b01) (select (store |m| #b10 #b11) #b00)) #b10) #b01)"],
    );
    put("two arrays", &[&m, &array("n", 3, 2)], &["(= (select |m| (select |n| (select |m| #b10))) #b111)"]);
    put("arrays of widths 1 and 65,536", &[&array("m", 1, 1), &array("n", 65_536, 65_536)], &["(= (select |m| #b0) #b1)"]);
    put(
        "a 24-bit index and 16-bit words",
        &[&variable("a", 24), &array("m", 24, 16)],
        &["(= (select (store |m| |a| #b0000000000000001) |a|) (select |m| |a|))"],
    );
    put("a function that nothing calls", &[&function("f", &[], 8)], &[]);
    put("a function that nothing calls", &[&function("f", &[3], 8)], &[]);
    put(
        "a function that nothing calls",
        &[&function("f", &[3, 2, 3, 1], 8), &function("g", &[2, 2], 1), &function("h", &[4, 1], 1)],
        &[],
    );
    put(
        "functions called and not",
        &[X8, &function("f", &[8], 8), &function("g", &[8, 3], 8), &function("h", &[8], 8)],
        &["(= (|h| #b00000000) (|f| |x|))"],
    );
    put(
        "functions called and not",
        &[X8, &function("f", &[8], 8), &function("g", &[8, 3], 8), &function("h", &[8], 8)],
        &["(= (|g| |x| #b000) (|g| #b00000001 #b001))"],
    );
    put("zeros that an assertion has too", &[&function("f", &[2], 2), &function("g", &[3], 2)], &["(= (concat #b0 #b00) #b000)"]);
    put("calls without arguments", &[G], &["(= |g| |g|)", "(= (bvadd |g| #b00000001) |g|)"]);
    put("calls without arguments", &[&function("a", &[], 2), &function("b", &[2], 2)], &["(= (|b| |a|) (|b| (|b| |a|)))"]);
    put("calls in calls", &[X8, F], &["(= (|f| (|f| |x| #b0001) #b0010) (|f| #b00000001 #b0001))"]);
    put(
        "empty lists",
        &[&variable("x", 2), &array("m", 2, 2), &function("f", &[2, 2], 2), &function("g", &[], 2)],
        &["(= (|f| |x| |x|) (select |m| |x|))", "(= |g| (select (store |m| |x| |g|) (select |m| |x|)))"],
    );
    put("variables that nothing uses", &[X8, Y8, &variable("z", 1)], &["(= |y| |y|)"]);
    put("a variable of the widest that a record holds", &[&variable("x", 4_294_967_295)], &["(= |x| |x|)"]);
    put("a call of the widest that a record holds", &[&function("f", &[], 4_294_967_295)], &["(= |f| |f|)"]);
    put(
        "numerals of the largest that a record holds",
        &[&variable("x", 4_294_967_295)],
        &[
            "(= ((_ extract 4294967294 4294967294) |x|) #b1)",
            "(= ((_ zero_extend 4294967295) |x|) ((_ sign_extend 4294967295) |x|))",
        ],
    );
    put("extensions by 0", &[X2], &["(= ((_ zero_extend 0) |x|) ((_ sign_extend 0) #b10))"]);
    put(
        "names in other alphabets",
        &[
            "(declare-const |\u{fc}ber 1| (_ BitVec 2))",
            "(declare-const |\u{9818}\u{57df}| (Array (_ BitVec 2) (_ BitVec 2)))",
            "(declare-fun |\u{df}| ((_ BitVec 2)) (_ BitVec 2))",
        ],
        &["(= (|\u{df}| |\u{fc}ber 1|) (select |\u{9818}\u{57df}| #b01))"],
    );
}

// ---------------------------------------------------------------- damage

/// Parentheses, blanks, line ends and what stands between them; a name between bars is one.
fn tokens(s: &[u8]) -> Vec<Vec<u8>> {
    let mut out: Vec<Vec<u8>> = vec![];
    let mut at = 0;
    while at < s.len() {
        let n = match s[at] {
            b'(' | b')' | b' ' | b'\n' => 1,
            b'|' => 2 + s[at + 1..].iter().position(|b| *b == b'|').unwrap(),
            _ => s[at..].iter().take_while(|b| !b"() \n".contains(b)).count(),
        };
        out.push(s[at..at + n].to_vec());
        at += n;
    }
    out
}

fn damage(c: &mut Cases, rng: &mut Rng) {
    const BYTES: &[u8] = b" ()0123b#_|x\n;\t\\\r=\x7f\x00\xc3";
    for base in bases() {
        let s = base.as_bytes();
        for k in 0..s.len() {
            let mut t = s.to_vec();
            t.remove(k);
            c.one("a byte left out", &t, Lent::Exact, None);
            let mut t = s.to_vec();
            t[k] = rng.pick(BYTES);
            c.one("a byte changed", &t, Lent::Exact, None);
            // digits and letters of names to others, so that many are scripts again
            let other = match s[k] {
                b'0' => b'1',
                b'1'..=b'9' => rng.from_to(b'0' as u64, b'9' as u64) as u8,
                b if b"fgimx".contains(&b) => rng.pick(b"fgimx\xc3"),
                b => b,
            };
            if other != s[k] {
                let mut t = s.to_vec();
                t[k] = other;
                c.one("a byte changed to one of its kind", &t, Lent::Exact, None);
            }
            let mut t = s.to_vec();
            let put_in = k % 2 == 0;
            t.insert(k, if put_in { rng.pick(BYTES) } else { t[k] });
            c.one(if put_in { "a byte put in" } else { "a byte twice" }, &t, Lent::Exact, None);
        }
        for k in 0..s.len() {
            if k % 4 == 0 || k + 14 > s.len() {
                c.one("cut short", &s[..k], Lent::Exact, Some(13));
            }
        }
        let all = tokens(s);
        for k in 0..all.len() {
            let mut t = all.clone();
            t.remove(k);
            c.one("a token left out", t.concat(), Lent::Exact, None);
            let mut t = all.clone();
            t.insert(k, all[k].clone());
            c.one("a token twice", t.concat(), Lent::Exact, None);
            let other = (k + 2 + rng.below(6) as usize).min(all.len() - 1);
            let mut t = all.clone();
            t.swap(k, other);
            c.one("two tokens changed round", t.concat(), Lent::Exact, None);
            let mut t = all.clone();
            t[k] = all[rng.below(all.len() as u64) as usize].clone();
            c.one("a token in another's place", t.concat(), Lent::Exact, None);
        }
        let lines: Vec<&[u8]> = s.split_inclusive(|b| *b == b'\n').collect();
        for k in 0..lines.len() {
            let mut t = lines.clone();
            t.remove(k);
            c.one("a line left out", t.concat(), Lent::Exact, None);
            let mut t = lines.clone();
            t.insert(k, lines[k]);
            c.one("a line twice", t.concat(), Lent::Exact, None);
            for j in k + 1..lines.len() {
                let mut t = lines.clone();
                t.swap(k, j);
                c.one("two lines changed round", t.concat(), Lent::Exact, None);
            }
        }
        for more in ["\n", " ", "(check-sat)\n", "(", "(exit)\n", "\0", ";\n"] {
            c.exact("more behind the script", format!("{base}{more}"), 13);
            c.exact("more before the script", format!("{more}{base}"), 13);
        }
        c.exact("a script twice", format!("{base}{base}"), 13);
    }
    c.exact("nothing", "", 13);
}

// ---------------------------------------------------------------- other spellings

/// White space and comments at every token's end; every token spelt otherwise.
fn spellings(c: &mut Cases) {
    for base in bases() {
        let all = tokens(base.as_bytes());
        for k in 0..all.len() {
            let mut put = |label: &str, with: String| {
                let mut t = all.clone();
                if t[k] == with.as_bytes() {
                    return;
                }
                t[k] = with.into_bytes();
                c.exact(&format!("another spelling: {label}"), t.concat(), 13);
            };
            let token = String::from_utf8(all[k].clone()).unwrap();
            match token.as_str() {
                " " => {
                    for other in ["  ", "\t", "\n", "\r"] {
                        put("white space", other.into());
                    }
                    put("a comment", " ; a comment\n".into());
                }
                "\n" => {
                    for other in ["\r\n", " \n", "\n\n", " ", "", "; a comment\n"] {
                        put("the end of a line", other.into());
                    }
                }
                "(" => put("white space", "( ".into()),
                ")" => put("white space", " )".into()),
                t if t.starts_with('|') => {
                    put("bars", t.trim_matches('|').into());
                    put("bars", format!("{t}|"));
                }
                t if t.starts_with("#b") => {
                    let value = u64::from_str_radix(&t[2..], 2).unwrap();
                    let w = t.len() - 2;
                    put("a constant", format!("#B{}", &t[2..]));
                    put("a constant", format!("(_ bv{value} {w})"));
                    put("a constant", format!("0b{}", &t[2..]));
                    put("a constant", format!("{value}"));
                    put("a constant", "#b".into());
                    if w % 4 == 0 {
                        put("a constant", format!("#x{value:0n$x}", n = w / 4));
                    }
                }
                t if t.bytes().all(|b| b.is_ascii_digit()) => {
                    put("a numeral", format!("0{t}"));
                    put("a numeral", format!("+{t}"));
                    put("a numeral", format!("-{t}"));
                    put("a numeral", format!("{t}.0"));
                    put("a numeral", format!("|{t}|"));
                    put("a numeral", format!("#b{:b}", t.parse::<u64>().unwrap()));
                    put("a numeral", format!("{}{t}", "0".repeat(30)));
                }
                t => {
                    put("a word between bars", format!("|{t}|"));
                    put("a word in the other case", t.to_uppercase().replace("QF_", "qf_"));
                    put("a word with a letter more", format!("{t}x"));
                }
            }
        }
    }
    // what z3 4.8 or cvc5 1.0 reads and the printer would not print
    let x = |body: &str| script(&[X8, Y8], &[body]);
    for body in [
        "(= |x| |y| |x|)",
        "(distinct |x| |y| #b00000000)",
        "(and (= |x| |y|) (= |y| |x|) (= |x| |x|))",
        "(and (= |x| |y|))",
        "(or (= |x| |y|) (= |y| |x|) (= |x| |x|))",
        "(xor (= |x| |y|) (= |y| |x|))",
        "(=> (= |x| |y|) (= |y| |x|))",
        "(= (= |x| |y|) (= |y| |x|))",
        "(distinct (= |x| |y|) (= |y| |x|))",
        "(ite (= |x| |y|) (= |y| |x|) (= |x| |x|))",
        "true",
        "false",
        "(not true)",
        "(and true (= |x| |y|))",
        "(= (bvadd |x| |y| |x|) |y|)",
        "(= (bvmul |x| |y| |x|) |y|)",
        "(= (bvand |x| |y| |x|) |y|)",
        "(= (bvor |x| |y| |x|) |y|)",
        "(= (bvxor |x| |y| |x|) |y|)",
        "(= (concat |x| |y| |x|) (concat |x| |y| |x|))",
        "(= (bvnand |x| |y|) |y|)",
        "(= (bvnor |x| |y|) |y|)",
        "(= (bvxnor |x| |y|) |y|)",
        "(= (bvcomp |x| |y|) #b1)",
        "(= (bvsmod |x| |y|) |y|)",
        "(= ((_ repeat 2) |x|) ((_ repeat 2) |y|))",
        "(= ((_ rotate_left 8) |x|) |y|)",
        "(= ((_ rotate_left 11) |x|) |y|)",
        "(= ((_ rotate_right 8) |x|) |y|)",
        "(bvuaddo |x| |y|)",
        "(= (let ((z |x|)) z) |y|)",
        "(let ((|d2| (bvadd |x| |y|))) (= |d2| |d2|))",
        "(let ((z (= |x| |y|))) z)",
        "(! (= |x| |y|) :named a)",
        "(= (as |x| (_ BitVec 8)) |y|)",
        "(= |x| #x05)",
        "(= |x| (_ bv5 8))",
    ] {
        c.exact("solvers read it", x(body), 13);
    }
    let m = array("m", 8, 8);
    for body in [
        "(= |m| |m|)",
        "(= (store |m| |x| |x|) |m|)",
        "(distinct |m| |m|)",
        "(= (select (ite (= |x| |x|) |m| |m|) |x|) |x|)",
        "(= (let ((n |m|)) (select n |x|)) |x|)",
    ] {
        c.exact("solvers read it", script(&[X8, &m], &[body]), 13);
    }
    for (from, to) in [
        ("(set-logic QF_BV)", "(set-logic ALL)"),
        ("(set-logic QF_BV)", "(set-logic QF_ABV)"),
        ("(set-logic QF_BV)", "(set-logic QF_AUFBV)"),
        ("(set-logic QF_BV)", "(set-logic QF_UFBV)"),
        ("(set-logic QF_BV)", "(set-logic BV)"),
        ("(set-logic QF_BV)\n", ""),
        ("(set-logic QF_BV)", "(set-info :status sat)\n(set-logic QF_BV)"),
        ("(set-logic QF_BV)", "(set-option :produce-models true)\n(set-logic QF_BV)"),
        ("(set-logic QF_BV)", "(set-logic QF_BV)\n(set-info :status sat)"),
        ("(declare-const |x| (_ BitVec 8))", "(declare-fun |x| () (_ BitVec 8))"),
        ("(declare-const |x| (_ BitVec 8))", "(declare-const |x| ( _ BitVec 8))"),
        ("(declare-const |x| (_ BitVec 8))", "(define-fun |x| () (_ BitVec 8) #b00000000)"),
        ("(declare-const |x| (_ BitVec 8))", "(define-const |x| (_ BitVec 8) #b00000000)"),
        ("(declare-const |x| (_ BitVec 8))", "(declare-const |x| (_ BitVec 8))\n(declare-const |b| Bool)"),
        ("(declare-const |x| (_ BitVec 8))", "(declare-const |x| (_ BitVec 8))\n(declare-sort |s| 0)"),
        ("(declare-const |x| (_ BitVec 8))", "(define-sort |s| () (_ BitVec 8))\n(declare-const |x| |s|)"),
        ("(check-sat)", "(check-sat)\n(get-model)"),
        ("(check-sat)", "(check-sat)\n(exit)"),
        ("(check-sat)", "(check-sat)\n(check-sat)"),
        ("(check-sat)", "(push 1)\n(check-sat)"),
        ("(check-sat)", "(check-sat-assuming ())"),
        ("(check-sat)", "(declare-const |z| (_ BitVec 8))\n(check-sat)"),
        (
            "(assert (= (bvadd |x| #b00000101) |x|))",
            "(assert (= (bvadd |x| #b00000101) |x|))\n(declare-const |z| (_ BitVec 8))\n(assert (= |z| |x|))",
        ),
        ("(assert (=", "(assert\n  (="),
        ("(assert ", "; what it says\n(assert "),
        ("|x|", "x"),
    ] {
        let base = &bases()[1];
        assert!(base.contains(from));
        c.exact("solvers read it", base.replace(from, to), 13);
    }
    // declarations in another order
    let (v, a, f) = (variable("x", 2), array("m", 2, 2), function("f", &[2], 2));
    for order in [[&v, &f, &a], [&a, &v, &f], [&a, &f, &v], [&f, &v, &a], [&f, &a, &v]] {
        c.exact("solvers read it", script(&order.map(|s| s.as_str()), &["(= (select |m| |x|) (|f| |x|))"]), 13);
    }
    c.exact("declarations in order", script(&[&v, &a, &f], &["(= (select |m| |x|) (|f| |x|))"]), 0);
    c.exact(
        "solvers read it",
        script(&["(declare-fun |m| () (Array (_ BitVec 8) (_ BitVec 8)))", X8], &["(= (select |m| |x|) |x|)"]),
        13,
    );
    c.exact("solvers read it", script(&["(declare-fun |f| ((Array (_ BitVec 8) (_ BitVec 8))) (_ BitVec 8))"], &[]), 13);
    c.exact("solvers read it", script(&["(declare-fun |f| ((_ BitVec 8)) Bool)"], &["(|f| #b00000000)"]), 13);
    c.exact("solvers read it", script(&["(declare-fun |f| (Bool) (_ BitVec 8))"], &[]), 13);
    c.exact("solvers read it", script(&["(declare-const |m| (Array (_ BitVec 8) (Array (_ BitVec 8) (_ BitVec 8))))"], &[]), 13);
    c.exact("solvers read it", script(&["(declare-const |m| (Array (_ BitVec 8) Bool))"], &[]), 13);
    // what z3 4.8 and cvc5 1.0 do not read either
    for body in [
        "(bvnego |x|)",
        "(exists ((z (_ BitVec 8))) (= z |x|))",
        "(= ((as |x| (_ BitVec 8))) |y|)",
        "((= |x| |y|))",
        "(= (|x|) |y|)",
        "(= |x| ((_ int2bv 8) 5))",
    ] {
        c.exact("other terms", x(body), 13);
    }
    c.exact("other terms", script(&[G], &["(= (|g|) |g|)"]), 13);
    let constant = "(= (select ((as const (Array (_ BitVec 8) (_ BitVec 8))) |x|) |x|) |x|)";
    c.exact("other terms", script(&[X8, &m], &[constant]), 13);
    // an operator over brackets with no numeral, too few or too many, and numerals for an operator that has none
    for body in [
        "(= ((_ bvnot) |x|) |x|)",
        "(= ((_ bvnot 1) |x|) |x|)",
        "(= ((_ bvadd) |x| |y|) |x|)",
        "(= ((bvnot) |x|) |x|)",
        "((_ =) |x| |y|)",
        "(= ((_ extract 7) |x|) |x|)",
        "(= ((_ extract 7 0 0) |x|) |x|)",
        "(= ((_ extract) |x|) |x|)",
        "(= (extract 7 0 |x|) |x|)",
        "(= ((_ zero_extend) |x|) |x|)",
        "(= ((_ zero_extend 0 0) |x|) |x|)",
        "(= (zero_extend |x|) |x|)",
        "(= ((_ sign_extend) |x|) |x|)",
        "(= ((_ rotate_left) |x|) |x|)",
        "(= ((_ rotate_left 1 1) |x|) |x|)",
        "(= ((_ rotate_left |x|) |x|) |x|)",
        "(= ((_ rotate_left #b1) |x|) |x|)",
        "(= (rotate_left |x| #b00000001) |x|)",
        "(= ((_ concat 1) |x| |y|) |x|)",
        "(= ((_ |x|) |x|) |x|)",
        "(= (_ |x|) |x|)",
        "(= (_ rotate_left 1) |x|)",
        "(= _ |x|)",
        "()",
        "(())",
        "(= () |x|)",
        "",
        "(= |x| |y|) (= |x| |y|)",
    ] {
        c.exact("operators and their numerals", x(body), 13);
    }
}

// ---------------------------------------------------------------- names, sorts and widths

fn names(c: &mut Cases) {
    let named = |table: usize, name: &[u8]| -> Vec<u8> {
        let text = match table {
            0 => script(&[&variable("?", 3)], &["(= |?| |?|)"]),
            1 => script(&[&array("?", 3, 3)], &["(= (select |?| #b000) #b001)"]),
            _ => script(&[&function("?", &[3], 3)], &["(= (|?| #b000) #b001)"]),
        };
        text.split('?').map(|s| s.as_bytes().to_vec()).collect::<Vec<_>>().join(name)
    };
    for b in 0..=255u8 {
        let table = b as usize % 3;
        let fine = b >= 32 && b != 127 && b != b'|' && b != b'\\';
        let want = |ok: bool| if ok { 0 } else { 13 };
        c.exact("a byte in a name", named(table, &[b'k', b]), want(fine));
        if b % 4 == 3 || b < 36 || (120..132).contains(&b) || b == b'@' || b == b'.' {
            c.exact("the first byte of a name", named((table + 1) % 3, &[b, b'k']), want(fine && b != b'@' && b != b'.'));
        }
    }
    for t in 0..3 {
        for (name, fine) in [
            (&b""[..], false),
            (b" ", true),
            (b"@", false),
            (b".", false),
            (b"@x", false),
            (b".x", false),
            (b"x@.", true),
            (b"(check-sat)", true),
            (b"#b01", true),
            (b"(= 1 2)", true),
            (b"; no comment", true),
            (b"0", true),
            (b"a\nb", false),
            (b"a\tb", false),
            (b"\xff", true),
            (b"\x80\xfe", true),
            (b"\xe9\xa0\x98\xe5\x9f\x9f", true),
            (b"a\xcc\x88", true),
            (b"\x7f", false),
        ] {
            c.exact("a name by hand", named(t, name), if fine { 0 } else { 13 });
        }
    }
    let all: Vec<&str> = words::RUST.iter().chain(words::SMTLIB_27).copied().collect();
    for (i, w) in all.iter().enumerate() {
        c.exact("a reserved name", named(i % 3, w.as_bytes()), 13);
        if i % 4 == 0 {
            c.exact("a name close to a reserved one", named((i + 1) % 3, format!("{w}2").as_bytes()), 0);
            c.exact(
                "a name close to a reserved one",
                named(i % 3, w[..w.len() - 1].as_bytes()),
                if w.len() == 1 || words::is_reserved(w[..w.len() - 1].as_bytes()) { 13 } else { 0 },
            );
        }
    }
    for w in words::SMTLIB_27 {
        (0..3).for_each(|t| c.exact("a reserved name", named(t, w.as_bytes()), 13));
    }
    // declared twice, in one table and in every two, beside each other and not
    let declared = |t: usize, name: &str| match t {
        0 => variable(name, 3),
        1 => array(name, 3, 3),
        _ => function(name, &[3], 3),
    };
    for t in 0..3 {
        for u in t..3 {
            for name in ["k", "\u{fc}", "a b"] {
                let (first, second) = (declared(t, name), declared(u, name));
                c.exact("a name declared twice", script(&[&first, &second], &[]), 13);
                let mut four = vec![(t, first), (u, second), (t, declared(t, "p")), (u, declared(u, "q"))];
                four.sort_by_key(|d| d.0);
                c.exact("a name declared twice", script(&four.iter().map(|d| d.1.as_str()).collect::<Vec<_>>(), &[]), 13);
                c.exact("two names", script(&[&declared(t, name), &declared(u, &format!("{name}2"))], &[]), 0);
            }
        }
    }
    c.exact("case counts", script(&[&variable("k", 3), &variable("K", 3)], &["(= |k| |K|)"]), 0);
    // used but not declared, or for what it is not
    let four = [variable("x", 3), array("m", 3, 3), function("f", &[3], 3), function("g", &[], 3)];
    for (body, want) in [
        ("(= |x| |g|)", 0),
        ("(= |y| |g|)", 13),
        ("(= |X| |g|)", 13),
        ("(= |m| |g|)", 13),
        ("(= |f| |g|)", 13),
        ("(= |bvadd| |g|)", 13),
        ("(= (|x| |g|) |g|)", 13),
        ("(= (|m| |g|) |g|)", 13),
        ("(= (|h| |g|) |g|)", 13),
        ("(= (|f| |g|) |g|)", 0),
        ("(= (|f| |g| |g|) |g|)", 13),
        ("(= (|f|) |g|)", 13),
        ("(= (|g|) |g|)", 13),
        ("(= (|g| |x|) |g|)", 13),
        ("(= (select |x| |g|) |g|)", 13),
        ("(= (select |f| |g|) |g|)", 13),
        ("(= (select |g| |g|) |g|)", 13),
        ("(= (select |n| |g|) |g|)", 13),
        ("(= (select |m| |g|) |g|)", 0),
        ("(= (select (store |x| |g| |g|) |g|) |g|)", 13),
        ("(= (select (store (select |m| |x|) |g| |g|) |g|) |g|)", 13),
        ("(= (select (|f| |x|) |g|) |g|)", 13),
        ("(= (store |m| |g| |g|) |g|)", 13),
        ("(= (select (store |m| |g|) |g|) |g|)", 13),
        ("(= (select (store |m| |g| |g| |g|) |g|) |g|)", 13),
        ("(= (select |m|) |g|)", 13),
        ("(= (select |m| |g| |g|) |g|)", 13),
        ("(= (select (store |m| |g| |x|) |g|) |g|)", 0),
    ] {
        c.exact("symbols used as what they are", script(&all_of(&four), &[body]), want);
    }
}

fn sorts(c: &mut Cases) {
    let (bits, other, bool, root) = ("|x|", "|y|", "(= |x| |x|)", |t: &str| format!("(= {t} {t})"));
    let declared = [variable("x", 8), variable("y", 9), variable("b", 1), array("m", 8, 9), function("f", &[8, 9], 8)];
    let mut put = |body: String, want: u32| c.exact("sorts", script(&all_of(&declared), &[&body]), want);
    let pairs = [
        "bvadd", "bvsub", "bvmul", "bvudiv", "bvurem", "bvand", "bvor", "bvxor", "bvshl", "bvlshr", "bvashr", "bvsdiv", "bvsrem",
    ];
    for k in pairs {
        put(root(&format!("({k} {bits} {bits})")), 0);
        put(root(&format!("({k} {bits} {other})")), 13);
        put(root(&format!("({k} {other} {bits})")), 13);
        put(root(&format!("({k} {bits} {bool})")), 13);
        put(root(&format!("({k} {bool} {bits})")), 13);
        put(root(&format!("({k} {bool} {bool})")), 13);
        put(root(&format!("({k} {bits})")), 13);
        put(root(&format!("({k} {bits} {bits} {bits})")), 13);
        put(format!("({k} {bits} {bits})"), 13);
    }
    for k in ["=", "distinct", "bvult", "bvule", "bvugt", "bvuge", "bvslt", "bvsle", "bvsgt", "bvsge"] {
        put(format!("({k} {bits} {bits})"), 0);
        put(format!("({k} {bits} {other})"), 13);
        put(format!("({k} {bool} {bool})"), 13);
        put(format!("({k} {bits} {bool})"), 13);
        put(format!("({k} {bits})"), 13);
        put(format!("({k} {bits} {bits} {bits})"), 13);
        put(format!("(not ({k} |b| #b1))"), 0);
        put(root(&format!("({k} {bits} {bits})")), 13);
    }
    for k in ["bvnot", "bvneg"] {
        put(root(&format!("({k} {bits})")), 0);
        put(root(&format!("({k} {bool})")), 13);
        put(root(&format!("({k} {bits} {bits})")), 13);
        put(root(&format!("({k})")), 13);
        put(format!("({k} |b|)"), 13);
    }
    for k in ["and", "or"] {
        put(format!("({k} {bool} {bool})"), 0);
        put(format!("({k} {bool} |b|)"), 13);
        put(format!("({k} |b| {bool})"), 13);
        put(format!("({k} |b| |b|)"), 13);
        put(format!("({k} {bool})"), 13);
        put(format!("({k} {bool} {bool} {bool})"), 13);
        put(root(&format!("({k} {bool} {bool})")), 13);
    }
    put(format!("(not {bool})"), 0);
    put(format!("(not (not {bool}))"), 0);
    for t in ["|b|", "|x|", "#b1", "(select |m| |x|)", "(|f| |x| |y|)", "(bvnot |b|)"] {
        put(format!("(not {t})"), 13);
        put(t.to_string(), 13);
    }
    put(format!("(not {bool} {bool})"), 13);
    put("(not)".into(), 13);
    put(root(&format!("(ite {bool} {bits} {bits})")), 0);
    put(root(&format!("(ite |b| {bits} {bits})")), 13);
    put(root(&format!("(ite #b1 {bits} {bits})")), 13);
    put(root(&format!("(ite {bool} {bits} {other})")), 13);
    put(root(&format!("(ite {bool} {bool} {bits})")), 13);
    put(format!("(ite {bool} {bool} {bool})"), 13);
    put(format!("(ite {bool} {bool} {bits})"), 13);
    put(format!("(ite {bool} {bits} {bool})"), 13);
    put(format!("(ite {bool} {bits} {bits})"), 13);
    put(root(&format!("(ite {bool} {bits})")), 13);
    put(root(&format!("(ite {bool} {bits} {bits} {bits})")), 13);
    put(format!("(= (concat {bits} {other}) (concat {other} {bits}))"), 0);
    put(format!("(= (concat {bits} {bool}) {other})"), 13);
    put(format!("(= (concat {bits}) {bits})"), 13);
    for (i, j, fine) in [(7, 0, true), (0, 0, true), (7, 7, true), (8, 0, false), (3, 4, false), (8, 8, false)] {
        put(root(&format!("((_ extract {i} {j}) {bits})")), if fine { 0 } else { 13 });
    }
    for k in ["zero_extend 1", "sign_extend 1", "extract 0 0", "rotate_left 0", "rotate_right 0"] {
        put(root(&format!("((_ {k}) {bits})")), 0);
        put(root(&format!("((_ {k}) {bool})")), 13);
        put(root(&format!("((_ {k}) {bits} {bits})")), 13);
        put(root(&format!("((_ {k}))")), 13);
        put(format!("((_ {k}) |b|)"), 13);
    }
    for k in ["rotate_left", "rotate_right"] {
        for (by, fine) in [(0, true), (7, true), (8, false), (9, false), (15, false), (16, false), (256, false)] {
            put(root(&format!("((_ {k} {by}) {bits})")), if fine { 0 } else { 13 });
        }
        put(root(&format!("((_ {k} 0) |b|)")), 0);
        put(root(&format!("((_ {k} 1) |b|)")), 13);
    }
    for (body, want) in [
        ("(= (select |m| |x|) |y|)", 0),
        ("(= (select |m| |y|) |y|)", 13),
        ("(= (select |m| (= |x| |x|)) |y|)", 13),
        ("(= (select |m| |x|) |x|)", 13),
        ("(= (select (store |m| |x| |y|) |x|) |y|)", 0),
        ("(= (select (store |m| |y| |y|) |x|) |y|)", 13),
        ("(= (select (store |m| |x| |x|) |x|) |y|)", 13),
        ("(= (select (store |m| |x| (= |x| |x|)) |x|) |y|)", 13),
        ("(= (select (store (store |m| |x| |y|) |x| |x|) |x|) |y|)", 13),
        ("(= (select (store (store |m| |y| |y|) |x| |y|) |x|) |y|)", 13),
        ("(= (|f| |x| |y|) |x|)", 0),
        ("(= (|f| |y| |x|) |x|)", 13),
        ("(= (|f| |x|) |x|)", 13),
        ("(= (|f| |x| |y| |y|) |x|)", 13),
        ("(= (|f| |x| (= |x| |x|)) |x|)", 13),
        ("(= (|f| |x| |y|) |y|)", 13),
        ("(|f| |x| |y|)", 13),
        ("(select |m| |x|)", 13),
    ] {
        put(body.to_string(), want);
    }
}

/// Numbers at the ends of 32 and 64 bits, and of what tables and rotations allow.
fn numbers(c: &mut Cases) {
    let top = u64::MAX;
    for (w, want) in [
        ("0", 13),
        ("1", 0),
        ("4294967295", 0),
        ("4294967296", 9),
        ("1099511627776", 9),
        ("18446744073709551615", 9),
        ("18446744073709551616", 13),
        ("18446744073709551617", 13),
        ("36893488147419103232", 13),
        ("99999999999999999999", 13),
        ("340282366920938463463374607431768211457", 13),
    ] {
        let sort = format!("(_ BitVec {w})");
        c.exact("the width of a variable", script(&[&format!("(declare-const |x| {sort})")], &[]), want);
        c.exact("the width of a variable", script(&[&format!("(declare-const |x| {sort})")], &["(= |x| |x|)"]), want);
        c.exact("the width of a function", script(&[&format!("(declare-fun |f| () {sort})")], &[]), want);
        c.exact(
            "the width of a function",
            script(&[&format!("(declare-fun |f| ((_ BitVec 1)) {sort})")], &["(= (|f| #b0) (|f| #b1))"]),
            want,
        );
        // an argument that nothing is called with: its zeros are bits
        let bits = if w == "4294967295" { 9 } else { want };
        c.exact("the width of an argument", script(&[&format!("(declare-fun |f| ({sort}) (_ BitVec 1))")], &[]), bits);
        c.exact(
            "the width of an argument",
            script(
                &[&format!("(declare-const |x| {sort})"), &format!("(declare-fun |f| ((_ BitVec 2) {sort}) (_ BitVec 1))")],
                &["(= (|f| #b00 |x|) #b0)"],
            ),
            want,
        );
        let array = if w == "1" { 0 } else { 13 };
        c.exact("the widths of an array", script(&[&format!("(declare-const |m| (Array {sort} (_ BitVec 1)))")], &[]), array);
        c.exact("the widths of an array", script(&[&format!("(declare-const |m| (Array (_ BitVec 1) {sort}))")], &[]), array);
    }
    for (w, want) in [(65_535, 0), (65_536, 0), (65_537, 13), (131_072, 13)] {
        c.exact("the widths of an array", script(&[&array("m", w, 8)], &[]), want);
        c.exact("the widths of an array", script(&[&array("m", 8, w)], &[]), want);
        c.exact(
            "the widths of an array",
            script(&[&variable("x", w), &array("m", w, w)], &["(= (select (store |m| |x| |x|) |x|) |x|)"]),
            want,
        );
        for k in ["rotate_left", "rotate_right"] {
            for by in [0, 1, w - 1] {
                c.exact("the width of a rotation", script(&[&variable("x", w)], &[&format!("(= ((_ {k} {by}) |x|) |x|)")]), want);
            }
            c.exact("an amount that is the width", script(&[&variable("x", w)], &[&format!("(= ((_ {k} {w}) |x|) |x|)")]), 13);
        }
    }
    let widest = variable("x", top);
    let large = variable("x", 1 << 33);
    for (declared, body, want) in [
        (&large, "(= ((_ extract 4294967295 0) |x|) ((_ extract 4294967296 1) |x|))".to_string(), 9),
        (&large, "(= ((_ extract 4294967295 4294967295) |x|) #b0)".into(), 9),
        (&variable("x", 4_294_967_295), "(= ((_ extract 4294967295 0) |x|) |x|)".into(), 13),
        (&variable("x", 4_294_967_295), "(= ((_ zero_extend 4294967296) |x|) ((_ sign_extend 4294967296) |x|))".into(), 9),
        (
            &variable("x", 4_294_967_295),
            "(= ((_ zero_extend 1) ((_ zero_extend 4294967295) |x|)) ((_ sign_extend 1) ((_ zero_extend 4294967295) |x|)))"
                .into(),
            0,
        ),
        (&variable("x", 4_294_967_295), "(= ((_ extract 4294967296 4294967296) ((_ zero_extend 4294967295) |x|)) #b0)".into(), 9),
        (&widest, "(= |x| |x|)".into(), 9),
        (&widest, "(= ((_ zero_extend 0) |x|) |x|)".into(), 9),
        (&widest, "(= ((_ zero_extend 1) |x|) ((_ zero_extend 1) |x|))".into(), 13),
        (&widest, "(= ((_ sign_extend 1) |x|) ((_ sign_extend 1) |x|))".into(), 13),
        (&widest, format!("(= ((_ extract {} 0) |x|) |x|)", top - 1), 9),
        (&widest, format!("(= ((_ extract {top} 0) |x|) |x|)"), 13),
        (&widest, "(= ((_ extract 18446744073709551616 0) |x|) |x|)".into(), 13),
        (&widest, "(= (concat |x| #b0) (concat #b0 |x|))".into(), 13),
        (&variable("x", top - 1), "(= (concat |x| #b0) (concat #b0 |x|))".into(), 9),
        (&variable("x", top - 1), "(= (concat |x| #b00) (concat #b00 |x|))".into(), 13),
        (&variable("x", 8), format!("(= ((_ zero_extend {}) |x|) ((_ sign_extend {}) |x|))", top - 8, top - 8), 9),
        (&variable("x", 8), format!("(= ((_ zero_extend {}) |x|) ((_ sign_extend {}) |x|))", top - 7, top - 7), 13),
        (&variable("x", 8), format!("(= ((_ zero_extend {top}) |x|) ((_ sign_extend {top}) |x|))"), 13),
        (&variable("x", 8), "(= ((_ rotate_left 18446744073709551616) |x|) |x|)".into(), 13),
        (&variable("x", 8), "(= ((_ rotate_left 4294967296) |x|) |x|)".into(), 13),
        (
            &variable("x", 1 << 63),
            "(= (concat |x| ((_ extract 9223372036854775806 0) |x|)) (concat ((_ extract 9223372036854775806 0) |x|) |x|))"
                .into(),
            9,
        ),
        (&variable("x", 1 << 63), "(= (concat |x| |x|) (concat |x| |x|))".into(), 13),
    ] {
        c.exact("numbers past 32 and 64 bits", script(&[declared], &[&body]), want);
    }
    // zeros whose widths sum up to 2^32, 2^64 and 2^65: no sum may wrap
    for of in [
        &[u32::MAX as u64, 1][..],
        &[1 << 31, (1 << 31) + 1, u32::MAX as u64],
        &[top, 1],
        &[top, 1 << 63, (1 << 63) + 1],
        &[top, top - 1],
    ] {
        c.exact("zeros of widths with large sums", script(&[&function("f", of, 1)], &[]), 9);
        let each: Vec<String> = of.iter().enumerate().map(|(i, w)| function(&format!("f{i}"), &[*w], 1)).collect();
        c.exact("zeros of widths with large sums", script(&all_of(&each), &[]), 9);
    }
    // widths past 32 bits by extensions within them
    let doubled = |n: u32| (0..n).fold("|x|".to_string(), |t, _| format!("((_ zero_extend 4294967295) {t})"));
    c.exact("numbers past 32 and 64 bits", script(&[X8], &[&format!("(= {} {})", doubled(40), doubled(40))]), 0);
}

// ---------------------------------------------------------------- limits

/// So many nodes: one variable, a chain of negations, and a comparison.
fn chain(nodes: usize) -> String {
    let n = nodes - 2;
    script(&[X8], &[&format!("(= {}|x|{} |x|)", "(bvnot ".repeat(n), ")".repeat(n))])
}

fn limits(c: &mut Cases) {
    let mut put = |label: &str, s: &str, fine: bool, last: bool| {
        let want = if fine { 0 } else { 9 };
        c.one(&format!("a limit: {label}"), s, Lent::Exact, Some(want));
        if last {
            c.one(&format!("a limit: {label}"), s, if fine { Lent::Longer(1) } else { Lent::Whole }, Some(want));
            c.one(&format!("a limit: {label}, nothing lent"), s, Lent::Nothing, Some(if fine { 10 } else { 9 }));
            let damaged = s.replace("(check-sat)\n", "(check-sat)\n\n");
            c.one(&format!("a limit: {label}, and more behind"), damaged, Lent::Exact, Some(13));
        }
    };
    for n in [2_047, 2_048, 2_049] {
        put("nodes by a chain", &chain(n), n <= 2_048, n >= 2_048);
    }
    // 512 variables, a constant and the terms over them
    let vars: Vec<String> = (0..512).map(|i| variable(&format!("v{i}"), 1)).collect();
    let decls = all_of(&vars);
    for n in [1_534, 1_535] {
        let t = format!("(= {}|v0|{} #b1)", "(bvneg ".repeat(n), ")".repeat(n));
        put("nodes with 512 variables", &script(&decls, &[&t]), n + 514 <= 2_048, false);
    }
    // bits: one constant, two, zeros that nothing is called with, amounts
    for n in [131_071usize, 131_072, 131_073] {
        let (a, b) = ("0".repeat(n / 2), "1".repeat(n - n / 2));
        put(
            "bits",
            &script(&[&variable("x", n as u64)], &[&format!("(= (concat #b{a} #b{b}) |x|)")]),
            n <= 131_072,
            n >= 131_072,
        );
        put("bits of zeros", &script(&[&function("f", &[n as u64 - 5, 5], 1)], &[]), n <= 131_072, n == 131_073);
    }
    let wide = variable("x", 65_536);
    for (by, fine) in [(vec![0], true), (vec![0, 65_535], true), (vec![0, 0, 65_535, 65_535], true), (vec![0, 1, 2], false)] {
        let roots: Vec<String> = by.iter().map(|k| format!("(= ((_ rotate_left {k}) |x|) |x|)")).collect();
        put("bits of amounts", &script(&[&wide], &all_of(&roots)), fine, !fine);
    }
    // side entries: arguments, stores, zeros
    for n in [8_191, 8_192, 8_193] {
        let f = function("f", &vec![1; n], 1);
        put("side entries of a call", &script(&[&f], &[&format!("(= (|f|{}) #b0)", " #b1".repeat(n))]), n <= 8_192, n == 8_192);
        put("side entries of zeros", &script(&[&f], &[]), n <= 8_192, false);
    }
    for n in [4_095, 4_096, 4_097] {
        let t = format!("(= (select {}|m|{} #b1) #b1)", "(store ".repeat(n), " #b0 #b1)".repeat(n));
        put("side entries of stores", &script(&[&array("m", 1, 1)], &[&t]), n <= 4_096, n >= 4_096);
    }
    for n in [255, 256, 257] {
        put("roots", &script(&[X8], &vec!["(= |x| |x|)"; n]), n <= 256, n >= 256);
    }
    for n in [512, 513] {
        let all: Vec<String> = (0..n).map(|i| variable(&format!("v{i}"), 1)).collect();
        put("variables", &script(&all_of(&all), &[]), n <= 512, false);
        let all: Vec<String> = (0..n).map(|i| array(&format!("v{i}"), 1, 1)).collect();
        put("arrays", &script(&all_of(&all), &[]), n <= 512, false);
        let all: Vec<String> = (0..n).map(|i| function(&format!("v{i}"), &[], 1)).collect();
        put("functions", &script(&all_of(&all), &[]), n <= 512, false);
    }
    for n in [16_383, 16_384, 16_385] {
        for parts in [vec![n], vec![1, n - 2, 1], vec![n / 2, n - n / 2]] {
            let name = |i: usize| format!("{}{}", ["a", "b", "c"][i], "n".repeat(parts[i] - 1));
            let last = parts.len() == 2 && n == 16_385;
            let all: Vec<String> = (0..parts.len()).map(|i| variable(&name(i), 1)).collect();
            put("name bytes of variables", &script(&all_of(&all), &[]), n <= 16_384, last);
            let all: Vec<String> = (0..parts.len()).map(|i| array(&name(i), 1, 1)).collect();
            put("name bytes of arrays", &script(&all_of(&all), &[]), n <= 16_384, last);
            let all: Vec<String> = (0..parts.len()).map(|i| function(&name(i), &[], 1)).collect();
            put("name bytes of functions", &script(&all_of(&all), &[]), n <= 16_384, last);
        }
    }
    // each table has its own limits
    let long = |first: &str| format!("{first}{}", "n".repeat(16_383));
    let three = [variable(&long("a"), 1), array(&long("b"), 1, 1), function(&long("c"), &[], 1)];
    put("name bytes of all tables", &script(&all_of(&three), &[]), true, false);
    let mut full: Vec<String> = (0..512).map(|i| variable(&format!("v{i}"), 1)).collect();
    full.extend((0..512).map(|i| array(&format!("a{i}"), 1, 1)));
    full.extend((0..512).map(|i| function(&format!("f{i}"), &[], 1)));
    put("entries of all tables", &script(&all_of(&full), &[]), true, false);
    // two limits passed at once, and a number past 32 bits
    put("two at once", &script(&[&variable("x", 1 << 40)], &vec!["(= |x| |x|)"; 257]), false, true);
}

/// An accepted problem within every limit whose script is not: what it shares, a script says again.
fn shared_room(c: &mut Cases) {
    let mut put = |label: &str, p: &Problem| {
        let a = added::print_answer(p, usize::MAX);
        assert_eq!(a.number, 0, "{label}");
        c.exact(&format!("an accepted problem that is over a limit: {label}"), a.result, 9);
    };
    // names that overlap in their arena
    let mut p = Problem { names: vec![b'n'; 1_000], ..Problem::default() };
    for i in 0..200 {
        p.name_start.push(i);
        p.name_len.push(300 + i);
        p.var_node.push(9_999);
        p.var_width.push(1);
    }
    put("names", &p);
    // constants that overlap in the bits
    let mut p = Problem { bits: (0..4_000).map(|i| (i % 97 == 0) as u8).collect(), ..Problem::default() };
    for i in 0..18 {
        let a = p.node(kind::CONST, &[i, 3_900]);
        let b = p.node(kind::CONST, &[i + 50, 3_900]);
        let e = p.node(kind::EQ, &[a, b]);
        p.roots.push(e as u64);
    }
    put("bits", &p);
    // 512 entries for two nodes
    let mut p = Problem::default();
    let x = p.node(kind::VAR, &[8]);
    (0..512).for_each(|i| p.var_entry(format!("v{i}").as_bytes(), x as u64, 8));
    let mut t = x;
    for _ in 0..1_540 {
        t = p.node(kind::BV_NOT, &[t]);
    }
    let r = p.node(kind::EQ, &[t, x]);
    p.roots.push(r as u64);
    put("nodes", &p);
    // side entries that two calls share
    let mut p = Problem::default();
    let x = p.node(kind::VAR, &[1]);
    p.var_entry(b"x", x as u64, 1);
    p.side = vec![x as u64; 4_100];
    p.func_entry(b"f", 1);
    let a = p.node(kind::CALL, &[0, 1, 0, 4_100]);
    let b = p.node(kind::CALL, &[0, 1, 0, 4_100]);
    let r = p.node(kind::EQ, &[a, b]);
    p.roots.push(r as u64);
    put("side entries", &p);
    // a width that only the table has
    let mut p = Problem::default();
    p.var_entry(b"x", 7, 1 << 50);
    put("a width", &p);
}

// ---------------------------------------------------------------- rooms

/// Each output one short, one longer, not lent; all at once.
fn rooms(c: &mut Cases) {
    let all = bases();
    for s in [&all[1], &full()[0], &full()[1]] {
        let known = lengths(&read(s.as_bytes()).problem);
        for k in 0..18 {
            let want = |short: bool| Some(if short { 10 } else { 0 });
            c.one("an output one short", s, Lent::Short(k), want(known[k] > 0));
            c.one("an output one longer", s, Lent::OneMore(k), Some(0));
            c.one("an output not lent", s, Lent::Without(k), want(known[k] > 0));
        }
        c.one("all outputs one short", s, Lent::AllShort, Some(10));
        c.one("nothing lent", s, Lent::Nothing, Some(10));
        c.one("all outputs longer", s, Lent::Longer(9), Some(0));
        c.one("as much lent as a problem can have", s, Lent::Whole, Some(0));
    }
    c.one("nothing lent, nothing needed", &all[0], Lent::Nothing, Some(0));
    c.one("all outputs longer", &all[0], Lent::Longer(4), Some(0));
    let two_short = script(&[&variable("x", 1 << 40)], &["(= |x| |y|)"]);
    c.one("13 before 9 and 10", &two_short, Lent::Nothing, Some(13));
    c.one("13 before 9 and 10", &two_short, Lent::Whole, Some(13));
    let past = script(&[&variable("x", 1 << 40)], &["(= |x| |x|)"]);
    c.one("9 before 10", &past, Lent::Nothing, Some(9));
    c.one("9 before 10", &past, Lent::Whole, Some(9));
    c.one("13 before 10", all[1].replace("check", "Check"), Lent::Nothing, Some(13));
    c.one("13 before 10", all[1].replace("check", "Check"), Lent::Whole, Some(13));
}

// ---------------------------------------------------------------- depth

/// Past every limit by their depth alone, and 13 where the last byte is wrong.
fn deep(c: &mut Cases) {
    let n = DEPTH;
    let nested = |open: &str, leaf: &str, close: &str| format!("{}{leaf}{}", open.repeat(n), close.repeat(n));
    let of = |declared: &[&str], body: String| script(declared, &[&body]);
    let f = function("f", &[8], 8);
    for s in [
        of(&[X8], format!("(= {} |x|)", nested("(bvnot ", "|x|", ")"))),
        of(&[X8], format!("(= |x| {})", nested("(bvadd |x| ", "|x|", ")"))),
        of(&[X8], nested("(not ", "(= |x| |x|)", ")")),
        of(&[X8, &f], format!("(= {} |x|)", nested("(|f| ", "|x|", ")"))),
        of(&[X8, &array("m", 8, 8)], format!("(= {} |x|)", nested("(select |m| ", "|x|", ")"))),
        of(&[X8, &array("m", 8, 8)], format!("(= (select {} |x|) |x|)", nested("(store ", "|m|", " |x| |x|)"))),
    ] {
        c.exact("deep", &s, 9);
        let last = s.rfind(")\n(check").unwrap();
        c.exact("deep, and a bracket missing", format!("{}{}", &s[..last], &s[last + 1..]), 13);
    }
    c.exact("deep, and never closed", format!("(set-logic QF_BV)\n(assert {}", "(not ".repeat(n)), 13);
    c.exact("deep, and never closed", "(".repeat(2 * n), 13);
    // as deep as a problem can be
    c.exact("deep", chain(2_048), 0);
}

/// The longest script of the list.
pub const LONGEST: usize = 200_000;

/// How deep: a reader that recurses takes its stack from the program that replays the list.
const DEPTH: usize = 12_000;

// ---------------------------------------------------------------- at random

/// Problems grown at random, printed; their scripts whole, and with one change.
fn grown(c: &mut Cases, rng: &mut Rng) {
    for i in 0..GROWN {
        let (roots, depth) = (rng.from_to(1, 3), rng.from_to(1, 4) as u32);
        let p = if i % 2 == 0 { trees::accepted(rng, roots, depth) } else { trees::accepted_by_table(rng, roots, depth) };
        let s = added::print_answer(&p, usize::MAX).result;
        if s.len() > 800 {
            continue;
        }
        c.exact("grown", &s, 0);
        if s.len() > 400 {
            continue;
        }
        let k = rng.below(s.len() as u64) as usize;
        let mut t = s.clone();
        match rng.below(4) {
            0 => t[k] ^= 1 << rng.below(8),
            1 => t.swap(k, (k + 1) % s.len()),
            2 => _ = t.remove(k),
            _ => t.insert(k, t[rng.below(s.len() as u64) as usize]),
        }
        c.one("grown, with a change", &t, Lent::Exact, None);
        // a digit of a constant or a numeral changed: mostly a script again
        let digits: Vec<usize> = (0..s.len()).filter(|k| s[*k].is_ascii_digit()).collect();
        let mut t = s.clone();
        let k = rng.pick(&digits);
        t[k] = if t[k] == b'0' { b'1' } else { b'0' };
        c.one("grown, with another digit", &t, Lent::Exact, None);
    }
}

const GROWN: usize = 200;

pub fn all() -> Vec<Case> {
    let mut c = Cases(vec![]);
    let rng = &mut Rng(SEED);
    placement(&mut c);
    names(&mut c);
    sorts(&mut c);
    numbers(&mut c);
    rooms(&mut c);
    limits(&mut c);
    shared_room(&mut c);
    deep(&mut c);
    spellings(&mut c);
    damage(&mut c, rng);
    grown(&mut c, rng);
    other_ways(&mut c);
    of_recorded(&mut c);
    // each script once with what is lent
    let mut seen = HashSet::new();
    c.0.retain(|case| {
        let (room, _) = answer(case);
        seen.insert((case.script.clone(), room))
    });
    c.0
}
