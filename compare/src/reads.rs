//! NOT THE RUST'S: scripts read back, of document 02. A model of its own, written from that paper and document 01. The bytes are read by
//! document 01's grammar of readings, with white space wherever it may stand; what is read is placed in nodes by document 02's words; and the
//! nodes are printed again. 13 is told where there is no reading, where no problem has it, or where the printed bytes are other ones. The
//! printer is the model's own, since the Rust takes operands of 32 bits and its problems have limits; what is read within them has to be
//! printed the same by the Rust.
use crate::added;
use crate::problem::{Problem, kind};
use crate::words::is_reserved;
use std::collections::{HashMap, HashSet};

// ---------------------------------------------------------------- tokens and brackets

/// A name between bars and a simple one are the same symbol. A numeral is a number of 64 bits; no larger one is in a script.
enum Item {
    Symbol(Vec<u8>),
    Numeral(u64),
    /// the lowest bit first
    Bits(Vec<bool>),
    List(Vec<Item>),
}

use Item::{List, Symbol};

fn simple(b: u8) -> bool {
    b.is_ascii_alphanumeric() || b"~!@$%^&*_-+=<>.?/".contains(&b)
}

fn numeral(digits: &[u8]) -> Option<u64> {
    if digits.len() > 1 && digits[0] == b'0' {
        return None;
    }
    digits.iter().try_fold(0u64, |n, d| n.checked_mul(10)?.checked_add((d - b'0') as u64))
}

/// The items of a text, one after the other.
fn items(text: &[u8]) -> Option<Vec<Item>> {
    let mut open: Vec<Vec<Item>> = vec![vec![]];
    let mut at = 0;
    while at < text.len() {
        let rest = &text[at..];
        let run = |f: &dyn Fn(u8) -> bool| rest.iter().take_while(|b| f(**b)).count();
        match rest[0] {
            b' ' | b'\t' | b'\n' | b'\r' => at += 1,
            b'(' => {
                open.push(vec![]);
                at += 1;
            }
            b')' => {
                let done = open.pop()?;
                open.last_mut()?.push(List(done));
                at += 1;
            }
            b'|' => {
                let n = rest[1..].iter().position(|b| *b == b'|')?;
                open.last_mut()?.push(Symbol(rest[1..1 + n].to_vec()));
                at += n + 2;
            }
            b'#' => {
                if rest.get(1) != Some(&b'b') {
                    return None;
                }
                let n = rest[2..].iter().take_while(|b| **b == b'0' || **b == b'1').count();
                open.last_mut()?.push(Item::Bits(rest[2..2 + n].iter().rev().map(|b| *b == b'1').collect()));
                at += n + 2;
            }
            b if b.is_ascii_digit() => {
                let n = run(&|b| b.is_ascii_digit());
                open.last_mut()?.push(Item::Numeral(numeral(&rest[..n])?));
                at += n;
            }
            b if simple(b) => {
                let n = run(&simple);
                open.last_mut()?.push(Symbol(rest[..n].to_vec()));
                at += n;
            }
            _ => return None,
        }
    }
    let all = open.pop()?;
    open.is_empty().then_some(all)
}

fn symbol(item: &Item) -> Option<&[u8]> {
    match item {
        Symbol(s) => Some(s),
        _ => None,
    }
}

/// The items of a list whose first is this symbol, without it.
fn headed<'a>(item: &'a Item, head: &[u8]) -> Option<&'a [Item]> {
    match item {
        List(parts) if parts.first().and_then(symbol) == Some(head) => Some(&parts[1..]),
        _ => None,
    }
}

// ---------------------------------------------------------------- readings

#[derive(Clone, PartialEq, Debug)]
pub enum Declared {
    Variable(u64),
    Array(u64, u64),
    /// the widths of the arguments, and its own
    Function(Vec<u64>, u64),
}

/// A constant: its width, and its bits up to the highest one, the lowest first. So zeros of any width take no room.
type Constant = (u64, Vec<bool>);

/// A term by the numbers of its symbols in their tables.
enum Tree {
    Variable(usize),
    Constant(Constant),
    /// the stores from the outermost to the innermost
    Select(usize, Vec<(Tree, Tree)>, Box<Tree>),
    Call(usize, Vec<Tree>),
    Rotation(u8, u64, u64, Box<Tree>),
    /// a kind, its parameters and its operands
    Other(u8, Vec<u64>, Vec<Tree>),
}

#[derive(Clone, Copy, PartialEq)]
enum Sort {
    Bool,
    Bits(u64),
}

use Sort::{Bits, Bool};

/// The names with what each is, in the order of the script, and the assertions.
pub struct Reading {
    pub declared: Vec<(Vec<u8>, Declared)>,
    assertions: Vec<Tree>,
}

fn constant(bits: &[bool]) -> Constant {
    let used = bits.iter().rposition(|b| *b).map_or(0, |k| k + 1);
    (bits.len() as u64, bits[..used].to_vec())
}

/// SMT-LIB's names with two operands of one width.
const SAME: [(&[u8], u8); 23] = [
    (b"bvadd", 2),
    (b"bvsub", 3),
    (b"bvmul", 4),
    (b"bvudiv", 5),
    (b"bvurem", 6),
    (b"bvand", 7),
    (b"bvor", 8),
    (b"bvxor", 9),
    (b"bvshl", 10),
    (b"bvlshr", 11),
    (b"bvashr", 12),
    (b"bvsdiv", 35),
    (b"bvsrem", 36),
    (b"=", 19),
    (b"distinct", 20),
    (b"bvult", 21),
    (b"bvule", 22),
    (b"bvugt", 23),
    (b"bvuge", 24),
    (b"bvslt", 25),
    (b"bvsle", 26),
    (b"bvsgt", 27),
    (b"bvsge", 28),
];

/// From 1 to 2^64 - 1.
fn width(item: &Item) -> Option<u64> {
    match headed(item, b"_")? {
        [Symbol(s), Item::Numeral(n)] if s == b"BitVec" && *n > 0 => Some(*n),
        _ => None,
    }
}

/// Document 02: an array's widths are from 1 to 65,536.
fn array_width(item: &Item) -> Option<u64> {
    width(item).filter(|w| *w <= 65_536)
}

fn declaration(item: &Item) -> Option<(Vec<u8>, Declared)> {
    let List(parts) = item else { return None };
    match &parts[..] {
        [Symbol(c), Symbol(name), sort] if c == b"declare-const" => {
            let what = match headed(sort, b"Array") {
                Some([s, t]) => Declared::Array(array_width(s)?, array_width(t)?),
                Some(_) => return None,
                None => Declared::Variable(width(sort)?),
            };
            Some((name.clone(), what))
        }
        [Symbol(c), Symbol(name), List(sorts), sort] if c == b"declare-fun" => {
            let of: Option<Vec<u64>> = sorts.iter().map(width).collect();
            Some((name.clone(), Declared::Function(of?, width(sort)?)))
        }
        _ => None,
    }
}

/// Document 01's rules, with document 02's bytes and words.
fn name_allowed(name: &[u8]) -> bool {
    let byte = |b: &u8| *b >= 32 && *b != 127 && *b != b'|' && *b != b'\\';
    name.first().is_some_and(|b| *b != b'@' && *b != b'.') && name.iter().all(byte) && !is_reserved(name)
}

/// What a name is, and its number in its own table.
type Table<'a> = HashMap<&'a [u8], (usize, &'a Declared)>;

/// Two operands with these names are a pair.
fn two(parts: &[Item], table: &Table) -> Option<((Tree, Sort), (Tree, Sort))> {
    match parts {
        [a, b] => Some((term(a, table)?, term(b, table)?)),
        _ => None,
    }
}

fn one(parts: &[Item], table: &Table) -> Option<(Tree, Sort)> {
    match parts {
        [a] => term(a, table),
        _ => None,
    }
}

/// An array with its stores, the outermost first.
fn stored(item: &Item, table: &Table) -> Option<(usize, u64, u64, Vec<(Tree, Tree)>)> {
    // the chain is walked by a loop
    let mut chain = vec![];
    let mut item = item;
    while let Some(parts) = headed(item, b"store") {
        let [array, index, value] = parts else { return None };
        chain.push((index, value));
        item = array;
    }
    let (number, Declared::Array(i, v)) = *table.get(symbol(item)?)? else { return None };
    let mut stores = vec![];
    for (index, value) in chain {
        let (index, value) = (term(index, table)?, term(value, table)?);
        if index.1 != Bits(*i) || value.1 != Bits(*v) {
            return None;
        }
        stores.push((index.0, value.0));
    }
    Some((number, *i, *v, stores))
}

/// An operator with numerals.
fn indexed(operator: &[Item], parts: &[Item], table: &Table) -> Option<(Tree, Sort)> {
    let name = symbol(operator.first()?)?;
    let numbers: Option<Vec<u64>> = operator[1..]
        .iter()
        .map(|i| match i {
            Item::Numeral(n) => Some(*n),
            _ => None,
        })
        .collect();
    let (of, Bits(w)) = one(parts, table)? else { return None };
    match (name, &numbers?[..]) {
        (b"extract", [i, j]) if j <= i && *i < w => Some((Tree::Other(kind::EXTRACT, vec![*i, *j], vec![of]), Bits(i - j + 1))),
        (b"zero_extend", [n]) => Some((Tree::Other(kind::ZERO_EXT, vec![*n], vec![of]), Bits(w.checked_add(*n)?))),
        (b"sign_extend", [n]) => Some((Tree::Other(kind::SIGN_EXT, vec![*n], vec![of]), Bits(w.checked_add(*n)?))),
        (b"rotate_left", [n]) if w <= 65_536 && *n < w => Some((Tree::Rotation(kind::ROTL, *n, w, Box::new(of)), Bits(w))),
        (b"rotate_right", [n]) if w <= 65_536 && *n < w => Some((Tree::Rotation(kind::ROTR, *n, w, Box::new(of)), Bits(w))),
        _ => None,
    }
}

/// An operator that is a symbol.
fn applied(name: &[u8], parts: &[Item], table: &Table) -> Option<(Tree, Sort)> {
    if let Some((_, k)) = SAME.iter().find(|(s, _)| *s == name) {
        let ((a, Bits(w)), (b, sort)) = two(parts, table)? else { return None };
        let result = if (kind::EQ..=kind::SGE).contains(k) { Bool } else { Bits(w) };
        return (sort == Bits(w)).then(|| (Tree::Other(*k, vec![], vec![a, b]), result));
    }
    let unary = |k: u8, wanted: fn(Sort) -> bool| {
        let (a, sort) = one(parts, table)?;
        wanted(sort).then(|| (Tree::Other(k, vec![], vec![a]), sort))
    };
    match name {
        b"not" => unary(kind::NOT, |s| s == Bool),
        b"bvnot" => unary(kind::BV_NOT, |s| s != Bool),
        b"bvneg" => unary(kind::NEG, |s| s != Bool),
        b"and" | b"or" => {
            let ((a, Bool), (b, Bool)) = two(parts, table)? else { return None };
            let k = if name == b"and" { kind::BOOL_AND } else { kind::BOOL_OR };
            Some((Tree::Other(k, vec![], vec![a, b]), Bool))
        }
        b"concat" => {
            let ((a, Bits(v)), (b, Bits(w))) = two(parts, table)? else { return None };
            Some((Tree::Other(kind::CONCAT, vec![], vec![a, b]), Bits(v.checked_add(w)?)))
        }
        b"ite" => {
            let [c, a, b] = parts else { return None };
            let (c, Bool) = term(c, table)? else { return None };
            let (a, Bits(w)) = term(a, table)? else { return None };
            let (b, sort) = term(b, table)?;
            (sort == Bits(w)).then(|| (Tree::Other(kind::ITE, vec![], vec![c, a, b]), sort))
        }
        b"select" => {
            let [array, index] = parts else { return None };
            let (number, i, v, stores) = stored(array, table)?;
            let (index, sort) = term(index, table)?;
            (sort == Bits(i)).then(|| (Tree::Select(number, stores, Box::new(index)), Bits(v)))
        }
        _ => {
            let (number, Declared::Function(of, w)) = *table.get(name)? else { return None };
            let arguments: Option<Vec<(Tree, Sort)>> = parts.iter().map(|p| term(p, table)).collect();
            let (trees, sorts): (Vec<Tree>, Vec<Sort>) = arguments?.into_iter().unzip();
            let fit = sorts.len() == of.len() && sorts.iter().zip(of).all(|(s, w)| *s == Bits(*w));
            fit.then(|| (Tree::Call(number, trees), Bits(*w)))
        }
    }
}

fn term(item: &Item, table: &Table) -> Option<(Tree, Sort)> {
    match item {
        Item::Numeral(_) => None,
        Item::Bits(bits) => (!bits.is_empty()).then(|| (Tree::Constant(constant(bits)), Bits(bits.len() as u64))),
        Symbol(name) => match *table.get(&name[..])? {
            (k, Declared::Variable(w)) => Some((Tree::Variable(k), Bits(*w))),
            (k, Declared::Function(of, w)) if of.is_empty() => Some((Tree::Call(k, vec![]), Bits(*w))),
            _ => None,
        },
        List(parts) => {
            let (operator, rest) = parts.split_first()?;
            match operator {
                Symbol(name) => applied(name, rest, table),
                _ => indexed(headed(operator, b"_")?, rest, table),
            }
        }
    }
}

/// The number of each name in its own table.
fn table(declared: &[(Vec<u8>, Declared)]) -> Table<'_> {
    let mut next = [0; 3];
    let mut all = HashMap::new();
    for (name, what) in declared {
        let t = match what {
            Declared::Variable(_) => 0,
            Declared::Array(..) => 1,
            Declared::Function(..) => 2,
        };
        all.insert(&name[..], (next[t], what));
        next[t] += 1;
    }
    all
}

/// The reading of a script that some problem could have: names, sorts and widths are as the printer wants them.
pub fn reading(text: &[u8]) -> Option<Reading> {
    let all = items(text)?;
    let (first, rest) = all.split_first()?;
    let ([Symbol(_)], Some((last, rest))) = (headed(first, b"set-logic")?, rest.split_last()) else { return None };
    if !headed(last, b"check-sat")?.is_empty() {
        return None;
    }
    let n = rest.iter().take_while(|i| headed(i, b"assert").is_none()).count();
    let declared: Vec<_> = rest[..n].iter().map(declaration).collect::<Option<_>>()?;
    let names: HashSet<&[u8]> = declared.iter().map(|(name, _)| &name[..]).collect();
    if names.len() < declared.len() || !declared.iter().all(|(name, _)| name_allowed(name)) {
        return None;
    }
    let table = table(&declared);
    let mut assertions = vec![];
    for item in &rest[n..] {
        let (tree, Bool) = one(headed(item, b"assert")?, &table)? else { return None };
        assertions.push(tree);
    }
    Some(Reading { declared, assertions })
}

// ---------------------------------------------------------------- placement

/// A problem without limits: a node's operands are numbers of 64 bits, and a constant's bits stand with it.
#[derive(Default)]
struct Rebuilt {
    nodes: Vec<(u8, [u64; 4])>,
    /// the bits of constant nodes by their number
    constants: HashMap<u64, Constant>,
    known: HashMap<Constant, u64>,
    bits: u128,
    side: Vec<u64>,
    roots: Vec<u64>,
    variables: Vec<(Vec<u8>, u64)>,
    arrays: Vec<(Vec<u8>, u64, u64)>,
    functions: Vec<(Vec<u8>, u64)>,
}

impl Rebuilt {
    fn node(&mut self, k: u8, o: &[u64]) -> u64 {
        let mut all = [0; 4];
        all[..o.len()].copy_from_slice(o);
        self.nodes.push((k, all));
        self.nodes.len() as u64 - 1
    }
    /// A node for a constant: the one that there is, or a new one.
    fn constant(&mut self, c: Constant) -> u64 {
        if let Some(i) = self.known.get(&c) {
            return *i;
        }
        // a start past 64 bits is past every limit; what stands there is not looked at
        let i = self.node(kind::CONST, &[self.bits.min(u64::MAX as u128) as u64, c.0]);
        self.bits += c.0 as u128;
        self.constants.insert(i, c.clone());
        self.known.insert(c, i);
        i
    }
    /// The nodes of a term's operands, in the order of the script: first those that are no constants, each as it ends; then, now that the term
    /// is next, the constants.
    fn operands(&mut self, trees: &[&Tree]) -> Vec<u64> {
        let placed: Vec<Option<u64>> = trees.iter().map(|t| self.term(t)).collect();
        let mut numbers = vec![];
        for (tree, i) in trees.iter().zip(placed) {
            numbers.push(match (i, tree) {
                (Some(i), _) => i,
                (None, Tree::Constant(c)) => self.constant(c.clone()),
                (None, _) => unreachable!(),
            });
        }
        numbers
    }
    /// The node of a term; a constant has none yet.
    fn term(&mut self, tree: &Tree) -> Option<u64> {
        Some(match tree {
            Tree::Constant(_) => return None,
            Tree::Variable(k) => *k as u64,
            Tree::Select(array, stores, index) => {
                // the innermost store stands first in the script
                let mut trees: Vec<&Tree> = stores.iter().rev().flat_map(|(i, v)| [i, v]).collect();
                trees.push(index);
                let mut numbers = self.operands(&trees);
                let index = numbers.pop().unwrap();
                let start = self.side.len() as u64;
                for pair in numbers.chunks(2).rev() {
                    self.side.extend_from_slice(pair);
                }
                self.node(kind::SELECT, &[*array as u64, index, start, stores.len() as u64])
            }
            Tree::Call(f, arguments) => {
                let numbers = self.operands(&arguments.iter().collect::<Vec<_>>());
                self.call(*f, &numbers)
            }
            Tree::Rotation(k, amount, w, of) => {
                let bits: Vec<bool> = (0..64).map(|b| amount >> b & 1 == 1).collect();
                let by = Tree::Constant((*w, constant(&bits).1));
                let numbers = self.operands(&[&by, of]);
                self.node(*k, &[numbers[1], numbers[0]])
            }
            Tree::Other(k, numerals, operands) => {
                let numbers = self.operands(&operands.iter().collect::<Vec<_>>());
                // an extract has its numerals first, an extension last
                let all =
                    if *k == kind::EXTRACT { [&numerals[..], &numbers].concat() } else { [&numbers[..], numerals].concat() };
                self.node(*k, &all)
            }
        })
    }
    fn call(&mut self, f: usize, arguments: &[u64]) -> u64 {
        let start = self.side.len() as u64;
        self.side.extend_from_slice(arguments);
        self.node(kind::CALL, &[f as u64, self.functions[f].1, start, arguments.len() as u64])
    }
}

fn calls(tree: &Tree, called: &mut HashSet<usize>) {
    match tree {
        Tree::Variable(_) | Tree::Constant(_) => {}
        Tree::Select(_, stores, index) => {
            stores.iter().for_each(|(i, v)| {
                calls(i, called);
                calls(v, called);
            });
            calls(index, called);
        }
        Tree::Call(f, arguments) => {
            called.insert(*f);
            arguments.iter().for_each(|t| calls(t, called));
        }
        Tree::Rotation(_, _, _, of) => calls(of, called),
        Tree::Other(_, _, operands) => operands.iter().for_each(|t| calls(t, called)),
    }
}

fn rebuilt(r: &Reading) -> Rebuilt {
    let mut p = Rebuilt::default();
    let mut of: Vec<&[u64]> = vec![];
    for (name, what) in &r.declared {
        match what {
            Declared::Variable(w) => {
                p.node(kind::VAR, &[*w]);
                p.variables.push((name.clone(), *w));
            }
            Declared::Array(i, v) => p.arrays.push((name.clone(), *i, *v)),
            Declared::Function(widths, w) => {
                p.functions.push((name.clone(), *w));
                of.push(widths);
            }
        }
    }
    let mut called = HashSet::new();
    r.assertions.iter().for_each(|t| calls(t, &mut called));
    for (f, widths) in of.iter().enumerate() {
        if !called.contains(&f) {
            let zeros: Vec<u64> = widths.iter().map(|w| p.constant((*w, vec![]))).collect();
            p.call(f, &zeros);
        }
    }
    for t in &r.assertions {
        let root = p.term(t).expect("an assertion is no constant");
        p.roots.push(root);
    }
    p
}

// ---------------------------------------------------------------- printing

/// The script of a problem that needs no check but those of its reading, from document 01.
struct Printer<'a> {
    p: &'a Rebuilt,
    widths: Vec<u64>,
    out: Vec<u8>,
}

impl Printer<'_> {
    fn text(&mut self, s: &[u8]) {
        self.out.extend_from_slice(s);
    }
    fn name(&mut self, s: &[u8]) {
        self.text(&[b"|", s, b"|"].concat());
    }
    fn sort(&mut self, w: u64) {
        self.text(format!("(_ BitVec {w})").as_bytes());
    }
    /// A blank and a term.
    fn next(&mut self, i: u64) {
        self.text(b" ");
        self.term(i);
    }
    fn constant(&mut self, c: &Constant) {
        self.text(b"#b");
        for b in (0..c.0 as usize).rev() {
            self.out.push(if c.1.get(b) == Some(&true) { b'1' } else { b'0' });
        }
    }
    /// An amount's value: its bits up to the highest one are few.
    fn amount(&self, i: u64, w: u64) -> u64 {
        self.p.constants[&i].1.iter().rev().fold(0, |n, b| (2 * n + *b as u64) % w)
    }
    fn term(&mut self, i: u64) {
        let p = self.p;
        let (k, [a, b, c, d]) = p.nodes[i as usize];
        let name = |k: u8| SAME.iter().find(|(_, x)| *x == k).map(|(s, _)| String::from_utf8_lossy(s).to_string());
        match k {
            kind::VAR => self.name(&p.variables[i as usize].0),
            kind::CONST => self.constant(&p.constants[&i]),
            kind::SELECT => {
                self.text(b"(select ");
                (0..d).for_each(|_| self.text(b"(store "));
                self.name(&p.arrays[a as usize].0);
                for l in (0..d).rev() {
                    let at = (c + 2 * l) as usize;
                    self.next(p.side[at]);
                    self.next(p.side[at + 1]);
                    self.text(b")");
                }
                self.next(b);
                self.text(b")");
            }
            kind::CALL if d == 0 => self.name(&p.functions[a as usize].0),
            kind::CALL => {
                self.text(b"(");
                self.name(&p.functions[a as usize].0);
                (c..c + d).for_each(|j| self.next(p.side[j as usize]));
                self.text(b")");
            }
            _ => {
                let w = self.widths[i as usize];
                let (operator, operands): (String, Vec<u64>) = match k {
                    kind::EXTRACT => (format!("(_ extract {a} {b})"), vec![c]),
                    kind::ZERO_EXT => (format!("(_ zero_extend {b})"), vec![a]),
                    kind::SIGN_EXT => (format!("(_ sign_extend {b})"), vec![a]),
                    kind::ROTL => (format!("(_ rotate_left {})", self.amount(b, w)), vec![a]),
                    kind::ROTR => (format!("(_ rotate_right {})", self.amount(b, w)), vec![a]),
                    kind::NOT => ("not".into(), vec![a]),
                    kind::BV_NOT => ("bvnot".into(), vec![a]),
                    kind::NEG => ("bvneg".into(), vec![a]),
                    kind::BOOL_AND => ("and".into(), vec![a, b]),
                    kind::BOOL_OR => ("or".into(), vec![a, b]),
                    kind::CONCAT => ("concat".into(), vec![a, b]),
                    kind::ITE => ("ite".into(), vec![a, b, c]),
                    _ => (name(k).expect("a kind"), vec![a, b]),
                };
                self.text(b"(");
                self.text(operator.as_bytes());
                operands.into_iter().for_each(|j| self.next(j));
                self.text(b")");
            }
        }
    }
}

fn widths(p: &Rebuilt) -> Vec<u64> {
    let mut ws: Vec<u64> = vec![];
    for (k, [a, b, ..]) in &p.nodes {
        let of = |i: &u64| ws[*i as usize];
        ws.push(match *k {
            kind::VAR => *a,
            kind::CONST | kind::CALL => *b,
            kind::EXTRACT => a - b + 1,
            kind::CONCAT => of(a) + of(b),
            kind::ZERO_EXT | kind::SIGN_EXT => of(a) + b,
            kind::ITE => of(b),
            kind::SELECT => p.arrays[*a as usize].2,
            kind::EQ..=kind::BOOL_OR => 1,
            _ => of(a),
        });
    }
    ws
}

fn printed(p: &Rebuilt) -> Vec<u8> {
    let mut t = Printer { p, widths: widths(p), out: vec![] };
    let logic = match (p.functions.is_empty(), p.arrays.is_empty()) {
        (false, _) => "QF_AUFBV",
        (_, false) => "QF_ABV",
        _ => "QF_BV",
    };
    t.text(format!("(set-logic {logic})\n").as_bytes());
    for (name, w) in &p.variables {
        t.text(b"(declare-const ");
        t.name(name);
        t.text(b" ");
        t.sort(*w);
        t.text(b")\n");
    }
    for (name, i, v) in &p.arrays {
        t.text(b"(declare-const ");
        t.name(name);
        t.text(b" (Array ");
        t.sort(*i);
        t.text(b" ");
        t.sort(*v);
        t.text(b"))\n");
    }
    for (f, (name, w)) in p.functions.iter().enumerate() {
        let first = p.nodes.iter().find(|(k, o)| *k == kind::CALL && o[0] == f as u64).expect("every function is called");
        let (start, n) = (first.1[2] as usize, first.1[3] as usize);
        t.text(b"(declare-fun ");
        t.name(name);
        t.text(b" (");
        for j in 0..n {
            if j > 0 {
                t.text(b" ");
            }
            let w = t.widths[p.side[start + j] as usize];
            t.sort(w);
        }
        t.text(b") ");
        t.sort(*w);
        t.text(b")\n");
    }
    for r in &p.roots {
        t.text(b"(assert");
        t.next(*r);
        t.text(b")\n");
    }
    t.text(b"(check-sat)\n");
    t.out
}

// ---------------------------------------------------------------- the answer

/// How many elements of each output are used: nodes in bytes, bits, side entries, roots, then each arena and its table's entries.
pub type Sizes = [usize; 10];

/// The lengths of the eighteen outputs, in the printer's order of its inputs.
pub type Lengths = [usize; 18];

pub struct Read {
    pub number: u32,
    pub sizes: Sizes,
    pub problem: Problem,
}

fn refused(number: u32) -> Read {
    Read { number, sizes: [0; 10], problem: Problem::default() }
}

pub fn lengths(p: &Problem) -> Lengths {
    [
        p.nodes.len(),
        p.bits.len(),
        p.side.len(),
        p.roots.len(),
        p.names.len(),
        p.name_start.len(),
        p.name_len.len(),
        p.var_node.len(),
        p.var_width.len(),
        p.anames.len(),
        p.aname_start.len(),
        p.aname_len.len(),
        p.index_width.len(),
        p.value_width.len(),
        p.fnames.len(),
        p.fname_start.len(),
        p.fname_len.len(),
        p.func_width.len(),
    ]
}

/// Document 01's limits, and the 32 bits of a record's operands.
fn within(p: &Rebuilt) -> bool {
    let bytes = |names: &mut dyn Iterator<Item = &Vec<u8>>| names.map(|n| n.len()).sum::<usize>();
    p.nodes.len() <= 2_048
        && p.bits <= 131_072
        && p.side.len() <= 8_192
        && p.roots.len() <= 256
        && p.variables.len() <= 512
        && p.arrays.len() <= 512
        && p.functions.len() <= 512
        && bytes(&mut p.variables.iter().map(|v| &v.0)) <= 16_384
        && bytes(&mut p.arrays.iter().map(|a| &a.0)) <= 16_384
        && bytes(&mut p.functions.iter().map(|f| &f.0)) <= 16_384
        && p.nodes.iter().all(|(_, o)| o.iter().all(|x| *x <= u32::MAX as u64))
}

fn lent(r: &Rebuilt) -> Problem {
    let mut p = Problem::default();
    for (i, (k, o)) in r.nodes.iter().enumerate() {
        p.node(*k, &o.map(|x| x as u32));
        if let Some(c) = r.constants.get(&(i as u64)) {
            p.bits.extend((0..c.0 as usize).map(|b| (c.1.get(b) == Some(&true)) as u8));
        }
    }
    p.side = r.side.clone();
    p.roots = r.roots.clone();
    for (k, (name, w)) in r.variables.iter().enumerate() {
        p.var_entry(name, k as u64, *w);
    }
    for (name, i, v) in &r.arrays {
        p.array_of(name, *i, *v);
    }
    for (name, w) in &r.functions {
        p.func_entry(name, *w);
    }
    p
}

/// With endless room.
pub fn read(script: &[u8]) -> Read {
    let Some(r) = reading(script) else { return refused(13) };
    let r = rebuilt(&r);
    if printed(&r) != script {
        return refused(13);
    }
    if !within(&r) {
        return refused(9);
    }
    let p = lent(&r);
    let n = lengths(&p);
    let again = added::print_answer(&p, usize::MAX);
    assert!(again.number == 0 && again.result == script, "the Rust prints something else");
    Read { number: 0, sizes: [n[0], n[1], n[2], n[3], n[4], n[5], n[9], n[10], n[14], n[15]], problem: p }
}

/// Into outputs of these lengths.
pub fn with_room(r: Read, room: &Lengths) -> Read {
    if r.number == 0 && lengths(&r.problem).iter().zip(room).any(|(n, m)| n > m) { refused(10) } else { r }
}
