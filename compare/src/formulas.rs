//! Roots as formulas (document 02, L13). The assertions of the Rust's script are read as trees and written with every pair of brackets that could
//! stand; then each pair is left out without which a parser of formulas still reads the tree. Both are written from document 02, not from the port.
use crate::added::{self, Answer};
use crate::problem::Problem;

/// Between operands, from the loosest, with SMT-LIB's symbols.
const LEVELS: [&[(&str, &str)]; 10] = [
    &[("or", "or")],
    &[("and", "and")],
    &[("bor", "bvor")],
    &[("bxor", "bvxor")],
    &[("band", "bvand")],
    &[("==", "="), ("!=", "distinct")],
    &[("<", "bvult"), ("<=", "bvule"), (">", "bvugt"), (">=", "bvuge")],
    &[("<<", "bvshl"), (">>", "bvlshr")],
    &[("+", "bvadd"), ("-", "bvsub")],
    &[("*", "bvmul"), ("/", "bvudiv"), ("%", "bvurem")],
];

/// Before one operand.
const PREFIXES: [(&str, &str); 3] = [("!", "not"), ("~", "bvnot"), ("-", "bvneg")];

#[derive(Clone, Debug, PartialEq)]
enum Tree {
    /// A name between bars, or a constant.
    Leaf(Vec<u8>),
    Prefix(&'static str, Box<Tree>),
    Infix(&'static str, Box<Tree>, Box<Tree>),
    /// A name, numerals and operands.
    Named(Vec<u8>, Vec<Vec<u8>>, Vec<Tree>),
}

// ---------------------------------------------------------------- the Rust's script

fn script_tokens(text: &[u8]) -> Vec<Vec<u8>> {
    let mut out = vec![];
    let mut i = 0;
    while i < text.len() {
        let from = i;
        match text[i] {
            b' ' | b'\n' => {
                i += 1;
                continue;
            }
            b'(' | b')' => i += 1,
            b'|' => i += text[i + 1..].iter().position(|b| *b == b'|').expect("a closing bar") + 2,
            _ => {
                while i < text.len() && !b" \n()|".contains(&text[i]) {
                    i += 1;
                }
            }
        }
        out.push(text[from..i].to_vec());
    }
    out
}

fn term(tokens: &[Vec<u8>], at: &mut usize) -> Tree {
    let first = tokens[*at].clone();
    *at += 1;
    if first != b"(" {
        return Tree::Leaf(first);
    }
    let mut numerals = vec![];
    let head = if tokens[*at] == b"(" {
        // ( _ name numeral .. )
        let name = tokens[*at + 2].clone();
        *at += 3;
        while tokens[*at] != b")" {
            numerals.push(tokens[*at].clone());
            *at += 1;
        }
        *at += 1;
        name
    } else {
        *at += 1;
        tokens[*at - 1].clone()
    };
    let mut operands = vec![];
    while tokens[*at] != b")" {
        operands.push(term(tokens, at));
    }
    *at += 1;
    for (sign, symbol) in PREFIXES {
        if head == symbol.as_bytes() {
            return Tree::Prefix(sign, Box::new(operands.remove(0)));
        }
    }
    for (sign, symbol) in LEVELS.iter().flat_map(|l| l.iter()) {
        if head == symbol.as_bytes() {
            let right = operands.remove(1);
            return Tree::Infix(sign, Box::new(operands.remove(0)), Box::new(right));
        }
    }
    Tree::Named(head, numerals, operands)
}

fn assertions(script: &[u8]) -> Vec<Tree> {
    let tokens = script_tokens(script);
    (0..tokens.len()).filter(|i| tokens[*i] == b"assert").map(|i| term(&tokens, &mut (i + 1))).collect()
}

// ---------------------------------------------------------------- a formula

/// `brackets` has a flag for each operator that has a sign, in the order of the text before their operands.
fn write(t: &Tree, brackets: &[bool], next: &mut usize, out: &mut Vec<u8>) {
    let own = match t {
        Tree::Prefix(..) | Tree::Infix(..) => {
            *next += 1;
            brackets[*next - 1]
        }
        _ => false,
    };
    if own {
        out.push(b'(');
    }
    match t {
        Tree::Leaf(text) => out.extend(text),
        Tree::Prefix(sign, a) => {
            out.extend(sign.bytes());
            write(a, brackets, next, out);
        }
        Tree::Infix(sign, a, b) => {
            write(a, brackets, next, out);
            out.push(b' ');
            out.extend(sign.bytes());
            out.push(b' ');
            write(b, brackets, next, out);
        }
        Tree::Named(name, numerals, operands) => {
            out.extend(name);
            out.push(b'(');
            for (k, n) in numerals.iter().enumerate() {
                out.extend(if k == 0 { &b""[..] } else { b", " });
                out.extend(n);
            }
            for (k, o) in operands.iter().enumerate() {
                out.extend(if k + numerals.len() == 0 { &b""[..] } else { b", " });
                write(o, brackets, next, out);
            }
            out.push(b')');
        }
    }
    if own {
        out.push(b')');
    }
}

fn signs(t: &Tree) -> usize {
    match t {
        Tree::Leaf(_) => 0,
        Tree::Prefix(_, a) => 1 + signs(a),
        Tree::Infix(_, a, b) => 1 + signs(a) + signs(b),
        Tree::Named(_, _, os) => os.iter().map(signs).sum(),
    }
}

fn formula(t: &Tree) -> Vec<u8> {
    let mut brackets = vec![true; signs(t)];
    let text = |brackets: &[bool]| {
        let mut out = vec![];
        write(t, brackets, &mut 0, &mut out);
        out
    };
    for k in 0..brackets.len() {
        brackets[k] = false;
        if read(&text(&brackets)).as_ref() != Some(t) {
            brackets[k] = true;
        }
    }
    text(&brackets)
}

// ---------------------------------------------------------------- reading it back

fn tokens(text: &[u8]) -> Option<Vec<Vec<u8>>> {
    let mut out = vec![];
    let mut i = 0;
    while i < text.len() {
        let from = i;
        match text[i] {
            b' ' => {
                i += 1;
                continue;
            }
            b'|' => i += text[i + 1..].iter().position(|b| *b == b'|')? + 2,
            b'#' => {
                i += 2;
                while i < text.len() && b"01".contains(&text[i]) {
                    i += 1;
                }
            }
            b if b.is_ascii_alphanumeric() => {
                while i < text.len() && (text[i].is_ascii_alphanumeric() || text[i] == b'_') {
                    i += 1;
                }
            }
            _ => {
                let two = [&b"=="[..], b"!=", b"<=", b">=", b"<<", b">>"].iter().any(|s| text[i..].starts_with(s));
                i += if two { 2 } else { 1 };
            }
        }
        out.push(text[from..i].to_vec());
    }
    Some(out)
}

struct Parser {
    tokens: Vec<Vec<u8>>,
    at: usize,
}

impl Parser {
    fn next(&self) -> &[u8] {
        self.tokens.get(self.at).map_or(b"", |t| t)
    }
    fn take(&mut self, t: &[u8]) -> Option<()> {
        let there = self.next() == t;
        self.at += there as usize;
        there.then_some(())
    }
    fn level(&mut self, l: usize) -> Option<Tree> {
        if l == LEVELS.len() {
            return self.tight();
        }
        let mut left = self.level(l + 1)?;
        while let Some((sign, _)) = LEVELS[l].iter().find(|s| s.0.as_bytes() == self.next()) {
            self.at += 1;
            left = Tree::Infix(sign, Box::new(left), Box::new(self.level(l + 1)?));
        }
        Some(left)
    }
    fn tight(&mut self) -> Option<Tree> {
        if let Some((sign, _)) = PREFIXES.iter().find(|s| s.0.as_bytes() == self.next()) {
            self.at += 1;
            return Some(Tree::Prefix(sign, Box::new(self.tight()?)));
        }
        if self.take(b"(").is_some() {
            let t = self.level(0)?;
            self.take(b")")?;
            return Some(t);
        }
        let first = self.next().to_vec();
        self.at += 1;
        match first.first()? {
            b'#' => Some(Tree::Leaf(first)),
            b'|' if self.next() != b"(" => Some(Tree::Leaf(first)),
            b if *b == b'|' || b.is_ascii_alphabetic() => {
                self.take(b"(")?;
                let (mut numerals, mut operands) = (vec![], vec![]);
                loop {
                    if operands.is_empty() && self.next().first()?.is_ascii_digit() {
                        numerals.push(self.next().to_vec());
                        self.at += 1;
                    } else {
                        operands.push(self.level(0)?);
                    }
                    if self.take(b",").is_none() {
                        self.take(b")")?;
                        return Some(Tree::Named(first, numerals, operands));
                    }
                }
            }
            _ => None,
        }
    }
}

fn read(text: &[u8]) -> Option<Tree> {
    let mut parser = Parser { tokens: tokens(text)?, at: 0 };
    let t = parser.level(0)?;
    (parser.at == parser.tokens.len()).then_some(t)
}

// ---------------------------------------------------------------- answers

/// With endless room.
fn lines(p: &Problem) -> Result<Vec<u8>, u32> {
    let plain = added::print_answer(p, usize::MAX);
    if plain.number != 0 {
        return Err(plain.number);
    }
    let mut out = vec![];
    for t in assertions(&plain.result) {
        let line = formula(&t);
        assert_eq!(read(&line).as_ref(), Some(&t), "a formula does not read as its tree");
        out.extend(line);
        out.push(b'\n');
    }
    Ok(out)
}

pub fn answer(p: &Problem, room: usize) -> Answer<u8> {
    match lines(p) {
        Err(number) => Answer { number, count: 0, result: vec![] },
        Ok(s) if s.len() > room => Answer { number: 10, count: 0, result: vec![] },
        Ok(s) => Answer { number: 0, count: s.len(), result: s },
    }
}

/// The length of the lines, where there are any.
pub fn lines_len(p: &Problem) -> Option<usize> {
    lines(p).ok().map(|s| s.len())
}

/// Whether a pair of brackets stands in the lines: an opening one outside names that has no name before it.
pub fn has_brackets(lines: &[u8]) -> bool {
    let mut inside = false;
    let mut before = b' ';
    for b in lines {
        if *b == b'(' && !inside && !before.is_ascii_alphanumeric() && before != b'|' {
            return true;
        }
        inside ^= *b == b'|';
        before = *b;
    }
    false
}
