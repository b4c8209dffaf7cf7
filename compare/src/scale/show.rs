//! A problem and both answers, to be read.
use super::check::{Difference, Found};
use crate::added::Answer;
use crate::problem::{Problem, kind, operand_count};

pub const KINDS: [&str; 39] = [
    "Var", "Const", "Add", "Sub", "Mul", "Udiv", "Urem", "And", "Or", "Xor", "Shl", "Lshr", "Ashr", "Rotr", "Extract", "Concat",
    "ZeroExt", "SignExt", "Ite", "Eq", "Ne", "Ult", "Ule", "Ugt", "Uge", "Slt", "Sle", "Sgt", "Sge", "Not", "BoolAnd", "BoolOr",
    "BvNot", "Neg", "Rotl", "Sdiv", "Srem", "Select", "Call",
];

fn text(bytes: &[u8]) -> String {
    bytes.escape_ascii().to_string()
}

fn name(arena: &[u8], start: Option<&u64>, len: Option<&u64>) -> String {
    let (Some(s), Some(l)) = (start, len) else { return "no place".to_string() };
    let inside = s.checked_add(*l).and_then(|e| arena.get(usize::try_from(*s).ok()?..usize::try_from(e).ok()?));
    match inside {
        Some(bytes) => format!("\"{}\" ({s}, {l})", text(bytes)),
        None => format!("outside ({s}, {l})"),
    }
}

fn number(x: Option<&u64>) -> String {
    x.map_or("missing".to_string(), |x| x.to_string())
}

pub fn problem(p: &Problem) {
    println!("nodes: {} in {} bytes", p.count(), p.nodes.len());
    for i in 0..p.count() {
        let k = p.kind_of(i);
        let used = if k < kind::COUNT { operand_count(k) } else { 4 };
        let all: Vec<u32> = (0..4).map(|j| p.operand(i, j)).collect();
        let shown: Vec<String> = all[..used].iter().map(|x| x.to_string()).collect();
        let rest = if all[used..].iter().any(|x| *x != 0) { format!(", unused {:?}", &all[used..]) } else { String::new() };
        println!("  {i}: {} ({}){rest}", KINDS.get(k as usize).unwrap_or(&"kind not known"), shown.join(", "));
    }
    let past = &p.nodes[17 * p.count()..];
    if !past.is_empty() {
        println!("  then {past:?}");
    }
    let bits: Vec<String> = p.bits.iter().take(600).map(|b| b.to_string()).collect();
    println!("bits: {} {}{}", p.bits.len(), bits.concat(), if p.bits.len() > 600 { " and so on" } else { "" });
    println!("side: {:?}", p.side);
    println!("roots: {:?}", p.roots);
    println!("variables, arena \"{}\":", text(&p.names));
    for k in 0..[&p.name_start, &p.name_len, &p.var_node, &p.var_width].iter().map(|c| c.len()).max().unwrap() {
        let at = name(&p.names, p.name_start.get(k), p.name_len.get(k));
        println!("  {k}: {at}, node {}, width {}", number(p.var_node.get(k)), number(p.var_width.get(k)));
    }
    println!("arrays, arena \"{}\":", text(&p.anames));
    for k in 0..[&p.aname_start, &p.aname_len, &p.index_width, &p.value_width].iter().map(|c| c.len()).max().unwrap() {
        let at = name(&p.anames, p.aname_start.get(k), p.aname_len.get(k));
        println!("  {k}: {at}, index {}, value {}", number(p.index_width.get(k)), number(p.value_width.get(k)));
    }
    println!("functions, arena \"{}\":", text(&p.fnames));
    for k in 0..[&p.fname_start, &p.fname_len, &p.func_width].iter().map(|c| c.len()).max().unwrap() {
        let at = name(&p.fnames, p.fname_start.get(k), p.fname_len.get(k));
        println!("  {k}: {at}, width {}", number(p.func_width.get(k)));
    }
}

/// Both answers, the output as far as 600 elements.
pub fn answers<T: Copy + PartialEq>(want: &Answer<T>, room: usize, found: &Found<T>, one: fn(&[T]) -> String) {
    println!("lent: {room}");
    println!("Rust: number {}, count {}", want.number, want.count);
    if want.number == 0 {
        println!("{}", one(&want.result[..want.result.len().min(600)]));
    }
    println!("port: number {}, count {}", found.said.number, found.said.count);
    println!("{}", one(&found.out[..found.out.len().min(600)]));
    match found.what {
        Difference::Number => println!("the numbers differ"),
        Difference::Count => println!("the counts differ"),
        Difference::At(i) => println!("the outputs differ, first at {i}"),
        Difference::Behind => println!("the port wrote past what is lent"),
        Difference::Input => println!("the port changed an input"),
    }
}

pub fn bytes(s: &[u8]) -> String {
    text(s).replace("\\n", "\n").replace("\\\"", "\"")
}

pub fn numbers(s: &[u64]) -> String {
    format!("{s:?}")
}
