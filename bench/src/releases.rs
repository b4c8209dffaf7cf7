//! Releases: the time of the check beside that of reading the scripts back twice, and the stack that it takes.
mod used;
use smt_echo::{MAX_SCRIPT_DEPTH, OwnedProblem, check_release, read_script_into, release_depth, release_stack, scripts};
use std::hint::black_box;
use std::time::Instant;
use used::{stack, used};

const SCRIPTS: usize = 64;

fn script(logic: &str, lines: impl Iterator<Item = String>) -> String {
    format!("(set-logic {logic})\n{}(check-sat)\n", lines.map(|line| line + "\n").collect::<String>())
}

/// A declaration, by the place in its script: the first 512 are variables, then come arrays and functions.
fn declared(place: usize, name: &str) -> String {
    match place / 512 {
        0 => format!("(declare-const |{name}| (_ BitVec 16))"),
        1 => format!("(declare-const |{name}| (Array (_ BitVec 16) (_ BitVec 8)))"),
        _ => format!("(declare-fun |{name}| ((_ BitVec 16)) (_ BitVec 8))"),
    }
}

/// 64 scripts with so many names each, by the script and the place in it.
fn names(count: usize, name: impl Fn(usize, usize) -> String) -> Vec<u8> {
    let logic = ["QF_BV", "QF_ABV", "QF_AUFBV"][(count - 1) / 512];
    let one = |k: usize| script(logic, (0..count).map(|i| declared(i, &name(k, i))));
    (0..SCRIPTS).map(one).collect::<String>().into_bytes()
}

/// The permitted bytes below 127, each as the last of a name.
fn last_bytes() -> Vec<char> {
    (32..127_u8).map(char::from).filter(|c| !"|\\".contains(*c)).collect()
}

fn shapes() -> Vec<(&'static str, Vec<u8>)> {
    let last = last_bytes();
    let long = "n".repeat(170);
    // two constants a line; there are 128 of 1,024 bits
    let wide = |i: usize| format!("#b{:0>1024b}", i % 128);
    let line = |i: usize| format!("(assert (bvult (bvadd |x| {}) {}))", wide(i), wide(i + 1));
    let large = script("QF_BV", std::iter::once("(declare-const |x| (_ BitVec 1024))".into()).chain((0..245).map(line)));
    // names of 32 bytes of sixteen parts, each of two that 31 times the first byte and the second give one number
    let sums = |n: usize| (0..16).map(|bit| if n >> bit & 1 == 0 { "Aa" } else { "BB" }).collect::<String>();
    vec![
        ("1,536 names in each script, all different", names(1_536, |k, i| format!("n{}", 1_536 * k + i))),
        ("1,536 names, the same in each script", names(1_536, |_, i| format!("n{i}"))),
        (
            "93 names of 171 bytes, the same in each, that differ in their last byte",
            names(93, |_, i| format!("{long}{}", last[i])),
        ),
        (
            "93 names of 171 bytes in each, all different, that differ in their last bytes",
            names(93, |k, i| format!("{}{k:02}{}", &long[..168], last[i])),
        ),
        ("scripts of 500 KB", large.repeat(SCRIPTS).into_bytes()),
        ("one empty script after the other", script("QF_BV", std::iter::empty()).repeat(SCRIPTS).into_bytes()),
        (
            "1,536 names of 32 bytes in each, all different, with one end of 24",
            names(1_536, |k, i| format!("{:08}{}", 1_536 * k + i, &long[..24])),
        ),
        ("1,024 names of 32 bytes in each, all different, of one sum", names(1_024, |k, i| sums(1_024 * k + i))),
    ]
}

/// The least time of a call in milliseconds, of at most twenty and of some seconds.
fn time(mut call: impl FnMut()) -> f64 {
    let begin = Instant::now();
    let mut least = f64::INFINITY;
    for _ in 0..20 {
        let start = Instant::now();
        call();
        least = least.min(start.elapsed().as_secs_f64() * 1e3);
        if begin.elapsed().as_secs() >= 2 {
            break;
        }
    }
    least
}

/// Outputs as long as the limits.
fn outputs() -> OwnedProblem {
    let column = || vec![0; 512];
    let arena = || vec![0; 16_384];
    OwnedProblem {
        nodes: vec![0; 34_816],
        bits: vec![0; 131_072],
        side: vec![0; 8_192],
        roots: vec![0; 256],
        names: arena(),
        name_start: column(),
        name_len: column(),
        var_node: column(),
        var_width: column(),
        anames: arena(),
        aname_start: column(),
        aname_len: column(),
        index_width: column(),
        value_width: column(),
        fnames: arena(),
        fname_start: column(),
        fname_len: column(),
        func_width: column(),
    }
}

/// The stack of a check, which must be within what is told for its longest script.
fn stack_of(file: &[u8], number: u64, room: &mut Vec<u8>) -> usize {
    let longest = scripts(file).map(<[u8]>::len).max().unwrap_or(0);
    let mut told = 0;
    let taken = used(stack(room, (release_stack(longest) + (8 << 20)) / 4_096 * 4_096), &mut || {
        told = check_release(file).map_or_else(|refusal| refusal.number(), |()| 0);
    });
    assert_eq!(told, number);
    assert!(taken <= release_stack(longest), "{taken}: more than release_stack tells");
    taken
}

fn main() {
    let mut out = outputs();
    let mut room = Vec::new();
    println!("| release of 64 scripts | bytes | check, ms | read twice, ms | ratio | stack, KB |\n|---|---|---|---|---|---|");
    for (label, file) in shapes() {
        assert_eq!(scripts(&file).count(), SCRIPTS);
        let check = time(|| black_box(check_release(black_box(&file))).unwrap_or_else(|refusal| panic!("{label}: {refusal}")));
        let twice = time(|| {
            for script in scripts(&file).chain(scripts(&file)) {
                read_script_into(black_box(script), &mut out.lend_mut()).unwrap_or_else(|refusal| panic!("{label}: {refusal}"));
            }
        });
        let taken = stack_of(&file, 0, &mut room);
        let (bytes, ratio) = (file.len(), check / twice);
        println!("| {label} | {bytes} | {check:.1} | {twice:.1} | {ratio:.2} | {} |", taken.div_ceil(1_024));
    }
    println!("\n| nested | levels | depth | number | stack, KB |\n|---|---|---|---|---|");
    let memory = "(declare-const |m| (Array (_ BitVec 8) (_ BitVec 8)))";
    let stores = "(select (store |m| |x| ";
    for (open, close, levels) in [
        ("(not ", ")", 0),
        ("(not ", ")", 1_000),
        ("(not ", ")", 2_000),
        ("(not ", ")", MAX_SCRIPT_DEPTH - 2),
        ("(bvadd |x| ", ")", MAX_SCRIPT_DEPTH - 2),
        (stores, ") |x|)", 2_000),
        (stores, ") |x|)", MAX_SCRIPT_DEPTH / 2 - 1),
        ("(not ", ")", 100_000),
    ] {
        let logical = open == "(not ";
        let inner = if logical { "(= |x| |x|)" } else { "|x|" };
        let term = open.repeat(levels) + inner + &close.repeat(levels);
        let term = if logical { term } else { format!("(= {term} |x|)") };
        let (logic, array) = if open == stores { ("QF_ABV", Some(memory.to_string())) } else { ("QF_BV", None) };
        let declared = ["(declare-const |x| (_ BitVec 8))".to_string()].into_iter().chain(array);
        let deep = script(logic, declared.chain([format!("(assert {term})")]));
        let file = deep.repeat(2).into_bytes();
        let number = if levels > 2_000 { 9 } else { 0 };
        let (depth, taken) = (release_depth(&file), stack_of(&file, number, &mut room));
        assert!(depth > MAX_SCRIPT_DEPTH || taken <= 2_000_000, "{taken}: more than 2 MB");
        println!("| `{open}` | {levels} | {depth} | {number} | {} |", taken.div_ceil(1_024));
    }
}
