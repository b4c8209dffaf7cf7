//! Scripts read back: the time beside that of printing the same problem, and the stack for a byte of a script that is nested deeply.
mod used;
use smt_echo::{MAX_SCRIPT_DEPTH, OwnedProblem, echo_ext, read_script, read_script_into, read_stack, script_depth};
use std::hint::black_box;
use std::time::Instant;
use used::{stack, used};

fn script(logic: &str, declared: &str, assertions: impl Iterator<Item = String>) -> String {
    let lines: String = assertions.map(|term| format!("(assert {term})\n")).collect();
    format!("(set-logic {logic})\n{declared}{lines}(check-sat)\n")
}

fn nested(open: &str, inner: &str, close: &str, levels: usize) -> String {
    open.repeat(levels) + inner + &close.repeat(levels)
}

const X: &str = "(declare-const |x| (_ BitVec 8))\n";

fn shapes() -> Vec<(&'static str, String)> {
    let one = |term: String| std::iter::once(term);
    let digits = |value: usize, width: usize| format!("#b{value:0width$b}");
    let names: Vec<String> = (0..512).map(|i| format!("|a name of thirty-two bytes, {i:04}|")).collect();
    let named: String = names.iter().map(|name| format!("(declare-const {name} (_ BitVec 8))\n")).collect();
    let memory = format!("{X}(declare-const |m| (Array (_ BitVec 8) (_ BitVec 8)))\n");
    let called = format!("{X}(declare-fun |f| ({}) (_ BitVec 8))\n", vec!["(_ BitVec 8)"; 8_192].join(" "));
    vec![
        ("a chain of `bvnot`", script("QF_BV", X, one(format!("(= {} |x|)", nested("(bvnot ", "|x|", ")", 2_046))))),
        (
            "a chain of `bvadd`, one constant",
            script("QF_BV", X, one(format!("(= {} |x|)", nested("(bvadd #b00000101 ", "|x|", ")", 2_045)))),
        ),
        (
            "128 constants of 1,024 bits, all different",
            script(
                "QF_BV",
                "(declare-const |x| (_ BitVec 1024))\n",
                (0..128).map(|i| format!("(bvult |x| {})", digits(i, 1_024))),
            ),
        ),
        (
            "1,000 constants of 64 bits, all different",
            script(
                "QF_BV",
                "(declare-const |x| (_ BitVec 64))\n",
                (0..250).map(|i| {
                    let [a, b, c, d] = [0, 1, 2, 3].map(|k| digits(4 * i + k, 64));
                    format!("(= (bvadd (bvadd (bvadd |x| {a}) {b}) {c}) {d})")
                }),
            ),
        ),
        (
            "512 names of 32 bytes, each used",
            script("QF_BV", &named, (0..256).map(|i| format!("(= {} {})", names[2 * i], names[2 * i + 1]))),
        ),
        ("512 names of 32 bytes, none used", script("QF_BV", &named, std::iter::empty())),
        (
            "one select of 4,096 stores",
            script("QF_ABV", &memory, one(format!("(= (select {} |x|) |x|)", nested("(store ", "|m|", " |x| |x|)", 4_096)))),
        ),
        ("one call of 8,192 arguments", script("QF_AUFBV", &called, one(format!("(= (|f|{}) |x|)", " |x|".repeat(8_192))))),
        ("256 comparisons", script("QF_BV", X, (0..256).map(|_| "(bvult |x| |x|)".to_string()))),
    ]
}

/// Bytes of stack that suffice for a script within the depth, as the header says.
const WITHIN_DEPTH: usize = 2_000_000;

/// The least time of a call in microseconds.
fn time(mut call: impl FnMut()) -> f64 {
    (0..200)
        .map(|_| {
            let start = Instant::now();
            call();
            start.elapsed().as_secs_f64() * 1e6
        })
        .fold(f64::INFINITY, f64::min)
}

fn main() {
    println!("| shape | bytes | read, us | print, us | ratio |\n|---|---|---|---|---|");
    for (label, script) in shapes() {
        let bytes = script.as_bytes();
        let problem = read_script(bytes).unwrap_or_else(|refusal| panic!("{label}: {refusal}"));
        let mut outputs: OwnedProblem = problem.clone();
        let mut out = vec![0; bytes.len()];
        let read = time(|| _ = black_box(read_script_into(black_box(bytes), &mut outputs.lend_mut())));
        let print = time(|| _ = black_box(echo_ext(black_box(&problem.lend()), &mut out)));
        assert!(outputs == problem && out == bytes, "{label}");
        println!("| {label} | {} | {read:.0} | {print:.0} | {:.2} |", bytes.len(), read / print);
    }
    println!("\n| nested | levels | depth | number | stack, KB | a byte of script |\n|---|---|---|---|---|---|");
    let memory = "(declare-const |m| (Array (_ BitVec 8) (_ BitVec 8)))\n";
    let mut room = Vec::new();
    for (logic, declared, open, close) in [
        ("QF_BV", "", "(not ", ")"),
        ("QF_BV", "", "(and (= |x| |x|) ", ")"),
        ("QF_BV", "", "(bvnot ", ")"),
        ("QF_BV", "", "(bvadd |x| ", ")"),
        ("QF_BV", "", "(concat |x| ", ")"),
        ("QF_BV", "", "((_ zero_extend 0) ", ")"),
        ("QF_BV", "", "(ite (= |x| |x|) |x| ", ")"),
        ("QF_ABV", memory, "(select |m| ", ")"),
        ("QF_ABV", memory, "(select (store |m| |x| ", ") |x|)"),
        ("QF_AUFBV", "(declare-fun |f| ((_ BitVec 8)) (_ BitVec 8))\n", "(|f| ", ")"),
    ] {
        // Concatenations end as wide as what they are compared with by an extraction.
        let joins = open.starts_with("(concat");
        // The most levels within the depth: beside them stand (assert, a comparison, what a leaf has, and that extraction.
        let deepest = (MAX_SCRIPT_DEPTH - 3 - usize::from(joins)) / (1 + usize::from(open.contains("(store")));
        for levels in [0, 1_000, 2_000, deepest, 100_000] {
            let logical = open.starts_with("(not") || open.starts_with("(and");
            let term = nested(open, if logical { "(= |x| |x|)" } else { "|x|" }, close, levels);
            let term = if joins { format!("((_ extract 7 0) {term})") } else { term };
            let term = if logical { term } else { format!("(= {term} |x|)") };
            let text = script(logic, &format!("{X}{declared}"), std::iter::once(term));
            let mut number = 0;
            let taken = used(stack(&mut room, (read_stack(text.len()) + (32 << 20)) / 4_096 * 4_096), &mut || {
                number = read_script(text.as_bytes()).map_or_else(|refusal| refusal.number(), |_| 0);
            });
            let depth = script_depth(text.as_bytes());
            println!(
                "| `{open}` | {levels} | {depth} | {number} | {} | {:.2} |",
                taken.div_ceil(1_024),
                taken as f64 / text.len() as f64
            );
            assert!(taken <= read_stack(text.len()), "more than read_stack tells");
            assert!(depth > MAX_SCRIPT_DEPTH || taken <= WITHIN_DEPTH, "more than 2 MB");
            assert!(levels != deepest || (MAX_SCRIPT_DEPTH - 2..=MAX_SCRIPT_DEPTH).contains(&depth), "{depth}");
        }
    }
}
