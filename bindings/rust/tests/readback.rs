//! Scripts read back: what is read prints the same script, refusals clear every output, and nothing past a result is touched.

mod common;

use common::{M1_SCRIPT, M2_SCRIPT, m2, m2_nodes, script_bytes};
use smt_echo::*;

/// A problem of the text form.
#[track_caller]
fn problem(text: &str) -> OwnedProblem {
    OwnedProblem::from_text(text.as_bytes()).unwrap_or_else(|error| panic!("{}:{}: {}", error.line, error.column, error.message))
}

/// Problems of every kind of node, each with the text of what its script is read as where that is another problem.
fn problems() -> Vec<(OwnedProblem, Option<OwnedProblem>)> {
    let same = |text: &str| (problem(text), None);
    let other = |text: &str, read: &str| (problem(text), Some(problem(read)));
    vec![
        same("problem\n"),
        same("problem\nvariable |x| 8 node 0\n0 var 8\n1 const 5 8\n2 add 0 1\n3 eq 2 0\nroot 3\n"),
        // variables in the order of their declarations, whichever nodes they had, and a constant that nothing uses
        other(
            "problem\nvariable |b| 8 node 2\nvariable |a| 4 node 0\n0 var 4\n1 const 1 9\n2 var 8\n3 eq 0 0\n4 eq 2 2\nroot 4\nroot 3\n",
            "problem\nvariable |b| 8 node 0\nvariable |a| 4 node 1\n0 var 8\n1 var 4\n2 eq 0 0\n3 eq 1 1\nroot 2\nroot 3\n",
        ),
        // two variables for one node are two
        other(
            "problem\nvariable |a| 8 node 0\nvariable |b| 8 node 0\n0 var 8\n1 eq 0 0\nroot 1\n",
            "problem\nvariable |a| 8 node 0\nvariable |b| 8 node 1\n0 var 8\n1 var 8\n2 eq 0 0\nroot 2\n",
        ),
        // the product ends first and needs the constant; equal constants are one
        other(
            "problem\nvariable |x| 2 node 0\n0 var 2\n1 const 1 2\n2 const 1 2\n3 mul 0 2\n4 add 1 3\n5 eq 4 0\nroot 5\n",
            "problem\nvariable |x| 2 node 0\n0 var 2\n1 const 1 2\n2 mul 0 1\n3 add 1 2\n4 eq 3 0\nroot 4\n",
        ),
        // a constant waits until its own term ends
        other(
            "problem\nvariable |x| 2 node 0\n0 var 2\n1 const 2 2\n2 const 1 2\n3 const 0 4\n4 mul 0 2\n5 concat 1 4\n6 eq 5 3\nroot 6\n",
            "problem\nvariable |x| 2 node 0\n0 var 2\n1 const 1 2\n2 mul 0 1\n3 const 2 2\n4 concat 3 2\n5 const 0 4\n6 eq 4 5\nroot 6\n",
        ),
        // an amount is as wide as its rotation, and stands before the operand
        other(
            "problem\nvariable |x| 8 node 0\n0 var 8\n1 const 3 8\n2 const 9 8\n3 rotl 2 1\n4 rotr 0 1\n5 eq 3 4\nroot 5\n",
            "problem\nvariable |x| 8 node 0\n0 var 8\n1 const 3 8\n2 const 9 8\n3 rotl 2 1\n4 rotr 0 1\n5 eq 3 4\nroot 5\n",
        ),
        // stores: the innermost first, an index before its value, the select's own index last
        other(
            "problem\narray |m| 4 8\n0 const 1 4\n1 const 2 8\n2 const 3 4\n3 const 4 8\n4 const 5 4\n5 const 6 8\n6 select 0 4 : 2 3 0 1\n\
             7 eq 6 5\nroot 7\n",
            "problem\narray |m| 4 8\n0 const 1 4\n1 const 2 8\n2 const 3 4\n3 const 4 8\n4 const 5 4\n5 select 0 4 : 2 3 0 1\n6 const 6 8\n\
             7 eq 5 6\nroot 7\n",
        ),
        // a function that no assertion calls is called on zeros, one without arguments too; one that is called is not
        other(
            "problem\nvariable |x| 8 node 0\nfunction |f| 8\nfunction |g| 4\nfunction |h| 8\n0 var 8\n1 const 7 8\n2 call 0 8 : 1 0\n3 call 1 4\n\
             4 call 2 8 : 0\n5 eq 4 0\nroot 5\n",
            "problem\nvariable |x| 8 node 0\nfunction |f| 8\nfunction |g| 4\nfunction |h| 8\n0 var 8\n1 const 0 8\n2 call 0 8 : 1 1\n3 call 1 4\n\
             4 call 2 8 : 0\n5 eq 4 0\nroot 5\n",
        ),
        // every other kind
        same(
            "problem\nvariable |x| 8 node 0\nvariable |y| 8 node 1\n0 var 8\n1 var 8\n2 ult 0 1\n3 sub 0 1\n4 udiv 3 0\n5 urem 4 0\n6 and 5 0\n\
             7 or 6 0\n8 xor 7 0\n9 shl 8 0\n10 lshr 9 0\n11 ashr 10 0\n12 bv_not 11\n13 neg 12\n14 sdiv 13 0\n15 srem 14 0\n\
             16 extract 6 2 15\n17 zero_ext 16 3\n18 sign_ext 17 0\n19 ite 2 18 0\n20 ne 19 0\n21 not 20\n22 ule 0 1\n23 bool_and 21 22\n\
             24 ugt 0 1\n25 bool_or 23 24\n26 uge 0 1\n27 slt 0 1\n28 sle 0 1\n29 sgt 0 1\n30 sge 0 1\nroot 25\nroot 26\nroot 27\nroot 28\n\
             root 29\nroot 30\n",
        ),
        // names of any permitted byte, among them brackets and the words of a script
        same(
            "problem\nvariable |)(assert \u{e9};| 1 node 0\nvariable |(check-sat)| 1 node 1\n0 var 1\n1 var 1\n2 eq 0 1\nroot 2\n",
        ),
    ]
}

#[test]
fn m2_is_read_back() {
    let nodes = m2_nodes().concat();
    assert_eq!(read_script(M2_SCRIPT.as_bytes()).unwrap().lend(), m2(&nodes));
    assert_eq!(read_script(M1_SCRIPT.as_bytes()), Ok(OwnedProblem::default()));
}

#[test]
fn every_script_is_read_and_prints_the_same() {
    for (printed, read) in problems() {
        let script = script_bytes(&printed.lend(), 4096);
        let text = String::from_utf8_lossy(&script);
        let found = read_script(&script).unwrap_or_else(|refusal| panic!("{refusal}: {text}"));
        let want = read.unwrap_or(printed);
        assert_eq!(String::from_utf8(found.lend().to_text()), String::from_utf8(want.lend().to_text()), "{text}");
        assert_eq!(found, want, "{text}");
        assert_eq!(script_bytes(&found.lend(), 4096), script, "{text}");
        assert_eq!(echo_size(&found.lend()).unwrap().length, script.len());
        assert_eq!(read_script(&script_bytes(&found.lend(), 4096)), Ok(found));
    }
}

/// The outputs, each so many elements longer or shorter than its part of the problem, and filled.
fn lent(of: &OwnedProblem, lengths: [usize; 18]) -> OwnedProblem {
    let mut problem = of.clone();
    let [nodes, bits, side, roots, names, name_start, name_len, var_node, var_width, rest @ ..] = lengths;
    let [anames, aname_start, aname_len, index_width, value_width, fnames, fname_start, fname_len, func_width] = rest;
    problem.nodes = vec![FILL; nodes];
    problem.bits = vec![FILL; bits];
    problem.side = vec![FILL.into(); side];
    problem.roots = vec![FILL.into(); roots];
    problem.names = vec![FILL; names];
    problem.name_start = vec![FILL.into(); name_start];
    problem.name_len = vec![FILL.into(); name_len];
    problem.var_node = vec![FILL.into(); var_node];
    problem.var_width = vec![FILL.into(); var_width];
    problem.anames = vec![FILL; anames];
    problem.aname_start = vec![FILL.into(); aname_start];
    problem.aname_len = vec![FILL.into(); aname_len];
    problem.index_width = vec![FILL.into(); index_width];
    problem.value_width = vec![FILL.into(); value_width];
    problem.fnames = vec![FILL; fnames];
    problem.fname_start = vec![FILL.into(); fname_start];
    problem.fname_len = vec![FILL.into(); fname_len];
    problem.func_width = vec![FILL.into(); func_width];
    problem
}

const FILL: u8 = 77;

/// The elements of each of the eighteen as numbers.
fn columns(problem: &OwnedProblem) -> Vec<Vec<u64>> {
    let numbers = |(_, input): (&str, Input<'_>)| match input {
        Input::Bytes(bytes) => bytes.iter().map(|byte| u64::from(*byte)).collect(),
        Input::Numbers(numbers) => numbers.to_vec(),
    };
    problem.lend().inputs().into_iter().map(numbers).collect()
}

fn cleared(problem: &OwnedProblem) -> bool {
    columns(problem).iter().flatten().all(|element| *element == 0)
}

#[test]
fn every_output_longer_exact_and_one_short() {
    for (printed, _) in problems() {
        let script = script_bytes(&printed.lend(), 4096);
        let read = read_script(&script).unwrap();
        let lengths: [usize; 18] = std::array::from_fn(|i| columns(&read)[i].len());

        let mut exact = lent(&read, lengths);
        let sizes = read_script_into(&script, &mut exact.lend_mut()).unwrap();
        assert_eq!(sizes.lengths(), lengths);
        assert_eq!(exact, read);

        let mut longer = lent(&read, lengths.map(|length| length + 3));
        assert_eq!(read_script_into(&script, &mut longer.lend_mut()), Ok(sizes));
        for (longer, read) in columns(&longer).iter().zip(columns(&read)) {
            let (front, rest) = longer.split_at(read.len());
            assert!(front == read && rest == [u64::from(FILL); 3]);
        }

        for short in (0..18).filter(|i| lengths[*i] > 0) {
            let mut outputs = lent(&read, std::array::from_fn(|i| if i == short { lengths[i] - 1 } else { lengths[i] + 2 }));
            assert_eq!(read_script_into(&script, &mut outputs.lend_mut()), Err(ReadRefusal::Room), "output {short}");
            assert!(cleared(&outputs), "output {short}");
        }
    }
}

/// The number of a refused script, with outputs of several lengths, all cleared.
#[track_caller]
fn refused(script: &[u8]) -> u64 {
    let mut seen = Vec::new();
    for length in [0, 1, 40_000] {
        let mut outputs = lent(&OwnedProblem::default(), [length; 18]);
        seen.push(read_script_into(script, &mut outputs.lend_mut()).expect_err("refused"));
        assert!(cleared(&outputs));
    }
    assert!(seen.iter().all(|refusal| *refusal == seen[0]), "the same whatever the room: {seen:?}");
    assert_eq!(read_script(script), Err(seen[0]));
    seen[0].number()
}

/// M2's script with a part replaced.
#[track_caller]
fn change(from: &str, to: &str) -> String {
    assert!(M2_SCRIPT.contains(from), "{from}");
    M2_SCRIPT.replace(from, to)
}

#[test]
fn what_is_no_script() {
    for (from, to) in [
        ("(set-logic", " (set-logic"),
        ("(set-logic ", "(set-logic  "),
        ("(set-logic", "; a comment\n(set-logic"),
        ("QF_BV", "QF_ABV"),
        ("QF_BV", "ALL"),
        ("|x| (_", "x (_"),
        ("declare-const |x| (_ BitVec 8)", "declare-fun |x| () (_ BitVec 8)"),
        ("BitVec 8", "BitVec 08"),
        ("BitVec 8", "BitVec 0"),
        ("BitVec 8", "BitVec 18446744073709551616"),
        ("BitVec 8", "BitVec 9"),
        ("|x| (_", "|let| (_"),
        ("|x| (_", "|@x| (_"),
        ("|x| (_", "|| (_"),
        ("(declare-const |x| (_ BitVec 8))\n", "(declare-const |x| (_ BitVec 8))\n(declare-const |x| (_ BitVec 8))\n"),
        ("#b00000101", "#b0000010"),
        ("#b00000101", "#x05"),
        ("#b00000101", "(_ bv5 8)"),
        ("(bvadd |x| #b00000101)", "((_ rotate_left 8) |x|)"),
        ("(bvadd |x| #b00000101)", "((_ bvnot) |x|)"),
        ("(bvadd |x| #b00000101)", "(bvadd |x| #b00000101 |x|)"),
        ("(bvadd |x| #b00000101)", "|y|"),
        ("(= (bvadd |x| #b00000101) |x|)", "|x|"),
        ("(assert", "(assert "),
        ("(check-sat)\n", ""),
        ("(check-sat)\n", "(check-sat)"),
        ("(check-sat)\n", "(check-sat)\n\n"),
    ] {
        assert_eq!(refused(change(from, to).as_bytes()), 13, "{from} as {to}");
    }
    assert_eq!(refused(b""), 13);
    assert_eq!(refused(M2_SCRIPT.repeat(2).as_bytes()), 13);
    for end in 0..M2_SCRIPT.len() {
        assert_eq!(refused(&M2_SCRIPT.as_bytes()[..end]), 13, "up to byte {end}");
    }
}

/// Each byte of a script changed: 13, or another problem that prints the changed bytes.
#[test]
fn every_byte_changed() {
    for (printed, _) in problems() {
        let script = script_bytes(&printed.lend(), 4096);
        for k in 0..script.len() {
            for byte in [10, 32, 41, 49, 124, 255] {
                let mut changed = script.clone();
                changed[k] = byte;
                match read_script(&changed) {
                    Ok(problem) => assert_eq!(script_bytes(&problem.lend(), 8192), changed),
                    Err(refusal) => assert!(refusal == ReadRefusal::NoScript || refusal == ReadRefusal::Limit),
                }
            }
        }
    }
}

#[test]
fn limits() {
    let declared = |count: usize, width: &str| {
        let lines: String = (0..count).map(|i| format!("(declare-const |v{i}| (_ BitVec {width}))\n")).collect();
        format!("(set-logic QF_BV)\n{lines}(check-sat)\n")
    };
    // a width that its record holds, and one that it does not; 13 comes before 9
    assert!(read_script(declared(1, "4294967295").as_bytes()).is_ok());
    assert_eq!(refused(declared(1, "4294967296").as_bytes()), 9);
    assert_eq!(refused(declared(1, "18446744073709551615").as_bytes()), 9);
    assert_eq!(refused((declared(1, "4294967296") + " ").as_bytes()), 13);
    // 512 variables, and one more
    assert!(read_script(declared(512, "8").as_bytes()).is_ok());
    assert_eq!(refused(declared(513, "8").as_bytes()), 9);
    assert_eq!(refused((declared(513, "8") + " ").as_bytes()), 13);
    // 2,048 nodes, and one more
    let nested =
        |count: usize| change("(= (bvadd |x| #b00000101) |x|)", &("(not ".repeat(count) + "(= |x| |x|)" + &")".repeat(count)));
    assert_eq!(read_script(nested(2046).as_bytes()).unwrap().nodes.len(), MAX_NODES_LEN);
    assert_eq!(refused(nested(2047).as_bytes()), 9);
    // 256 roots, and one more
    let roots = |count: usize| change("(assert (= (bvadd |x| #b00000101) |x|))\n", &"(assert (= |x| |x|))\n".repeat(count));
    assert_eq!(read_script(roots(256).as_bytes()).unwrap().roots.len(), 256);
    assert_eq!(refused(roots(257).as_bytes()), 9);
    // 10 comes after both
    let mut nothing = OwnedProblem::default();
    for (script, refusal) in [
        (M2_SCRIPT.to_string(), ReadRefusal::Room),
        (declared(513, "8"), ReadRefusal::Limit),
        (declared(513, "08"), ReadRefusal::NoScript),
    ] {
        assert_eq!(read_script_into(script.as_bytes(), &mut nothing.lend_mut()), Err(refusal));
    }
    assert_eq!(read_script_into(M1_SCRIPT.as_bytes(), &mut nothing.lend_mut()), Ok(ReadSizes::default()));
}

/// A script that is nested far more deeply than any problem is read to its end, on the stack that is told for it.
#[test]
fn deep_scripts() {
    let levels = 100_000;
    for (word, inner, number) in [("(not ", "(= |x| |x|)", 9), ("(not ", "(= |x| |y|)", 13), ("(bvneg ", "|x|", 13)] {
        let script = change("(= (bvadd |x| #b00000101) |x|)", &(word.repeat(levels) + inner + &")".repeat(levels)));
        assert!(script_depth(script.as_bytes()) > MAX_SCRIPT_DEPTH);
        let reader = std::thread::Builder::new().stack_size(read_stack(script.len()));
        let read = reader.spawn(move || read_script(script.as_bytes())).unwrap().join().unwrap();
        assert_eq!(read.expect_err("refused").number(), number);
    }
    // As deep as a script can be that is accepted, and refused for its nodes or at its end.
    for (inner, number) in [("(= |x| |x|)", 9), ("(= |x| |y|)", 13)] {
        let levels = MAX_SCRIPT_DEPTH - 2;
        let script = change("(= (bvadd |x| #b00000101) |x|)", &("(not ".repeat(levels) + inner + &")".repeat(levels)));
        assert_eq!(script_depth(script.as_bytes()), MAX_SCRIPT_DEPTH);
        let reader = std::thread::Builder::new().stack_size(2 << 20);
        let read = reader.spawn(move || read_script(script.as_bytes())).unwrap().join().unwrap();
        assert_eq!(read.expect_err("refused").number(), number);
    }
    // the deepest that is accepted: nodes and stores
    let stores = "(store ".repeat(4_096) + "|m|" + &" |x| |x|)".repeat(4_096);
    let negated = "(not ".repeat(2_045) + &format!("(= (select {stores} |x|) |x|)") + &")".repeat(2_045);
    let script = format!(
        "(set-logic QF_ABV)\n(declare-const |x| (_ BitVec 8))\n(declare-const |m| (Array (_ BitVec 8) (_ BitVec 8)))\n(assert {negated})\n\
         (check-sat)\n"
    );
    assert!(script_depth(script.as_bytes()) <= MAX_SCRIPT_DEPTH);
    let reader = std::thread::Builder::new().stack_size(2 << 20);
    let read = reader.spawn(move || read_script(script.as_bytes()).map(|problem| problem.side.len())).unwrap().join().unwrap();
    assert_eq!(read, Ok(MAX_SIDE_LEN));
}

#[test]
fn texts_of_refusals() {
    for (refusal, start) in [
        (ReadRefusal::NoScript, "13 NoScript: the bytes are no problem's script"),
        (ReadRefusal::Limit, "9 Limit: the script's problem is over a limit"),
        (ReadRefusal::Room, "10 Room: an output is shorter"),
    ] {
        assert!(refusal.to_string().starts_with(start), "{refusal}");
        assert!(refusal.to_string().starts_with(&refusal.number().to_string()));
    }
}
