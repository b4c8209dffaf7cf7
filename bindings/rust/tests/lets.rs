//! Scripts with shared terms bound by `let`: the text, what is bound, and the refusals with their order.

mod common;

use common::*;
use smt_echo::*;

/// The script, with a check of every byte of an output that is longer, exact and one byte short.
fn printed(problem: &Problem<'_>) -> String {
    let mut out = vec![0xA5; 400_000];
    let length = echo_let(problem, &mut out).expect("accepted");
    assert!(out[length..].iter().all(|b| *b == 0xA5), "the rest is as it was");
    let mut exact = vec![0xA5; length];
    assert_eq!(echo_let(problem, &mut exact), Ok(length));
    assert_eq!(exact, out[..length]);
    let mut short = vec![0xA5; length - 1];
    assert_eq!(echo_let(problem, &mut short), Err(Refusal::Room));
    assert!(short.iter().all(|b| *b == 0));
    String::from_utf8(exact).expect("a script of ASCII")
}

fn refused_let(problem: &Problem<'_>) -> Refusal {
    let mut out = vec![0xA5; 1000];
    let refusal = echo_let(problem, &mut out).expect_err("refused");
    assert!(out.iter().all(|b| *b == 0), "a refusal clears the output");
    refusal
}

/// Variable `x` of width 8, node 0; the constant 5, node 1; then these.
fn over(nodes: &[[u8; NODE_BYTES]]) -> Vec<u8> {
    [&[node(kind::VAR, [8, 0, 0, 0]), node(kind::CONST, [0, 8, 0, 0])], nodes].concat().concat()
}

const FIVE: [u8; 8] = [1, 0, 1, 0, 0, 0, 0, 0];

fn problem<'a>(nodes: &'a [u8], roots: &'a [u64]) -> Problem<'a> {
    Problem {
        nodes,
        bits: &FIVE,
        roots,
        names: b"x",
        name_start: &[0],
        name_len: &[1],
        var_node: &[0],
        var_width: &[8],
        ..Problem::default()
    }
}

fn assertions(text: &str) -> Vec<&str> {
    text.lines().filter(|l| l.starts_with("(assert ")).collect()
}

#[test]
fn without_sharing() {
    assert_eq!(printed(&Problem::default()), M1_SCRIPT);
    let nodes = over(&[node(kind::ADD, [0, 1, 0, 0]), node(kind::EQ, [2, 0, 0, 0])]);
    assert_eq!(printed(&problem(&nodes, &[3])), M2_SCRIPT);
}

#[test]
fn bound_terms() {
    let nodes = over(&[node(kind::ADD, [0, 1, 0, 0]), node(kind::EQ, [2, 2, 0, 0])]);
    assert_eq!(assertions(&printed(&problem(&nodes, &[3]))), ["(assert (let ((|d2| (bvadd |x| #b00000101))) (= |d2| |d2|)))"]);
    assert_eq!(
        assertions(&printed(&problem(&nodes, &[3, 3]))),
        ["(assert (let ((|d2| (bvadd |x| #b00000101))) (let ((|d3| (= |d2| |d2|))) |d3|)))"; 2]
    );
    // used once here and once by a node that no root reaches
    let nodes = over(&[node(kind::ADD, [0, 1, 0, 0]), node(kind::EQ, [2, 0, 0, 0]), node(kind::EQ, [2, 1, 0, 0])]);
    assert_eq!(assertions(&printed(&problem(&nodes, &[3]))), ["(assert (let ((|d2| (bvadd |x| #b00000101))) (= |d2| |x|)))"]);
    // shared and not reached
    let nodes = over(&[node(kind::ADD, [0, 1, 0, 0]), node(kind::EQ, [0, 1, 0, 0]), node(kind::EQ, [2, 2, 0, 0])]);
    assert_eq!(assertions(&printed(&problem(&nodes, &[3]))), ["(assert (= |x| #b00000101))"]);
}

/// 2,000 shared sums, each of the one before it twice: the tree has 2^2000 leaves.
#[test]
fn doublings() {
    let mut nodes = vec![node(kind::ADD, [0, 1, 0, 0])];
    nodes.extend((2..2001u32).map(|i| node(kind::ADD, [i, i, 0, 0])));
    nodes.push(node(kind::EQ, [2001, 2001, 0, 0]));
    let nodes = over(&nodes);
    let text = printed(&problem(&nodes, &[2002]));
    let line = assertions(&text)[0];
    assert_eq!(line.matches("(let ((|d").count(), 2000);
    assert!(line.starts_with("(assert (let ((|d2| (bvadd |x| #b00000101))) (let ((|d3| (bvadd |d2| |d2|))) "));
    assert!(line.contains(" (let ((|d2001| (bvadd |d2000| |d2000|))) (= |d2001| |d2001|)))"));
}

/// 256 roots over one shared part: each assertion binds it again.
#[test]
fn many_roots() {
    let mut nodes = vec![node(kind::ADD, [0, 1, 0, 0])];
    nodes.extend((0..256).map(|_| node(kind::EQ, [2, 0, 0, 0])));
    let nodes = over(&nodes);
    let roots: Vec<u64> = (3..259).collect();
    let text = printed(&problem(&nodes, &roots));
    assert_eq!(assertions(&text), vec!["(assert (let ((|d2| (bvadd |x| #b00000101))) (= |d2| |x|)))"; 256]);
}

#[test]
fn clashes() {
    let nodes = over(&[node(kind::ADD, [0, 1, 0, 0]), node(kind::EQ, [2, 2, 0, 0])]);
    let p = problem(&nodes, &[3]);
    assert_eq!(refused_let(&Problem { names: b"d2", name_len: &[2], ..p }), Refusal::Clash);
    for name in [&b"d02"[..], b"d3", b"d", b"D2", b"d2 ", b"d20", b"e2", b"d99999999999999999999"] {
        let length = [name.len() as u64];
        printed(&Problem { names: name, name_len: &length, ..p });
    }
    // in any table, before a root of the wrong sort and after a name that is not allowed
    let a = Problem { anames: b"d2", aname_start: &[0], aname_len: &[2], index_width: &[8], value_width: &[8], ..p };
    assert_eq!(refused_let(&a), Refusal::Clash);
    assert_eq!(refused_let(&Problem { roots: &[0], ..a }), Refusal::Clash);
    assert_eq!(refused_let(&Problem { names: b"let", name_len: &[3], ..a }), Refusal::Name);
    // before what is declared
    assert_eq!(refused_let(&Problem { var_width: &[0], ..a }), Refusal::Clash);
    assert_eq!(refused_let(&Problem { var_width: &[0], ..p }), Refusal::Var);
}

#[test]
fn order_of_checks() {
    let nodes = [node(kind::VAR, [8, 0, 0, 0]), node(kind::NEG, [0, 0, 0, 0])].concat();
    // a bound term is refused before the root's sort
    assert_eq!(refused_let(&Problem { nodes: &nodes, roots: &[1, 1], ..Problem::default() }), Refusal::Var);
    let named = over(&[node(kind::NEG, [0, 0, 0, 0])]);
    assert_eq!(refused_let(&problem(&named, &[2, 2])), Refusal::Sort);
    assert_eq!(refused_let(&problem(&named, &[9, 9])), Refusal::Malformed);
    // a shared Bool where a bit-vector is wanted
    let nodes = over(&[node(kind::EQ, [0, 1, 0, 0]), node(kind::EQ, [2, 2, 0, 0])]);
    assert_eq!(refused_let(&problem(&nodes, &[3])), Refusal::Sort);
}
