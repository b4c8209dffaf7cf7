//! The named kinds are the numbers that the library means: each is printed by its name in SMT-LIB.

mod common;

use common::script;
use smt_echo::*;

/// x and y have width 8 (nodes 0 and 1), node 2 is the constant 3 of 8 bits, node 3 is i, of width 32. `last` are the nodes from 4 on, the
/// last of them the root.
fn printed(last: &[[u8; 17]]) -> String {
    let first = [
        node(kind::VAR, [8, 0, 0, 0]),
        node(kind::VAR, [8, 0, 0, 0]),
        node(kind::CONST, [0, 8, 0, 0]),
        node(kind::VAR, [32, 0, 0, 0]),
    ];
    let nodes = [&first[..], last].concat().concat();
    let has = |k: u8| nodes.chunks(NODE_BYTES).any(|r| r[0] == k);
    let arrays: &[u64] = if has(kind::SELECT) { &[0] } else { &[] };
    let functions: &[u64] = if has(kind::CALL) { &[0] } else { &[] };
    let problem = Problem {
        nodes: &nodes,
        bits: &[1, 1, 0, 0, 0, 0, 0, 0],
        side: &[3, 0, 3, 1],
        roots: &[3 + last.len() as u64],
        names: b"xyi",
        name_start: &[0, 1, 2],
        name_len: &[1, 1, 1],
        var_node: &[0, 1, 3],
        var_width: &[8, 8, 32],
        anames: b"m",
        aname_start: arrays,
        aname_len: &[1][..arrays.len()],
        index_width: &[32][..arrays.len()],
        value_width: &[8][..arrays.len()],
        fnames: b"f",
        fname_start: functions,
        fname_len: &[1][..functions.len()],
        func_width: &[8][..functions.len()],
    };
    let text = script(&problem, 1000);
    let line = text.lines().find(|l| l.starts_with("(assert ")).expect("an assertion");
    line["(assert ".len()..line.len() - 1].to_string()
}

#[test]
fn operators_of_two_bit_vectors() {
    for (kind, name) in [
        (kind::ADD, "bvadd"),
        (kind::SUB, "bvsub"),
        (kind::MUL, "bvmul"),
        (kind::UDIV, "bvudiv"),
        (kind::UREM, "bvurem"),
        (kind::AND, "bvand"),
        (kind::OR, "bvor"),
        (kind::XOR, "bvxor"),
        (kind::SHL, "bvshl"),
        (kind::LSHR, "bvlshr"),
        (kind::ASHR, "bvashr"),
        (kind::SDIV, "bvsdiv"),
        (kind::SREM, "bvsrem"),
    ] {
        let text = printed(&[node(kind, [0, 1, 0, 0]), node(kind::EQ, [4, 0, 0, 0])]);
        assert_eq!(text, format!("(= ({name} |x| |y|) |x|)"));
    }
}

#[test]
fn comparisons() {
    for (kind, name) in [
        (kind::EQ, "="),
        (kind::NE, "distinct"),
        (kind::ULT, "bvult"),
        (kind::ULE, "bvule"),
        (kind::UGT, "bvugt"),
        (kind::UGE, "bvuge"),
        (kind::SLT, "bvslt"),
        (kind::SLE, "bvsle"),
        (kind::SGT, "bvsgt"),
        (kind::SGE, "bvsge"),
    ] {
        assert_eq!(printed(&[node(kind, [0, 1, 0, 0])]), format!("({name} |x| |y|)"));
    }
}

#[test]
fn connectives() {
    let equal = node(kind::EQ, [0, 1, 0, 0]);
    assert_eq!(printed(&[equal, node(kind::NOT, [4, 0, 0, 0])]), "(not (= |x| |y|))");
    assert_eq!(printed(&[equal, equal, node(kind::BOOL_AND, [4, 5, 0, 0])]), "(and (= |x| |y|) (= |x| |y|))");
    assert_eq!(printed(&[equal, equal, node(kind::BOOL_OR, [4, 5, 0, 0])]), "(or (= |x| |y|) (= |x| |y|))");
}

#[test]
fn the_others() {
    for (record, text) in [
        (node(kind::BV_NOT, [0, 0, 0, 0]), "(bvnot |x|)"),
        (node(kind::NEG, [0, 0, 0, 0]), "(bvneg |x|)"),
        (node(kind::ROTL, [0, 2, 0, 0]), "((_ rotate_left 3) |x|)"),
        (node(kind::ROTR, [0, 2, 0, 0]), "((_ rotate_right 3) |x|)"),
        (node(kind::EXTRACT, [15, 8, 3, 0]), "((_ extract 15 8) |i|)"),
        (node(kind::ZERO_EXT, [0, 0, 0, 0]), "((_ zero_extend 0) |x|)"),
        (node(kind::SIGN_EXT, [0, 0, 0, 0]), "((_ sign_extend 0) |x|)"),
        (node(kind::SELECT, [0, 3, 0, 2]), "(select (store (store |m| |i| |y|) |i| |x|) |i|)"),
        (node(kind::CALL, [0, 8, 0, 2]), "(|f| |i| |x|)"),
        (node(kind::CALL, [0, 8, 0, 0]), "|f|"),
    ] {
        assert_eq!(printed(&[record, node(kind::EQ, [4, 0, 0, 0])]), format!("(= {text} |x|)"));
    }
    assert_eq!(
        printed(&[node(kind::EQ, [0, 1, 0, 0]), node(kind::ITE, [4, 1, 2, 0]), node(kind::EQ, [5, 0, 0, 0])]),
        "(= (ite (= |x| |y|) |y| #b00000011) |x|)"
    );
    let wide = [node(kind::CONCAT, [0, 1, 0, 0]), node(kind::CONCAT, [1, 0, 0, 0]), node(kind::EQ, [4, 5, 0, 0])];
    assert_eq!(printed(&wide), "(= (concat |x| |y|) (concat |y| |x|))");
}

#[test]
fn there_are_39() {
    assert_eq!(kind::COUNT, 39);
}
