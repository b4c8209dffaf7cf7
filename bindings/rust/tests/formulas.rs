//! Roots as formulas: the text, the brackets, and the refusals, which are the printer's.

mod common;

use smt_echo::*;

/// The lines, with a check of every byte of an output that is longer, exact and one byte short, and of the length that suffices.
fn lines(problem: &Problem<'_>) -> String {
    let mut out = vec![0xA5; 100_000];
    let length = echo_formulas(problem, &mut out).expect("accepted");
    assert!(out[length..].iter().all(|b| *b == 0xA5), "the rest is as it was");
    assert!(length <= 2 * echo_size(problem).expect("accepted").length);
    let mut exact = vec![0xA5; length];
    assert_eq!(echo_formulas(problem, &mut exact), Ok(length));
    assert_eq!(exact, out[..length]);
    if length > 0 {
        let mut short = vec![0xA5; length - 1];
        assert_eq!(echo_formulas(problem, &mut short), Err(Refusal::Room));
        assert!(short.iter().all(|b| *b == 0));
    }
    String::from_utf8(exact).expect("a formula of ASCII")
}

/// Three variables of width 8, nodes 0 to 2; then these.
fn over(nodes: &[[u8; NODE_BYTES]]) -> Vec<u8> {
    [&[node(kind::VAR, [8, 0, 0, 0]); 3], nodes].concat().concat()
}

fn problem<'a>(nodes: &'a [u8], roots: &'a [u64]) -> Problem<'a> {
    Problem {
        nodes,
        roots,
        names: b"xyz",
        name_start: &[0, 1, 2],
        name_len: &[1, 1, 1],
        var_node: &[0, 1, 2],
        var_width: &[8, 8, 8],
        ..Problem::default()
    }
}

fn one(nodes: &[[u8; NODE_BYTES]]) -> String {
    let bytes = over(nodes);
    lines(&problem(&bytes, &[2 + nodes.len() as u64]))
}

#[test]
fn no_roots() {
    assert_eq!(lines(&Problem::default()), "");
}

#[test]
fn brackets_where_they_are_needed() {
    let n = node;
    assert_eq!(
        one(&[n(kind::SUB, [0, 1, 0, 0]), n(kind::SUB, [3, 2, 0, 0]), n(kind::EQ, [4, 0, 0, 0])]),
        "|x| - |y| - |z| == |x|\n"
    );
    assert_eq!(
        one(&[n(kind::SUB, [1, 2, 0, 0]), n(kind::SUB, [0, 3, 0, 0]), n(kind::EQ, [4, 0, 0, 0])]),
        "|x| - (|y| - |z|) == |x|\n"
    );
    assert_eq!(one(&[n(kind::AND, [0, 1, 0, 0]), n(kind::EQ, [3, 2, 0, 0])]), "(|x| band |y|) == |z|\n");
    assert_eq!(one(&[n(kind::EQ, [0, 1, 0, 0]), n(kind::NOT, [3, 0, 0, 0])]), "!(|x| == |y|)\n");
    assert_eq!(
        one(&[n(kind::ADD, [0, 1, 0, 0]), n(kind::NEG, [3, 0, 0, 0]), n(kind::ULT, [4, 2, 0, 0])]),
        "-(|x| + |y|) < |z|\n"
    );
    assert_eq!(
        one(&[
            n(kind::EQ, [0, 1, 0, 0]),
            n(kind::NE, [0, 2, 0, 0]),
            n(kind::ULT, [1, 2, 0, 0]),
            n(kind::BOOL_OR, [4, 5, 0, 0]),
            n(kind::BOOL_OR, [3, 6, 0, 0])
        ]),
        "|x| == |y| or (|x| != |z| or |y| < |z|)\n"
    );
}

#[test]
fn names_with_parentheses() {
    let n = node;
    assert_eq!(one(&[n(kind::ASHR, [0, 1, 0, 0]), n(kind::EQ, [3, 2, 0, 0])]), "bvashr(|x|, |y|) == |z|\n");
    assert_eq!(one(&[n(kind::LSHR, [0, 1, 0, 0]), n(kind::EQ, [3, 2, 0, 0])]), "|x| >> |y| == |z|\n");
    assert_eq!(one(&[n(kind::EXTRACT, [7, 0, 0, 0]), n(kind::EQ, [3, 2, 0, 0])]), "extract(7, 0, |x|) == |z|\n");
    assert_eq!(one(&[n(kind::SLT, [0, 1, 0, 0])]), "bvslt(|x|, |y|)\n");
}

/// Behind a sign before an operand another sign, a name, a constant and a call stand bare; what stands between two operands has brackets.
#[test]
fn signs_before_operands() {
    let n = node;
    let equal = |nodes: &[[u8; NODE_BYTES]]| one(&[nodes, &[n(kind::EQ, [2 + nodes.len() as u32, 2, 0, 0])]].concat());
    assert_eq!(equal(&[n(kind::NEG, [0, 0, 0, 0]), n(kind::BV_NOT, [3, 0, 0, 0])]), "~-|x| == |z|\n");
    assert_eq!(equal(&[n(kind::NEG, [1, 0, 0, 0]), n(kind::SUB, [0, 3, 0, 0])]), "|x| - -|y| == |z|\n");
    assert_eq!(equal(&[n(kind::MUL, [0, 1, 0, 0]), n(kind::NEG, [3, 0, 0, 0])]), "-(|x| * |y|) == |z|\n");
    assert_eq!(equal(&[n(kind::SREM, [0, 1, 0, 0]), n(kind::NEG, [3, 0, 0, 0])]), "-bvsrem(|x|, |y|) == |z|\n");
    assert_eq!(one(&[n(kind::EQ, [0, 1, 0, 0]), n(kind::NOT, [3, 0, 0, 0]), n(kind::NOT, [4, 0, 0, 0])]), "!!(|x| == |y|)\n");
    let nodes = over(&[n(kind::CONST, [0, 8, 0, 0]), n(kind::NEG, [3, 0, 0, 0]), n(kind::EQ, [4, 0, 0, 0])]);
    let with_bits = Problem { bits: &[1, 0, 1, 0, 0, 0, 0, 0], ..problem(&nodes, &[5]) };
    assert_eq!(lines(&with_bits), "-#b00000101 == |x|\n");
}

#[test]
fn calls_and_selects() {
    let n = node;
    let nodes = over(&[
        n(kind::ADD, [1, 2, 0, 0]),
        n(kind::CALL, [0, 8, 0, 2]),
        n(kind::BV_NOT, [4, 0, 0, 0]),
        n(kind::CALL, [1, 8, 2, 0]),
        n(kind::EQ, [5, 6, 0, 0]),
    ]);
    let calls = Problem {
        side: &[0, 3],
        fnames: b"fg",
        fname_start: &[0, 1],
        fname_len: &[1, 1],
        func_width: &[8, 8],
        ..problem(&nodes, &[7])
    };
    assert_eq!(lines(&calls), "~|f|(|x|, |y| + |z|) == |g|\n");

    let nodes = over(&[n(kind::SELECT, [0, 2, 0, 1]), n(kind::EQ, [3, 1, 0, 0])]);
    let arrays = Problem {
        side: &[0, 1],
        anames: b"m",
        aname_start: &[0],
        aname_len: &[1],
        index_width: &[8],
        value_width: &[8],
        ..problem(&nodes, &[4])
    };
    assert_eq!(lines(&arrays), "select(store(|m|, |x|, |y|), |z|) == |y|\n");
}

/// The line of the repository's README.md.
#[test]
fn a_line_for_support() {
    let n = node;
    let nodes = [
        n(kind::VAR, [8, 0, 0, 0]),
        n(kind::VAR, [8, 0, 0, 0]),
        n(kind::VAR, [8, 0, 0, 0]),
        n(kind::VAR, [8, 0, 0, 0]),
        n(kind::CONST, [0, 8, 0, 0]),
        n(kind::AND, [0, 4, 0, 0]),
        n(kind::EQ, [5, 4, 0, 0]),
        n(kind::ADD, [1, 2, 0, 0]),
        n(kind::ULE, [7, 3, 0, 0]),
        n(kind::BOOL_AND, [6, 8, 0, 0]),
    ]
    .concat();
    let problem = Problem {
        nodes: &nodes,
        bits: &[1, 0, 0, 0, 0, 0, 0, 0],
        roots: &[9],
        names: b"flagsaddrsizelimit",
        name_start: &[0, 5, 9, 13],
        name_len: &[5, 4, 4, 5],
        var_node: &[0, 1, 2, 3],
        var_width: &[8, 8, 8, 8],
        ..Problem::default()
    };
    let line = lines(&problem);
    assert_eq!(line, "(|flags| band #b00000001) == #b00000001 and |addr| + |size| <= |limit|\n");
    assert!(include_str!("../../../README.md").contains(&line));
}

#[test]
fn refusals_are_the_printers() {
    let shared = over(&[node(kind::NEG, [0, 0, 0, 0]), node(kind::EQ, [3, 3, 0, 0])]);
    let sort = over(&[node(kind::NEG, [0, 0, 0, 0])]);
    for (nodes, root) in [(&shared, 4), (&sort, 3)] {
        let roots = [root];
        let p = problem(nodes, &roots);
        let mut out = vec![0xA5; 1000];
        let refusal = echo_formulas(&p, &mut out).expect_err("refused");
        assert!(out.iter().all(|b| *b == 0), "a refusal clears the output");
        assert_eq!(echo_ext(&p, &mut vec![0; 1000]), Err(refusal));
    }
}
