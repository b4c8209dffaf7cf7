//! The marked cases, as changes of two problems: the empty one, and M2.
#![allow(dead_code)]

use smt_echo::{Problem, Refusal, echo_ext, kind, node};

/// What the output is filled with before a call: no byte of a script, since no name may have it, and not 0.
pub const FILL: u8 = 0x7F;

pub const M1_SCRIPT: &str = "(set-logic QF_BV)\n(check-sat)\n";

pub const M2_SCRIPT: &str = "(set-logic QF_BV)\n\
                             (declare-const |x| (_ BitVec 8))\n\
                             (assert (= (bvadd |x| #b00000101) |x|))\n\
                             (check-sat)\n";

/// The records of M2: Var of width 8, Const of bits 0 to 7, Add(0,1), Eq(2,0).
pub fn m2_nodes() -> [[u8; 17]; 4] {
    [node(kind::VAR, [8, 0, 0, 0]), node(kind::CONST, [0, 8, 0, 0]), node(kind::ADD, [0, 1, 0, 0]), node(kind::EQ, [2, 0, 0, 0])]
}

/// M2 over these node bytes.
pub fn m2(nodes: &[u8]) -> Problem<'_> {
    Problem {
        nodes,
        bits: &[1, 0, 1, 0, 0, 0, 0, 0],
        roots: &[3],
        names: b"x",
        name_start: &[0],
        name_len: &[1],
        var_node: &[0],
        var_width: &[8],
        ..Problem::default()
    }
}

/// The script of a problem whose names are UTF-8.
#[track_caller]
pub fn script(problem: &Problem<'_>, room: usize) -> String {
    String::from_utf8(script_bytes(problem, room)).expect("the names are UTF-8")
}

/// The script of a problem, with a check of every byte of an output that is longer, exact and one byte short.
#[track_caller]
pub fn script_bytes(problem: &Problem<'_>, room: usize) -> Vec<u8> {
    let mut out = vec![FILL; room];
    let length = echo_ext(problem, &mut out).expect("accepted");
    assert!(out[length..].iter().all(|&b| b == FILL), "the rest of the output is as it was");
    out.truncate(length);

    let mut exact = vec![FILL; length];
    assert_eq!(echo_ext(problem, &mut exact), Ok(length));
    assert_eq!(exact, out);

    let mut short = vec![FILL; length - 1];
    assert_eq!(echo_ext(problem, &mut short), Err(Refusal::Room));
    assert!(short.iter().all(|&b| b == 0), "a refusal zeroes the output");

    out
}

/// The number of a refused problem, with a check that the whole output is zeroed, for outputs of several lengths.
#[track_caller]
pub fn refused(problem: &Problem<'_>) -> Refusal {
    let mut seen = Vec::new();
    for room in [0, 1, 200, 4096] {
        let mut out = vec![FILL; room];
        seen.push(echo_ext(problem, &mut out).expect_err("refused"));
        assert!(out.iter().all(|&b| b == 0), "a refusal zeroes the output");
    }
    assert!(seen.iter().all(|&r| r == seen[0]), "the same whatever the room: {seen:?}");
    seen[0]
}
