//! The ten marked cases, each with its number, its length and its exact bytes. Buffers have 200 bytes, M3's 102.

mod common;

use common::*;
use smt_echo::{Problem, Refusal, echo_ext, kind, node};

/// The answer, and what the output holds up to its length.
fn answer(problem: &Problem<'_>, room: usize) -> (u64, usize, String) {
    let mut out = vec![FILL; room];
    match echo_ext(problem, &mut out) {
        Ok(length) => {
            assert!(out[length..].iter().all(|&b| b == FILL));
            (0, length, String::from_utf8(out[..length].to_vec()).unwrap())
        }
        Err(refusal) => {
            assert!(out.iter().all(|&b| b == 0));
            (refusal.number(), 0, String::new())
        }
    }
}

fn refusal(number: u64) -> (u64, usize, String) {
    (number, 0, String::new())
}

#[test]
fn m1_nothing_at_all() {
    assert_eq!(answer(&Problem::default(), 200), (0, 30, M1_SCRIPT.into()));
}

#[test]
fn m2_a_sum_is_equal() {
    assert_eq!(answer(&m2(&m2_nodes().concat()), 200), (0, 103, M2_SCRIPT.into()));
}

#[test]
fn m3_a_buffer_of_102() {
    assert_eq!(answer(&m2(&m2_nodes().concat()), 102), refusal(10));
}

#[test]
fn m4_an_operator_used_twice() {
    let mut nodes = m2_nodes();
    nodes[3] = node(kind::EQ, [2, 2, 0, 0]);
    assert_eq!(answer(&m2(&nodes.concat()), 200), refusal(6));
}

#[test]
fn m5_a_root_that_is_a_bit_vector() {
    let nodes = m2_nodes().concat();
    assert_eq!(answer(&Problem { roots: &[0], ..m2(&nodes) }, 200), refusal(3));
}

#[test]
fn m6_a_reserved_name() {
    let nodes = m2_nodes().concat();
    assert_eq!(answer(&Problem { names: b"bvadd", name_len: &[5], ..m2(&nodes) }, 200), refusal(2));

    // Not marked: one more letter, and it passes.
    let (number, _, text) = answer(&Problem { names: b"bvadd2", name_len: &[6], ..m2(&nodes) }, 200);
    assert_eq!((number, text), (0, M2_SCRIPT.replace("|x|", "|bvadd2|")));
}

#[test]
fn m7_a_root_that_is_not_there() {
    let nodes = m2_nodes().concat();
    assert_eq!(answer(&Problem { roots: &[4], ..m2(&nodes) }, 200), refusal(1));

    // Not marked: a name that is not allowed comes first.
    assert_eq!(answer(&Problem { roots: &[4], names: b"@x", name_len: &[2], ..m2(&nodes) }, 200), refusal(2));
}

#[test]
fn m8_a_rotation() {
    let mut nodes = m2_nodes();
    nodes[2] = node(kind::ROTL, [0, 1, 0, 0]);
    let nodes = nodes.concat();
    let by = |amount: u8| M2_SCRIPT.replace("(bvadd |x| #b00000101)", &format!("((_ rotate_left {amount}) |x|)"));

    // By 11, which is 3 modulo 8.
    let eleven = Problem { bits: &[1, 1, 0, 1, 0, 0, 0, 0], ..m2(&nodes) };
    assert_eq!(
        answer(&eleven, 200),
        (
            0,
            104,
            "(set-logic QF_BV)\n\
             (declare-const |x| (_ BitVec 8))\n\
             (assert (= ((_ rotate_left 3) |x|) |x|))\n\
             (check-sat)\n"
                .into()
        )
    );

    // Not marked: by 8, which is 0.
    let eight = Problem { bits: &[0, 0, 0, 1, 0, 0, 0, 0], ..m2(&nodes) };
    assert_eq!(answer(&eight, 200), (0, 104, by(0)));
}

#[test]
fn m9_a_function_that_is_never_called() {
    let problem = Problem { fnames: b"f", fname_start: &[0], fname_len: &[1], func_width: &[8], ..Problem::default() };
    assert_eq!(answer(&problem, 200), refusal(7));
}

#[test]
fn m10_an_unreached_select_of_no_array() {
    let nodes = [node(kind::CONST, [0, 32, 0, 0]), node(kind::SELECT, [9, 0, 0, 0])].concat();
    let problem = Problem { nodes: &nodes, bits: &[0; 32], ..Problem::default() };
    assert_eq!(answer(&problem, 200), (0, 30, M1_SCRIPT.into()));
}

#[test]
fn the_widest_rotation() {
    let rotated = |width: u32| [node(kind::VAR, [width, 0, 0, 0]), node(kind::CONST, [0, width, 0, 0])].concat();
    for (width, expected) in [(65_536, None), (65_537, Some(Refusal::Rotate))] {
        let mut nodes = rotated(width);
        nodes.extend(node(kind::ROTR, [0, 1, 0, 0]));
        nodes.extend(node(kind::EQ, [2, 0, 0, 0]));
        let bits = vec![1; width as usize];
        let problem = Problem { bits: &bits, var_width: &[u64::from(width)], ..m2(&nodes) };
        let mut out = vec![FILL; 1000];
        assert_eq!(echo_ext(&problem, &mut out).err(), expected);
    }
}
