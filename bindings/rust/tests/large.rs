//! Problems at the limits, on a thread with room for the walk.

mod common;

use common::script;
use smt_echo::*;
use std::thread;

/// Runs this on a thread with a stack of 16 MB.
fn with_stack(run: impl FnOnce() + Send + 'static) {
    thread::Builder::new().stack_size(16 << 20).spawn(run).unwrap().join().unwrap();
}

#[test]
fn the_deepest_chain() {
    with_stack(|| {
        let depth = MAX_NODES - 2;
        let mut nodes = node(kind::VAR, [8, 0, 0, 0]).to_vec();
        for below in 0..depth {
            nodes.extend(node(kind::BV_NOT, [below as u32, 0, 0, 0]));
        }
        nodes.extend(node(kind::EQ, [depth as u32, 0, 0, 0]));
        assert_eq!(nodes.len(), MAX_NODES_LEN);
        let problem = Problem {
            nodes: &nodes,
            roots: &[MAX_NODES as u64 - 1],
            names: b"x",
            name_start: &[0],
            name_len: &[1],
            var_node: &[0],
            var_width: &[8],
            ..Problem::default()
        };
        let chain = "(bvnot ".repeat(depth) + "|x|" + &")".repeat(depth);
        let expected = format!("(set-logic QF_BV)\n(declare-const |x| (_ BitVec 8))\n(assert (= {chain} |x|))\n(check-sat)\n");
        assert_eq!(script(&problem, 1 << 16), expected);
    });
}

#[test]
fn the_most_arguments() {
    with_stack(|| {
        let nodes =
            [node(kind::CONST, [0, 1, 0, 0]), node(kind::CALL, [0, 1, 0, MAX_SIDE_LEN as u32]), node(kind::EQ, [1, 0, 0, 0])]
                .concat();
        let problem = Problem {
            nodes: &nodes,
            bits: &[1],
            side: &[0; MAX_SIDE_LEN],
            roots: &[2],
            fnames: b"f",
            fname_start: &[0],
            fname_len: &[1],
            func_width: &[1],
            ..Problem::default()
        };
        let sorts = ["(_ BitVec 1)"; MAX_SIDE_LEN].join(" ");
        let arguments = " #b1".repeat(MAX_SIDE_LEN);
        let expected = format!(
            "(set-logic QF_AUFBV)\n(declare-fun |f| ({sorts}) (_ BitVec 1))\n(assert (= (|f|{arguments}) #b1))\n(check-sat)\n"
        );
        assert_eq!(script(&problem, 1 << 18), expected);
    });
}

#[test]
fn the_most_roots_names_and_bits() {
    // 512 variables with names of four digits, and one constant at the end of the bits.
    let arena: Vec<u8> = (0..MAX_COLUMN_LEN).flat_map(|i| format!("{i:04}").into_bytes()).collect();
    let name_start: Vec<u64> = (0..MAX_COLUMN_LEN as u64).map(|i| 4 * i).collect();
    let var_node: Vec<u64> = (0..MAX_COLUMN_LEN as u64).collect();
    let mut nodes = node(kind::VAR, [1, 0, 0, 0]).repeat(MAX_COLUMN_LEN);
    let constant = MAX_COLUMN_LEN as u32;
    nodes.extend(node(kind::CONST, [MAX_BITS_LEN as u32 - 1, 1, 0, 0]));
    let roots: Vec<u64> = (0..MAX_ROOTS_LEN as u64).map(|i| u64::from(constant) + 1 + i).collect();
    for i in 0..MAX_ROOTS_LEN as u32 {
        nodes.extend(node(kind::NE, [2 * i, constant, 0, 0]));
    }
    let mut bits = vec![0; MAX_BITS_LEN];
    bits[MAX_BITS_LEN - 1] = 1;
    let problem = Problem {
        nodes: &nodes,
        bits: &bits,
        roots: &roots,
        names: &arena,
        name_start: &name_start,
        name_len: &[4; MAX_COLUMN_LEN],
        var_node: &var_node,
        var_width: &[1; MAX_COLUMN_LEN],
        ..Problem::default()
    };
    let mut expected = String::from("(set-logic QF_BV)\n");
    for i in 0..MAX_COLUMN_LEN {
        expected += &format!("(declare-const |{i:04}| (_ BitVec 1))\n");
    }
    for i in 0..MAX_ROOTS_LEN {
        expected += &format!("(assert (distinct |{:04}| #b1))\n", 2 * i);
    }
    expected += "(check-sat)\n";
    assert_eq!(script(&problem, 1 << 16), expected);
}
