//! Traces: masks and counts, and each refusal with its place.

mod common;

use common::*;
use smt_echo::*;

#[test]
fn m2_on_rows() {
    let nodes = m2_nodes().concat();
    let m2 = m2(&nodes);
    let (mut masks, mut counts) = ([7; 2], [7; 2]);
    // x + 5 = x holds for no x
    assert_eq!(replay_trace(&m2, &[0], &mut masks, &mut counts), Ok(1));
    assert_eq!((masks, counts), ([0, 7], [0, 7]));
    assert_eq!(replay_trace(&m2, &[], &mut [], &mut []), Ok(0));
}

#[test]
fn the_order_of_refusals() {
    let nodes = m2_nodes().concat();
    let m2 = m2(&nodes);
    // 9 before 8, 8 before 15, 15 before 10
    let many = Problem { roots: &[3; 65], bits: &[2; 8], ..m2 };
    assert_eq!(replay_trace(&many, &[256], &mut [], &mut []), Err(TraceRefusal::Printer(Refusal::Limit)));
    assert_eq!(
        replay_trace(&Problem { bits: &[2; 8], ..m2 }, &[256], &mut [], &mut []),
        Err(TraceRefusal::Printer(Refusal::Encoding))
    );
    assert_eq!(replay_trace(&m2, &[256], &mut [], &mut []), Err(TraceRefusal::Values));
    assert_eq!(replay_trace(&m2, &[255], &mut [], &mut []), Err(TraceRefusal::Printer(Refusal::Room)));
    let (mut masks, mut counts) = ([7; 3], [7; 3]);
    assert_eq!(replay_trace(&m2, &[256], &mut masks, &mut counts), Err(TraceRefusal::Values));
    assert_eq!((masks, counts), ([0; 3], [0; 3]));
}

#[test]
fn wide_terms() {
    // the 8 lowest bits of a variable of 100 bits: 14, whatever the values
    let nodes = [
        node(kind::VAR, [100, 0, 0, 0]),
        node(kind::EXTRACT, [7, 0, 0, 0]),
        node(kind::VAR, [8, 0, 0, 0]),
        node(kind::EQ, [1, 2, 0, 0]),
    ]
    .concat();
    let problem = Problem {
        nodes: &nodes,
        roots: &[3],
        names: b"ab",
        name_start: &[0, 1],
        name_len: &[1, 1],
        var_node: &[0, 2],
        var_width: &[100, 8],
        ..Problem::default()
    };
    assert_eq!(replay_trace(&problem, &[1], &mut [0], &mut [0]), Err(TraceRefusal::Wide));
}

/// The README's example: which assertion the board broke.
#[test]
fn which_assertion_broke() {
    let nodes = [
        node(kind::VAR, [16, 0, 0, 0]),
        node(kind::VAR, [16, 0, 0, 0]),
        node(kind::VAR, [16, 0, 0, 0]),
        node(kind::CONST, [0, 16, 0, 0]),
        node(kind::CONST, [16, 16, 0, 0]),
        node(kind::ADD, [0, 1, 0, 0]),
        node(kind::ULE, [5, 2, 0, 0]),
        node(kind::NE, [1, 3, 0, 0]),
        node(kind::AND, [0, 4, 0, 0]),
        node(kind::EQ, [8, 3, 0, 0]),
    ]
    .concat();
    let mut bits = [0; 32];
    bits[16..20].fill(1);
    let board = Problem {
        nodes: &nodes,
        bits: &bits,
        roots: &[6, 7, 9],
        names: b"basesizelimit",
        name_start: &[0, 4, 8],
        name_len: &[4, 4, 5],
        var_node: &[0, 1, 2],
        var_width: &[16, 16, 16],
        ..Problem::default()
    };
    let log = [0x1000, 0x200, 0x2000, 0x1000, 0, 0x2000, 0xfff0, 0x20, 0x10, 0x1008, 0x2000, 0x2000];
    let (mut masks, mut counts) = ([9; 5], [9; 5]);
    assert_eq!(replay_trace(&board, &log, &mut masks, &mut counts), Ok(4));
    assert_eq!((masks, counts), ([7, 5, 7, 2, 9], [3, 2, 3, 1, 9]));
    // a value of 17 bits, and a row that is cut short
    assert_eq!(replay_trace(&board, &[1, 2, 65_536], &mut masks, &mut counts), Err(TraceRefusal::Values));
    assert_eq!((masks, counts), ([0; 5], [0; 5]));
    assert_eq!(replay_trace(&board, &log[..11], &mut masks, &mut counts), Err(TraceRefusal::Values));
}

#[test]
fn as_many_roots_as_a_mask_has_bits() {
    // root k says that x is k
    let mut nodes = vec![node(kind::VAR, [8, 0, 0, 0])];
    let mut bits = vec![];
    let mut roots = vec![];
    for k in 0..65u32 {
        bits.extend((0..8).map(|b| (k >> b & 1) as u8));
        nodes.push(node(kind::CONST, [8 * k, 8, 0, 0]));
        nodes.push(node(kind::EQ, [0, 2 * k + 1, 0, 0]));
        roots.push(u64::from(2 * k + 2));
    }
    let nodes = nodes.concat();
    let problem = |n: usize| Problem {
        nodes: &nodes,
        bits: &bits,
        roots: &roots[..n],
        names: b"x",
        name_start: &[0],
        name_len: &[1],
        var_node: &[0],
        var_width: &[8],
        ..Problem::default()
    };
    let (mut masks, mut counts) = ([9; 3], [9; 3]);
    assert_eq!(replay_trace(&problem(64), &[0, 63, 64], &mut masks, &mut counts), Ok(3));
    assert_eq!((masks, counts), ([1, 1 << 63, 0], [1, 1, 0]));
    assert_eq!(replay_trace(&problem(65), &[0], &mut masks, &mut counts), Err(TraceRefusal::Printer(Refusal::Limit)));
    assert_eq!((masks, counts), ([0; 3], [0; 3]));
}

#[test]
fn texts() {
    assert!(TraceRefusal::Wide.to_string().starts_with("14 Wide: "));
    assert!(TraceRefusal::Values.to_string().starts_with("15 Values: "));
    assert_eq!(TraceRefusal::Printer(Refusal::Sort).to_string(), Refusal::Sort.to_string());
    assert!(TraceRefusal::Printer(Refusal::Limit).to_string().ends_with("for a trace 64 roots"));
    assert!(TraceRefusal::Printer(Refusal::Room).to_string().starts_with("10 Room: masks or counts "));
}
