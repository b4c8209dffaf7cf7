//! The fewest roots that still refuse: which positions are told, and that the roots there, alone, are refused alike.

use smt_echo::*;

/// x is node 0; nodes 1 and 3 are comparisons that no operand uses, and node 2 is one that node 4 uses.
fn nodes() -> Vec<u8> {
    [
        node(kind::VAR, [8, 0, 0, 0]),
        node(kind::EQ, [0, 0, 0, 0]),
        node(kind::ULT, [0, 0, 0, 0]),
        node(kind::EQ, [0, 0, 0, 0]),
        node(kind::NOT, [2, 0, 0, 0]),
    ]
    .concat()
}

fn with_roots<'a>(nodes: &'a [u8], roots: &'a [u64]) -> Problem<'a> {
    Problem { nodes, roots, names: b"x", name_start: &[0], name_len: &[1], var_node: &[0], var_width: &[8], ..Problem::default() }
}

/// The positions that are told, and beside them that the roots there are refused alike.
fn told(problem: &Problem<'_>, refusal: Option<Refusal>) -> Vec<usize> {
    let told = fewest_roots(problem);
    assert_eq!(told.refusal, refusal);
    assert_eq!(echo_size(problem).err(), refusal);
    let few: Vec<u64> = told.positions().iter().map(|&k| problem.roots[k]).collect();
    if matches!(refusal, Some(r) if r.number() <= 7) {
        assert_eq!(echo_size(&Problem { roots: &few, ..*problem }).err(), refusal);
    } else {
        assert!(few.is_empty());
    }
    told.positions().to_vec()
}

#[test]
fn accepted_or_without_a_list() {
    let nodes = nodes();
    assert_eq!(told(&with_roots(&nodes, &[1, 3, 4]), None), []);
    assert_eq!(told(&Problem { bits: &[2], ..with_roots(&nodes, &[9]) }, Some(Refusal::Encoding)), []);
    assert_eq!(told(&with_roots(&nodes, &[9; MAX_ROOTS_LEN + 1]), Some(Refusal::Limit)), []);
}

#[test]
fn no_root_one_or_two() {
    let nodes = nodes();
    let name = Problem { names: b"bvadd", name_len: &[5], ..with_roots(&nodes, &[1, 1]) };
    assert_eq!(told(&name, Some(Refusal::Name)), []);
    assert_eq!(told(&with_roots(&nodes, &[1, 9, 3, 7]), Some(Refusal::Malformed)), [1]);
    assert_eq!(told(&with_roots(&nodes, &[1, 0, 9]), Some(Refusal::Sort)), [1]);
    assert_eq!(told(&with_roots(&nodes, &[1, 1, 2]), Some(Refusal::Shared)), [2]);
    assert_eq!(told(&with_roots(&nodes, &[1, 3, 3, 3]), Some(Refusal::Shared)), [1, 2]);
    assert_eq!(told(&with_roots(&nodes, &[3, 1, 1, 3]), Some(Refusal::Shared)), [0, 3]);
    assert_eq!(told(&with_roots(&nodes, &[9, 9, 1, 1]), Some(Refusal::Shared)), [2, 3]);
    let declared = Problem { var_width: &[0], ..with_roots(&nodes, &[3, 1, 1]) };
    assert_eq!(told(&declared, Some(Refusal::Shared)), [1, 2]);
}

/// A problem of 200 roots, of which two are one node: the two that matter.
#[test]
fn two_of_two_hundred() {
    let mut nodes = node(kind::VAR, [8, 0, 0, 0]).to_vec();
    for _ in 0..199 {
        nodes.extend(node(kind::EQ, [0, 0, 0, 0]));
    }
    let mut roots: Vec<u64> = (1..200).collect();
    roots.insert(150, 58);
    assert_eq!(told(&with_roots(&nodes, &roots), Some(Refusal::Shared)), [57, 150]);
}
