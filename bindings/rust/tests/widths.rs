//! The width pass: accepted, refused at a node, refused otherwise.

use smt_echo::*;

const FILL: u64 = 0xAAAA_AAAA_AAAA_AAAA;

/// The answer, with a check of every element of the slice.
#[track_caller]
fn pass(nodes: &[u8], bits: &[u8], side: &[u64], room: usize) -> Result<Vec<u64>, WidthRefusal> {
    pass_with(nodes, bits, side, &[], &[], room)
}

/// The same over arrays of these widths.
#[track_caller]
fn pass_with(
    nodes: &[u8],
    bits: &[u8],
    side: &[u64],
    index_width: &[u64],
    value_width: &[u64],
    room: usize,
) -> Result<Vec<u64>, WidthRefusal> {
    let mut out = vec![FILL; room];
    match ext_wf(nodes, bits, side, index_width, value_width, &mut out) {
        Ok(count) => {
            assert!(out[count..].iter().all(|&w| w == FILL));
            out.truncate(count);
            Ok(out)
        }
        Err(refusal) => {
            assert!(out.iter().all(|&w| w == 0));
            Err(refusal)
        }
    }
}

fn some_nodes() -> Vec<u8> {
    [
        node(kind::VAR, [32, 0, 0, 0]),
        node(kind::CONST, [0, 2, 0, 0]),
        node(kind::CONCAT, [0, 1, 0, 0]),
        node(kind::EXTRACT, [7, 0, 2, 0]),
        node(kind::SIGN_EXT, [3, u32::MAX, 0, 0]),
        node(kind::ULT, [3, 3, 0, 0]),
        node(kind::SELECT, [5, 0, 0, 1]),
        node(kind::CALL, [9, 77, 0, 2]),
    ]
    .concat()
}

#[test]
fn accepted() {
    let widths = vec![32, 2, 34, 8, 8 + u64::from(u32::MAX), 1, 8, 77];
    assert_eq!(pass(&some_nodes(), &[1, 0], &[0, 3], 8), Ok(widths.clone()));
    assert_eq!(pass(&some_nodes(), &[1, 0], &[0, 3], 2048), Ok(widths));
    assert_eq!(pass(&[], &[], &[], 0), Ok(vec![]));
    assert_eq!(pass(&[], &[], &[], 3), Ok(vec![]));
}

#[test]
fn the_refused_node() {
    let malformed = |node| Err(WidthRefusal::Malformed { node });
    // Too few bits for node 1; a side entry too few for node 6, a value of another width; node 0 of width 0.
    assert_eq!(pass(&some_nodes(), &[1], &[0, 3], 8), malformed(1));
    assert_eq!(pass(&some_nodes(), &[1, 0], &[0], 8), malformed(6));
    assert_eq!(pass(&some_nodes(), &[1, 0], &[0, 1], 8), malformed(6));
    assert_eq!(pass(&node(kind::VAR, [0; 4]), &[], &[], 8), malformed(0));
    // It comes before the room.
    assert_eq!(pass(&some_nodes(), &[1], &[0, 3], 0), malformed(1));
    // The last of the most nodes.
    let mut nodes = node(kind::VAR, [1, 0, 0, 0]).repeat(MAX_NODES);
    assert_eq!(pass(&nodes, &[], &[], MAX_NODES), Ok(vec![1; MAX_NODES]));
    nodes[MAX_NODES_LEN - NODE_BYTES + 1] = 0;
    assert_eq!(pass(&nodes, &[], &[], MAX_NODES), malformed(2047));
}

#[test]
fn encoding() {
    assert_eq!(pass(&some_nodes()[1..], &[1, 0], &[0, 3], 8), Err(WidthRefusal::Encoding));
    assert_eq!(pass(&some_nodes(), &[1, 0, 2], &[0, 3], 8), Err(WidthRefusal::Encoding));
    assert_eq!(pass(&node(39, [0; 4]), &[], &[], 8), Err(WidthRefusal::Encoding));
    assert_eq!(pass(&node(kind::NOT, [0, 1, 0, 0]), &[], &[], 8), Err(WidthRefusal::Encoding));
}

#[test]
fn limit() {
    assert_eq!(pass(&vec![0; MAX_NODES_LEN + 1], &[], &[], 8), Err(WidthRefusal::Limit));
    assert_eq!(pass(&[], &vec![0; MAX_BITS_LEN + 1], &[], 8), Err(WidthRefusal::Limit));
    assert_eq!(pass(&[], &[], &vec![0; MAX_SIDE_LEN + 1], 8), Err(WidthRefusal::Limit));
    let column = vec![1; MAX_COLUMN_LEN + 1];
    let most = &column[1..];
    assert_eq!(pass_with(&[], &[], &[], &column, most, 8), Err(WidthRefusal::Limit));
    assert_eq!(pass_with(&[], &[], &[], most, &column, 8), Err(WidthRefusal::Limit));
    assert_eq!(pass_with(&[], &[], &[], most, most, 8), Ok(vec![]));
    assert_eq!(pass(&[], &vec![0; MAX_BITS_LEN], &vec![0; MAX_SIDE_LEN], 8), Ok(vec![]));
}

#[test]
fn room() {
    for room in 0..8 {
        assert_eq!(pass(&some_nodes(), &[1, 0], &[0, 3], room), Err(WidthRefusal::Room));
    }
}

#[test]
fn array_widths() {
    // A select from array 0 by a variable of 24 bits, with a store of 16 bits.
    let nodes = [node(kind::VAR, [24, 0, 0, 0]), node(kind::VAR, [16, 0, 0, 0]), node(kind::SELECT, [0, 0, 0, 1])].concat();
    let malformed = |node| Err(WidthRefusal::Malformed { node });
    assert_eq!(pass_with(&nodes, &[], &[0, 1], &[24], &[16], 3), Ok(vec![24, 16, 16]));
    // Other widths; the two exchanged; those of another array; none, so that they are 32 and 8.
    assert_eq!(pass_with(&nodes, &[], &[0, 1], &[23], &[16], 3), malformed(2));
    assert_eq!(pass_with(&nodes, &[], &[0, 1], &[24], &[8], 3), malformed(2));
    assert_eq!(pass_with(&nodes, &[], &[0, 1], &[16], &[24], 3), malformed(2));
    assert_eq!(pass_with(&nodes, &[], &[0, 1], &[32, 24], &[8, 16], 3), malformed(2));
    assert_eq!(pass_with(&nodes, &[], &[0, 1], &[], &[], 3), malformed(2));
    // Columns of different lengths: 1 with the number of nodes, before 12 and before a node.
    assert_eq!(pass_with(&nodes, &[], &[0, 1], &[24], &[], 3), malformed(3));
    assert_eq!(pass_with(&nodes, &[], &[0, 1], &[0], &[16, 16], 3), malformed(3));
    // 0 and above 65,536, whether the array is used or not; before a node and before the room.
    for (index, value) in [(0, 16), (24, 0), (MAX_ARRAY_WIDTH + 1, 16), (24, u64::MAX)] {
        assert_eq!(pass_with(&nodes, &[], &[0, 1], &[index], &[value], 3), Err(WidthRefusal::ArrayWidth));
        assert_eq!(pass_with(&nodes, &[], &[0, 1], &[24, index], &[16, value], 3), Err(WidthRefusal::ArrayWidth));
        assert_eq!(pass_with(&node(kind::VAR, [0; 4]), &[], &[], &[index], &[value], 0), Err(WidthRefusal::ArrayWidth));
    }
    // Encoding comes before both.
    assert_eq!(pass_with(&nodes[1..], &[], &[], &[0], &[], 3), Err(WidthRefusal::Encoding));
    // The largest widths.
    let nodes = [node(kind::VAR, [65_536, 0, 0, 0]), node(kind::SELECT, [0, 0, 0, 0])].concat();
    assert_eq!(pass_with(&nodes, &[], &[], &[MAX_ARRAY_WIDTH], &[MAX_ARRAY_WIDTH], 2), Ok(vec![65_536, 65_536]));
}
