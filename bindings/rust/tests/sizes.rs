//! The size of a script: its length is the printed one, and terms are counted as often as they stand there.

mod common;

use common::*;
use smt_echo::*;

fn size(length: usize, terms: u64) -> Result<Size, Refusal> {
    Ok(Size { length, terms })
}

#[test]
fn the_marked_cases() {
    let nodes = m2_nodes().concat();
    let m2 = m2(&nodes);
    assert_eq!(echo_size(&Problem::default()), size(30, 0));
    assert_eq!(echo_size(&m2), size(103, 5));
    assert_eq!(echo_size(&Problem { roots: &[0], ..m2 }), Err(Refusal::Sort));
    assert_eq!(echo_size(&Problem { roots: &[4], ..m2 }), Err(Refusal::Malformed));
    assert_eq!(echo_size(&Problem { names: b"bvadd", name_len: &[5], ..m2 }), Err(Refusal::Name));
    assert_eq!(echo_size(&Problem { bits: &[2; 8], ..m2 }), Err(Refusal::Encoding));
    assert_eq!(echo_size(&Problem { roots: &[3; MAX_ROOTS_LEN + 1], ..m2 }), Err(Refusal::Limit));
}

/// The length that is told, and beside it that the printer takes as many bytes and no fewer.
fn told(problem: &Problem<'_>) -> Size {
    let size = echo_size(problem).expect("accepted");
    assert_eq!(script(problem, size.length).len(), size.length);
    size
}

#[test]
fn what_is_a_term() {
    // x, #b00001011, rotate_left(x, 11), =: the amount is none, x is entered twice.
    let mut nodes = m2_nodes();
    nodes[2] = node(kind::ROTL, [0, 1, 0, 0]);
    let rotated = nodes.concat();
    assert_eq!(told(&Problem { bits: &[1, 1, 0, 1, 0, 0, 0, 0], ..m2(&rotated) }).terms, 4);

    // A select with two stores: the array and the stores are none.
    let stores = [
        node(kind::VAR, [32, 0, 0, 0]),
        node(kind::VAR, [8, 0, 0, 0]),
        node(kind::SELECT, [0, 0, 0, 2]),
        node(kind::EQ, [2, 1, 0, 0]),
    ]
    .concat();
    let arrays = Problem {
        nodes: &stores,
        side: &[0, 1, 0, 1],
        roots: &[3],
        names: b"jv",
        name_start: &[0, 1],
        name_len: &[1, 1],
        var_node: &[0, 1],
        var_width: &[32, 8],
        anames: b"m",
        aname_start: &[0],
        aname_len: &[1],
        index_width: &[32],
        value_width: &[8],
        ..Problem::default()
    };
    assert_eq!(told(&arrays).terms, 8);

    // A call with two arguments, and one without.
    let calls = [
        node(kind::VAR, [8, 0, 0, 0]),
        node(kind::CALL, [0, 8, 0, 2]),
        node(kind::CALL, [1, 8, 0, 0]),
        node(kind::EQ, [1, 2, 0, 0]),
    ]
    .concat();
    let functions = Problem {
        nodes: &calls,
        side: &[0, 0],
        roots: &[3],
        names: b"x",
        name_start: &[0],
        name_len: &[1],
        var_node: &[0],
        var_width: &[8],
        fnames: b"fg",
        fname_start: &[0, 1],
        fname_len: &[1, 1],
        func_width: &[8, 8],
        ..Problem::default()
    };
    assert_eq!(told(&functions).terms, 5);
}

/// One of the longest scripts within the limits: one constant of 131,072 bits, 2,045 calls that share 6,148 side entries, and one call over
/// all 8,192. No machine prints it, but its size is told at once.
#[test]
fn a_script_of_a_terabyte() {
    let width = MAX_BITS_LEN as u32;
    let shared = 6_148;
    let mut nodes = node(kind::CONST, [0, width, 0, 0]).to_vec();
    let mut side = vec![0; shared];
    for call in 1..=2_045u32 {
        nodes.extend(node(kind::CALL, [0, width, 0, shared as u32]));
        if call < 2_045 {
            side.push(u64::from(call));
        }
    }
    nodes.extend(node(kind::CALL, [1, width, 0, MAX_SIDE_LEN as u32]));
    nodes.extend(node(kind::EQ, [2_046, 2_045, 0, 0]));
    let problem = Problem {
        nodes: &nodes,
        bits: &vec![1; MAX_BITS_LEN],
        side: &side,
        roots: &[2_047],
        fnames: b"fg",
        fname_start: &[0, 1],
        fname_len: &[1, 1],
        func_width: &[u64::from(width); 2],
        ..Problem::default()
    };
    assert_eq!((nodes.len(), side.len()), (MAX_NODES_LEN, MAX_SIDE_LEN));

    // Each constant after a blank, and each call that is an argument; the calls, the declarations and the other lines.
    let sorts = |n: usize| "(_ BitVec 131072) ".len() * n - 1;
    let length = 2_046 * shared * (" #b".len() + MAX_BITS_LEN)
        + 2_044 * " ".len()
        + 2_046 * "(|f|)".len()
        + 2 * "(declare-fun |f| () (_ BitVec 131072))\n".len()
        + sorts(shared)
        + sorts(MAX_SIDE_LEN)
        + "(set-logic QF_AUFBV)\n(assert (=  ))\n(check-sat)\n".len();
    assert_eq!(echo_size(&problem), size(length, 2_046 * shared as u64 + 2_047));
    assert_eq!(echo_ext(&problem, &mut [0; 4_096]), Err(Refusal::Room));
}
