//! Every number is reached, by each way that its text names, and the whole output is zeroed.

mod common;

use common::*;
use smt_echo::*;

/// Five nodes with an array and a function in them, all reached: the base that most cases below damage.
fn rich_nodes() -> Vec<[u8; 17]> {
    vec![
        node(kind::VAR, [32, 0, 0, 0]),   // 0: i
        node(kind::VAR, [8, 0, 0, 0]),    // 1: v
        node(kind::SELECT, [0, 0, 0, 1]), // 2: m with v stored at i, at i
        node(kind::CALL, [0, 8, 2, 2]),   // 3: f(i, v)
        node(kind::EQ, [2, 3, 0, 0]),     // 4
    ]
}

const RICH_SIDE: [u64; 4] = [0, 1, 0, 1];

fn rich(nodes: &[u8]) -> Problem<'_> {
    Problem {
        nodes,
        side: &RICH_SIDE,
        roots: &[4],
        names: b"iv",
        name_start: &[0, 1],
        name_len: &[1, 1],
        var_node: &[0, 1],
        var_width: &[32, 8],
        anames: b"m",
        aname_start: &[0],
        aname_len: &[1],
        index_width: &[32],
        value_width: &[8],
        fnames: b"f",
        fname_start: &[0],
        fname_len: &[1],
        func_width: &[8],
        ..Problem::default()
    }
}

#[test]
fn the_base_is_accepted() {
    assert_eq!(
        script(&rich(&rich_nodes().concat()), 400),
        "(set-logic QF_AUFBV)\n\
         (declare-const |i| (_ BitVec 32))\n\
         (declare-const |v| (_ BitVec 8))\n\
         (declare-const |m| (Array (_ BitVec 32) (_ BitVec 8)))\n\
         (declare-fun |f| ((_ BitVec 32) (_ BitVec 8)) (_ BitVec 8))\n\
         (assert (= (select (store |m| |i| |v|) |i|) (|f| |i| |v|)))\n\
         (check-sat)\n"
    );
}

#[test]
fn malformed() {
    let nodes = rich_nodes().concat();
    let base = rich(&nodes);
    // A node that is not well formed: an operand that is no earlier node, widths that differ, a bit past the bits.
    for bad in [node(kind::NEG, [5, 0, 0, 0]), node(kind::ADD, [0, 1, 0, 0]), node(kind::CONST, [0, 1, 0, 0])] {
        let nodes = [&nodes[..], &bad[..]].concat();
        assert_eq!(refused(&Problem { nodes: &nodes, ..base }), Refusal::Malformed);
    }
    // Columns of different lengths.
    for problem in [
        Problem { name_start: &[0], ..base },
        Problem { name_len: &[1, 1, 1], ..base },
        Problem { var_node: &[], ..base },
        Problem { var_width: &[32], ..base },
        Problem { aname_start: &[], ..base },
        Problem { aname_len: &[1, 1], ..base },
        Problem { index_width: &[], ..base },
        Problem { value_width: &[8, 8], ..base },
        Problem { fname_start: &[], ..base },
        Problem { fname_len: &[1, 1], ..base },
        Problem { func_width: &[], ..base },
    ] {
        assert_eq!(refused(&problem), Refusal::Malformed);
    }
    // A root, an array and a function that are not there.
    assert_eq!(refused(&Problem { roots: &[4, 5], ..base }), Refusal::Malformed);
    assert_eq!(refused(&Problem { roots: &[u64::MAX], ..base }), Refusal::Malformed);
    assert_eq!(
        refused(&Problem { anames: b"", aname_start: &[], aname_len: &[], index_width: &[], value_width: &[], ..base }),
        Refusal::Malformed
    );
    assert_eq!(refused(&Problem { fnames: b"", fname_start: &[], fname_len: &[], func_width: &[], ..base }), Refusal::Malformed);
}

#[test]
fn name() {
    let nodes = rich_nodes().concat();
    let base = rich(&nodes);
    // Names of the first variable, up to the last byte of the arena: v is there.
    for bad in ["@v", ".v", "|v", "\\v", "\nv", "\x1fv", "\x7fv", "\u{e9}\x7fv", "@\u{e9}v", "letv"] {
        let len = bad.len() as u64 - 1;
        let problem = Problem { names: bad.as_bytes(), name_start: &[0, len], name_len: &[len, 1], ..base };
        assert_eq!(refused(&problem), Refusal::Name, "{bad:?}");
    }
    // The words that SMT-LIB 2.7 added, in each table, and a letter away from one.
    for word in ["ubv_to_int", "sbv_to_int", "int_to_bv"] {
        let len = word.len() as u64;
        let twice = format!("{word}v");
        let variable = Problem { names: twice.as_bytes(), name_start: &[0, len], name_len: &[len, 1], ..base };
        assert_eq!(refused(&variable), Refusal::Name, "{word}");
        assert_eq!(refused(&Problem { anames: word.as_bytes(), aname_len: &[len], ..base }), Refusal::Name, "{word}");
        assert_eq!(refused(&Problem { fnames: word.as_bytes(), fname_len: &[len], ..base }), Refusal::Name, "{word}");
        assert!(echo_ext(&Problem { fnames: word.as_bytes(), fname_len: &[len - 1], ..base }, &mut [0; 1_000]).is_ok(), "{word}");
    }
    // Names with bytes from 128 on that are equal, in a table and in two.
    let umlaut = "\u{fc}\u{fc}".as_bytes();
    assert_eq!(refused(&Problem { names: umlaut, name_start: &[0, 2], name_len: &[2, 2], ..base }), Refusal::Name);
    let one = Problem { names: b"\xffv", name_start: &[0, 1], name_len: &[1, 1], ..base };
    assert_eq!(refused(&Problem { anames: b"\xff", ..one }), Refusal::Name);
    assert_eq!(refused(&Problem { fnames: b"\xff", ..one }), Refusal::Name);
    // Empty; past the arena, also where start and length have no sum in 64 bits; twice in a table and in two.
    assert_eq!(refused(&Problem { name_len: &[0, 1], ..base }), Refusal::Name);
    assert_eq!(refused(&Problem { name_len: &[1, 2], ..base }), Refusal::Name);
    assert_eq!(refused(&Problem { name_start: &[u64::MAX, 1], ..base }), Refusal::Name);
    assert_eq!(refused(&Problem { name_start: &[0, 0], ..base }), Refusal::Name);
    assert_eq!(refused(&Problem { anames: b"i", ..base }), Refusal::Name);
    assert_eq!(refused(&Problem { fnames: b"m", ..base }), Refusal::Name);
}

#[test]
fn sort() {
    // A bit-vector of width 1 as a root, and below `not`; a Bool below `bvnot` and as an argument.
    let bit = node(kind::VAR, [1, 0, 0, 0]);
    let table = Problem { names: b"b", name_start: &[0], name_len: &[1], var_node: &[0], var_width: &[1], ..Problem::default() };
    let nodes = [bit, node(kind::NOT, [0, 0, 0, 0])].concat();
    assert_eq!(refused(&Problem { nodes: &nodes[..17], roots: &[0], ..table }), Refusal::Sort);
    assert_eq!(refused(&Problem { nodes: &nodes, roots: &[1], ..table }), Refusal::Sort);
    let nodes = [bit, node(kind::EQ, [0, 0, 0, 0]), node(kind::BV_NOT, [1, 0, 0, 0]), node(kind::EQ, [2, 0, 0, 0])].concat();
    assert_eq!(refused(&Problem { nodes: &nodes, roots: &[3], ..table }), Refusal::Sort);
    let nodes = [bit, node(kind::EQ, [0, 0, 0, 0]), node(kind::CALL, [0, 1, 0, 1]), node(kind::EQ, [2, 0, 0, 0])].concat();
    let call = Problem { fnames: b"f", fname_start: &[0], fname_len: &[1], func_width: &[1], ..table };
    assert_eq!(refused(&Problem { nodes: &nodes, side: &[1], roots: &[3], ..call }), Refusal::Sort);
}

#[test]
fn var() {
    let nodes = rich_nodes().concat();
    let base = rich(&nodes);
    // A declared width of 0; no entry; another width, also in 64 bits; the first of two entries decides.
    assert_eq!(refused(&Problem { var_width: &[0, 8], ..base }), Refusal::Var);
    assert_eq!(refused(&Problem { var_node: &[0, 7], ..base }), Refusal::Var);
    assert_eq!(refused(&Problem { var_width: &[32, 9], ..base }), Refusal::Var);
    assert_eq!(refused(&Problem { var_width: &[32, 8 + (1 << 32)], ..base }), Refusal::Var);
    let twice = Problem {
        names: b"ijv",
        name_start: &[0, 1, 2],
        name_len: &[1, 1, 1],
        var_node: &[0, 0, 1],
        var_width: &[31, 32, 8],
        ..base
    };
    assert_eq!(refused(&twice), Refusal::Var);
}

#[test]
fn rotate() {
    // By a variable. (By width: the_widest_rotation among the marked cases.)
    for rotation in [kind::ROTL, kind::ROTR] {
        let nodes = [node(kind::VAR, [8, 0, 0, 0]), node(rotation, [0, 0, 0, 0]), node(kind::EQ, [0, 1, 0, 0])].concat();
        assert_eq!(refused(&Problem { roots: &[2], ..m2(&nodes) }), Refusal::Rotate);
    }
}

#[test]
fn shared() {
    let mut nodes = rich_nodes();
    nodes.push(node(kind::EQ, [2, 1, 0, 0])); // the select again, not reached
    let nodes = nodes.concat();
    assert_eq!(refused(&rich(&nodes)), Refusal::Shared);
    // A root twice, and a root that is an operand.
    let nodes = rich_nodes().concat();
    assert_eq!(refused(&Problem { roots: &[4, 4], ..rich(&nodes) }), Refusal::Shared);
    assert_eq!(refused(&Problem { roots: &[4, 3], ..rich(&nodes) }), Refusal::Shared);
    // A call without arguments is no leaf.
    let nodes = [node(kind::CALL, [0, 8, 0, 0]), node(kind::EQ, [0, 0, 0, 0])].concat();
    let problem = Problem { nodes: &nodes, roots: &[1], side: &[], ..rich(&nodes) };
    assert_eq!(refused(&problem), Refusal::Shared);
}

#[test]
fn signature() {
    let nodes = rich_nodes().concat();
    let base = rich(&nodes);
    // Width 0; another width than the reached call's; never called.
    assert_eq!(refused(&Problem { func_width: &[0], ..base }), Refusal::Signature);
    assert_eq!(refused(&Problem { func_width: &[9], ..base }), Refusal::Signature);
    let two = Problem { fnames: b"fg", fname_start: &[0, 1], fname_len: &[1, 1], func_width: &[8, 8], ..base };
    assert_eq!(refused(&two), Refusal::Signature);
    // A second call with another count, and with other widths.
    for (count, start) in [(1, 2), (2, 1)] {
        let mut nodes = rich_nodes();
        nodes[4] = node(kind::CALL, [0, 8, start, count]);
        nodes.push(node(kind::EQ, [3, 4, 0, 0]));
        let nodes = nodes.concat();
        assert_eq!(refused(&Problem { roots: &[5], ..rich(&nodes) }), Refusal::Signature);
    }
    // A first call without arguments whose place is past the side entries.
    let nodes = node(kind::CALL, [0, 8, 1, 0]);
    let past =
        Problem { nodes: &nodes, fnames: b"f", fname_start: &[0], fname_len: &[1], func_width: &[8], ..Problem::default() };
    assert_eq!(refused(&past), Refusal::Signature);
}

#[test]
fn encoding() {
    let nodes = rich_nodes().concat();
    let base = rich(&nodes);
    assert_eq!(refused(&Problem { nodes: &nodes[..84], ..base }), Refusal::Encoding);
    assert_eq!(refused(&Problem { bits: &[0, 2], ..base }), Refusal::Encoding);
    let unknown = [&nodes[..], &node(kind::COUNT, [0; 4])[..]].concat();
    assert_eq!(refused(&Problem { nodes: &unknown, ..base }), Refusal::Encoding);
    let unused = [&nodes[..], &node(kind::VAR, [8, 0, 0, 1])[..]].concat();
    assert_eq!(refused(&Problem { nodes: &unused, ..base }), Refusal::Encoding);
}

#[test]
fn limit() {
    // Each slice by itself one element over its limit. At the limit another number is answered.
    let bytes = vec![0; MAX_BITS_LEN + 1];
    let numbers = vec![0; MAX_SIDE_LEN + 1];
    let none = Problem::default();
    type With<'f> = &'f dyn for<'a> Fn(&'a [u8], &'a [u64]) -> Problem<'a>;
    let with: [(usize, With<'_>); 18] = [
        (MAX_NODES_LEN, &|b, _| Problem { nodes: b, ..none }),
        (MAX_BITS_LEN, &|b, _| Problem { bits: b, ..none }),
        (MAX_SIDE_LEN, &|_, n| Problem { side: n, ..none }),
        (MAX_ROOTS_LEN, &|_, n| Problem { roots: n, ..none }),
        (MAX_ARENA_LEN, &|b, _| Problem { names: b, ..none }),
        (MAX_COLUMN_LEN, &|_, n| Problem { name_start: n, ..none }),
        (MAX_COLUMN_LEN, &|_, n| Problem { name_len: n, ..none }),
        (MAX_COLUMN_LEN, &|_, n| Problem { var_node: n, ..none }),
        (MAX_COLUMN_LEN, &|_, n| Problem { var_width: n, ..none }),
        (MAX_ARENA_LEN, &|b, _| Problem { anames: b, ..none }),
        (MAX_COLUMN_LEN, &|_, n| Problem { aname_start: n, ..none }),
        (MAX_COLUMN_LEN, &|_, n| Problem { aname_len: n, ..none }),
        (MAX_COLUMN_LEN, &|_, n| Problem { index_width: n, ..none }),
        (MAX_COLUMN_LEN, &|_, n| Problem { value_width: n, ..none }),
        (MAX_ARENA_LEN, &|b, _| Problem { fnames: b, ..none }),
        (MAX_COLUMN_LEN, &|_, n| Problem { fname_start: n, ..none }),
        (MAX_COLUMN_LEN, &|_, n| Problem { fname_len: n, ..none }),
        (MAX_COLUMN_LEN, &|_, n| Problem { func_width: n, ..none }),
    ];
    for (limit, problem) in with {
        let cut = |len: usize| problem(&bytes[..len.min(bytes.len())], &numbers[..len.min(numbers.len())]);
        assert_eq!(refused(&cut(limit + 1)), Refusal::Limit);
        assert_ne!(echo_ext(&cut(limit), &mut [FILL; 100]), Err(Refusal::Limit));
    }
}

#[test]
fn array_width() {
    let nodes = rich_nodes().concat();
    let base = rich(&nodes);
    // 0 and above 65,536, used or not, and before a node and a name that are refused.
    for (index, value) in [(0, 8), (32, 0), (MAX_ARRAY_WIDTH + 1, 8), (32, MAX_ARRAY_WIDTH + 1), (u64::MAX, 8)] {
        let problem = Problem { index_width: &[index], value_width: &[value], ..base };
        assert_eq!(refused(&problem), Refusal::ArrayWidth);
        assert_eq!(refused(&Problem { roots: &[], ..problem }), Refusal::ArrayWidth);
        assert_eq!(refused(&Problem { anames: b"@", ..problem }), Refusal::ArrayWidth);
        assert_eq!(refused(&Problem { nodes: &node(kind::VAR, [0; 4]), ..problem }), Refusal::ArrayWidth);
        // Columns come before, of any table, and so does the encoding.
        assert_eq!(refused(&Problem { func_width: &[], ..problem }), Refusal::Malformed);
        assert_eq!(refused(&Problem { bits: &[2], ..problem }), Refusal::Encoding);
    }
    // A width that is allowed and is not the index's is a node that is not well formed.
    assert_eq!(refused(&Problem { index_width: &[24], ..base }), Refusal::Malformed);
    assert_eq!(refused(&Problem { value_width: &[16], ..base }), Refusal::Malformed);
}

/// A 24-bit address part with 16-bit words, and an array of flags.
#[test]
fn other_widths() {
    let nodes = [
        node(kind::VAR, [24, 0, 0, 0]),   // 0: i
        node(kind::VAR, [16, 0, 0, 0]),   // 1: v
        node(kind::VAR, [1, 0, 0, 0]),    // 2: b
        node(kind::SELECT, [0, 0, 0, 1]), // 3: m with v stored at i, at i
        node(kind::EQ, [3, 1, 0, 0]),     // 4
        node(kind::SELECT, [1, 2, 2, 1]), // 5: k with b stored at b, at b
        node(kind::EQ, [5, 2, 0, 0]),     // 6
        node(kind::EQ, [2, 2, 0, 0]),     // 7: a Bool, of width 1
    ]
    .concat();
    let base = Problem {
        nodes: &nodes,
        side: &[0, 1, 2, 2],
        roots: &[4, 6],
        names: b"ivb",
        name_start: &[0, 1, 2],
        name_len: &[1, 1, 1],
        var_node: &[0, 1, 2],
        var_width: &[24, 16, 1],
        anames: b"mk",
        aname_start: &[0, 1],
        aname_len: &[1, 1],
        index_width: &[24, 1],
        value_width: &[16, 1],
        ..Problem::default()
    };
    assert_eq!(
        script(&base, 400),
        "(set-logic QF_ABV)\n\
         (declare-const |i| (_ BitVec 24))\n\
         (declare-const |v| (_ BitVec 16))\n\
         (declare-const |b| (_ BitVec 1))\n\
         (declare-const |m| (Array (_ BitVec 24) (_ BitVec 16)))\n\
         (declare-const |k| (Array (_ BitVec 1) (_ BitVec 1)))\n\
         (assert (= (select (store |m| |i| |v|) |i|) |v|))\n\
         (assert (= (select (store |k| |b| |b|) |b|) |b|))\n\
         (check-sat)\n"
    );
    // A value of width 1 is no Bool, and a Bool is no index and no value of width 1.
    assert_eq!(refused(&Problem { nodes: &nodes[..6 * NODE_BYTES], roots: &[5], ..base }), Refusal::Sort);
    let records: Vec<&[u8]> = nodes.chunks(NODE_BYTES).collect();
    let by_bool =
        [&nodes[..5 * NODE_BYTES], records[7], &node(kind::SELECT, [1, 5, 0, 0]), &node(kind::EQ, [6, 2, 0, 0])].concat();
    assert_eq!(refused(&Problem { nodes: &by_bool, roots: &[7], ..base }), Refusal::Sort);
    for side in [[0, 1, 5, 2], [0, 1, 2, 5]] {
        let stored =
            [&nodes[..5 * NODE_BYTES], records[7], &node(kind::SELECT, [1, 2, 2, 1]), &node(kind::EQ, [6, 2, 0, 0])].concat();
        assert_eq!(refused(&Problem { nodes: &stored, side: &side, roots: &[7], ..base }), Refusal::Sort);
    }
}

#[test]
fn room() {
    // `script` tries one byte too few and exactly enough; here every shorter buffer.
    let nodes = m2_nodes().concat();
    assert_eq!(script(&m2(&nodes), 1000), M2_SCRIPT);
    for room in 0..M2_SCRIPT.len() {
        let mut out = vec![FILL; room];
        assert_eq!(echo_ext(&m2(&nodes), &mut out), Err(Refusal::Room));
        assert!(out.iter().all(|&b| b == 0));
    }
}

#[test]
fn room_comes_last() {
    // The buffer is full before the second root, which is a bit-vector.
    let nodes = m2_nodes().concat();
    let mut out = [FILL; 10];
    assert_eq!(echo_ext(&Problem { roots: &[3, 0], ..m2(&nodes) }, &mut out), Err(Refusal::Sort));
    assert_eq!(out, [0; 10]);
}
