//! Names in other alphabets: bytes from 128 to 255 are permitted, and stand in the script as they came.

mod common;

use common::*;
use smt_echo::*;

/// Two variables that are declared and not reached.
fn declared<'a>(names: &'a [u8], name_start: &'a [u64; 2], name_len: &'a [u64; 2]) -> Problem<'a> {
    Problem { names, name_start, name_len, var_node: &[9, 9], var_width: &[8, 8], ..Problem::default() }
}

/// What stands between bars in the script.
#[track_caller]
fn printed(problem: &Problem<'_>) -> Vec<Vec<u8>> {
    let mut out = [FILL; 200];
    let length = echo_ext(problem, &mut out).expect("accepted");
    assert!(!out[..length].contains(&FILL), "a byte is not written");
    out[..length].split(|&b| b == b'|').skip(1).step_by(2).map(<[u8]>::to_vec).collect()
}

#[test]
fn german_and_japanese() {
    let nodes = [
        node(kind::VAR, [8, 0, 0, 0]),
        node(kind::ZERO_EXT, [0, 24, 0, 0]),
        node(kind::SELECT, [0, 1, 0, 0]),
        node(kind::CALL, [0, 8, 0, 1]),
        node(kind::EQ, [2, 3, 0, 0]),
    ]
    .concat();
    let (x, m, f) = ("Pr\u{fc}fsumme", "\u{9818}\u{57df}", "Gr\u{f6}\u{df}e");
    let problem = Problem {
        nodes: &nodes,
        side: &[0],
        roots: &[4],
        names: x.as_bytes(),
        name_start: &[0],
        name_len: &[x.len() as u64],
        var_node: &[0],
        var_width: &[8],
        anames: m.as_bytes(),
        aname_start: &[0],
        aname_len: &[m.len() as u64],
        index_width: &[32],
        value_width: &[8],
        fnames: f.as_bytes(),
        fname_start: &[0],
        fname_len: &[f.len() as u64],
        func_width: &[8],
        ..Problem::default()
    };
    assert_eq!(
        script(&problem, 400),
        format!(
            "(set-logic QF_AUFBV)\n\
             (declare-const |{x}| (_ BitVec 8))\n\
             (declare-const |{m}| (Array (_ BitVec 32) (_ BitVec 8)))\n\
             (declare-fun |{f}| ((_ BitVec 8)) (_ BitVec 8))\n\
             (assert (= (select |{m}| ((_ zero_extend 24) |{x}|)) (|{f}| |{x}|)))\n\
             (check-sat)\n"
        )
    );
}

/// Every byte, alone, first, in the middle and last, beside a name that differs from it in that byte alone: what is permitted is printed.
#[test]
fn each_byte() {
    for b in 0..=255u8 {
        for at in 0..4 {
            let name = |b: u8| [vec![b], vec![b, b'q', b'k'], vec![b'q', b, b'k'], vec![b'q', b'k', b]][at].clone();
            let both = [name(b), name(if b == b'Z' { b'Y' } else { b'Z' })];
            let (names, len) = (both.concat(), both[0].len() as u64);
            let (starts, lens) = ([0, len], [len, len]);
            let problem = declared(&names, &starts, &lens);
            let permitted = b >= 32 && !matches!(b, 127 | b'|' | b'\\');
            let first = at < 2 && matches!(b, b'@' | b'.');
            let reserved = at == 0 && matches!(b, b'!' | b'=' | b'_');
            if !permitted || first || reserved {
                assert_eq!(refused(&problem), Refusal::Name, "byte {b}, place {at}");
            } else {
                assert_eq!(printed(&problem), both, "byte {b}, place {at}");
            }
        }
    }
}

/// Bytes that are no UTF-8, and one letter in three spellings, are names like any other.
#[test]
fn bytes_are_bytes() {
    let spellings: [&[u8]; 3] = [b"\xc3\xbc", b"u\xcc\x88", b"\xfc"];
    for (a, b) in [(0, 1), (0, 2), (1, 2)] {
        let names = [spellings[a], spellings[b]].concat();
        let (starts, lens) = ([0, spellings[a].len() as u64], [spellings[a].len() as u64, spellings[b].len() as u64]);
        assert_eq!(printed(&declared(&names, &starts, &lens)), [spellings[a], spellings[b]]);
    }
}
