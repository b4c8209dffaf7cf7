//! Files that join scripts, cut again.

mod common;

use common::{M1_SCRIPT, M2_SCRIPT};
use smt_echo::*;

fn named(name: &[u8]) -> Vec<u8> {
    let nodes = [node(kind::VAR, [8, 0, 0, 0]), node(kind::EQ, [0, 0, 0, 0])].concat();
    let problem = Problem {
        nodes: &nodes,
        roots: &[1],
        names: name,
        name_start: &[0],
        name_len: &[name.len() as u64],
        var_node: &[0],
        var_width: &[8],
        ..Problem::default()
    };
    common::script_bytes(&problem, 4096)
}

/// Where the lines end that are `(check-sat)`, found byte by byte.
fn ends(file: &[u8]) -> Vec<usize> {
    (12..=file.len()).filter(|&e| &file[e - 12..e] == b"(check-sat)\n" && (e == 12 || file[e - 13] == 10)).collect()
}

#[track_caller]
fn cut(file: &[u8], want: &[&[u8]], rest: &[u8]) {
    let mut found = scripts(file);
    assert_eq!(found.by_ref().collect::<Vec<_>>(), want);
    assert_eq!(found.rest(), rest);
    assert_eq!(found.next(), None);
}

#[test]
fn scripts_are_given_back() {
    let permitted: Vec<u8> = (32..=255).filter(|b| !b"|\\\x7f".contains(b)).collect();
    let all = [M1_SCRIPT.as_bytes().to_vec(), M2_SCRIPT.as_bytes().to_vec(), named(b"(check-sat)"), named(&permitted)];
    for a in &all {
        for b in &all {
            for c in &all {
                cut(&[&a[..], b, c].concat(), &[a, b, c], b"");
            }
        }
    }
    cut(b"", &[], b"");
}

#[test]
fn no_script_is_the_beginning_of_another() {
    let all = [M1_SCRIPT.as_bytes().to_vec(), M2_SCRIPT.as_bytes().to_vec(), named(b"x"), named(b"(check-sat)"), named(b"x\xff")];
    for (i, a) in all.iter().enumerate() {
        for (j, b) in all.iter().enumerate() {
            assert_eq!(a.starts_with(b), i == j);
        }
    }
}

#[test]
fn what_is_no_line() {
    for file in [
        &b"(check-sat)"[..],
        b" (check-sat)\n",
        b"(check-sat) \n",
        b"(check-sat)\r\n",
        b"x(check-sat)\n",
        b"(check-sat)(check-sat)\n",
        b"|(check-sat)|\n",
        b"\n\n\n",
    ] {
        cut(file, &[], file);
    }
    cut(b"\n(check-sat)\n", &[b"\n(check-sat)\n"], b"");
    cut(b"(check-sat)\n(check-sat)\n(check-sat)", &[b"(check-sat)\n", b"(check-sat)\n"], b"(check-sat)");
}

#[test]
fn every_place_and_every_byte_changed() {
    let file = [M1_SCRIPT.as_bytes(), &named(b"(check-sat)"), M1_SCRIPT.as_bytes()].concat();
    for k in 0..file.len() {
        for b in [0, 10, 13, 32, 40, 107, 138, 255] {
            let mut changed = file.clone();
            changed[k] = b;
            let mut at = 0;
            let found: Vec<usize> = scripts(&changed)
                .map(|s| {
                    at += s.len();
                    at
                })
                .collect();
            assert_eq!(found, ends(&changed), "byte {k} as {b}");
        }
        assert_eq!(next_script(&file[k..]), ends(&file[k..]).first().copied(), "from byte {k} on");
        assert_eq!(next_script(&file[..k]), ends(&file[..k]).first().copied(), "up to byte {k}");
    }
}

#[test]
fn long_files() {
    for n in [0, 1, 63, 64, 65, 66, 69, 70, 71, 127, 128, 1 << 20] {
        let mut file = vec![b'k'; n];
        file.extend_from_slice(b"\n(check-sat)\nrest");
        assert_eq!(next_script(&file), Some(n + 13), "{n}");
        assert_eq!(next_script(&file[..n + 12]), None, "{n}");
    }
    assert_eq!(scripts(&b"(check-sat)\n".repeat(10_000)).count(), 10_000);
}
