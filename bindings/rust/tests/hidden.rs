//! Scripts with constants hidden: refused and as long as the plain ones, and the same for any bits but those of amounts.

mod common;

use common::*;
use smt_echo::*;

/// The hidden script, with a check of every byte of an output that is longer, exact and one byte short.
fn hidden(problem: &Problem<'_>) -> String {
    let plain = script(problem, 4096);
    let mut out = vec![FILL; 4096];
    let length = echo_hidden(problem, &mut out).expect("accepted");
    assert_eq!(length, plain.len());
    assert!(out[length..].iter().all(|&b| b == FILL), "the rest of the output is as it was");
    out.truncate(length);

    let mut exact = vec![FILL; length];
    assert_eq!(echo_hidden(problem, &mut exact), Ok(length));
    assert_eq!(exact, out);

    let mut short = vec![FILL; length - 1];
    assert_eq!(echo_hidden(problem, &mut short), Err(Refusal::Room));
    assert!(short.iter().all(|&b| b == 0), "a refusal zeroes the output");

    String::from_utf8(out).expect("the names are UTF-8")
}

fn refused_hidden(problem: &Problem<'_>) -> Refusal {
    let mut out = [FILL; 300];
    let refusal = echo_hidden(problem, &mut out).expect_err("refused");
    assert_eq!(out, [0; 300]);
    assert_eq!(refusal, refused(problem));
    refusal
}

#[test]
fn the_marked_cases() {
    let nodes = m2_nodes().concat();
    let m2 = m2(&nodes);
    assert_eq!(hidden(&Problem::default()), M1_SCRIPT);
    assert_eq!(hidden(&m2), M2_SCRIPT.replace("101", "000"));
    assert_eq!(refused_hidden(&Problem { roots: &[0], ..m2 }), Refusal::Sort);
    assert_eq!(refused_hidden(&Problem { roots: &[4], ..m2 }), Refusal::Malformed);
    assert_eq!(refused_hidden(&Problem { names: b"bvadd", name_len: &[5], ..m2 }), Refusal::Name);
    assert_eq!(refused_hidden(&Problem { bits: &[2; 8], ..m2 }), Refusal::Encoding);
    assert_eq!(refused_hidden(&Problem { roots: &[3; MAX_ROOTS_LEN + 1], ..m2 }), Refusal::Limit);
}

/// Names of `#`, digits and brackets stay as they are.
#[test]
fn names_that_look_like_constants() {
    for name in [&b"#b1"[..], b"#", b"x #b1 1", b"1", b"b1)", b"(#b101)", b"##b11"] {
        let nodes = m2_nodes().concat();
        let m2 = Problem { names: name, name_len: &[name.len() as u64], ..m2(&nodes) };
        let name = std::str::from_utf8(name).unwrap();
        assert_eq!(hidden(&m2), M2_SCRIPT.replace("101", "000").replace("|x|", &format!("|{name}|")));
    }
}

/// x rotated by the first eight bits, and the last eight added: the first change the script, the last do not.
#[test]
fn other_bits() {
    let nodes = [
        node(kind::VAR, [8, 0, 0, 0]),
        node(kind::CONST, [0, 8, 0, 0]),
        node(kind::ROTR, [0, 1, 0, 0]),
        node(kind::CONST, [8, 8, 0, 0]),
        node(kind::ADD, [2, 3, 0, 0]),
        node(kind::EQ, [4, 1, 0, 0]),
    ]
    .concat();
    for amount in 0..=255u8 {
        let mut seen: Option<String> = None;
        for address in [0, 1, 0x80, 0x5a, 0xff] {
            let bits: Vec<u8> = [amount, address].iter().flat_map(|v| (0..8).map(move |i| v >> i & 1)).collect();
            let text = hidden(&Problem { bits: &bits, roots: &[5], ..m2(&nodes) });
            let wanted = format!("(assert (= (bvadd ((_ rotate_right {}) |x|) #b00000000) #b00000000))\n", amount % 8);
            assert!(text.contains(&wanted), "{text}");
            assert!(seen.is_none_or(|s| s == text));
            seen = Some(text);
        }
    }
}
