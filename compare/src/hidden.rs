//! The hidden form of a script (document 02, L10), from the Rust's two answers to a problem: with its own bits, and with as many zeros.
//! Constants are the second script's, and all else is the first's: names, widths, shapes and the amounts of rotations. Written from the
//! document, not from the port.
use crate::added::{self, Answer};
use crate::problem::Problem;

/// The pieces of a script: a name with its bars, a constant, a stretch of other bytes.
fn pieces(script: &[u8]) -> Vec<&[u8]> {
    let mut out = vec![];
    let mut s = script;
    while !s.is_empty() {
        let n = match s[0] {
            b'|' => 2 + s[1..].iter().position(|b| *b == b'|').expect("a name ends"),
            b'#' => s.iter().position(|b| matches!(b, b' ' | b')')).expect("a constant ends"),
            _ => s.iter().position(|b| matches!(b, b'|' | b'#')).unwrap_or(s.len()),
        };
        out.push(&s[..n]);
        s = &s[n..];
    }
    out
}

/// The same problem with zeros for its bits.
fn zeroed(p: &Problem) -> Problem {
    Problem { bits: vec![0; p.bits.len()], ..p.clone() }
}

/// The script of a problem, and its script with zeros for bits.
fn joined(own: &[u8], zeros: &[u8]) -> Vec<u8> {
    let (own, zeros) = (pieces(own), pieces(zeros));
    assert!(own.len() == zeros.len(), "the two scripts are not of one shape");
    let mut out = vec![];
    for (a, z) in own.iter().zip(zeros) {
        let shown = if a[0] == b'#' { z } else { a };
        assert!(a[0] != b'#' || (a.len() == z.len() && z[2..].iter().all(|b| *b == b'0')), "a constant is not as many zeros");
        out.extend_from_slice(shown);
    }
    out
}

/// A problem's hidden script, or its refusal, which is the printer's.
pub fn answer(p: &Problem, room: usize) -> Answer<u8> {
    let mut a = added::print_answer(p, room);
    if a.number == 0 {
        let zeros = added::print_answer(&zeroed(p), usize::MAX);
        assert!(zeros.number == 0, "the problem is refused with other bits");
        a.result = joined(&a.result, &zeros.result);
        assert!(a.result.len() == a.count, "the hidden script has another length");
    }
    a
}
