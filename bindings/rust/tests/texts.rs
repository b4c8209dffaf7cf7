//! Numbers and texts of the refusals, and the limits.

use smt_echo::*;
use std::collections::HashSet;
use std::error::Error;

#[test]
fn texts_begin_with_their_number_and_differ() {
    let mut texts = HashSet::new();
    let numbers = [1, 2, 3, 4, 5, 6, 7, 8, 9, 10, 11, 12];
    assert_eq!(Refusal::ALL.map(Refusal::number), numbers);
    for (n, refusal) in numbers.into_iter().zip(Refusal::ALL) {
        let text = refusal.to_string();
        assert!(text.starts_with(&format!("{n} {refusal:?}: ")), "{text}");
        assert!(!text.contains('\n') && !text.contains("  "), "{text}");
        assert!(texts.insert(text));
    }
}

#[test]
fn texts_of_the_width_pass() {
    let all = [
        WidthRefusal::Malformed { node: 7 },
        WidthRefusal::Encoding,
        WidthRefusal::Limit,
        WidthRefusal::Room,
        WidthRefusal::ArrayWidth,
    ];
    let mut texts = HashSet::new();
    for refusal in all {
        let text = refusal.to_string();
        assert!(text.starts_with(&format!("{} ", refusal.number())), "{text}");
        assert!(!text.contains('\n') && !text.contains("  "), "{text}");
        assert!(texts.insert(text));
    }
    assert_eq!(all.map(WidthRefusal::number), [1, 8, 9, 10, 12]);
    assert!(all[0].to_string().contains("node 7 "));
}

#[test]
fn refusals_are_errors() {
    fn printed(out: &mut [u8]) -> Result<usize, Box<dyn Error + Send + Sync>> {
        Ok(echo_ext(&Problem::default(), out)?)
    }
    assert_eq!(printed(&mut [0; 30]).unwrap(), 30);
    assert_eq!(printed(&mut []).unwrap_err().downcast_ref(), Some(&Refusal::Room));
}

#[test]
fn the_limit_on_nodes_in_bytes() {
    assert_eq!(MAX_NODES_LEN, 34_816);
}
