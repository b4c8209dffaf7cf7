//! Shorter records and back: every kind, every refusal, and what is left in the output.
mod common;

use common::FILL;
use smt_echo::{MAX_NODES, MAX_NODES_LEN, NODE_BYTES, RecordRefusal, kind, lengthen_records, node, shorten_records};

/// How many operands a kind has, written out anew.
const OPERANDS: [usize; 39] =
    [1, 2, 2, 2, 2, 2, 2, 2, 2, 2, 2, 2, 2, 2, 3, 2, 2, 2, 3, 2, 2, 2, 2, 2, 2, 2, 2, 2, 2, 1, 2, 2, 1, 1, 2, 2, 2, 4, 4];

/// A record of the kind with each operand that it has, of different bytes.
fn full(k: u8) -> [u8; NODE_BYTES] {
    let mut operands = [0x0403_0201, 0x0807_0605, 0x0c0b_0a09, 0x100f_0e0d];
    operands[OPERANDS[k as usize]..].fill(0);
    node(k, operands)
}

/// Both ways, with a longer output, an exact one, and one that is a byte short.
#[track_caller]
fn both_ways(old: &[u8], new: &[u8]) {
    type Convert = fn(&[u8], &mut [u8]) -> Result<usize, RecordRefusal>;
    for (convert, from, to) in [(shorten_records as Convert, old, new), (lengthen_records as Convert, new, old)] {
        let mut out = vec![FILL; to.len() + 9];
        assert_eq!(convert(from, &mut out), Ok(to.len()));
        assert_eq!(out[..to.len()], *to);
        assert!(out[to.len()..].iter().all(|&b| b == FILL), "the rest of the output is as it was");
        let mut out = vec![FILL; to.len()];
        assert_eq!(convert(from, &mut out), Ok(to.len()));
        assert_eq!(out, to);
        if !to.is_empty() {
            let mut out = vec![FILL; to.len() - 1];
            assert_eq!(convert(from, &mut out), Err(RecordRefusal::Room));
            assert!(out.iter().all(|&b| b == 0), "a refusal zeroes the output");
        }
    }
}

#[track_caller]
fn refused(convert: fn(&[u8], &mut [u8]) -> Result<usize, RecordRefusal>, bytes: &[u8], refusal: RecordRefusal) {
    for room in [0, 1, 100] {
        let mut out = vec![FILL; room];
        assert_eq!(convert(bytes, &mut out), Err(refusal));
        assert!(out.iter().all(|&b| b == 0), "a refusal zeroes the output");
    }
}

#[test]
fn every_kind() {
    both_ways(&[], &[]);
    let (mut old, mut new) = (vec![], vec![]);
    for k in 0..kind::COUNT {
        let record = full(k);
        let shorter = &record[..1 + 4 * OPERANDS[k as usize]];
        both_ways(&record, shorter);
        old.extend(record);
        new.extend(shorter);
    }
    both_ways(&old, &new);
}

#[test]
fn wrong_records() {
    let old = [full(kind::NOT), full(kind::ITE)].concat();
    for n in [1, 16, 18, 33] {
        refused(shorten_records, &old[..n], RecordRefusal::Encoding);
    }
    refused(shorten_records, &node(kind::COUNT, [0; 4]), RecordRefusal::Encoding);
    refused(shorten_records, &node(kind::VAR, [8, 0, 0, 1]), RecordRefusal::Encoding);
    refused(shorten_records, &[&old[..], &node(kind::ADD, [0, 0, 1 << 31, 0])].concat(), RecordRefusal::Encoding);
}

#[test]
fn wrong_shorter_records() {
    let new = [&full(kind::NOT)[..5], &full(kind::SELECT)].concat();
    for n in [1, 4, 6, 21] {
        refused(lengthen_records, &new[..n], RecordRefusal::ShortRecord);
    }
    for k in [kind::COUNT, 255] {
        refused(lengthen_records, &[k], RecordRefusal::ShortRecord);
        refused(lengthen_records, &[&new[..], &[k]].concat(), RecordRefusal::ShortRecord);
    }
}

#[test]
fn limits() {
    // The smallest records and the largest, at the limit and past it.
    for k in [kind::NOT, kind::CALL] {
        let record = full(k);
        let shorter = &record[..1 + 4 * OPERANDS[k as usize]];
        both_ways(&record.repeat(MAX_NODES), &shorter.repeat(MAX_NODES));
        refused(shorten_records, &record.repeat(MAX_NODES + 1), RecordRefusal::Limit);
        let full = shorter.repeat(MAX_NODES);
        // Whatever follows is 9; before that it is 16.
        for tail in [&shorter[..], &[255], &[kind::ADD, 1]] {
            refused(lengthen_records, &[&full[..], tail].concat(), RecordRefusal::Limit);
        }
        refused(lengthen_records, &[&full[..full.len() - shorter.len()], &[255]].concat(), RecordRefusal::ShortRecord);
    }
    refused(shorten_records, &vec![255; MAX_NODES_LEN + 1], RecordRefusal::Limit);
    refused(shorten_records, &vec![0; MAX_NODES_LEN - 1], RecordRefusal::Encoding);
}

#[test]
fn texts() {
    let all = [RecordRefusal::Encoding, RecordRefusal::Limit, RecordRefusal::Room, RecordRefusal::ShortRecord];
    assert_eq!(all.map(RecordRefusal::number), [8, 9, 10, 16]);
    for r in all {
        assert!(r.to_string().starts_with(&format!("{} {r:?}: ", r.number())));
    }
}
