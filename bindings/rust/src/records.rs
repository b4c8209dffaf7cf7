//! Shorter node records and back.

use crate::raw;
use std::error::Error;
use std::fmt;

/// Turns node records of 17 bytes into shorter ones, and answers the length of these: 1 byte a node and 4 for each operand that its
/// [`kind`](crate::kind) has.
///
/// On `Ok(length)` the shorter records are `out[..length]`, and `out[length..]` is what it was. On `Err` every byte of `out` is 0. They are
/// never longer than the records begun with, and [`lengthen_records`] turns them into those again. The bits that constants refer to, and
/// whether nodes are well formed, are not looked at.
///
/// ```
/// use smt_echo::{RecordRefusal, kind, lengthen_records, node, shorten_records};
///
/// let old = [node(kind::VAR, [8, 0, 0, 0]), node(kind::ADD, [0, 258, 0, 0])].concat();
/// let mut new = [7; 15];
/// assert_eq!(shorten_records(&old, &mut new), Ok(14));
/// assert_eq!(new, [0, 8, 0, 0, 0, 2, 0, 0, 0, 0, 2, 1, 0, 0, 7]);
///
/// let mut back = [0; 34];
/// assert_eq!(lengthen_records(&new[..14], &mut back), Ok(34));
/// assert_eq!(back[..], old[..]);
///
/// assert_eq!(shorten_records(&old, &mut new[..13]), Err(RecordRefusal::Room));
/// assert_eq!(lengthen_records(&[0, 8, 0, 0], &mut back), Err(RecordRefusal::ShortRecord));
/// ```
pub fn shorten_records(old: &[u8], out: &mut [u8]) -> Result<usize, RecordRefusal> {
    answered(raw::shorten_records(old, out))
}

/// Turns shorter records into node records of 17 bytes, and answers the length of these: the other way about than [`shorten_records`].
///
/// On `Ok(length)` the node records are `out[..length]`, and `out[length..]` is what it was. On `Err` every byte of `out` is 0.
pub fn lengthen_records(new: &[u8], out: &mut [u8]) -> Result<usize, RecordRefusal> {
    answered(raw::lengthen_records(new, out))
}

fn answered(answer: raw::RecordAnswer) -> Result<usize, RecordRefusal> {
    match answer.number {
        0 => Ok(answer.length as usize),
        8 => Err(RecordRefusal::Encoding),
        9 => Err(RecordRefusal::Limit),
        10 => Err(RecordRefusal::Room),
        16 => Err(RecordRefusal::ShortRecord),
        n => unreachable!("a conversion answered {n}, which its contract rules out"),
    }
}

/// Why [`shorten_records`] or [`lengthen_records`] refuses bytes. If several things are wrong the order is `Limit`, then `Encoding` or
/// `ShortRecord`, and `Room` last.
#[derive(Clone, Copy, Debug, PartialEq, Eq, Hash)]
pub enum RecordRefusal {
    /// 8, of `shorten_records`: the last record is cut short, a kind is above 38, or an operand that the kind does not have is not 0.
    Encoding,
    /// 9: there are more than 34,816 bytes to shorten; or shorter records go on after 2,048 of them, whatever follows.
    Limit,
    /// 10: the result is longer than the buffer, and nothing else is wrong.
    Room,
    /// 16, of `lengthen_records`: the bytes end inside a record, or a kind is above 38.
    ShortRecord,
}

impl RecordRefusal {
    /// Its number: 8, 9, 10 or 16.
    pub const fn number(self) -> u64 {
        match self {
            RecordRefusal::Encoding => 8,
            RecordRefusal::Limit => 9,
            RecordRefusal::Room => 10,
            RecordRefusal::ShortRecord => 16,
        }
    }
}

impl fmt::Display for RecordRefusal {
    fn fmt(&self, f: &mut fmt::Formatter<'_>) -> fmt::Result {
        let text = match self {
            RecordRefusal::Encoding => {
                "the length of the bytes is no multiple of 17, a kind is above 38, or an operand that its kind does not have is not 0"
            }
            RecordRefusal::Limit => "there are more than 2,048 records: split them",
            RecordRefusal::Room => {
                "the result is longer than the buffer, and nothing else is wrong: call again with a longer one"
            }
            RecordRefusal::ShortRecord => "the shorter records end inside a record, or a kind is above 38",
        };
        write!(f, "{} {self:?}: {text}", self.number())
    }
}

impl Error for RecordRefusal {}
