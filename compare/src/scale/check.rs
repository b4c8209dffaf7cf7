//! One problem through both: number, count and every place of the lent output, which is filled beforehand. What lies behind the lent
//! part must stay as it was, and so must the inputs.
use super::port::{self, Said, Size};
use crate::added::Answer;
use crate::problem::Problem;
use crate::terms;

/// So many elements behind the lent ones are watched.
const BEHIND: usize = 16;

/// Where the two differ.
pub enum Difference {
    Number,
    Count,
    /// the first place of the output
    At(usize),
    Behind,
    Input,
}

pub struct Found<T> {
    pub what: Difference,
    pub said: Said,
    pub out: Vec<T>,
}

/// A number that follows from all eighteen inputs.
pub fn digest(p: &Problem) -> u64 {
    let mut h = 0u64;
    let mut add = |x: u64| h = (h.rotate_left(29) ^ x).wrapping_mul(0x9E37_79B9_7F4A_7C15);
    for bytes in [&p.nodes, &p.bits, &p.names, &p.anames, &p.fnames] {
        add(bytes.len() as u64);
        let mut parts = bytes.chunks_exact(8);
        for part in &mut parts {
            add(u64::from_le_bytes(part.try_into().unwrap()));
        }
        parts.remainder().iter().for_each(|b| add(*b as u64));
    }
    for numbers in [
        &p.side,
        &p.roots,
        &p.name_start,
        &p.name_len,
        &p.var_node,
        &p.var_width,
        &p.aname_start,
        &p.aname_len,
        &p.index_width,
        &p.value_width,
        &p.fname_start,
        &p.fname_len,
        &p.func_width,
    ] {
        add(numbers.len() as u64);
        numbers.iter().for_each(|x| add(*x));
    }
    h ^ (h >> 32)
}

/// Calls the port and compares. `lent` is kept from call to call, for its memory.
fn run<T: Copy + PartialEq + Default>(
    p: &Problem,
    want: &Answer<T>,
    room: usize,
    fill: T,
    lent: &mut Vec<T>,
    call: fn(&Problem, &mut [T]) -> Said,
) -> Option<Found<T>> {
    lent.clear();
    lent.resize(room + BEHIND, fill);
    let before = digest(p);
    let said = call(p, &mut lent[..room]);
    let result = if want.number == 0 { &want.result[..] } else { &[] };
    let rest = if want.number == 0 { fill } else { T::default() };
    let what = if said.number != want.number as u64 {
        Difference::Number
    } else if said.count != want.count as u64 {
        Difference::Count
    } else if lent[..result.len()] != *result {
        Difference::At((0..result.len()).find(|i| lent[*i] != result[*i]).unwrap())
    } else if let Some(i) = lent[result.len()..room].iter().position(|x| *x != rest) {
        Difference::At(result.len() + i)
    } else if lent[room..].iter().any(|x| *x != fill) {
        Difference::Behind
    } else if digest(p) != before {
        Difference::Input
    } else {
        return None;
    };
    Some(Found { what, said, out: lent[..room].to_vec() })
}

pub fn script(p: &Problem, want: &Answer<u8>, room: usize, fill: u8, lent: &mut Vec<u8>) -> Option<Found<u8>> {
    run(p, want, room, fill, lent, port::script)
}

pub fn hidden(p: &Problem, want: &Answer<u8>, room: usize, fill: u8, lent: &mut Vec<u8>) -> Option<Found<u8>> {
    run(p, want, room, fill, lent, port::hidden)
}

pub fn lets(p: &Problem, want: &Answer<u8>, room: usize, fill: u8, lent: &mut Vec<u8>) -> Option<Found<u8>> {
    run(p, want, room, fill, lent, port::lets)
}

/// What the port has to tell beforehand of the Rust's answer with endless room; a refusal has no length and no terms.
pub fn expected_size(full: &Answer<u8>) -> Size {
    Size { number: full.number as u64, length: full.result.len() as u64, terms: terms::of_script(&full.result) }
}

/// The two sizes, if they differ, or if the call changed an input.
pub fn size(p: &Problem, full: &Answer<u8>) -> Option<(Size, Size)> {
    let before = digest(p);
    let (want, said) = (expected_size(full), port::size(p));
    (said != want || digest(p) != before).then_some((want, said))
}

pub fn widths(p: &Problem, want: &Answer<u64>, room: usize, fill: u64, lent: &mut Vec<u64>) -> Option<Found<u64>> {
    run(p, want, room, fill, lent, port::widths)
}
