//! The fewest roots that still refuse (document 02, L14), by trying: the empty list, each position, and each two of them, in that order, with
//! the Rust's answer to the problem with those roots alone. Written from the document, not from the port.
use crate::added;
use crate::problem::Problem;

/// The number with endless room.
pub fn number(p: &Problem) -> u32 {
    added::print_answer(p, usize::MAX).number
}

/// With the roots at these positions alone.
fn number_with(p: &Problem, positions: &[usize]) -> u32 {
    number(&Problem { roots: positions.iter().map(|k| p.roots[*k]).collect(), ..p.clone() })
}

/// The rising lists of up to two positions below n, the shorter first, then by the first position and then by the second.
fn lists(n: usize) -> impl Iterator<Item = Vec<usize>> {
    let one = (0..n).map(|i| vec![i]);
    let two = (0..n).flat_map(move |i| (i + 1..n).map(move |j| vec![i, j]));
    std::iter::once(vec![]).chain(one).chain(two)
}

/// The number and the positions.
pub fn answer(p: &Problem) -> (u32, Vec<usize>) {
    let number = number(p);
    if !(1..=7).contains(&number) {
        return (number, vec![]);
    }
    let fewest = lists(p.roots.len()).find(|ks| number_with(p, ks) == number);
    (number, fewest.expect("two roots suffice"))
}
