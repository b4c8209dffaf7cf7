//! NOT THE RUST'S: the numbers that document 01 adds, and the names and the number 12 that document 02 does. 9 (limits), 8 (encoding), 1 of
//! the columns and 12 (array widths) come before the Rust is asked, 10 (room) after. A name among the words of SMT-LIB 2.7 is asked of the
//! Rust as a word that the Rust reserves, and one with bytes from 128 on as one that is spelt without them (spelling.rs).
//! Written from the documents, not from the port.
use crate::oracle;
use crate::problem::{Problem, kind, operand_count};
use crate::spelling;
use crate::words::is_added;

/// What is expected: number, count or length, and the result of an acceptance.
pub struct Answer<T> {
    pub number: u32,
    pub count: usize,
    pub result: Vec<T>,
}

fn refused<T>(number: u32, count: usize) -> Answer<T> {
    Answer { number, count, result: vec![] }
}

fn nodes_within(p: &Problem) -> bool {
    p.nodes.len() <= 34_816 && p.bits.len() <= 131_072 && p.side.len() <= 8_192
}

/// What the width pass takes.
fn pass_within(p: &Problem) -> bool {
    nodes_within(p) && p.index_width.len() <= 512 && p.value_width.len() <= 512
}

fn within(p: &Problem) -> bool {
    let columns = [
        &p.name_start,
        &p.name_len,
        &p.var_node,
        &p.var_width,
        &p.aname_start,
        &p.aname_len,
        &p.index_width,
        &p.value_width,
        &p.fname_start,
        &p.fname_len,
        &p.func_width,
    ];
    nodes_within(p)
        && p.roots.len() <= 256
        && columns.iter().all(|c| c.len() <= 512)
        && [&p.names, &p.anames, &p.fnames].iter().all(|a| a.len() <= 16_384)
}

fn encoded(p: &Problem) -> bool {
    p.nodes.len() % 17 == 0
        && (0..p.count()).all(|i| {
            let k = p.kind_of(i);
            k < kind::COUNT && (operand_count(k)..4).all(|j| p.operand(i, j) == 0)
        })
        && p.bits.iter().all(|b| *b <= 1)
}

/// All columns of each table are of one length.
fn columns(p: &Problem) -> bool {
    let same = |cs: &[&Vec<u64>]| cs.iter().all(|c| c.len() == cs[0].len());
    same(&[&p.name_start, &p.name_len, &p.var_node, &p.var_width])
        && same(&[&p.aname_start, &p.aname_len, &p.index_width, &p.value_width])
        && same(&[&p.fname_start, &p.fname_len, &p.func_width])
}

/// Each width of the array table is from 1 to 65,536.
fn array_widths(p: &Problem) -> bool {
    p.index_width.iter().chain(&p.value_width).all(|w| (1..=65_536).contains(w))
}

/// The answer to a problem whose answer with endless room is known.
pub fn with_room<T>(a: Answer<T>, room: usize) -> Answer<T> {
    if a.number == 0 && a.result.len() > room { refused(10, 0) } else { a }
}

pub fn width_answer(p: &Problem, room: usize) -> Answer<u64> {
    if !pass_within(p) {
        return refused(9, 0);
    }
    if !encoded(p) {
        return refused(8, 0);
    }
    if p.index_width.len() != p.value_width.len() {
        return refused(1, p.count());
    }
    if !array_widths(p) {
        return refused(12, 0);
    }
    match oracle::widths(p) {
        Err(node) => refused(1, node),
        Ok(ws) => with_room(Answer { number: 0, count: ws.len(), result: ws }, room),
    }
}

/// The entries of a table whose name is a word of SMT-LIB 2.7 get a word that the Rust reserves, at the end of the arena.
fn reserve(arena: &mut Vec<u8>, starts: &mut [u64], lens: &mut [u64]) -> bool {
    let word = b"let";
    let end = arena.len() as u64;
    let mut found = false;
    for (s, l) in starts.iter_mut().zip(lens) {
        let inside = *s <= end && *l <= end - *s;
        if inside && is_added(&arena[*s as usize..(*s + *l) as usize]) {
            (*s, *l, found) = (end, word.len() as u64, true);
        }
    }
    arena.extend_from_slice(word);
    found
}

/// The Rust's answer; with bytes from 128 on in a name, its answer to the problem in which all names are spelt without them, with the given
/// names put back.
fn script(p: &Problem) -> Result<Vec<u8>, u32> {
    if !spelling::has_high(p) {
        return with_words(p);
    }
    with_words(&spelling::problem(p)).map(|s| spelling::script(&s))
}

/// The Rust's answer; with a name among the words of SMT-LIB 2.7, its answer to the problem in which that name is one of its own reserved
/// words, so that 1 from widths and columns still comes before 2.
fn with_words(p: &Problem) -> Result<Vec<u8>, u32> {
    let mut q = p.clone();
    let found = [
        reserve(&mut q.names, &mut q.name_start, &mut q.name_len),
        reserve(&mut q.anames, &mut q.aname_start, &mut q.aname_len),
        reserve(&mut q.fnames, &mut q.fname_start, &mut q.fname_len),
    ];
    if !found.contains(&true) {
        return oracle::script(p);
    }
    let answer = oracle::script(&q);
    assert!(matches!(answer, Err(1 | 2)), "the Rust accepts its own reserved word");
    answer
}

/// Is it the Rust that answers: do 9, 8, 1 of the columns and 12 pass?
pub fn reaches_the_rust(p: &Problem) -> bool {
    within(p) && encoded(p) && columns(p) && array_widths(p)
}

pub fn print_answer(p: &Problem, room: usize) -> Answer<u8> {
    if !within(p) {
        return refused(9, 0);
    }
    if !encoded(p) {
        return refused(8, 0);
    }
    if !columns(p) {
        return refused(1, 0);
    }
    if !array_widths(p) {
        return refused(12, 0);
    }
    match script(p) {
        Err(number) => refused(number, 0),
        Ok(s) => with_room(Answer { number: 0, count: s.len(), result: s }, room),
    }
}

/// How long the script is, if the problem is accepted with endless room.
pub fn script_len(p: &Problem) -> Option<usize> {
    if !reaches_the_rust(p) {
        return None;
    }
    script(p).ok().map(|s| s.len())
}
