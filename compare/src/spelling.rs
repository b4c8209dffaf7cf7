//! NOT THE RUST'S: names with bytes from 128 to 255, which document 02 permits and the Rust refuses. The Rust is asked with other names in
//! their place, spelt with bytes that it takes, and its script gets the given names back. So what is not the Rust's is one thing: that to
//! the rules such a byte is one more byte like a letter. Numbers, their order and all other text are.
use crate::problem::Problem;

/// Stands before the two digits of a byte that is spelt, and before itself: no reserved word has it, and a name may begin with it.
const MARK: u8 = b'~';

fn is_high(b: &u8) -> bool {
    *b >= 128
}

/// Each byte from 128 on as the mark and two digits, the mark as two marks: different names are spelt differently, and what the Rust
/// refuses in a name stays there.
fn spelt(name: &[u8]) -> Vec<u8> {
    let mut out = vec![];
    for b in name {
        match *b {
            MARK => out.extend([MARK, MARK]),
            b if is_high(&b) => out.extend(format!("{}{b:02x}", MARK as char).bytes()),
            b => out.push(b),
        }
    }
    out
}

fn given(spelt: &[u8]) -> Vec<u8> {
    let mut out = vec![];
    let mut at = 0;
    while at < spelt.len() {
        if spelt[at] != MARK {
            out.push(spelt[at]);
            at += 1;
        } else if spelt[at + 1] == MARK {
            out.push(MARK);
            at += 2;
        } else {
            let digits = std::str::from_utf8(&spelt[at + 1..at + 3]).expect("two digits");
            out.push(u8::from_str_radix(digits, 16).expect("two digits"));
            at += 3;
        }
    }
    out
}

/// The name of an entry, if it lies inside its arena.
fn name_at(arena: &[u8], start: u64, len: u64) -> Option<&[u8]> {
    let end = arena.len() as u64;
    (start <= end && len <= end - start).then(|| &arena[start as usize..(start + len) as usize])
}

fn table_has_high(arena: &[u8], starts: &[u64], lens: &[u64]) -> bool {
    starts.iter().zip(lens).any(|(s, l)| name_at(arena, *s, *l).is_some_and(|n| n.iter().any(is_high)))
}

/// Has a name of the problem a byte from 128 on? (Bytes of an arena that no name has do not count.)
pub fn has_high(p: &Problem) -> bool {
    table_has_high(&p.names, &p.name_start, &p.name_len)
        || table_has_high(&p.anames, &p.aname_start, &p.aname_len)
        || table_has_high(&p.fnames, &p.fname_start, &p.fname_len)
}

fn spell_table(arena: &mut Vec<u8>, starts: &mut [u64], lens: &mut [u64]) {
    let mut out = vec![];
    for (s, l) in starts.iter_mut().zip(lens) {
        // an entry outside its arena stays outside
        let (start, len) = match name_at(arena, *s, *l) {
            None => (u64::MAX, *l),
            Some(n) => {
                let start = out.len() as u64;
                out.extend(spelt(n));
                (start, out.len() as u64 - start)
            }
        };
        (*s, *l) = (start, len);
    }
    *arena = out;
}

/// The problem with its names spelt; all else is as it was.
pub fn problem(p: &Problem) -> Problem {
    let mut q = p.clone();
    spell_table(&mut q.names, &mut q.name_start, &mut q.name_len);
    spell_table(&mut q.anames, &mut q.aname_start, &mut q.aname_len);
    spell_table(&mut q.fnames, &mut q.fname_start, &mut q.fname_len);
    q
}

/// A script with the given names again: they are what stands between bars.
pub fn script(text: &[u8]) -> Vec<u8> {
    let mut out = vec![];
    for (i, part) in text.split(|b| *b == b'|').enumerate() {
        if i > 0 {
            out.push(b'|');
        }
        if i % 2 == 1 { out.extend(given(part)) } else { out.extend_from_slice(part) }
    }
    out
}
