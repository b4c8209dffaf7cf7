//! NOT THE RUST'S: the shorter records of document 02. A model of both conversions, written from that paper, and the problems for them.
//! Each problem is made for a purpose, which is its label, with the number that the purpose calls for.
use crate::added::{Answer, with_room};
use crate::problem::{Rng, kind, operand_count, record};

pub const SEED: u64 = 20_261_116;

const MOST: usize = 2_048;

#[derive(Clone, Copy, PartialEq)]
pub enum Way {
    Shorten,
    Lengthen,
}

// ---------------------------------------------------------------- the model

struct Node {
    kind: u8,
    operands: Vec<u32>,
}

fn refused(number: u32) -> Answer<u8> {
    Answer { number, count: 0, result: vec![] }
}

fn accepted(result: Vec<u8>) -> Answer<u8> {
    Answer { number: 0, count: result.len(), result }
}

/// Records of 17 bytes as nodes with the operands that they have, or nothing where 8 is due.
fn read_old(bytes: &[u8]) -> Option<Vec<Node>> {
    let mut nodes = vec![];
    for r in bytes.chunks(17) {
        if r.len() < 17 || r[0] >= kind::COUNT {
            return None;
        }
        let mut operands: Vec<u32> = r[1..].chunks(4).map(|w| u32::from_le_bytes(w.try_into().unwrap())).collect();
        let spare = operands.split_off(operand_count(r[0]));
        if spare.iter().any(|x| *x != 0) {
            return None;
        }
        nodes.push(Node { kind: r[0], operands });
    }
    Some(nodes)
}

/// The new form as nodes, or the refusal.
fn read_new(mut bytes: &[u8]) -> Result<Vec<Node>, u32> {
    let mut nodes = vec![];
    while let Some((k, rest)) = bytes.split_first() {
        if nodes.len() == MOST {
            return Err(9);
        }
        if *k >= kind::COUNT {
            return Err(16);
        }
        let Some((words, rest)) = rest.split_at_checked(4 * operand_count(*k)) else { return Err(16) };
        nodes.push(Node { kind: *k, operands: words.chunks(4).map(|w| u32::from_le_bytes(w.try_into().unwrap())).collect() });
        bytes = rest;
    }
    Ok(nodes)
}

fn write_new(nodes: &[Node]) -> Vec<u8> {
    let mut out = vec![];
    for n in nodes {
        out.push(n.kind);
        n.operands.iter().for_each(|x| out.extend(x.to_le_bytes()));
    }
    out
}

fn write_old(nodes: &[Node]) -> Vec<u8> {
    let all = |n: &Node| {
        let mut o = [0u32; 4];
        o[..n.operands.len()].copy_from_slice(&n.operands);
        record(n.kind, o)
    };
    nodes.iter().flat_map(all).collect()
}

/// With endless room.
fn converted(way: Way, bytes: &[u8]) -> Answer<u8> {
    match way {
        Way::Shorten if bytes.len() > 34_816 => refused(9),
        Way::Shorten => read_old(bytes).map_or(refused(8), |ns| accepted(write_new(&ns))),
        Way::Lengthen => read_new(bytes).map_or_else(refused, |ns| accepted(write_old(&ns))),
    }
}

pub fn answer(way: Way, bytes: &[u8], room: usize) -> Answer<u8> {
    with_room(converted(way, bytes), room)
}

// ---------------------------------------------------------------- the problems

pub struct Case {
    pub label: String,
    pub way: Way,
    pub bytes: Vec<u8>,
    pub room: usize,
    /// None: whatever the model says.
    pub want: Option<u32>,
}

struct Cases(Vec<Case>);

impl Cases {
    fn one(&mut self, label: &str, way: Way, bytes: &[u8], room: usize, want: Option<u32>) {
        self.0.push(Case { label: label.to_string(), way, bytes: bytes.to_vec(), room, want });
    }
    /// Accepted: with exact room, one byte more and one short, and, if it is small, with much and with none.
    fn whole(&mut self, label: &str, way: Way, bytes: &[u8]) {
        let a = converted(way, bytes);
        let n = a.result.len();
        self.one(label, way, bytes, n, Some(0));
        self.one(label, way, bytes, n + 1, Some(0));
        if n > 0 {
            self.one(&format!("{label}, one byte short"), way, bytes, n - 1, Some(10));
        }
        if n < 200 {
            self.one(label, way, bytes, n + 40, Some(0));
            self.one(&format!("{label}, no room"), way, bytes, 0, Some(if n > 0 { 10 } else { 0 }));
        }
    }
    /// Refused, whatever the room.
    fn fault(&mut self, label: &str, way: Way, bytes: &[u8], number: u32) {
        for room in [0, 3, 64] {
            self.one(label, way, bytes, room, Some(number));
        }
    }
    /// An old form that is whole, both ways round.
    fn both(&mut self, label: &str, old: &[u8]) {
        self.whole(label, Way::Shorten, old);
        let new = converted(Way::Shorten, old).result;
        assert!(converted(Way::Lengthen, &new).result == old, "the model does not come back: {label}");
        self.whole(label, Way::Lengthen, &new);
    }
}

/// A record with every operand that its kind has, of bytes that are all different.
fn marked(k: u8, from: u8) -> [u8; 17] {
    let mut o = [0u32; 4];
    for (j, x) in o.iter_mut().enumerate().take(operand_count(k)) {
        *x = u32::from_le_bytes([0, 1, 2, 3].map(|i| from.wrapping_add(4 * j as u8 + i)));
    }
    record(k, o)
}

/// n records whose kinds go round.
fn round(kinds: &[u8], n: usize) -> Vec<u8> {
    (0..n).flat_map(|i| marked(kinds[i % kinds.len()], (i % kinds.len()) as u8 * 16)).collect()
}

fn grown(rng: &mut Rng, n: usize) -> Vec<u8> {
    let mut old = vec![];
    for _ in 0..n {
        let k = rng.below(39) as u8;
        let mut o = [0u32; 4];
        for x in o.iter_mut().take(operand_count(k)) {
            *x = if rng.below(3) == 0 { rng.below(1 << 32) as u32 } else { rng.below(300) as u32 };
        }
        old.extend(record(k, o));
    }
    old
}

pub fn all() -> Vec<Case> {
    let mut c = Cases(vec![]);
    let rng = &mut Rng(SEED);
    let shorter = |old: &[u8]| converted(Way::Shorten, old).result;

    c.both("nothing", &[]);
    for k in 0..kind::COUNT {
        c.both(&format!("kind {k} alone"), &marked(k, 1));
        c.both(&format!("kind {k} with the largest operands"), &{
            let mut r = marked(k, 1);
            r[1..1 + 4 * operand_count(k)].fill(255);
            r
        });
        c.both(&format!("kind {k} with operands 0"), &record(k, [0; 4]));
        c.both(&format!("kind {k} between others"), &[marked(kind::ITE, 3), marked(k, 77), marked(kind::NEG, 9)].concat());

        // every place at which the bytes can end
        let (before, own) = (marked(kind::ADD, 20), marked(k, 1));
        for n in 1..17 {
            c.one("an old record cut short", Way::Shorten, &own[..n], 64, Some(8));
            c.one("an old record cut short", Way::Shorten, &[&before[..], &own[..n]].concat(), 64, Some(8));
        }
        let new = shorter(&own);
        for n in 1..new.len() {
            c.one("a new record cut short", Way::Lengthen, &new[..n], 64, Some(16));
            c.one("a new record cut short", Way::Lengthen, &[&shorter(&before)[..], &new[..n]].concat(), 64, Some(16));
        }
        // operands that the kind does not have, by each of their bytes
        for place in 1 + 4 * operand_count(k)..17 {
            for x in [1, 128, 255] {
                let mut r = own;
                r[place] = x;
                c.one("an unused operand", Way::Shorten, &r, 64, Some(8));
            }
        }
    }
    for k in [39, 40, 63, 64, 127, 128, 254, 255] {
        let unknown = [&[k], &[0u8; 16][..]].concat();
        let (a, b) = (marked(kind::CALL, 5), marked(kind::VAR, 8));
        for old in [unknown.clone(), [&a[..], &unknown].concat(), [&unknown[..], &b].concat(), [&a[..], &unknown, &b].concat()] {
            c.fault("an unknown kind", Way::Shorten, &old, 8);
        }
        for new in [
            vec![k],
            [&shorter(&a)[..], &[k]].concat(),
            [&[k], &shorter(&b)[..]].concat(),
            [&shorter(&a)[..], &[k], &shorter(&b)].concat(),
        ] {
            c.fault("an unknown kind", Way::Lengthen, &new, 16);
        }
    }

    // around the limit: the smallest records, the largest, and all kinds
    let every: Vec<u8> = (0..kind::COUNT).step_by(4).collect();
    for kinds in [&[kind::NOT][..], &[kind::SELECT], &every] {
        for n in [2_047, 2_048] {
            c.both(&format!("{n} records"), &round(kinds, n));
        }
        let old = round(kinds, 2_049);
        c.fault("2,049 records", Way::Shorten, &old, 9);
        c.fault("a byte past the limit", Way::Shorten, &old[..34_817], 9);
        c.fault("a byte under the limit", Way::Shorten, &old[..34_815], 8);
        let full = shorter(&old[..34_816]);
        let less = shorter(&old[..34_799]);
        for (label, tail) in [
            ("a whole record", &shorter(&old[34_816..])[..]),
            ("a byte that is a kind", &[0]),
            ("a byte that is no kind", &[255]),
            ("the first bytes of a record", &[2, 1, 0, 0]),
            ("many bytes that are no kinds", &[99; 300]),
        ] {
            c.fault(&format!("{label} after 2,048 records"), Way::Lengthen, &[&full[..], tail].concat(), 9);
        }
        for (label, tail) in [
            ("a byte that is a kind", &[0][..]),
            ("a byte that is no kind", &[255]),
            ("the first bytes of a record", &[2, 1, 0, 0]),
            ("many bytes that are no kinds", &[99; 300]),
        ] {
            c.fault(&format!("{label} after 2,047 records"), Way::Lengthen, &[&less[..], tail].concat(), 16);
        }
        // an unknown kind among the first 2,048, with as many bytes behind it as go past the limit
        for at in [0, 1_000, 2_047] {
            let mut new = shorter(&old[..17 * at]);
            new.push(200);
            new.extend(&full);
            c.fault("an unknown kind before the limit", Way::Lengthen, &new, 16);
        }
        // 9 before 8
        let mut both = old.clone();
        both[0] = 200;
        c.fault("2,049 records, the first unknown", Way::Shorten, &both, 9);
    }
    // as many bytes as the limit of the old form has, but more records
    c.fault("34,816 bytes of small records", Way::Lengthen, &shorter(&round(&[kind::NOT], 2_048)).repeat(4)[..34_816], 9);

    for i in 0..240 {
        let size = rng.below(13) as usize;
        let old = grown(rng, size);
        c.both("grown at random", &old);
        // a byte changed, taken away or put in
        for way in [Way::Shorten, Way::Lengthen] {
            let mut bytes = if way == Way::Shorten { old.clone() } else { shorter(&old) };
            if bytes.is_empty() {
                continue;
            }
            let at = rng.below(bytes.len() as u64) as usize;
            match i % 4 {
                0 => bytes[at] = rng.below(256) as u8,
                1 => bytes[at] = rng.below(39) as u8,
                2 => drop(bytes.remove(at)),
                _ => bytes.insert(at, rng.below(40) as u8),
            }
            let room = rng.below(240) as usize;
            c.one("damaged", way, &bytes, room, None);
        }
    }
    c.0
}
