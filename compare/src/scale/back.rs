//! Scripts read back by the port and by the model (reads.rs): number, sizes and every element of every output, which is filled beforehand; what
//! lies behind the lent parts must stay as it was.
use super::port;
use crate::problem::{Problem, Rng};
use crate::reads::{Lengths, Read, lengths, read, with_room};

/// So many elements behind the lent ones are watched.
const BEHIND: usize = 8;

const BYTE: u8 = 0xA5;
const NUMBER: u64 = 0xA5A5_A5A5_A5A5_A5A5;

/// The five outputs of bytes and the thirteen of numbers, with their places among the eighteen.
fn bytes(p: &mut Problem) -> [(usize, &mut Vec<u8>); 5] {
    [(0, &mut p.nodes), (1, &mut p.bits), (4, &mut p.names), (9, &mut p.anames), (14, &mut p.fnames)]
}

fn numbers(p: &mut Problem) -> [(usize, &mut Vec<u64>); 13] {
    [
        (2, &mut p.side),
        (3, &mut p.roots),
        (5, &mut p.name_start),
        (6, &mut p.name_len),
        (7, &mut p.var_node),
        (8, &mut p.var_width),
        (10, &mut p.aname_start),
        (11, &mut p.aname_len),
        (12, &mut p.index_width),
        (13, &mut p.value_width),
        (15, &mut p.fname_start),
        (16, &mut p.fname_len),
        (17, &mut p.func_width),
    ]
}

/// The whole outputs as they have to be: what is read and then what was there, or zeros where it is refused; and then what lies behind.
fn whole<T: Copy + Default>(v: &mut Vec<T>, room: usize, refused: bool, fill: T) {
    if refused {
        v.clear();
        v.resize(room, T::default());
    }
    v.resize(room + BEHIND, fill);
    v[room..].fill(fill);
}

/// What the two say, if they differ.
fn differ(script: &[u8], room: &Lengths, want: Read) -> Option<String> {
    let mut out = Problem::default();
    bytes(&mut out).into_iter().for_each(|(k, v)| v.resize(room[k] + BEHIND, BYTE));
    numbers(&mut out).into_iter().for_each(|(k, v)| v.resize(room[k] + BEHIND, NUMBER));
    let said = port::read(script, &mut out, room);
    let expected = port::Read { number: want.number as u64, sizes: want.sizes.map(|n| n as u64) };
    if said != expected {
        return Some(format!("expected {expected:?}\nthe port {said:?}"));
    }
    let mut p = want.problem;
    bytes(&mut p).into_iter().for_each(|(k, v)| whole(v, room[k], want.number != 0, BYTE));
    numbers(&mut p).into_iter().for_each(|(k, v)| whole(v, room[k], want.number != 0, NUMBER));
    let place = bytes(&mut p).into_iter().zip(bytes(&mut out)).find(|(a, b)| a.1 != b.1).map(|(a, _)| a.0);
    let place = place.or(numbers(&mut p).into_iter().zip(numbers(&mut out)).find(|(a, b)| a.1 != b.1).map(|(a, _)| a.0));
    place.map(|k| format!("output {k} of the eighteen differs"))
}

/// How much is lent: of most outputs what is needed or some more, now and then one short.
fn room_for(need: &Lengths, rng: &mut Rng) -> Lengths {
    let mut room = *need;
    room.iter_mut().filter(|_| rng.one_in(3)).for_each(|n| *n += 7);
    if rng.one_in(8) {
        let k = rng.below(18) as usize;
        room[k] = need[k].saturating_sub(1);
    }
    room
}

/// One byte changed, exchanged with the next, taken out or put in.
fn damaged(script: &[u8], rng: &mut Rng) -> Vec<u8> {
    let n = script.len() as u64;
    let k = rng.below(n) as usize;
    let mut s = script.to_vec();
    match rng.below(4) {
        0 => s[k] ^= 1 << rng.below(8),
        1 => s.swap(k, (k + 1) % script.len()),
        2 => _ = s.remove(k),
        _ => s.insert(k, script[rng.below(n) as usize]),
    }
    s
}

/// The script of an accepted problem, and the same with a change, through both. The numbers that were answered, or what differs.
pub fn both(script: &[u8], rng: &mut Rng) -> Result<[u32; 2], String> {
    let mut numbers = [0; 2];
    for (k, s) in [script.to_vec(), damaged(script, rng)].into_iter().enumerate() {
        let full = read(&s);
        let room = room_for(&lengths(&full.problem), rng);
        let want = with_room(full, &room);
        numbers[k] = want.number;
        if let Some(what) = differ(&s, &room, want) {
            return Err(format!("{what}\nlent: {room:?}\nthe script:\n{}", String::from_utf8_lossy(&s)));
        }
    }
    Ok(numbers)
}
