//! Problems with names that have bytes from 128 to 255: at each place of a name and in each table, equal, differing in one byte alone,
//! beside what stays refused, and in whole problems.
use crate::printer::{Room, array, call, constant, func, named, root, var};
use crate::problem::{Problem, Rng, kind};
use crate::trees::accepted;
use crate::words::{RUST, SMTLIB_27};

/// Names with this byte alone, first, in the middle and last.
fn around(b: u8) -> [Vec<u8>; 4] {
    [vec![b], vec![b, b'q', b'k'], vec![b'q', b, b'k'], vec![b'q', b'k', b]]
}

/// In UTF-8, German and Japanese; then a letter as one code point, as two, and as the one byte that it is in Latin 1.
const WORDS: [&[u8]; 9] = [
    "Prüfsumme".as_bytes(),
    "Größe".as_bytes(),
    "Übertrag".as_bytes(),
    "領域".as_bytes(),
    "番地".as_bytes(),
    "セクション".as_bytes(),
    b"\xc3\xbc",
    b"u\xcc\x88",
    b"\xfc",
];

/// A long name with the byte b at one place; with 160 at its first place it is the same without.
fn long(n: usize, at: usize, b: u8) -> Vec<u8> {
    let mut s: Vec<u8> = (0..n).map(|i| 160 + (i % 90) as u8).collect();
    s[at] = b;
    s
}

fn permitted(add: &mut impl FnMut(&str, Problem, Room, Option<u32>)) {
    let mut ok = |label: &str, p: Problem| add(&format!("+ name from 128 on: {label}"), p, Room::Exact, Some(0));
    for t in 0..3 {
        for place in 0..4 {
            let mut p = Problem::default();
            for b in 128..=255u8 {
                named(&mut p, t, &around(b)[place]);
            }
            ok("each byte, alone, first, in the middle and last", p);
        }
        for w in WORDS {
            let mut p = Problem::default();
            named(&mut p, t, w);
            ok("a word", p);
        }
        let mut p = Problem::default();
        for w in WORDS {
            named(&mut p, t, w);
        }
        ok("spellings are names of their own", p);
        // what a byte would be with its highest bit cleared does not count
        let mut p = Problem::default();
        for n in
            [&b"\xc0x"[..], b"\xaex", b"\xfc", b"\xdc", b"\xff", b"\x8a", b"\xa0", b"k", b"\xeb", b"\xecet", b"l\xe5t", b"le\xf4"]
        {
            named(&mut p, t, n);
        }
        ok("128 above a byte with a rule", p);
        let mut p = Problem::default();
        for w in RUST.iter().chain(SMTLIB_27) {
            let w = w.as_bytes();
            named(&mut p, t, &[w, b"\x80"].concat());
            named(&mut p, t, &[b"\xff", w].concat());
            named(&mut p, t, &w.iter().map(|b| b | 128).collect::<Vec<u8>>());
        }
        ok("a reserved word with a byte more, and 128 above one", p);
        // equal but for one byte, in one table and in two
        for u in 0..3 {
            for (place, (n, m)) in around(195).into_iter().zip(around(196)).enumerate() {
                let mut p = Problem::default();
                named(&mut p, t, &n);
                named(&mut p, u, &m);
                ok(
                    [
                        "one byte differs, alone",
                        "one byte differs, the first",
                        "one byte differs, in the middle",
                        "one byte differs, the last",
                    ][place],
                    p,
                );
            }
        }
        // a long one, and others that differ from it in one byte: a comparison goes by sixteen
        for n in [16, 17, 32, 40] {
            let mut ats = vec![0, 7, 15, n / 2, n - 2, n - 1];
            ats.sort();
            ats.dedup();
            let mut p = Problem::default();
            named(&mut p, t, &long(n, 0, 160));
            for at in ats {
                named(&mut p, t, &long(n, at, 129));
            }
            ok("long names of which one byte differs", p);
        }
        let mut p = Problem::default();
        named(&mut p, t, &[0xe3; 16_384]);
        ok("all of the longest arena", p);
    }
}

fn refused(add: &mut impl FnMut(&str, Problem, Room, Option<u32>)) {
    let mut no = |label: &str, p: Problem| add(&format!("2 name from 128 on: {label}"), p, Room::Fixed(300), Some(2));
    for t in 0..3 {
        // what was refused is refused beside such bytes too
        for b in [0u8, 9, 10, 13, 31, 127, b'|', b'\\'] {
            for at in 0..3 {
                let mut n = "ä本".as_bytes().to_vec();
                n.insert([0, 2, 5][at], b);
                let mut p = Problem::default();
                named(&mut p, t, &n);
                no("and a byte that is not permitted", p);
            }
        }
        for b in [b'@', b'.'] {
            let mut p = Problem::default();
            named(&mut p, t, &[b, 0xc3, 0xa4]);
            no("after @ or a full stop", p);
        }
        let mut p = Problem::default();
        named(&mut p, t, "本".as_bytes());
        named(&mut p, t, SMTLIB_27[t].as_bytes());
        no("before a reserved word", p);
        // equal, in one table and in two, with the byte at each place, and long ones
        for u in 0..3 {
            for (place, n) in around(195).iter().enumerate() {
                let mut p = Problem::default();
                named(&mut p, t, n);
                named(&mut p, t, b"other");
                named(&mut p, u, n);
                no(["twice, alone", "twice, the first", "twice, in the middle", "twice, the last"][place], p);
            }
            let mut p = Problem::default();
            named(&mut p, t, &long(40, 20, 130));
            named(&mut p, u, &long(40, 20, 130));
            no("long names twice", p);
        }
    }
}

/// Every name 128 above itself: names that differ still do.
fn raised(p: &Problem) -> Problem {
    let mut q = p.clone();
    for a in [&mut q.names, &mut q.anames, &mut q.fnames] {
        a.iter_mut().for_each(|b| *b |= 128);
    }
    q
}

fn whole(rng: &mut Rng, add: &mut impl FnMut(&str, Problem, Room, Option<u32>)) {
    // a variable, an array and a function with such names, reached
    for (j, w) in WORDS.iter().enumerate() {
        let mut p = Problem::default();
        let x = var(&mut p, 32);
        let m = array(&mut p);
        let f = func(&mut p, 8);
        let s = p.node(kind::SELECT, &[m, x, 0, 0]);
        let c = constant(&mut p, 8);
        let y = call(&mut p, f, 8, &[c]);
        let e = p.node(kind::EQ, &[s, y]);
        root(&mut p, e);
        for (a, start, len, last) in [
            (&mut p.names, &mut p.name_start, &mut p.name_len, b'1'),
            (&mut p.anames, &mut p.aname_start, &mut p.aname_len, b'2'),
            (&mut p.fnames, &mut p.fname_start, &mut p.fname_len, b'3'),
        ] {
            (start[0], len[0]) = (a.len() as u64, w.len() as u64 + 1);
            a.extend_from_slice(w);
            a.push(last);
        }
        let (room, want) = [(Room::Exact, 0), (Room::OneShort, 10), (Room::Longer(40), 0)][j % 3];
        let label = if want == 0 { "+ name from 128 on: reached" } else { "10 name from 128 on: reached" };
        add(label, p, room, Some(want));
    }
    for turn in 0..60u64 {
        let p = raised(&accepted(rng, turn % 5, 1 + (turn % 3) as u32));
        let (room, want) = [(Room::Exact, 0), (Room::Longer(1 + turn as usize), 0), (Room::OneShort, 10)][(turn % 3) as usize];
        let label = if want == 0 { "+ name from 128 on: grown" } else { "10 name from 128 on: grown" };
        add(label, p, room, Some(want));
    }
}

pub fn all(add: &mut impl FnMut(&str, Problem, Room, Option<u32>)) {
    permitted(add);
    refused(add);
    whole(&mut Rng(20_261_116), add);
}
