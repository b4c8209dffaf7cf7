//! Files of scripts end to end, and where each script in them ends. Nothing here is the Rust's: request L7 of document 02 is new, and this
//! is a model of its own, written from that document. A file is split into lines, each with its byte 10, and a script ends with each line
//! that is `(check-sat)`.
use crate::added;
use crate::printer;
use crate::problem::{Problem, Rng, kind};

pub const SEED: u64 = 20_260_907;

/// The longest file of the list.
pub const LONGEST: usize = 20_480;

const LAST: &[u8] = b"(check-sat)\n";

/// The lengths of a file's scripts, in order. What follows the last is in none.
pub fn lengths(file: &[u8]) -> Vec<usize> {
    let mut found = vec![];
    let mut since = 0;
    for line in file.split_inclusive(|b| *b == 10) {
        since += line.len();
        if line == LAST {
            found.push(since);
            since = 0;
        }
    }
    found
}

pub struct Case {
    pub label: &'static str,
    pub file: Vec<u8>,
    /// How many scripts it was made with, where that is known.
    pub want: Option<usize>,
}

fn case(all: &mut Vec<Case>, label: &'static str, file: Vec<u8>, want: Option<usize>) {
    assert!(file.len() <= LONGEST);
    all.push(Case { label, file, want });
}

/// What is printed of a problem, given room.
fn script(p: &Problem) -> Option<Vec<u8>> {
    let a = added::print_answer(p, usize::MAX);
    (a.number == 0).then_some(a.result)
}

/// The scripts of recorded problems, none longer than this.
fn recorded(longest: usize) -> Vec<Vec<u8>> {
    let mut all: Vec<Vec<u8>> = printer::all().iter().filter_map(|c| script(&c.problem)).filter(|s| s.len() <= longest).collect();
    all.sort();
    all.dedup();
    all
}

/// The script of a problem with one variable, compared with itself.
fn named(name: &[u8]) -> Vec<u8> {
    let mut p = Problem::default();
    let x = p.node(kind::VAR, &[8]);
    p.var_entry(name, x as u64, 8);
    let e = p.node(kind::EQ, &[x, x]);
    p.roots.push(e as u64);
    script(&p).expect("the name is allowed")
}

/// Names that have the text of the line in them, or most of it; also with bytes from 128 on around it, among them the line's bytes and byte 10
/// with 128 added.
const NAMES: [&[u8]; 13] = [
    b"(check-sat)",
    b" (check-sat)",
    b"(check-sat) ",
    b"(check-sat)(check-sat)",
    b"x(check-sat)",
    b"(check-sat",
    b"check-sat)",
    b"\x8a(check-sat)\x8a",
    b"\xc3\xbc(check-sat)\xe9\xa0\x98",
    b"(check\xadsat)",
    b"\xff(check-sat)\x80",
    b"(chec\xeb-sat)",
    b"\xe9\xa0\x98\xe5\x9f\x9f",
];

/// Every byte that a name may have, since request L8 those from 128 on too.
fn permitted() -> Vec<u8> {
    (32..=255).filter(|b| *b != b'|' && *b != b'\\' && *b != 127).collect()
}

const BYTES: [u8; 12] = [0, 10, 13, 32, b'(', b')', b'c', b't', b'x', b'|', 128, 255];

pub fn all() -> Vec<Case> {
    let mut all = vec![];
    let mut rng = Rng(SEED);
    let scripts = recorded(220);
    let some = |rng: &mut Rng| scripts[rng.below(scripts.len() as u64) as usize].clone();

    case(&mut all, "nothing", vec![], Some(0));
    for n in 1..=12 {
        for _ in 0..8 {
            let file: Vec<u8> = (0..n).flat_map(|_| some(&mut rng)).collect();
            case(&mut all, "scripts", file, Some(n));
        }
    }
    // the same scripts in another order, and one of them once more
    for _ in 0..10 {
        let (a, b) = (some(&mut rng), some(&mut rng));
        for parts in [vec![&a, &b], vec![&b, &a], vec![&a, &a], vec![&a, &b, &a]] {
            let n = parts.len();
            case(&mut all, "order", parts.into_iter().flatten().copied().collect(), Some(n));
        }
    }
    // names between bars
    let mut names: Vec<Vec<u8>> = NAMES.iter().map(|n| named(n)).collect();
    names.push(named(&permitted()));
    names.push(named(&[permitted(), b"(check-sat)".to_vec()].concat()));
    for s in &names {
        case(&mut all, "name", s.clone(), Some(1));
        case(&mut all, "name", [s.clone(), some(&mut rng), s.clone()].concat(), Some(3));
    }
    // written by hand: what is a line and what is none
    for (file, want) in [
        (&b"(check-sat)\n"[..], 1),
        (b"(check-sat)\n(check-sat)\n", 2),
        (b"(check-sat)\n\n(check-sat)\n", 2),
        (b"\n(check-sat)\n", 1),
        (b"\n\n\n(check-sat)\n\n", 1),
        (b"(check-sat)", 0),
        (b"(check-sat)\n(check-sat)", 1),
        (b"(check-sat) \n", 0),
        (b" (check-sat)\n", 0),
        (b"\t(check-sat)\n", 0),
        (b"(check-sat)\t\n", 0),
        (b"(check-sat)\r\n", 0),
        (b"(check-sat)\r\n(check-sat)\n", 1),
        (b"(check-sat)\n\r(check-sat)\n", 1),
        (b"\r(check-sat)\n", 0),
        (b"( check-sat)\n", 0),
        (b"(check-sat )\n", 0),
        (b"(CHECK-SAT)\n", 0),
        (b"(check-sat)(check-sat)\n", 0),
        (b"(check-sat)\0\n", 0),
        (b"\0(check-sat)\n", 0),
        (b"((check-sat)\n", 0),
        (b"(check-sat))\n", 0),
        (b"(check\n-sat)\n", 0),
        (b"(check-sat\n)\n", 0),
        (b"(check-sat)\x0b", 0),
        (b"(check-sat-assuming ())\n", 0),
        (b"; (check-sat)\n", 0),
        (b"|\n(check-sat)\n|", 1),
        (b"\n", 0),
        (b"\n\n\n\n\n\n\n\n\n\n\n\n\n\n", 0),
        (b"(set-logic QF_BV)\n", 0),
        (b"(set-logic QF_BV)\n(check-sat)", 0),
    ] {
        case(&mut all, "by hand", file.to_vec(), Some(want));
    }
    // cut short at every place, and what is left begun at every place
    let two = [named(b"x"), b"(set-logic QF_BV)\n(check-sat)\n".to_vec()].concat();
    for k in 0..=two.len() {
        case(&mut all, "cut short", two[..k].to_vec(), None);
        case(&mut all, "begun late", two[k..].to_vec(), None);
    }
    // a byte changed, left out or added, around the last lines and their ends
    let ends: Vec<usize> = lengths(&two)
        .iter()
        .scan(0, |at, n| {
            *at += n;
            Some(*at)
        })
        .collect();
    for end in ends {
        for k in end - LAST.len() - 2..(end + 2).min(two.len()) {
            let mut without = two.clone();
            without.remove(k);
            case(&mut all, "a byte left out", without, None);
            for b in BYTES {
                let mut changed = two.clone();
                changed[k] = b;
                case(&mut all, "a byte changed", changed, None);
                let mut more = two.clone();
                more.insert(k, b);
                case(&mut all, "a byte added", more, None);
            }
        }
    }
    // the line at every place of a few blocks, after a line and inside one, with more behind it and without
    for k in 0..140 {
        for (before, want) in [(10, true), (b'x', false)] {
            for behind in [0, 1, 2, 3, 70] {
                let mut file = vec![b'y'; k];
                if let Some(last) = file.last_mut() {
                    *last = before;
                }
                file.extend_from_slice(LAST);
                file.resize(file.len() + behind, b'z');
                case(&mut all, "places", file, Some((want || k == 0) as usize));
            }
        }
    }
    // the start of the line's text at many places, and the line at last
    for k in 0..40 {
        let mut file = b"(ch(check(check-sat)x".repeat(k);
        file.extend_from_slice(b"\n(check-sat)\n(ch");
        case(&mut all, "nearly the line", file, Some(1));
    }
    // long lines, many lines, many scripts
    let mut long = vec![b'#'; 20_000];
    long.extend_from_slice(b"\n(check-sat)\n");
    case(&mut all, "long", long, Some(1));
    case(&mut all, "long", vec![b'('; LONGEST], Some(0));
    case(&mut all, "long", vec![10; LONGEST], Some(0));
    case(&mut all, "long", LAST.repeat(1000), Some(1000));
    all
}

/// The list as bytes: docs/RECORDED.md has the layout.
pub fn bytes(cases: &[Case]) -> Vec<u8> {
    let mut out = b"SCRIPTS1".to_vec();
    let number = |out: &mut Vec<u8>, n: usize| out.extend_from_slice(&u32::try_from(n).unwrap().to_le_bytes());
    number(&mut out, cases.len());
    for c in cases {
        let found = lengths(&c.file);
        number(&mut out, c.file.len());
        number(&mut out, found.len());
        for n in found {
            number(&mut out, n);
        }
        out.extend_from_slice(&c.file);
    }
    out
}
