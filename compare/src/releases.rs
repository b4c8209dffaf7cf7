//! NOT THE RUST'S: one meaning for a name in a release, of document 02. A model of its own, written from that paper: the file is cut at its
//! check-sat lines, each script is read by the model of reading (reads.rs), and each two declarations of a name are compared. And files for it.
use crate::hidden;
use crate::hidden_problems;
use crate::lets;
use crate::lets_problems;
use crate::printer;
use crate::problem::{Problem, Rng, kind};
use crate::reads::{Declared, read, reading};
use crate::reads_problems::{all_of, array, function, script, variable};
use crate::scripts;
use crate::{added, arrays};
use std::collections::HashSet;

pub const SEED: u64 = 20_261_119;

/// The longest file of the list.
pub const LONGEST: usize = 262_144;

const MOST: usize = 64;

// ---------------------------------------------------------------- the model

/// The number, and the script that is named; nothing is named where the file is accepted.
pub fn answer(file: &[u8]) -> (u32, usize) {
    let lengths = scripts::lengths(file);
    if lengths.len() > MOST {
        return (9, MOST);
    }
    let mut all: Vec<&[u8]> = vec![];
    let mut rest = file;
    for n in lengths {
        let (one, more) = rest.split_at(n);
        all.push(one);
        rest = more;
    }
    if !rest.is_empty() {
        all.push(rest);
    }
    for (k, s) in all.iter().enumerate() {
        let number = read(s).number;
        if number != 0 {
            return (number, k);
        }
    }
    let declared: Vec<Vec<(Vec<u8>, Declared)>> = all.iter().map(|s| reading(s).expect("it was read").declared).collect();
    let differ = |one: &[(Vec<u8>, Declared)], other: &[(Vec<u8>, Declared)]| {
        one.iter().any(|(name, what)| other.iter().any(|(n, w)| n == name && w != what))
    };
    let found = (0..declared.len()).find(|k| (0..*k).any(|j| differ(&declared[*k], &declared[j])));
    found.map_or((0, 0), |k| (17, k))
}

// ---------------------------------------------------------------- files

pub struct Case {
    pub label: &'static str,
    pub file: Vec<u8>,
    pub want: Option<(u32, usize)>,
}

struct Cases(Vec<Case>);

impl Cases {
    fn one(&mut self, label: &'static str, scripts: &[impl AsRef<[u8]>], want: Option<(u32, usize)>) {
        let file: Vec<u8> = scripts.iter().flat_map(|s| s.as_ref().to_vec()).collect();
        assert!(file.len() <= LONGEST);
        self.0.push(Case { label, file, want });
    }
}

/// A script of declarations alone.
fn declaring(lines: &[String]) -> String {
    script(&all_of(lines), &[])
}

/// A name as each of twelve: no two of them are alike.
fn meanings(name: &str) -> Vec<String> {
    vec![
        variable(name, 16),
        variable(name, 17),
        array(name, 16, 8),
        array(name, 17, 8),
        array(name, 16, 9),
        function(name, &[], 16),
        function(name, &[8, 9], 16),
        function(name, &[9, 8], 16),
        function(name, &[8, 9], 17),
        function(name, &[8], 16),
        function(name, &[8, 9, 8], 16),
        function(name, &[8, 10], 16),
    ]
}

/// A script that has nothing to do with others.
fn other(i: usize) -> String {
    declaring(&[variable(&format!("o{i}"), 1 + i as u64 % 7)])
}

const UNREADABLE: [&str; 4] = [
    "(check-sat)\n",
    "(set-logic QF_BV)\n\n(check-sat)\n",
    "(set-logic QF_ABV)\n(check-sat)\n",
    "\n(set-logic QF_BV)\n(check-sat)\n",
];

fn conflicts(c: &mut Cases) {
    // every two meanings of a name, and each with itself
    for name in ["idx", "\u{9818}\u{57df} 1"] {
        for (i, a) in meanings(name).iter().enumerate() {
            for (j, b) in meanings(name).iter().enumerate() {
                let want = if i == j { (0, 0) } else { (17, 1) };
                c.one("two meanings", &[declaring(&[a.clone()]), declaring(&[b.clone()])], Some(want));
            }
        }
    }
    // at each distance, at the start, in the middle and at the end of a file
    for (i, distance) in [1usize, 2, 3, 5, 31, 62, 63].into_iter().enumerate() {
        for first in [0, 1, 63 - distance] {
            for (a, b) in [(0, 1), (2, 4), (6, 7), (0, 5)] {
                let all = meanings("idx");
                let mut parts: Vec<String> = (0..64.min(first + distance + 1 + i)).map(other).collect();
                if first + distance >= parts.len() {
                    continue;
                }
                parts[first] = declaring(&[all[a].clone()]);
                parts[first + distance] = declaring(&[all[b].clone()]);
                c.one("distances", &parts, Some((17, first + distance)));
                parts[first + distance] = declaring(&[all[a].clone()]);
                c.one("distances, alike", &parts, Some((0, 0)));
            }
        }
    }
    // each kind of conflict at each distance, the first script of the file against its last
    let all = meanings("idx");
    for distance in 1..MOST {
        for (a, b) in [(0, 1), (0, 2), (0, 5), (0, 6), (2, 3), (2, 4), (2, 6), (6, 7), (6, 8), (6, 9), (6, 10), (6, 11)] {
            // both ways, by turns
            let (a, b) = if (distance + b) % 2 == 0 { (a, b) } else { (b, a) };
            let mut parts: Vec<String> = (0..=distance).map(|i| other(i % 2)).collect();
            parts[0] = declaring(&[all[a].clone()]);
            parts[distance] = declaring(&[all[b].clone()]);
            c.one("each kind at each distance", &parts, Some((17, distance)));
        }
    }
    // several: the earliest script that disagrees with one before it, whichever that is
    let of = |w: &[u64]| -> Vec<String> {
        w.iter().map(|w| if *w == 0 { other(0) } else { declaring(&[variable("x", *w)]) }).collect()
    };
    for (widths, want) in [
        (&[8u64, 9, 8][..], (17, 1)),
        (&[8, 8, 9, 9], (17, 2)),
        (&[8, 0, 8, 0, 9], (17, 4)),
        (&[0, 8, 0, 9, 10], (17, 3)),
        (&[8, 9, 10, 11], (17, 1)),
        (&[8, 8, 8, 8, 8], (0, 0)),
        (&[0, 0, 0, 8], (0, 0)),
        (&[9, 0, 0, 9, 8], (17, 4)),
    ] {
        c.one("several", &of(widths), Some(want));
    }
    let two = |x: u64, y: u64| declaring(&[variable("x", x), variable("y", y)]);
    c.one("several", &[two(1, 2), two(1, 2), two(2, 1)], Some((17, 2)));
    c.one("several", &[two(1, 2), two(1, 3), two(2, 2)], Some((17, 1)));
    c.one("several", &[declaring(&[variable("x", 1)]), declaring(&[variable("y", 2)]), two(1, 3)], Some((17, 2)));
    c.one("several", &[declaring(&[variable("x", 1)]), declaring(&[variable("y", 2)]), two(1, 2)], Some((0, 0)));
    // a pair in the later scripts, and one with the first script that ends later
    let parts = [two(1, 2), other(1), declaring(&[variable("z", 1)]), declaring(&[variable("z", 2)]), two(1, 3)];
    c.one("several", &parts, Some((17, 3)));
    // the place in the tables does not matter, nor what is asserted
    let (x, y) = (variable("x", 8), variable("y", 8));
    let parts = [
        script(&[&x, &y], &["(= |x| |y|)"]),
        script(&[&y, &x], &["(bvult |y| |x|)"]),
        script(&[&x], &[]),
        script(&[&y], &["(= |y| |y|)"]),
    ];
    c.one("other places and assertions", &parts, Some((0, 0)));
    let f = function("f", &[8], 8);
    let parts = [
        script(&[&x, &f], &["(= (|f| |x|) |x|)"]),
        script(&[&f], &[]),
        script(&[&f], &["(= (|f| (|f| #b00000000)) #b00000001)"]),
    ];
    c.one("called and not", &parts, Some((0, 0)));
    let parts = [&parts[0], &parts[1], &script(&[&function("f", &[7], 8)], &[])];
    c.one("called and not", &parts, Some((17, 2)));
}

/// Scripts that declare some of six names, each mostly with one meaning.
fn drawn(c: &mut Cases, rng: &mut Rng) {
    let pool: Vec<Vec<String>> = ["a", "b", "ab", "\u{fc}", "x 1", "X"].map(meanings).to_vec();
    for _ in 0..250 {
        let usual: Vec<u64> = pool.iter().map(|m| rng.below(m.len() as u64)).collect();
        let seldom = rng.from_to(8, 40);
        let parts: Vec<String> = (0..rng.from_to(2, 9))
            .map(|_| {
                let mut lines: Vec<String> = vec![];
                for (name, usual) in pool.iter().zip(&usual) {
                    if rng.one_in(3) {
                        let which = if rng.one_in(seldom) { rng.below(name.len() as u64) } else { *usual };
                        lines.push(name[which as usize].clone());
                    }
                }
                // variables, arrays, functions
                lines.sort_by_key(|l| if l.contains("(declare-fun") { 2 } else { l.contains("(Array") as u32 });
                declaring(&lines)
            })
            .collect();
        c.one("drawn", &parts, None);
    }
}

fn names(c: &mut Cases) {
    // names that differ, at other widths
    for (a, b) in [
        ("x", "X"),
        ("x", "x "),
        ("x", " x"),
        ("x", "xx"),
        ("ab", "ba"),
        ("\u{fc}", "u\u{308}"),
        ("\u{df}", "ss"),
        ("n\u{e4}", "n\u{e5}"),
        ("\u{9818}", "\u{9818}\u{57df}"),
        ("(check-sat)", "(check-sat"),
    ] {
        c.one("other names", &[declaring(&[variable(a, 1)]), declaring(&[variable(b, 2)])], Some((0, 0)));
        c.one("the same name", &[declaring(&[variable(a, 1)]), other(1), declaring(&[variable(a, 2)])], Some((17, 2)));
    }
    // bytes that are no text of any encoding
    let named = |w: u64, name: &[u8]| -> Vec<u8> {
        let text = declaring(&[variable("?", w)]);
        text.split('?').map(|s| s.as_bytes().to_vec()).collect::<Vec<_>>().join(name)
    };
    for b in [128u8, 195, 254, 255] {
        c.one("high bytes", &[named(1, &[b]), named(2, &[b])], Some((17, 1)));
        c.one("high bytes", &[named(1, &[b]), named(1, &[b])], Some((0, 0)));
        c.one("high bytes", &[named(1, &[b, b'a']), named(2, &[b, b'b'])], Some((0, 0)));
        c.one("high bytes", &[named(1, &[b]), named(2, &[b - 1])], Some(if b == 128 { (13, 1) } else { (0, 0) }));
    }
    // the two alphabets: bytes that differ by 128
    for name in ["a", "idx", "(check-sat)"] {
        let other: Vec<u8> = name.bytes().map(|b| b + 128).collect();
        c.one("high bytes", &[named(1, name.as_bytes()), named(2, &other)], Some((0, 0)));
        c.one("high bytes", &[named(1, name.as_bytes()), named(2, &other), named(1, &other)], Some((17, 2)));
    }
    // long names that differ in their last byte alone
    let long = |n: usize, w: u64, last: char| declaring(&[variable(&format!("{}{last}", "n".repeat(n)), w)]);
    for n in [1, 7, 8, 300, 16_000] {
        c.one("long names", &[long(n, 1, 'a'), long(n, 2, 'b')], Some((0, 0)));
        c.one("long names", &[long(n, 1, 'a'), long(n, 2, 'b'), long(n, 1, 'b')], Some((17, 2)));
    }
    // names that differ in their first byte alone, or in a middle one, and one that begins or ends another
    let named_at = |n: usize, at: usize, w: u64, b: u8| {
        let mut name = vec![b'n'; n];
        name[at] = b;
        named(w, &name)
    };
    for n in [2, 9, 15, 16, 17, 18, 33, 300] {
        for at in [0, n / 2] {
            c.one("names alike but for a byte", &[named_at(n, at, 1, b'a'), named_at(n, at, 2, b'b')], Some((0, 0)));
            let parts = [named_at(n, at, 1, b'a'), named_at(n, at, 2, b'b'), named_at(n, at, 1, b'b')];
            c.one("names alike but for a byte", &parts, Some((17, 2)));
        }
        let (long, short) = ("n".repeat(n), "n".repeat(n - 1));
        c.one("a name inside another", &[declaring(&[variable(&short, 1)]), declaring(&[variable(&long, 2)])], Some((0, 0)));
        c.one("a name inside another", &[declaring(&[variable(&long, 1)]), declaring(&[variable(&short, 2)])], Some((0, 0)));
        let both = declaring(&[variable(&long, 1), variable(&short, 1)]);
        c.one(
            "a name inside another",
            &[declaring(&[variable(&short, 1)]), both, declaring(&[variable(&long, 2)])],
            Some((17, 2)),
        );
    }
    // names that many a hash takes for one
    let sums = ["Aa", "BB"].into_iter().flat_map(|a| ["Aa", "BB"].map(|b| format!("{a}{b}"))).collect::<Vec<_>>();
    let widths = |of: &dyn Fn(usize) -> u64| -> Vec<String> {
        sums.iter().enumerate().map(|(i, n)| declaring(&[variable(n, of(i))])).collect()
    };
    let once = widths(&|i| i as u64 + 1);
    c.one("names of one sum", &once, Some((0, 0)));
    c.one("names of one sum", &[once.clone(), once.clone()].concat(), Some((0, 0)));
    for (k, _) in sums.iter().enumerate() {
        let other = widths(&|i| if i == k { 9 } else { i as u64 + 1 });
        c.one("names of one sum", &[once.clone(), other].concat(), Some((17, 4 + k)));
    }
    // other names in each of 64 scripts, and the last with one of another script at another width
    let own = |k: usize, again: Option<(usize, u64)>| -> String {
        let all = (0..32).map(|i| variable(&format!("k{k}.{i}"), 1 + (i as u64) % 5));
        declaring(&all.chain(again.map(|(j, w)| variable(&format!("k{j}.7"), w))).collect::<Vec<_>>())
    };
    for (again, want) in [(None, (0, 0)), (Some((0, 3)), (0, 0)), (Some((0, 4)), (17, 63)), (Some((62, 2)), (17, 63))] {
        let parts: Vec<String> = (0..64).map(|k| own(k, again.filter(|_| k == 63))).collect();
        c.one("many names in all", &parts, Some(want));
    }
    // many names: each table full, and the last, the first or a middle entry at another width
    let many = |change: Option<usize>| -> String {
        let w = |i: usize| if change == Some(i) { 2 } else { 1 };
        let mut all: Vec<String> = (0..512).map(|i| variable(&format!("v{i}"), w(i))).collect();
        all.extend((512..1_024).map(|i| array(&format!("v{i}"), 1, w(i))));
        all.extend((1_024..1_536).map(|i| function(&format!("v{i}"), &[], w(i))));
        declaring(&all)
    };
    c.one("many names", &[many(None), many(None)], Some((0, 0)));
    for i in [0, 300, 511, 555, 1_023, 1_024, 1_535] {
        c.one("many names", &[many(None), many(None), many(Some(i))], Some((17, 2)));
    }
}

fn unreadable(c: &mut Cases) {
    let (a, b) = (declaring(&[variable("x", 8)]), declaring(&[variable("x", 9)]));
    let over = declaring(&[variable("w", 1 << 40)]);
    for u in UNREADABLE {
        c.one("unreadable", &[u], Some((13, 0)));
        c.one("unreadable beside a conflict", &[u, &a, &b], Some((13, 0)));
        c.one("unreadable beside a conflict", &[&a, u, &b], Some((13, 1)));
        c.one("unreadable beside a conflict", &[&a, &b, u], Some((13, 2)));
        c.one("unreadable and over a limit", &[&a, u, &over], Some((13, 1)));
        c.one("unreadable and over a limit", &[&a, &over, u], Some((9, 1)));
        c.one("unreadable twice", &[&a, u, u, &b], Some((13, 1)));
    }
    c.one("over a limit", &[&over], Some((9, 0)));
    c.one("over a limit beside a conflict", &[&a, &b, &over], Some((9, 2)));
    c.one("over a limit beside a conflict", &[&over, &a, &b], Some((9, 0)));
    c.one("over a limit beside a conflict", &[&a, &over, &over, &b], Some((9, 1)));
    // bytes after the last line are a script
    for more in ["\n", " ", "(", "(check-sat)", "(set-logic QF_BV)\n", "(set-logic QF_BV)\n(check-sat)", "x\n", "\0"] {
        c.one("bytes after the last line", &[more], Some((13, 0)));
        c.one("bytes after the last line", &[&a[..], more], Some((13, 1)));
        c.one("bytes after the last line", &[&a[..], &b, more], Some((13, 2)));
        c.one("bytes after the last line", &[&a[..], &over, more], Some((9, 1)));
        c.one("bytes before the first line", &[more, &a], Some((13, 0)));
    }
    c.one("nothing", &[""], Some((0, 0)));
    // a file cut short at every place, and with a byte changed
    let file = [a.clone(), declaring(&[variable("y", 3), function("f", &[1], 2)]), b.clone()].concat();
    for k in 0..file.len() {
        c.one("cut short", &[&file[..k]], None);
    }
    let rng = &mut Rng(SEED);
    for k in 0..file.len() {
        let mut t = file.clone().into_bytes();
        t[k] = match t[k] {
            b'0'..=b'9' => rng.from_to(b'0' as u64, b'9' as u64) as u8,
            b'a'..=b'z' => rng.pick(b"xyf"),
            _ => rng.pick(b" ()|\n"),
        };
        c.one("a byte changed", &[&t], None);
    }
}

fn counts(c: &mut Cases) {
    let (a, b) = (declaring(&[variable("x", 8)]), declaring(&[variable("x", 9)]));
    let many = |n: usize| -> Vec<String> { (0..n).map(|i| if i % 3 == 0 { a.clone() } else { other(i) }).collect() };
    for n in [1, 2, 63, 64, 65, 66, 100] {
        let want = if n <= MOST { (0, 0) } else { (9, MOST) };
        c.one("so many lines", &many(n), Some(want));
        let with = |at: usize, s: &str| -> Vec<String> {
            let mut parts = many(n);
            parts[at] = s.to_string();
            parts
        };
        for at in [0, n / 2, n - 1] {
            let named = |number: u32| Some(if n <= MOST { (number, at) } else { want });
            c.one("so many lines, one unreadable", &with(at, UNREADABLE[1]), named(13));
            c.one("so many lines, one over a limit", &with(at, &declaring(&[variable("w", 1 << 40)])), named(9));
            let first_before = (0..at).any(|i| i % 3 == 0);
            let later = (at + 1..n).find(|i| i % 3 == 0);
            let conflict = if n > MOST {
                want
            } else if first_before {
                (17, at)
            } else {
                later.map_or((0, 0), |k| (17, k))
            };
            c.one("so many lines, a conflict", &with(at, &b), Some(conflict));
        }
        let mut more = many(n);
        more.push("(check-sat)".into());
        c.one("so many lines, and bytes behind", &more, Some(if n <= MOST { (13, n) } else { want }));
    }
    // what is nearly a line is none: 64 lines, and one more that has a byte before or behind
    for near in [" (check-sat)\n", "(check-sat) \n", "x(check-sat)\n", "(check-sat)\r\n", "|(check-sat)\n"] {
        for at in [0, 31, 63] {
            let mut parts = many(64);
            parts[at] = format!("{near}{}", parts[at]);
            c.one("64 lines and nearly one", &parts, Some((13, at)));
        }
    }
    // lines alone
    for n in [63, 64, 65, 1_000] {
        c.one("lines alone", &vec!["(check-sat)\n"; n], Some(if n <= MOST { (13, 0) } else { (9, MOST) }));
    }
    let last: Vec<String> = many(63).into_iter().chain([b]).collect();
    c.one("so many lines, a conflict", &last, Some((17, 63)));
}

fn printed(p: &Problem) -> Option<Vec<u8>> {
    let a = added::print_answer(p, usize::MAX);
    (a.number == 0 && a.result.len() <= 1_200).then_some(a.result)
}

/// Scripts of the recorded problems by all three ways to print.
fn recorded(c: &mut Cases, rng: &mut Rng) {
    let mut plain: Vec<Vec<u8>> =
        printer::all().iter().chain(&arrays::of_printer()).filter_map(|c| printed(&c.problem)).collect();
    plain.sort();
    plain.dedup();
    let lets: Vec<Vec<u8>> = lets_problems::all()
        .into_iter()
        .map(|(_, p, _)| lets::answer(&p, usize::MAX))
        .filter(|a| a.number == 0 && a.result.len() <= 600 && a.result.windows(6).any(|w| w == b"(let ("))
        .map(|a| a.result)
        .collect();
    let hidden: Vec<Vec<u8>> = hidden_problems::all()
        .into_iter()
        .map(|(_, p, _)| hidden::answer(&p, usize::MAX))
        .filter(|a| a.number == 0 && a.result.len() <= 600)
        .map(|a| a.result)
        .collect();
    let some = |rng: &mut Rng, from: &[Vec<u8>]| from[rng.below(from.len() as u64) as usize].clone();
    for i in 0..120 {
        let n = rng.from_to(1, 8);
        let parts: Vec<Vec<u8>> = (0..n).map(|_| some(rng, &plain)).collect();
        c.one("recorded scripts", &parts, None);
        // one script again and again has one meaning
        let again = vec![parts[0].clone(); 1 + i % 5];
        c.one("a recorded script again", &again, if read(&parts[0]).number == 0 { Some((0, 0)) } else { None });
    }
    for _ in 0..30 {
        let (p, l, h) = (some(rng, &plain), some(rng, &lets), some(rng, &hidden));
        c.one("a let script", &[&l], Some((13, 0)));
        if read(&p).number == 0 {
            c.one("a let script", &[&p, &l, &h], Some((13, 1)));
        }
        c.one("a let script", &[&h, &h, &l], Some((13, 2)));
        c.one("a hidden script", &[&h, &h], Some((0, 0)));
        c.one("a hidden script", &[&h, &p], None);
    }
}

/// A problem with a constant, whose hidden script declares `x` with this width.
fn hidden_with(width: u32) -> Vec<u8> {
    let mut p = Problem::default();
    let x = p.node(kind::VAR, &[width]);
    p.var_entry(b"x", x as u64, width as u64);
    p.bits = vec![1; width as usize];
    let k = p.node(kind::CONST, &[0, width]);
    let e = p.node(kind::EQ, &[x, k]);
    p.roots.push(e as u64);
    let a = hidden::answer(&p, usize::MAX);
    assert!(a.number == 0 && !a.result.contains(&b'1'), "it is hidden");
    a.result
}

/// A hidden script is read as any, and its declarations count.
fn hidden_scripts(c: &mut Cases) {
    let plain = |w: u64| declaring(&[variable("x", w)]).into_bytes();
    let (one, other) = (hidden_with(8), hidden_with(9));
    c.one("a hidden script", &[&one, &plain(8), &one], Some((0, 0)));
    c.one("a hidden script in conflict", &[&one, &other], Some((17, 1)));
    c.one("a hidden script in conflict", &[&one, &one, &plain(9)], Some((17, 2)));
    c.one("a hidden script in conflict", &[&plain(8), &plain(8), &plain(8), &other], Some((17, 3)));
}

pub fn all() -> Vec<Case> {
    let mut c = Cases(vec![]);
    conflicts(&mut c);
    names(&mut c);
    unreadable(&mut c);
    counts(&mut c);
    hidden_scripts(&mut c);
    let rng = &mut Rng(SEED);
    drawn(&mut c, rng);
    recorded(&mut c, rng);
    let mut seen = HashSet::new();
    c.0.retain(|case| seen.insert(case.file.clone()));
    c.0
}
