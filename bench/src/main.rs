//! Times the port beside the Rust, on the same problems in one run. The answers are compared before anything is timed.
mod cut;
mod problem;
mod records;
mod shapes;
mod traces;
mod traces_table;
use problem::{Answer, Decoded, Problem};
use std::ffi::{c_int, c_long};
use std::hint::black_box;

/// The processor time of this thread so far, in seconds: what other programs take in between is not counted. The standard library
/// has no such clock, but links the C library's.
fn now() -> f64 {
    const CLOCK_THREAD_CPUTIME_ID: c_int = 3;
    unsafe extern "C" {
        fn clock_gettime(clock: c_int, time: *mut [c_long; 2]) -> c_int;
    }
    let mut t = [0; 2];
    // Safety: on 64-bit Linux a timespec is these two numbers.
    assert_eq!(unsafe { clock_gettime(CLOCK_THREAD_CPUTIME_ID, &mut t) }, 0);
    t[0] as f64 + t[1] as f64 * 1e-9
}

/// The time of one call, from n calls.
fn seconds(n: usize, f: &mut dyn FnMut()) -> f64 {
    let t = now();
    for _ in 0..n {
        f();
    }
    (now() - t) / n as f64
}

fn at(sorted: &[f64], part: f64) -> f64 {
    sorted[((sorted.len() - 1) as f64 * part).round() as usize]
}

fn sorted(mut xs: Vec<f64>) -> Vec<f64> {
    xs.sort_by(f64::total_cmp);
    xs
}

struct Times {
    rust: f64,
    port: f64,
    ratio: [f64; 3],
}

/// The two in turn, many times. A sample is as many calls as take about half a millisecond; a shape takes about a second.
fn pairs(rust: &mut dyn FnMut(), port: &mut dyn FnMut()) -> Times {
    let once = seconds(3, rust).max(seconds(3, port));
    let calls = ((0.0005 / once) as usize).max(1);
    let rounds = ((1.0 / (once * calls as f64)) as usize).clamp(7, 501);
    let (mut r, mut p) = (Vec::new(), Vec::new());
    for _ in 0..rounds {
        r.push(seconds(calls, rust));
        p.push(seconds(calls, port));
    }
    let ratios = sorted(p.iter().zip(&r).map(|(p, r)| p / r).collect());
    Times { rust: at(&sorted(r), 0.5), port: at(&sorted(p), 0.5), ratio: [0.5, 0.1, 0.9].map(|x| at(&ratios, x)) }
}

fn line(label: &str, length: usize, t: &Times) {
    let mbs = |s: f64| length as f64 / s / 1e6;
    println!(
        "| {label} | {length} | {:.1} | {:.1} | {:.2} | {:.2} to {:.2} | {:.0} | {:.0} |",
        t.rust * 1e6,
        t.port * 1e6,
        t.ratio[0],
        t.ratio[1],
        t.ratio[2],
        mbs(t.rust),
        mbs(t.port)
    );
}

/// A refusal by the port, in a buffer of `room` bytes, which it zeroes.
fn alone(label: &str, room: usize, p: &Problem, number: u64) {
    let mut out = vec![1u8; room];
    assert_eq!(problem::echo(p, &mut out), Answer(number, 0), "{label}");
    assert!(out.iter().all(|b| *b == 0), "{label}: the output is not zeroed");
    let mut call = || {
        black_box(problem::echo(p, &mut out));
    };
    let once = seconds(2, &mut call);
    let calls = ((0.0002 / once) as usize).max(1);
    let rounds = ((0.5 / (once * calls as f64)) as usize).clamp(5, 501);
    let ts = sorted((0..rounds).map(|_| 1e6 * seconds(calls, &mut call)).collect());
    println!("| {label} | {number} | {room} | {:.2} | {:.2} to {:.2} |", at(&ts, 0.5), at(&ts, 0.1), at(&ts, 0.9));
}

/// What the port tells of a script beforehand, beside printing it into an empty buffer.
fn sized(label: &str, p: &Problem) {
    let problem::Size(number, length, terms) = problem::size(p);
    assert_eq!((number, problem::echo(p, &mut [])), (0, Answer(10, 0)), "{label}");
    let t = pairs(&mut || { black_box(problem::echo(p, &mut [])); }, &mut || {
        black_box(problem::size(p));
    });
    println!(
        "| {label} | {length} | {terms} | {:.1} | {:.1} | {:.2} | {:.2} to {:.2} |",
        t.rust * 1e6,
        t.port * 1e6,
        t.ratio[0],
        t.ratio[1],
        t.ratio[2]
    );
}

/// The script with constants hidden, beside the plain one.
fn hidden(label: &str, p: &Problem, out: &mut [u8]) {
    let Answer(number, length) = problem::echo(p, out);
    assert_eq!((number, problem::hidden(p, out)), (0, Answer(0, length)), "{label}");
    let mut other = vec![0u8; length as usize];
    let t = pairs(&mut || { black_box(problem::echo(p, out)); }, &mut || {
        black_box(problem::hidden(p, &mut other));
    });
    println!(
        "| {label} | {length} | {:.1} | {:.1} | {:.2} | {:.2} to {:.2} |",
        t.rust * 1e6,
        t.port * 1e6,
        t.ratio[0],
        t.ratio[1],
        t.ratio[2]
    );
}

/// The script with shared terms bound by `let`, beside the plain one, where nothing is shared.
fn bound(label: &str, p: &Problem, out: &mut [u8]) {
    let Answer(number, length) = problem::echo(p, out);
    assert_eq!((number, problem::lets(p, out)), (0, Answer(0, length)), "{label}");
    let mut other = vec![0u8; length as usize];
    let t = pairs(&mut || { black_box(problem::echo(p, out)); }, &mut || {
        black_box(problem::lets(p, &mut other));
    });
    println!(
        "| {label} | {length} | {:.1} | {:.1} | {:.2} | {:.2} to {:.2} |",
        t.rust * 1e6,
        t.port * 1e6,
        t.ratio[0],
        t.ratio[1],
        t.ratio[2]
    );
}

/// The same where operators are shared, which the plain printer refuses.
fn bound_alone(label: &str, p: &Problem) {
    let mut out = vec![0u8; 100_000_000];
    assert_eq!(problem::echo(p, &mut []), Answer(6, 0), "{label}");
    let Answer(number, length) = problem::lets(p, &mut out);
    assert_eq!(number, 0, "{label}");
    out.truncate(length as usize);
    let mut call = || {
        black_box(problem::lets(p, &mut out));
    };
    let once = seconds(2, &mut call);
    let calls = ((0.0002 / once) as usize).max(1);
    let rounds = ((0.5 / (once * calls as f64)) as usize).clamp(5, 501);
    let ts = sorted((0..rounds).map(|_| 1e6 * seconds(calls, &mut call)).collect());
    let ns = 1000.0 * at(&ts, 0.5) / length as f64;
    println!("| {label} | {length} | {:.1} | {:.1} to {:.1} | {ns:.2} |", at(&ts, 0.5), at(&ts, 0.1), at(&ts, 0.9));
}

/// The fewest roots that still refuse, beside the size, which has the same number.
fn fewest(label: &str, p: &Problem, number: u64, positions: &[u64]) {
    let at = |k: usize| positions.get(k).copied().unwrap_or(0);
    assert_eq!(problem::fewest(p), problem::Fewest(number, positions.len() as u64, at(0), at(1)), "{label}");
    assert_eq!(problem::size(p).0, number, "{label}");
    let t = pairs(&mut || { black_box(problem::size(p)); }, &mut || {
        black_box(problem::fewest(p));
    });
    println!(
        "| {label} | {number} | {} | {:.2} | {:.2} | {:.2} | {:.2} to {:.2} |",
        positions.len(),
        t.rust * 1e6,
        t.port * 1e6,
        t.ratio[0],
        t.ratio[1],
        t.ratio[2]
    );
}

/// Of every shape, and of refused ones.
fn fewest_table(all: &[(&'static str, Problem)]) {
    println!();
    println!("| fewest roots, port alone | number | positions | size us | fewest us | ratio | 10th to 90th |");
    println!("|---|---|---|---|---|---|---|");
    for (label, p) in all {
        fewest(label, p, 0, &[]);
    }
    for (label, p, number, positions) in &shapes::refused() {
        fewest(label, p, *number, positions);
    }
}

/// The roots as formulas, beside the plain script: how much longer a byte takes.
fn formulas(label: &str, p: &Problem, out: &mut [u8]) {
    let Answer(number, length) = problem::echo(p, out);
    assert_eq!(number, 0, "{label}");
    let Answer(number, lines) = problem::formulas(p, out);
    assert_eq!(number, 0, "{label}");
    if lines == 0 {
        return;
    }
    let mut other = vec![0u8; lines as usize];
    let t = pairs(&mut || { black_box(problem::echo(p, out)); }, &mut || {
        black_box(problem::formulas(p, &mut other));
    });
    let byte = length as f64 / lines as f64;
    println!(
        "| {label} | {length} | {lines} | {:.1} | {:.1} | {:.2} | {:.2} | {:.2} to {:.2} |",
        t.rust * 1e6,
        t.port * 1e6,
        t.ratio[0],
        t.ratio[0] * byte,
        t.ratio[1] * byte,
        t.ratio[2] * byte
    );
}

/// The script read back, beside printing what was read.
fn read(label: &str, p: &Problem, out: &mut [u8]) {
    let Answer(number, length) = problem::echo(p, out);
    assert_eq!(number, 0, "{label}");
    let script = out[..length as usize].to_vec();
    let mut room = problem::room();
    let answer = problem::read(&script, &mut room);
    if answer.0 == 9 {
        println!("| {label} | {length} | 9: its problem, without names that overlap, is over a limit | | | |");
        return;
    }
    assert_eq!(answer.0, 0, "{label}");
    let again = problem::cut(room.clone(), answer);
    assert_eq!(problem::echo(&again, out), Answer(0, length), "{label}");
    assert!(out[..script.len()] == script[..], "{label}: the bytes differ");
    let t = pairs(&mut || { black_box(problem::echo(&again, out)); }, &mut || {
        black_box(problem::read(&script, &mut room));
    });
    println!(
        "| {label} | {length} | {:.1} | {:.1} | {:.2} | {:.2} to {:.2} |",
        t.rust * 1e6,
        t.port * 1e6,
        t.ratio[0],
        t.ratio[1],
        t.ratio[2]
    );
}

fn reads_table(all: &[(&str, Problem)], out: &mut [u8]) {
    println!("| read back, port alone | script bytes | printed us | read us | ratio | 10th to 90th |");
    println!("|---|---|---|---|---|---|");
    for (label, p) in all {
        read(label, p, out);
    }
}

fn formulas_table(all: &[(&str, Problem)], out: &mut [u8]) {
    println!("| formulas, port alone | script bytes | formula bytes | script us | formulas us | ratio | ratio for a byte | 10th to 90th |");
    println!("|---|---|---|---|---|---|---|---|");
    for (label, p) in all {
        formulas(label, p, out);
    }
}

/// A file cut by the port and line by line in Rust.
fn cutting(label: &str, file: &[u8]) {
    assert_eq!(cut::port(file), cut::by_memchr(file), "{label}");
    assert_eq!(cut::port(file), cut::by_lines(file), "{label}");
    let beside = |f: &dyn Fn(&[u8]) -> cut::Cut| {
        pairs(&mut || drop(black_box(f(black_box(file)))), &mut || drop(black_box(cut::port(black_box(file)))))
    };
    let (m, l) = (beside(&cut::by_memchr), beside(&cut::by_lines));
    let mbs = |s: f64| file.len() as f64 / s / 1e6;
    println!(
        "| {label} | {} | {} | {:.0} | {:.0} | {:.0} | {:.2} | {:.2} |",
        file.len(),
        cut::port(file).0,
        mbs(m.port),
        mbs(m.rust),
        mbs(l.rust),
        m.ratio[0],
        l.ratio[0]
    );
}

fn cuts() {
    println!();
    println!("| file of scripts | bytes | scripts | port MB/s | memchr MB/s | lines MB/s | port by memchr | port by lines |");
    println!("|---|---|---|---|---|---|---|---|");
    let mut out = vec![0u8; 48 << 20];
    for (label, p) in shapes::all() {
        if ["tree, width 32", "512 variables", "512 names of 32 bytes", "256 roots"].contains(&label) {
            let Answer(number, length) = problem::echo(&p, &mut out);
            assert_eq!(number, 0, "{label}");
            cutting(label, &cut::repeated(&out[..length as usize], 4 << 20));
        }
    }
    cutting("no problem at all: 30 bytes each", &cut::repeated(b"(set-logic QF_BV)\n(check-sat)\n", 4 << 20));
    cutting("lines of `k-` and nothing else", &cut::repeated(b"k-k-k-k-k-k-k-k-k-k-k-k-k-k-k-k-\n", 4 << 20));
    cutting("one line", &vec![b'('; 4 << 20]);
}

fn main() {
    let wanted = std::env::args().nth(1).unwrap_or_default();
    if wanted == "records" {
        return records::table();
    }
    if wanted == "fewest" {
        return fewest_table(&shapes::all());
    }
    if wanted == "traces" {
        return traces_table::table();
    }
    for (word, table) in [("reads", reads_table as fn(&[(&str, Problem)], &mut [u8])), ("formulas", formulas_table)] {
        if wanted == word {
            let only = std::env::args().nth(2).unwrap_or_default();
            let some: Vec<_> = shapes::all().into_iter().filter(|s| s.0.contains(&only)).collect();
            return table(&some, &mut vec![0u8; 48 << 20]);
        }
    }
    let all: Vec<_> = shapes::all().into_iter().filter(|s| s.0.contains(&wanted)).collect();
    let mut out = vec![0u8; 48 << 20];
    println!("| printer | script bytes | Rust us | port us | ratio | 10th to 90th | Rust MB/s | port MB/s |");
    println!("|---|---|---|---|---|---|---|---|");
    for (label, p) in &all {
        let d = Decoded::of(p);
        let script = d.echo().unwrap_or_else(|e| panic!("{label}: the Rust refuses with {e}"));
        assert_eq!(problem::echo(p, &mut out), Answer(0, script.len() as u64), "{label}");
        assert!(out[..script.len()] == script[..], "{label}: the bytes differ");
        let t = pairs(&mut || drop(black_box(d.echo())), &mut || {
            black_box(problem::echo(p, &mut out));
        });
        line(label, script.len(), &t);
    }
    println!();
    println!("| width pass | record bytes | Rust us | port us | ratio | 10th to 90th | Rust MB/s | port MB/s |");
    println!("|---|---|---|---|---|---|---|---|");
    let mut ws = vec![0u64; 2048];
    for (label, p) in &all {
        let d = Decoded::of(p);
        let expected: Vec<u64> = d.widths().unwrap().iter().map(|w| *w as u64).collect();
        assert_eq!(problem::widths(p, &mut ws), Answer(0, expected.len() as u64), "{label}");
        assert!(ws[..expected.len()] == expected[..], "{label}: the widths differ");
        let t = pairs(&mut || drop(black_box(d.widths())), &mut || {
            black_box(problem::widths(p, &mut ws));
        });
        line(label, p.nodes.len(), &t);
    }
    println!();
    println!("| size, port alone | script bytes | terms | printed into nothing us | size us | ratio | 10th to 90th |");
    println!("|---|---|---|---|---|---|---|");
    for (label, p) in &all {
        assert_eq!(problem::size(p).1, Decoded::of(p).echo().unwrap().len() as u64, "{label}");
        sized(label, p);
    }
    if wanted.is_empty() {
        sized("the longest script", &shapes::longest());
    }
    println!();
    println!("| hidden, port alone | script bytes | plain us | hidden us | ratio | 10th to 90th |");
    println!("|---|---|---|---|---|---|");
    for (label, p) in &all {
        hidden(label, p, &mut out);
    }
    if wanted.is_empty() || wanted == "cut" {
        cuts();
    }
    println!();
    formulas_table(&all, &mut out);
    println!();
    reads_table(&all, &mut out);
    println!();
    println!("| let, nothing shared, port alone | script bytes | plain us | let us | ratio | 10th to 90th |");
    println!("|---|---|---|---|---|---|");
    for (label, p) in &all {
        bound(label, p, &mut out);
    }
    println!();
    println!("| let, port alone | script bytes | us | 10th to 90th | ns a byte |");
    println!("|---|---|---|---|---|");
    for (label, p) in &shapes::shared() {
        bound_alone(label, p);
    }
    if !wanted.is_empty() {
        return;
    }
    fewest_table(&all);
    println!();
    println!("| refusal, port alone | number | buffer bytes | us | 10th to 90th |");
    println!("|---|---|---|---|---|");
    alone("the longest script", 4096, &shapes::longest(), 10);
    alone("refused at the end of the walk", 4096, &shapes::refused_last(), 4);
    alone("refused at the end of the walk", 1 << 20, &shapes::refused_last(), 4);
    alone("refused at the end of the walk", 32 << 20, &shapes::refused_last(), 4);
    alone("over a limit", 0, &shapes::over_limit(), 9);
    alone("over a limit", 4096, &shapes::over_limit(), 9);
    alone("over a limit", 1 << 20, &shapes::over_limit(), 9);
    println!();
    records::table();
    println!();
    traces_table::table();
}
