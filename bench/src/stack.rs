//! How much stack the two need on deep problems. Each problem is printed once by each.
mod problem;
mod shapes;
#[allow(dead_code)]
mod traces;
mod used;
use problem::{Answer, Decoded, Problem, kind};
use used::{stack, used};

const SIZE: usize = 16 << 20;

/// One step of a chain: a term of 8 bits over the term given, nested as the label says.
type Step = fn(&mut Problem, &Leaf, u32) -> u32;

/// The leaves and tables that the steps share: a variable of 8 bits, one of 32, an array, a function of one argument.
struct Leaf {
    x: u32,
    j: u32,
    array: u32,
    func: u32,
}

const STEPS: [(&str, usize, usize, Step); 11] = [
    ("`bvnot`", 1, 0, |p, _, t| p.node(kind::BV_NOT, &[t])),
    ("`bvadd`, first operand", 1, 0, |p, l, t| p.node(kind::ADD, &[t, l.x])),
    ("`bvadd`, second operand", 1, 0, |p, l, t| p.node(kind::ADD, &[l.x, t])),
    ("`ite`, condition (`=` between)", 2, 0, |p, l, t| {
        let b = p.node(kind::EQ, &[t, l.x]);
        p.node(kind::ITE, &[b, l.x, l.x])
    }),
    ("`ite`, second operand", 2, 0, |p, l, t| {
        let b = p.node(kind::EQ, &[l.x, l.x]);
        p.node(kind::ITE, &[b, t, l.x])
    }),
    ("`ite`, third operand", 2, 0, |p, l, t| {
        let b = p.node(kind::EQ, &[l.x, l.x]);
        p.node(kind::ITE, &[b, l.x, t])
    }),
    ("select, index (`zero_extend` between)", 2, 0, |p, l, t| {
        let e = p.node(kind::ZERO_EXT, &[t, 24]);
        p.select(l.array, e, &[])
    }),
    ("select, index of its one store", 2, 2, |p, l, t| {
        let e = p.node(kind::ZERO_EXT, &[t, 24]);
        p.select(l.array, l.j, &[e, l.x])
    }),
    ("select, value of its one store", 1, 2, |p, l, t| p.select(l.array, l.j, &[l.j, t])),
    ("select, value of the first of two stores", 1, 4, |p, l, t| p.select(l.array, l.j, &[l.j, t, l.j, l.x])),
    ("call of one argument", 1, 1, |p, l, t| p.call(l.func, 8, &[t])),
];

fn leaves(p: &mut Problem, step: Step) -> Leaf {
    let x = p.var(b"x", 8);
    let j = p.var(b"j", 32);
    let array = p.array(b"m");
    // a function that is declared is called: here, before the chain, and left unused if the step does not call
    let mut probe = Problem::default();
    let n = step(&mut probe, &Leaf { x: 0, j: 0, array: 0, func: 0 }, 0);
    let calls = probe.nodes[17 * n as usize] == kind::CALL;
    Leaf { x, j, array, func: if calls { p.func(b"f", 8) } else { 0 } }
}

/// A chain of one kind of step, alone or as an argument of a wide call: the first or the last, the others leaves.
fn chained(step: (&str, usize, usize, Step), wide: Option<bool>) -> Problem {
    let (_, nodes, entries, f) = step;
    let mut p = Problem::default();
    let l = leaves(&mut p, f);
    let spare = if wide.is_some() { 2 } else { 1 };
    let mut t = l.x;
    while p.left() >= nodes + spare && p.side.len() + entries <= 8192 {
        t = f(&mut p, &l, t);
    }
    if let Some(last) = wide {
        let mut arguments = vec![l.x; 8192 - p.side.len()];
        let at = if last { arguments.len() - 1 } else { 0 };
        if !arguments.is_empty() {
            arguments[at] = t;
            let g = p.func(b"g", 8);
            t = p.call(g, 8, &arguments);
        }
    }
    p.root_eq(t, l.x);
    p
}

/// Calls of n arguments nested in the middle one, so that neighbours share the leaves between them: n / 2 + 1 entries a level.
fn calls_sharing(n: usize) -> Problem {
    let mut p = Problem::default();
    let x = p.var(b"x", 8);
    let f = p.func(b"f", 8);
    let half = n / 2;
    p.entries(&vec![x; half]);
    let mut t = x;
    while p.left() > 1 && p.side.len() + half < 8192 {
        let start = p.side.len() as u32 - half as u32;
        p.entries(&[t]);
        p.entries(&vec![x; half]);
        t = p.node(kind::CALL, &[f, 8, start, n as u32]);
    }
    p.root_eq(t, x);
    p
}

/// Selects of n stores, nested in the value of one pair.
fn selects(n: usize, at: usize) -> Problem {
    let mut p = Problem::default();
    let j = p.var(b"j", 32);
    let x = p.var(b"x", 8);
    let a = p.array(b"m");
    let mut t = x;
    while p.left() > 1 && p.side.len() + 2 * n <= 8192 {
        let stores: Vec<u32> = (0..n).flat_map(|k| [j, if k == at { t } else { x }]).collect();
        t = p.select(a, j, &stores);
    }
    p.root_eq(t, x);
    p
}

fn main() {
    let mut room = Vec::new();
    let stack = stack(&mut room, SIZE);
    let mut out = vec![0u8; 4 << 20];
    let mut all: Vec<(String, Problem)> = Vec::new();
    for s in STEPS {
        all.push((format!("chain of {}", s.0), chained(s, None)));
    }
    for s in STEPS {
        all.push((format!("the same, {}, as the first of as many arguments as fit", s.0), chained(s, Some(false))));
        all.push((format!("the same, {}, as the last of as many arguments as fit", s.0), chained(s, Some(true))));
    }
    for n in [2, 3, 4, 8, 64] {
        all.push((format!("calls of {n} arguments, nested in the first"), shapes::calls(n, 0)));
        all.push((format!("calls of {n} arguments, nested in the last"), shapes::calls(n, n - 1)));
    }
    for n in [5, 7, 15, 127] {
        all.push((format!("calls of {n} arguments, nested in the middle, leaves shared"), calls_sharing(n)));
    }
    for n in [2, 4, 64] {
        all.push((format!("selects of {n} stores, nested in the first value"), selects(n, 0)));
        all.push((format!("selects of {n} stores, nested in the last value"), selects(n, n - 1)));
    }
    all.push(("one select of 4,096 stores".to_string(), shapes::wide_select()));
    println!("| problem | nodes | side entries | Rust, KB | port, KB |");
    println!("|---|---|---|---|---|");
    let mut worst = (0, 0);
    let (mut hidden, mut size, mut fewest) = (0, 0, 0);
    let (mut lets, mut shared) = (0, 0);
    let mut formulas = (0, "");
    for (label, p) in &all {
        let d = Decoded::of(p);
        let mut script = Err(0);
        let rust = used(stack, &mut || script = d.echo());
        let mut answer = Answer(0, 0);
        let port = used(stack, &mut || answer = problem::echo(p, &mut out));
        let script = script.unwrap_or_else(|e| panic!("{label}: the Rust refuses with {e}"));
        assert_eq!(answer, Answer(0, script.len() as u64), "{label}");
        assert!(out[..script.len()] == script[..], "{label}: the bytes differ");
        println!("| {label} | {} | {} | {} | {} |", p.count(), p.side.len(), rust.div_ceil(1000), port.div_ceil(1000));
        worst = (worst.0.max(rust), worst.1.max(port));
        hidden = hidden.max(used(stack, &mut || assert_eq!(problem::hidden(p, &mut out), answer)));
        size = size.max(used(stack, &mut || assert_eq!(problem::size(p).1, answer.1)));
        fewest = fewest.max(used(stack, &mut || assert_eq!(problem::fewest(p).0, 0)));
        lets = lets.max(used(stack, &mut || assert_eq!(problem::lets(p, &mut out), answer)));
        let deep = used(stack, &mut || assert_eq!(problem::formulas(p, &mut out).0, 0));
        formulas = formulas.max((deep, label.as_str()));
        // the same with its root given twice, so that it is bound
        let mut twice = p.clone();
        let root = twice.roots[0];
        twice.roots.push(root);
        shared = shared.max(used(stack, &mut || assert_eq!(problem::lets(&twice, &mut out).0, 0)));
    }
    println!("| the largest | | | {} | {} |", worst.0.div_ceil(1000), worst.1.div_ceil(1000));
    println!("| the largest, with constants hidden | | | | {} |", hidden.div_ceil(1000));
    println!("| the largest, of a size | | | | {} |", size.div_ceil(1000));
    println!("| the largest, the fewest roots | | | | {} |", fewest.div_ceil(1000));
    println!("| the largest, with let and nothing shared | | | | {} |", lets.div_ceil(1000));
    println!("| the largest, as formulas ({}) | | | | {} |", formulas.1, formulas.0.div_ceil(1000));
    println!("| the largest, with let and the root bound | | | | {} |", shared.div_ceil(1000));
    // the replay of one row: chains of each step that it takes, and the trees that it is timed on
    let mut rows = 0;
    let chains = STEPS.iter().take(6).map(|s| (format!("chain of {}", s.0), chained(*s, None)));
    for (label, p) in chains.chain(traces::shapes()) {
        let values = vec![1; p.var_width.len()];
        let mut answer = traces::Answer { number: 1, rows: 0 };
        rows = rows.max(used(stack, &mut || answer = traces::replay(&p, &values, &mut [0], &mut [0])));
        assert_eq!(answer, traces::Answer { number: 0, rows: 1 }, "{label}");
    }
    println!("| the largest, replay of a trace | | | | {} |", rows.div_ceil(1000));
    let mut ws = vec![0u64; 2048];
    let p = shapes::balanced(8);
    let d = Decoded::of(&p);
    let rust = used(stack, &mut || drop(d.widths()));
    let port = used(stack, &mut || assert_eq!(problem::widths(&p, &mut ws).0, 0));
    println!(
        "| the width pass, which does not recurse | {} | 0 | {} | {} |",
        p.count(),
        rust.div_ceil(1000),
        port.div_ceil(1000)
    );
}
