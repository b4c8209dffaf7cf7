//! The comparison at scale: `scale COUNT SEED` makes COUNT problems that follow from SEED, asks the Rust (with added.rs around it)
//! and the proved port, and stops at the first difference, which it makes small and prints. Beside each problem stands a graph in which nodes are
//! taken again and again; of both the script with `let` is compared too, with that of a printer of its own (lets.rs).
#[path = "../added.rs"]
#[allow(dead_code)]
mod added;
mod back;
mod check;
mod clauses;
#[path = "../hidden.rs"]
mod hidden;
mod lay;
#[path = "../lets.rs"]
mod lets;
#[path = "../lets_graphs.rs"]
mod lets_graphs;
#[path = "../oracle.rs"]
mod oracle;
mod plan;
mod port;
#[path = "../problem.rs"]
#[allow(dead_code)]
mod problem;
#[path = "../reads.rs"]
#[allow(dead_code)]
mod reads;
mod reduce;
mod seen;
mod show;
#[path = "../spelling.rs"]
mod spelling;
#[path = "../terms.rs"]
mod terms;
#[path = "../words.rs"]
mod words;

use added::Answer;
use problem::{Problem, Rng};
use std::collections::{BTreeMap, HashSet};
use std::time::{Duration, Instant};

/// What a problem was made as.
enum Made {
    Whole,
    Clause(usize),
    Damages,
    Changed,
}

/// The random numbers of problem i.
fn numbers_of(seed: u64, i: u64) -> Rng {
    Rng(Rng(seed ^ i.wrapping_mul(0xD134_2543_DE82_EF95)).next())
}

fn problem_of(all: &clauses::Clauses, i: u64, rng: &mut Rng) -> (Problem, Made) {
    // of twenty, nine whole, eight with one damage (clause by clause), the others with more damage or changed anywhere
    match i % 20 {
        0..=7 => {
            let c = (i / 20 * 8 + i % 20) as usize % all.0.len();
            loop {
                if let Some(p) = damaged(all, &[c], rng) {
                    return (p, Made::Clause(c));
                }
            }
        }
        8 | 9 if i / 20 % 4 < 3 => loop {
            let cs: Vec<usize> = (0..rng.from_to(2, 3)).map(|_| all.any(rng)).collect();
            if let Some(p) = damaged(all, &cs, rng) {
                return (p, Made::Damages);
            }
        },
        8..=10 => {
            let mut p = damaged(all, &[], rng).unwrap();
            for _ in 0..rng.from_to(1, 4) {
                clauses::change(&mut p, rng);
            }
            (p, Made::Changed)
        }
        _ => (damaged(all, &[], rng).unwrap(), Made::Whole),
    }
}

/// An accepted problem with the damage of these clauses; None if it does not fit.
fn damaged(all: &clauses::Clauses, cs: &[usize], rng: &mut Rng) -> Option<Problem> {
    let mut g = plan::Grower::new(rng);
    g.grow();
    let mut marks = vec![];
    for c in cs {
        marks.push((all.0[*c].before)(&mut g)?);
    }
    let plan = g.plan;
    let mut l = lay::lay(&plan, rng);
    for (c, m) in cs.iter().zip(marks) {
        if !(all.0[*c].after)(&mut l, m, rng) {
            return None;
        }
    }
    Some(l.p)
}

#[derive(Clone, Copy, PartialEq, Eq, PartialOrd, Ord)]
enum Room {
    Exact,
    OneMore,
    Longer,
    FarLonger,
    OneShort,
    Short,
    Empty,
}

/// How much is lent, when so much is needed; None: nothing is.
fn room(rng: &mut Rng, need: Option<usize>) -> (Room, usize) {
    let n = need.unwrap_or(rng.below(2_000) as usize);
    let which = match rng.below(100) {
        0..=39 => Room::Exact,
        40..=49 => Room::OneMore,
        50..=74 => Room::Longer,
        75..=76 => Room::FarLonger,
        77..=88 => Room::OneShort,
        89..=94 => Room::Short,
        _ => Room::Empty,
    };
    let room = match which {
        Room::Exact => n,
        Room::OneMore => n + 1,
        Room::Longer => n + rng.from_to(2, 500) as usize,
        Room::FarLonger => n + rng.from_to(10_000, 500_000) as usize,
        Room::OneShort => n.saturating_sub(1),
        Room::Short => rng.below(n as u64 + 1).saturating_sub(1) as usize,
        Room::Empty => 0,
    };
    (which, room)
}

#[derive(Default)]
struct Tally {
    printer: BTreeMap<u32, usize>,
    widths: BTreeMap<u32, usize>,
    /// of each clause: made, and answered with its number
    clauses: Vec<(usize, usize)>,
    /// problems with several damages, and problems changed anywhere, by number
    damages: BTreeMap<u32, usize>,
    changed: BTreeMap<u32, usize>,
    short: BTreeMap<Room, usize>,
    lent: BTreeMap<Room, usize>,
    seen: BTreeMap<String, usize>,
    sizes: BTreeMap<usize, usize>,
    distinct: HashSet<u64>,
    script_bytes: u64,
    longest: usize,
    /// sizes that were told, by number, and the terms of all and of the largest
    told: BTreeMap<u32, usize>,
    terms: u64,
    most_terms: u64,
    /// scripts that were read back, whole and with a change, by number
    read: BTreeMap<u32, usize>,
    changed_read: BTreeMap<u32, usize>,
    /// scripts with `let`, of the problems and of the graphs, by number, and how many of the graphs' bind a term
    lets: BTreeMap<u32, usize>,
    graphs: BTreeMap<u32, usize>,
    bound: usize,
}

fn row(name: &str, m: &BTreeMap<u32, usize>) {
    let parts: Vec<String> = m.iter().map(|(k, n)| format!("{k}: {n}")).collect();
    println!("{name}: {}", parts.join(", "));
}

impl Tally {
    fn print(&self, all: &clauses::Clauses, count: u64, time: Duration) {
        println!("clause: problems with its number, of problems made for it");
        for (c, (made, hit)) in all.0.iter().zip(&self.clauses) {
            println!("{:3} {hit:6} of {made:6}  {}", c.number, c.label);
        }
        for (r, label) in [(Room::OneShort, "room one short"), (Room::Short, "room shorter"), (Room::Empty, "no room")] {
            println!("{:3} {:6}  {label}", 10, self.short.get(&r).copied().unwrap_or(0));
        }
        println!("accepted problems that have");
        for (label, n) in &self.seen {
            println!("    {n:6}  {label}");
        }
        for (r, label) in [
            (Room::Exact, "exact room"),
            (Room::OneMore, "room for one more"),
            (Room::Longer, "longer room"),
            (Room::FarLonger, "far longer room"),
        ] {
            println!("    {:6}  {label}", self.lent.get(&r).copied().unwrap_or(0));
        }
        println!("problems by nodes, up to:");
        for (most, n) in &self.sizes {
            println!("    {n:6}  {}", if *most == usize::MAX { "any".to_string() } else { most.to_string() });
        }
        row("two or three damages", &self.damages);
        row("changed anywhere", &self.changed);
        row("printer", &self.printer);
        row("width pass", &self.widths);
        row("sizes", &self.told);
        row("scripts read back", &self.read);
        row("scripts with a change read back", &self.changed_read);
        row("scripts with let", &self.lets);
        row("scripts with let, of graphs", &self.graphs);
        println!("graphs of which a term is bound: {}", self.bound);
        println!("terms compared: {}, most of a problem {}", self.terms, self.most_terms);
        println!("script bytes compared: {}, longest script {}", self.script_bytes, self.longest);
        println!("distinct problems: {} of {count}", self.distinct.len());
        let least = self.clauses.iter().map(|c| c.1).min().unwrap();
        println!("fewest problems of a clause: {least}");
        println!("accepted: {:.1} of 100", 100.0 * *self.printer.get(&0).unwrap_or(&0) as f64 / count as f64);
        println!("seconds: {:.0}", time.as_secs_f64());
    }
}

/// A script's answer by the Rust or a model, the port's beside it, and the length of the script.
type Asked = (
    fn(&Problem, usize) -> Answer<u8>,
    fn(&Problem, &Answer<u8>, usize, u8, &mut Vec<u8>) -> Option<check::Found<u8>>,
    fn(&Problem) -> Option<usize>,
);

const PLAIN: Asked = (added::print_answer, check::script, added::script_len);
const HIDDEN: Asked = (hidden::answer, check::hidden, added::script_len);
const LET: Asked = (lets::answer, check::lets, lets::script_len);

fn report_script((ask, check, length): Asked, what: &str, p: &Problem, room: usize, fill: u8) {
    let differs = |q: &Problem, room: usize| {
        let want = ask(q, room);
        check(&q.clone(), &want, room, fill, &mut vec![]).is_some()
    };
    println!("the {what} scripts differ on a problem of {} nodes; made smaller:", p.count());
    let (q, room) = reduce::reduce(p, room, Duration::from_secs(60), &differs, &length);
    show::problem(&q);
    let want = ask(&q, room);
    let found = check(&q, &want, room, fill, &mut vec![]).expect("the smaller problem differs too");
    show::answers(&want, room, &found, show::bytes);
}

fn report_widths(p: &Problem, room: usize, fill: u64) {
    let differs = |q: &Problem, room: usize| {
        let want = added::width_answer(q, room);
        check::widths(&q.clone(), &want, room, fill, &mut vec![]).is_some()
    };
    println!("the width passes differ on a problem of {} nodes; made smaller:", p.count());
    let mut p = p.clone();
    let Problem { nodes, bits, side, index_width, value_width, .. } = p;
    p = Problem { nodes, bits, side, index_width, value_width, ..Problem::default() };
    let (q, room) = reduce::reduce(&p, room, Duration::from_secs(60), &differs, &|q| Some(q.count()));
    show::problem(&q);
    let want = added::width_answer(&q, room);
    let found = check::widths(&q, &want, room, fill, &mut vec![]).expect("the smaller problem differs too");
    show::answers(&want, room, &found, show::numbers);
}

fn report_size(p: &Problem) {
    let differs = |q: &Problem, _: usize| check::size(&q.clone(), &added::print_answer(q, usize::MAX)).is_some();
    println!("the sizes differ on a problem of {} nodes; made smaller:", p.count());
    let (q, _) = reduce::reduce(p, 0, Duration::from_secs(60), &differs, &added::script_len);
    show::problem(&q);
    let full = added::print_answer(&q, usize::MAX);
    let (want, said) = check::size(&q, &full).expect("the smaller problem differs too");
    println!("expected {want:?}\nthe port {said:?}");
}

/// The graph that stands beside problem i, and the random numbers after it.
fn graph_of(seed: u64, i: u64) -> (Problem, Rng) {
    let mut rng = numbers_of(!seed, i);
    let most = if i % 16 == 0 { 400 } else { 40 };
    let nodes = 1 + rng.below(most);
    (lets_graphs::graph(&mut rng, nodes), rng)
}

/// The model's answer with `let`, if the port's is the same. A difference is told of the problem that `again` makes, in case the port changed it.
fn same_let(p: &Problem, again: impl Fn() -> Problem, rng: &mut Rng, bytes: &mut Vec<u8>) -> Option<Answer<u8>> {
    let full = lets::answer(p, usize::MAX);
    let (_, lent) = room(rng, (full.number == 0).then_some(full.count));
    let want = added::with_room(full, lent);
    let fill = if rng.one_in(4) { 127 } else { rng.from_to(11, 31) as u8 };
    if check::lets(p, &want, lent, fill, bytes).is_some() {
        report_script(LET, "let", &again(), lent, fill);
        return None;
    }
    Some(want)
}

/// True if there is no difference.
fn compare(count: u64, seed: u64) -> bool {
    let all = clauses::all();
    let start = Instant::now();
    let mut t = Tally { clauses: vec![(0, 0); all.0.len()], ..Tally::default() };
    let (mut bytes, mut numbers) = (vec![], vec![]);
    for i in 0..count {
        let mut rng = numbers_of(seed, i);
        let (p, made) = problem_of(&all, i, &mut rng);
        t.distinct.insert(check::digest(&p));
        *t.sizes.entry(seen::size(p.count())).or_default() += 1;

        let full: Answer<u8> = added::print_answer(&p, usize::MAX);
        let number = full.number;
        if check::size(&p, &full).is_some() {
            println!("problem {i} of seed {seed}");
            // made again, in case the port changed it
            report_size(&problem_of(&all, i, &mut numbers_of(seed, i)).0);
            return false;
        }
        let told = check::expected_size(&full);
        *t.told.entry(number).or_default() += 1;
        t.terms += told.terms;
        t.most_terms = t.most_terms.max(told.terms);
        let (which, lent) = room(&mut rng, (number == 0).then_some(full.count));
        let want = added::with_room(full, lent);
        // no byte of a script is one of these, nor is it 0
        let fill = if rng.one_in(4) { 127 } else { rng.from_to(11, 31) as u8 };
        if check::script(&p, &want, lent, fill, &mut bytes).is_some() {
            println!("problem {i} of seed {seed}");
            // made again, in case the port changed it
            report_script(PLAIN, "plain", &problem_of(&all, i, &mut numbers_of(seed, i)).0, lent, fill);
            return false;
        }
        if check::hidden(&p, &hidden::answer(&p, lent), lent, fill, &mut bytes).is_some() {
            println!("problem {i} of seed {seed}");
            report_script(HIDDEN, "hidden", &problem_of(&all, i, &mut numbers_of(seed, i)).0, lent, fill);
            return false;
        }

        let (graph, mut own) = graph_of(seed, i);
        let Some(bound) = same_let(&p, || problem_of(&all, i, &mut numbers_of(seed, i)).0, &mut own, &mut bytes) else {
            println!("problem {i} of seed {seed}");
            return false;
        };
        *t.lets.entry(bound.number).or_default() += 1;
        let Some(bound) = same_let(&graph, || graph_of(seed, i).0, &mut own, &mut bytes) else {
            println!("the graph beside problem {i} of seed {seed}");
            return false;
        };
        *t.graphs.entry(bound.number).or_default() += 1;
        t.bound += bound.result.windows(6).any(|w| w == b"(let (") as usize;

        if want.number == 0 {
            match back::both(&want.result, &mut rng) {
                Ok([whole, changed]) => {
                    *t.read.entry(whole).or_default() += 1;
                    *t.changed_read.entry(changed).or_default() += 1;
                }
                Err(what) => {
                    println!("problem {i} of seed {seed}, its script read back\n{what}");
                    return false;
                }
            }
        }

        let full = added::width_answer(&p, usize::MAX);
        let (_, lent) = room(&mut rng, Some(p.count()));
        let widths = added::with_room(full, lent);
        let fill = rng.next() | 1 << 63;
        if check::widths(&p, &widths, lent, fill, &mut numbers).is_some() {
            println!("problem {i} of seed {seed}");
            // made again, in case the port changed it
            report_widths(&problem_of(&all, i, &mut numbers_of(seed, i)).0, lent, fill);
            return false;
        }

        *t.printer.entry(want.number).or_default() += 1;
        *t.widths.entry(widths.number).or_default() += 1;
        match made {
            Made::Clause(c) => {
                t.clauses[c].0 += 1;
                t.clauses[c].1 += (number == all.0[c].number) as usize;
            }
            Made::Damages => *t.damages.entry(want.number).or_default() += 1,
            Made::Changed => *t.changed.entry(want.number).or_default() += 1,
            Made::Whole if number != 0 => {
                show::problem(&p);
                println!("problem {i} of seed {seed} was to be accepted; the Rust says {number}, as does the port");
                return false;
            }
            Made::Whole => {}
        }
        if want.number == 10 {
            *t.short.entry(which).or_default() += 1;
        }
        if want.number == 0 {
            *t.lent.entry(which).or_default() += 1;
            t.script_bytes += want.count as u64;
            t.longest = t.longest.max(want.count);
            for label in seen::features(&p) {
                *t.seen.entry(label).or_default() += 1;
            }
        }
    }
    t.print(&all, count, start.elapsed());
    println!("no difference in {count} problems of seed {seed}");
    true
}

fn main() {
    let args: Vec<u64> = std::env::args().skip(1).map(|w| w.parse().expect("scale COUNT SEED")).collect();
    let [count, seed] = args[..] else { panic!("scale COUNT SEED") };
    // both walks recurse once a term, so they get a roomy stack
    let same = std::thread::Builder::new().stack_size(512 << 20).spawn(move || compare(count, seed)).unwrap().join().unwrap();
    std::process::exit(if same { 0 } else { 1 });
}
