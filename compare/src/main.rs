//! Makes the recorded lists: `record LIST OUT`, where LIST is widths, printer, sizes, hidden, let, fewest, formulas, scripts, records, traces,
//! reads or releases. The problems follow from a seed; the answers are the Rust's (oracle.rs), with what documents 01 and 02 add around it
//! (added.rs), and with names that it takes in the place of those with bytes from 128 on (spelling.rs). Sizes are those of the Rust's scripts,
//! and hidden scripts are put together from two of them (hidden.rs). Scripts with `let` are those of a printer of their own (lets.rs). The fewest
//! roots are found by trying lists of them (fewest.rs). Where scripts end in a file is a model's answer (scripts.rs), and so are shorter records
//! (records.rs), the replay of traces (traces.rs), scripts read back (reads.rs) and one meaning for a name in a release (releases.rs).
mod added;
mod alphabets;
mod arrays;
mod both;
mod copies;
mod fewest;
mod fewest_problems;
mod formulas;
mod formulas_problems;
mod hidden;
mod hidden_problems;
mod lets;
mod lets_by_hand;
mod lets_graphs;
mod lets_problems;
mod list;
mod oracle;
mod printer;
mod problem;
mod reads;
mod reads_problems;
mod records;
mod releases;
mod scripts;
mod spelling;
mod terms;
mod traces;
mod traces_problems;
mod trees;
mod widths;
mod words;

use std::collections::{BTreeMap, HashSet};

/// How many problems had each label, and with which number.
#[derive(Default)]
struct Tally {
    numbers: BTreeMap<u32, usize>,
    labels: BTreeMap<(u32, String), usize>,
    wrong: usize,
}

impl Tally {
    fn note(&mut self, label: &str, want: Option<u32>, number: u32) {
        *self.numbers.entry(number).or_default() += 1;
        *self.labels.entry((number, label.to_string())).or_default() += 1;
        if want.is_some_and(|w| w != number) {
            self.wrong += 1;
            eprintln!("meant as {}, answered {number}: {label}", want.unwrap());
        }
    }
    fn print(&self, long: bool) {
        if long {
            for ((number, label), n) in &self.labels {
                println!("{number:3} {n:5}  {label}");
            }
        }
        for (number, n) in &self.numbers {
            println!("number {number}: {n}");
        }
        println!("problems: {}", self.numbers.values().sum::<usize>());
    }
}

fn finish(list: &list::List, tally: &Tally, out: &str, long: bool) {
    tally.print(long);
    if tally.wrong > 0 {
        eprintln!("{} problems are not what they were made for; nothing written", tally.wrong);
        std::process::exit(1);
    }
    let bytes = list.bytes();
    std::fs::write(out, &bytes).expect("the list is written");
    println!("{out}: {} bytes; largest problem {} bytes, packed {}", bytes.len(), list.largest_plain, list.largest_packed);
}

/// What the replay fills the lent slice with beforehand.
const FILL: u64 = 0xAAAA_AAAA_AAAA_AAAA;

fn record_widths(out: &str, long: bool) {
    let mut list = list::List::new(b"WIDTHS 2");
    let mut tally = Tally::default();
    for c in widths::all().into_iter().chain(arrays::of_widths()) {
        let a = added::width_answer(&c.problem, c.room);
        assert!(!a.result.contains(&FILL), "a width is the number that the replay fills with");
        tally.note(&c.label, c.want, a.number);
        list.add(&list::of_widths(&c.problem, c.room, &a));
    }
    finish(&list, &tally, out, long);
}

/// That the Rust accepts the words of SMT-LIB 2.7 as names, so that they are a difference from it.
fn check_added_words() {
    for w in words::SMTLIB_27 {
        for t in 0..3 {
            let mut p = problem::Problem::default();
            printer::named(&mut p, t, w.as_bytes());
            assert!(oracle::script(&p).is_ok(), "the Rust refuses {w}");
        }
    }
}

/// That the Rust refuses each byte from 128 on in a name, so that they are a difference from it.
fn check_high_bytes() {
    for b in 128..=255u8 {
        for t in 0..3 {
            let mut p = problem::Problem::default();
            printer::named(&mut p, t, &[b'k', b]);
            assert!(oracle::script(&p) == Err(2), "the Rust accepts byte {b}");
        }
    }
}

/// Names that have none are asked as they are; spelt as the others are they must get the same answer.
fn check_spelling(p: &problem::Problem) {
    if added::reaches_the_rust(p) && !spelling::has_high(p) {
        let other = oracle::script(&spelling::problem(p)).map(|s| spelling::script(&s));
        assert!(other == oracle::script(p), "the Rust answers otherwise where names are spelt");
    }
}

/// What the replay fills the lent bytes with beforehand.
const FILL_BYTE: u8 = 127;

/// How much is lent, by the length of the script.
fn room_for(p: &problem::Problem, room: printer::Room) -> usize {
    let len = added::script_len(p).unwrap_or(64);
    match room {
        printer::Room::Exact => len,
        printer::Room::OneShort => len - 1,
        printer::Room::Empty => 0,
        printer::Room::Longer(n) => len + n,
        printer::Room::Fixed(n) => n,
    }
}

fn record_printer(out: &str, long: bool) {
    check_added_words();
    check_high_bytes();
    let mut list = list::List::new(b"PRINTER2");
    let mut tally = Tally::default();
    let mut accepted = 0;
    for c in printer::all().into_iter().chain(arrays::of_printer()) {
        check_spelling(&c.problem);
        let room = room_for(&c.problem, c.room);
        let a = added::print_answer(&c.problem, room);
        assert!(!a.result.contains(&FILL_BYTE), "a script has the byte that the replay fills with");
        accepted += (a.number == 0) as usize;
        tally.note(&c.label, c.want, a.number);
        list.add(&list::of_script(&c.problem, room, &a));
    }
    println!("accepted: {accepted}");
    finish(&list, &tally, out, long);
}

/// The printer's problems, each once: those that are accepted where there is room, and of the others every fifth.
fn record_sizes(out: &str, long: bool) {
    let mut list = list::List::new(b"SIZES  2");
    let mut tally = Tally::default();
    let (mut seen, mut refused, mut most) = (HashSet::new(), 0, 0);
    for c in printer::all().into_iter().chain(arrays::of_printer()) {
        let a = added::print_answer(&c.problem, usize::MAX);
        if !seen.insert(list::of_size(&c.problem, &a, 0)) {
            continue;
        }
        if a.number != 0 {
            refused += 1;
            if refused % 5 != 0 {
                continue;
            }
        }
        let terms = terms::of_script(&a.result);
        most = most.max(terms);
        tally.note(&c.label, None, a.number);
        list.add(&list::of_size(&c.problem, &a, terms));
    }
    println!("most terms: {most}");
    finish(&list, &tally, out, long);
}

/// Problems of its own, and of the printer's those that print a constant, each once, and every tenth of the others.
fn record_hidden(out: &str, long: bool) {
    let mut list = list::List::new(b"HIDDEN 2");
    let mut tally = Tally::default();
    let mut seen = HashSet::new();
    let mut changed = 0;
    for (label, p, room) in hidden_problems::all() {
        let room = room_for(&p, room);
        let a = hidden::answer(&p, room);
        changed += (a.number == 0 && a.result != added::print_answer(&p, room).result) as usize;
        tally.note(label, None, a.number);
        list.add(&list::of_script(&p, room, &a));
    }
    let mut others = 0;
    for c in printer::all().into_iter().chain(arrays::of_printer()) {
        let room = room_for(&c.problem, c.room);
        let plain = added::print_answer(&c.problem, room);
        if !seen.insert(list::of_script(&c.problem, room, &plain)) {
            continue;
        }
        if !plain.result.contains(&b'#') || plain.result.len() > 40_000 {
            others += 1;
            if others % 10 != 0 {
                continue;
            }
        }
        let a = hidden::answer(&c.problem, room);
        assert!(!a.result.contains(&FILL_BYTE), "a script has the byte that the replay fills with");
        changed += (a.number == 0 && a.result != plain.result) as usize;
        tally.note(&c.label, c.want, a.number);
        list.add(&list::of_script(&c.problem, room, &a));
    }
    println!("scripts other than the plain ones: {changed}");
    finish(&list, &tally, out, long);
}

/// Files of scripts end to end, with the length of each script in them.
fn record_scripts(out: &str, long: bool) {
    let cases = scripts::all();
    let mut labels: BTreeMap<&str, usize> = BTreeMap::new();
    let mut found = 0;
    for c in &cases {
        let n = scripts::lengths(&c.file).len();
        found += n;
        *labels.entry(c.label).or_default() += 1;
        if let Some(want) = c.want {
            assert_eq!(n, want, "{}: {:?}", c.label, String::from_utf8_lossy(&c.file));
        }
    }
    if long {
        for (label, n) in &labels {
            println!("{n:5}  {label}");
        }
    }
    let bytes = scripts::bytes(&cases);
    std::fs::write(out, &bytes).expect("the list is written");
    println!("{out}: {} files, {found} scripts, {} bytes", cases.len(), bytes.len());
}

/// A problem of the list of scripts with `let`: what it was made for, the number that it has to get, and how much is lent.
struct LetCase {
    label: String,
    want: Option<u32>,
    problem: problem::Problem,
    room: usize,
}

/// Problems of its own, those by hand with the number that they have to get, and of the printer's those that it refuses for a shared node, each
/// once, and every tenth of the others.
fn let_cases() -> impl Iterator<Item = LetCase> {
    let mut seen = HashSet::new();
    let mut others = 0;
    let own = lets_problems::all().into_iter().map(|(label, p, room)| (label.to_string(), None, p, room));
    let by_hand = lets_by_hand::all().into_iter().map(|c| (c.label.to_string(), Some(c.want), c.problem, c.room));
    let printers = printer::all().into_iter().chain(arrays::of_printer()).filter_map(move |c| {
        let plain = added::print_answer(&c.problem, usize::MAX);
        if !seen.insert(list::of_script(&c.problem, 0, &plain)) || plain.result.len() > 40_000 {
            return None;
        }
        others += (plain.number != 6) as usize;
        (plain.number == 6 || others % 10 == 0).then_some((c.label, None, c.problem, c.room))
    });
    own.chain(by_hand).chain(printers).map(|(label, want, problem, room)| {
        let len = lets::script_len(&problem).unwrap_or(64);
        let room = match room {
            printer::Room::Exact => len,
            printer::Room::OneShort => len - 1,
            printer::Room::Empty => 0,
            printer::Room::Longer(n) => len + n,
            printer::Room::Fixed(n) => n,
        };
        LetCase { label, want, problem, room }
    })
}

fn binds(script: &[u8]) -> bool {
    script.windows(6).any(|w| w == b"(let (")
}

/// The Rust's script of the problem with its shared parts copied, if that is not too large. The script with `let`, unfolded, has to be the same.
fn copied_script(c: &LetCase, script: &[u8]) -> Option<Vec<u8>> {
    let plain = copies::script(&c.problem)?;
    assert!(copies::unfolded(script) == plain, "{}: unfolded it is not the script of the copy", c.label);
    Some(plain)
}

fn record_let(out: &str, long: bool) {
    let mut list = list::List::new(b"LET    2");
    let mut tally = Tally::default();
    let (mut bound, mut copied) = (0, 0);
    for c in let_cases() {
        let a = lets::answer(&c.problem, c.room);
        assert!(!a.result.contains(&FILL_BYTE), "a script has the byte that the replay fills with");
        bound += binds(&a.result) as usize;
        if a.number == 0 {
            copied += copied_script(&c, &a.result).is_some() as usize;
        }
        tally.note(&c.label, c.want, a.number);
        list.add(&list::of_script(&c.problem, c.room, &a));
    }
    println!("scripts that bind: {bound}; held against the Rust's with shared parts copied: {copied}");
    finish(&list, &tally, out, long);
}

/// The accepted scripts with a `let` and beside each the Rust's script of the problem with its shared parts copied, in two folders. A file's name is
/// the problem's place in the list.
fn write_copies(folder: &str) {
    let (lets, plain) = (format!("{folder}/let"), format!("{folder}/plain"));
    std::fs::create_dir_all(&lets).expect("the folder is made");
    std::fs::create_dir_all(&plain).expect("the folder is made");
    let mut n = 0;
    for (i, c) in let_cases().enumerate() {
        let a = lets::answer(&c.problem, c.room);
        if !binds(&a.result) {
            continue;
        }
        if let Some(script) = copied_script(&c, &a.result) {
            std::fs::write(format!("{lets}/{i}.smt2"), &a.result).expect("a script is written");
            std::fs::write(format!("{plain}/{i}.smt2"), script).expect("a script is written");
            n += 1;
        }
    }
    println!("{folder}: {n} scripts with let, and as many plain ones");
}

/// Problems of its own, and of the printer's with at most 40 roots every third of those that are refused with 1 to 7, and every tenth of the
/// others, each once.
fn record_fewest(out: &str, long: bool) {
    let mut list = list::List::new(b"FEWEST 1");
    let mut tally = Tally::default();
    let mut lengths: BTreeMap<(u32, usize), usize> = BTreeMap::new();
    let mut seen = HashSet::new();
    let (mut refused, mut others) = (0, 0);
    let printers = printer::all().into_iter().chain(arrays::of_printer()).filter_map(|c| {
        let a = added::print_answer(&c.problem, usize::MAX);
        if c.problem.roots.len() > 40 && a.number != 9 || !seen.insert(list::of_size(&c.problem, &a, 0)) {
            return None;
        }
        let listed = (1..=7).contains(&a.number);
        *(if listed { &mut refused } else { &mut others }) += 1;
        let taken = if listed { refused % 3 == 0 } else { others % 10 == 0 };
        taken.then_some(fewest_problems::Case { label: c.label, problem: c.problem, want: None, positions: None })
    });
    for c in fewest_problems::all().into_iter().chain(printers) {
        let (number, positions) = fewest::answer(&c.problem);
        assert!(c.positions.is_none_or(|ks| ks == positions), "{}: the model says {positions:?}", c.label);
        tally.note(&c.label, c.want, number);
        *lengths.entry((number, positions.len())).or_default() += 1;
        list.add(&list::of_fewest(&c.problem, number, &positions));
    }
    for ((number, n), count) in &lengths {
        println!("number {number} with {n} positions: {count}");
    }
    finish(&list, &tally, out, long);
}

fn record_records(out: &str, long: bool) {
    let mut list = list::List::new(b"RECORDS1");
    let mut tally = Tally::default();
    for c in records::all() {
        let a = records::answer(c.way, &c.bytes, c.room);
        tally.note(&c.label, c.want, a.number);
        list.add(&list::of_records(c.way, &c.bytes, c.room, &a));
    }
    finish(&list, &tally, out, long);
}

fn record_traces(out: &str, long: bool) {
    traces_problems::check_model();
    let mut list = list::List::new(b"TRACES 1");
    let mut tally = Tally::default();
    let (mut rows, mut most) = (0, 0);
    for c in traces_problems::all() {
        let a = traces::answer(&c.problem, &c.values, c.masks, c.counts);
        assert!(!a.masks.contains(&FILL), "a mask is the number that the replay fills with");
        rows += a.masks.len();
        most = most.max(c.values.len());
        tally.note(&c.label, c.want, a.number);
        list.add(&list::of_trace(&c.problem, &c.values, c.masks, c.counts, &a));
    }
    println!("rows: {rows}; most values: {most}");
    finish(&list, &tally, out, long);
}

fn record_reads(out: &str, long: bool) {
    reads_problems::check_model();
    let mut list = list::List::new(b"READS  1");
    let mut tally = Tally::default();
    for c in reads_problems::all() {
        let (room, a) = reads_problems::answer(&c);
        let p = &a.problem;
        let columns = [
            &p.side,
            &p.roots,
            &p.name_start,
            &p.name_len,
            &p.var_node,
            &p.var_width,
            &p.aname_start,
            &p.aname_len,
            &p.index_width,
            &p.value_width,
            &p.fname_start,
            &p.fname_len,
            &p.func_width,
        ];
        assert!(!columns.iter().any(|c| c.contains(&FILL)), "an output has the number that the replay fills with");
        tally.note(&c.label, c.want, a.number);
        list.add(&list::of_read(&c.script, &room, &a));
    }
    finish(&list, &tally, out, long);
}

fn record_releases(out: &str, long: bool) {
    let mut list = list::List::new(b"RELEASE1");
    let mut tally = Tally::default();
    for c in releases::all() {
        let (number, script) = releases::answer(&c.file);
        tally.note(c.label, c.want.map(|w| w.0), number);
        assert!(c.want.is_none_or(|w| w == (number, script)), "{}: the model names script {script} with {number}", c.label);
        list.add(&list::of_release(&c.file, number, script));
    }
    finish(&list, &tally, out, long);
}

/// Of the accepted traces, rows as scripts: the problem's script with the row's values asserted too. A file's name ends in the answer that is
/// wanted: sat exactly where every assertion holds.
fn write_rows(folder: &str) {
    std::fs::create_dir_all(folder).expect("the folder is made");
    let (mut n, mut full) = (0, 0);
    for (i, c) in traces_problems::all().into_iter().enumerate() {
        let a = traces::answer(&c.problem, &c.values, c.masks, c.counts);
        let script = added::print_answer(&c.problem, usize::MAX).result;
        if a.number != 0 || script.len() > 20_000 || c.problem.roots.is_empty() {
            continue;
        }
        let v = c.problem.var_width.len();
        // one row with every assertion if there is one, and one other, which goes round
        let all = c.problem.roots.len() as u64;
        let models = (0..a.masks.len()).filter(|j| a.counts[*j] == all).skip(i % 3).take(1);
        let rows: Vec<usize> = models.chain((0..a.masks.len()).skip(i % 7).take(1)).collect();
        for j in rows {
            let text = String::from_utf8(script.clone()).expect("names are ASCII");
            let mut values = String::new();
            for k in 0..v {
                let (s, l) = (c.problem.name_start[k] as usize, c.problem.name_len[k] as usize);
                let name = std::str::from_utf8(&c.problem.names[s..s + l]).expect("names are ASCII");
                let w = c.problem.var_width[k] as usize;
                let digits = format!("{:b}", c.values[j * v + k]);
                values += &format!("(assert (= |{name}| #b{}{digits}))\n", "0".repeat(w - digits.len()));
            }
            let wanted = if a.counts[j] == all { "sat" } else { "unsat" };
            full += (wanted == "sat") as usize;
            let text = text.replace("(check-sat)\n", &format!("{values}(check-sat)\n"));
            std::fs::write(format!("{folder}/{n:05}-{wanted}.smt2"), text).expect("a script is written");
            n += 1;
        }
    }
    println!("{folder}: {n} scripts, {full} of them with every assertion true");
}

/// Problems of its own, and every fifth of the printer's, each once.
fn record_formulas(out: &str, long: bool) {
    let mut list = list::List::new(b"FORMULA2");
    let mut tally = Tally::default();
    let mut seen = HashSet::new();
    let (mut bracketed, mut others) = (0, 0);
    let own = formulas_problems::all().into_iter().map(|(label, p, room)| (label.to_string(), p, room));
    let printers = printer::all().into_iter().chain(arrays::of_printer()).filter_map(|c| {
        let plain = added::print_answer(&c.problem, usize::MAX);
        if !seen.insert(list::of_script(&c.problem, 0, &plain)) || plain.result.len() > 40_000 {
            return None;
        }
        others += 1;
        (others % 5 == 0).then_some((c.label, c.problem, c.room))
    });
    for (label, p, room) in own.chain(printers) {
        let len = formulas::lines_len(&p).unwrap_or(64);
        let room = match room {
            printer::Room::Exact => len,
            printer::Room::OneShort => len.saturating_sub(1),
            printer::Room::Empty => 0,
            printer::Room::Longer(n) => len + n,
            printer::Room::Fixed(n) => n,
        };
        let a = formulas::answer(&p, room);
        assert!(!a.result.contains(&FILL_BYTE), "a line has the byte that the replay fills with");
        bracketed += formulas::has_brackets(&a.result) as usize;
        tally.note(&label, None, a.number);
        list.add(&list::of_script(&p, room, &a));
    }
    println!("lines with brackets: {bracketed}");
    finish(&list, &tally, out, long);
}

fn run() {
    let words: Vec<String> = std::env::args().skip(1).collect();
    let long = words.iter().any(|w| w == "--clauses");
    match (words.first().map(String::as_str), words.get(1)) {
        (Some("widths"), Some(out)) => record_widths(out, long),
        (Some("printer"), Some(out)) => record_printer(out, long),
        (Some("sizes"), Some(out)) => record_sizes(out, long),
        (Some("hidden"), Some(out)) => record_hidden(out, long),
        (Some("let"), Some(out)) => record_let(out, long),
        (Some("fewest"), Some(out)) => record_fewest(out, long),
        (Some("scripts"), Some(out)) => record_scripts(out, long),
        (Some("records"), Some(out)) => record_records(out, long),
        (Some("traces"), Some(out)) => record_traces(out, long),
        (Some("reads"), Some(out)) => record_reads(out, long),
        (Some("releases"), Some(out)) => record_releases(out, long),
        (Some("rows"), Some(folder)) => write_rows(folder),
        (Some("copies"), Some(folder)) => write_copies(folder),
        (Some("formulas"), Some(out)) => record_formulas(out, long),
        _ => {
            eprintln!(
                "record widths|printer|sizes|hidden|let|fewest|formulas|scripts|records|traces|reads|releases OUT [--clauses], record rows|copies FOLDER"
            );
            std::process::exit(2);
        }
    }
}

fn main() {
    // the Rust's walk recurses once a term, so it gets a roomy stack
    std::thread::Builder::new().stack_size(256 << 20).spawn(run).unwrap().join().unwrap();
}
