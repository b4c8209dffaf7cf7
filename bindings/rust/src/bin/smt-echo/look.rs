//! What to look at in a refused problem: which input, node, root or name. It is worked out here from the problem, for people; the refusal's
//! number alone is the library's answer.

use smt_echo::*;
use std::collections::HashSet;

/// What to look at in a problem that `echo_size` refuses.
pub fn problem(p: &Problem<'_>, refusal: Refusal) -> Option<String> {
    let look = Look { p, widths: widths(p) };
    match refusal {
        Refusal::Malformed => look.columns().or_else(|| look.malformed()).or_else(|| look.below_roots(refusal)),
        Refusal::Name => look.names(),
        Refusal::Var => look.declared_variables().or_else(|| look.below_roots(refusal)),
        Refusal::Signature => look.declared_functions().or_else(|| look.below_roots(refusal)),
        Refusal::Sort | Refusal::Rotate => look.below_roots(refusal),
        Refusal::Shared => look.shared().first().map(|(_, text)| format!("{text}; `smt-echo print --let` prints it")),
        Refusal::Clash => look.clash(),
        Refusal::Encoding => records(p.nodes).or_else(|| look.bits()),
        Refusal::Limit => look.limits(),
        Refusal::ArrayWidth => look.array_widths(),
        Refusal::Room => None,
    }
}

/// What to look at in nodes that the width pass refuses, which takes five of the inputs.
pub fn nodes(p: &Problem<'_>, refusal: WidthRefusal) -> Option<String> {
    let (index_width, value_width) = (p.index_width, p.value_width);
    let p = &Problem { nodes: p.nodes, bits: p.bits, side: p.side, index_width, value_width, ..Problem::default() };
    let look = Look { p, widths: widths(p) };
    match refusal {
        WidthRefusal::Malformed { .. } if index_width.len() != value_width.len() => {
            Some(format!("index_width has {} elements, and value_width {}", index_width.len(), value_width.len()))
        }
        WidthRefusal::Malformed { .. } => look.malformed(),
        WidthRefusal::Encoding => records(p.nodes).or_else(|| look.bits()),
        WidthRefusal::Limit => look.limits(),
        WidthRefusal::ArrayWidth => look.array_widths(),
        WidthRefusal::Room => None,
    }
}

/// What to look at in a problem whose trace is refused. What is wrong with values is told by line and column, elsewhere.
pub fn trace(p: &Problem<'_>, refusal: TraceRefusal) -> Option<String> {
    let look = Look { p, widths: widths(p) };
    match refusal {
        TraceRefusal::Printer(Refusal::Limit) => {
            let roots = || {
                let count = p.roots.len();
                format!("there are {count} roots, and a trace is replayed for {MAX_TRACE_ROOTS} at most; {FEWER_ROOTS}")
            };
            look.limits().or_else(|| Some(roots()))
        }
        TraceRefusal::Printer(refusal) => problem(p, refusal),
        TraceRefusal::Wide => look.wide(),
        TraceRefusal::Values => None,
    }
}

/// What to look at in node bytes that are no records.
pub fn records(nodes: &[u8]) -> Option<String> {
    let (records, rest) = nodes.as_chunks();
    if !rest.is_empty() {
        return Some(format!(
            "nodes has {} bytes: {} records of {NODE_BYTES} and {} left over",
            nodes.len(),
            records.len(),
            rest.len()
        ));
    }
    records.iter().enumerate().find_map(|(i, record)| {
        let (kind, operands) = node_parts(record);
        let Some(count) = kind::operand_count(kind) else {
            return Some(format!("node {i} has kind {kind}, and the last kind is {}", kind::COUNT - 1));
        };
        let unused = (count..4).find(|k| operands[*k] != 0)?;
        let name = kind::name(kind)?.to_lowercase();
        Some(format!(
            "node {i}, of kind `{name}` with {count} operands: operand {} is {}, and should be 0",
            unused + 1,
            operands[unused]
        ))
    })
}

/// What to look at in shorter records that are none, or too many.
pub fn shorter(bytes: &[u8]) -> Option<String> {
    let mut at = 0;
    for count in 0.. {
        let kind = *bytes.get(at)?;
        if count == MAX_NODES {
            return Some(format!("byte {at}: {MAX_NODES} records end there, and {} bytes follow", bytes.len() - at));
        }
        let Some(operands) = kind::operand_count(kind) else {
            return Some(format!("byte {at}: record {count} has kind {kind}, and the last kind is {}", kind::COUNT - 1));
        };
        let length = 1 + 4 * operands;
        if bytes.len() - at < length {
            let name = kind::name(kind)?.to_lowercase();
            return Some(format!(
                "byte {at}: record {count}, of kind `{name}`, has {length} bytes, and {} are there",
                bytes.len() - at
            ));
        }
        at += length;
    }
    None
}

/// The widths of the nodes up to the first that is not well formed.
fn widths(p: &Problem<'_>) -> Vec<u64> {
    let mut widths = vec![0; p.nodes.len() / NODE_BYTES];
    let mut pass = |nodes: &[u8]| ext_wf(nodes, p.bits, p.side, p.index_width, p.value_width, &mut widths);
    let count = match pass(p.nodes) {
        Ok(count) => count,
        Err(WidthRefusal::Malformed { node }) => pass(p.nodes.get(..node * NODE_BYTES).unwrap_or_default()).unwrap_or(0),
        Err(_) => 0,
    };
    widths.truncate(count);
    widths
}

/// What makes fewer roots, and says the same.
const FEWER_ROOTS: &str = "`bool_and` makes one of two";

struct Look<'p, 'a> {
    p: &'p Problem<'a>,
    widths: Vec<u64>,
}

/// A table's word, its arena, the columns of places, and its other columns with their names.
type Table<'a> = (&'static str, &'a [u8], &'a [u64], &'a [u64], Vec<(&'static str, &'a [u64])>);

/// Where a term stands.
#[derive(Clone, Copy)]
enum Place {
    Root(usize),
    Below(usize),
}

impl<'a> Look<'_, 'a> {
    fn tables(&self) -> [Table<'a>; 3] {
        let p = self.p;
        [
            ("variable", p.names, p.name_start, p.name_len, vec![("var_node", p.var_node), ("var_width", p.var_width)]),
            ("array", p.anames, p.aname_start, p.aname_len, vec![("index_width", p.index_width), ("value_width", p.value_width)]),
            ("function", p.fnames, p.fname_start, p.fname_len, vec![("func_width", p.func_width)]),
        ]
    }

    /// Entry i of a table, by number and name.
    fn entry(&self, table: usize, i: usize) -> String {
        let (word, arena, starts, lens, _) = &self.tables()[table];
        match name_at(arena, starts, lens, i) {
            Some(name) => format!("{word} {i}, {},", shown(name)),
            None => format!("{word} {i}"),
        }
    }

    /// A node by number and text.
    fn node(&self, i: usize) -> String {
        format!("node {i}, `{}`,", self.p.node_line(i).unwrap_or_default())
    }

    fn parts(&self, i: usize) -> Option<(u8, [u32; 4])> {
        self.p.nodes.as_chunks().0.get(i).map(node_parts)
    }

    fn side(&self, start: u32, count: usize) -> Option<&'a [u64]> {
        self.p.side.get(start as usize..)?.get(..count)
    }

    /// The nodes that a node reads, in the order of its operands, side entries last. Side entries that are not there are left out.
    fn uses(&self, i: usize) -> Vec<u64> {
        let Some((kind, [a, b, c, d])) = self.parts(i) else { return Vec::new() };
        let of = |operands: &[u32]| operands.iter().map(|operand| u64::from(*operand)).collect();
        match kind {
            kind::VAR | kind::CONST => Vec::new(),
            kind::EXTRACT => of(&[c]),
            kind::ZERO_EXT | kind::SIGN_EXT | kind::NOT | kind::BV_NOT | kind::NEG => of(&[a]),
            kind::ITE => of(&[a, b, c]),
            kind::SELECT => [&[u64::from(b)], self.side(c, 2 * d as usize).unwrap_or_default()].concat(),
            kind::CALL => self.side(c, d as usize).unwrap_or_default().to_vec(),
            _ => of(&[a, b]),
        }
    }

    // ------------------------------------------------------------ 9, 8, 12

    fn limits(&self) -> Option<String> {
        self.p.inputs().into_iter().find_map(|(name, input)| {
            let (count, limit, next) = match (name, input) {
                ("nodes", Input::Bytes(bytes)) => {
                    (bytes.len(), MAX_NODES_LEN, "with `smt-echo print --let` a term is one node, however often it is used")
                }
                ("bits", Input::Bytes(bytes)) => (bytes.len(), MAX_BITS_LEN, "equal constants may be one node"),
                (_, Input::Bytes(bytes)) => (bytes.len(), MAX_ARENA_LEN, ""),
                ("side", Input::Numbers(numbers)) => (numbers.len(), MAX_SIDE_LEN, ""),
                ("roots", Input::Numbers(numbers)) => (numbers.len(), MAX_ROOTS_LEN, FEWER_ROOTS),
                (_, Input::Numbers(numbers)) => (numbers.len(), MAX_COLUMN_LEN, ""),
            };
            let parted = if next.is_empty() { "" } else { "; " };
            (count > limit).then(|| format!("{name} has {count} elements, and its limit is {limit}{parted}{next}"))
        })
    }

    fn bits(&self) -> Option<String> {
        let at = self.p.bits.iter().position(|bit| *bit > 1)?;
        Some(format!("element {at} of bits is {}, and neither 0 nor 1", self.p.bits[at]))
    }

    fn array_widths(&self) -> Option<String> {
        let columns = [("index_width", self.p.index_width), ("value_width", self.p.value_width)];
        columns.into_iter().find_map(|(name, column)| {
            let at = column.iter().position(|width| !(1..=MAX_ARRAY_WIDTH).contains(width))?;
            Some(format!("element {at} of {name} is {}, and should be from 1 to {MAX_ARRAY_WIDTH}", column[at]))
        })
    }

    // ------------------------------------------------------------ 1

    fn columns(&self) -> Option<String> {
        self.tables().into_iter().find_map(|(word, _, starts, lens, others)| {
            let prefix = ["name", "aname", "fname"][["variable", "array", "function"].iter().position(|w| *w == word)?];
            let mut columns = vec![(format!("{prefix}_start"), starts.len()), (format!("{prefix}_len"), lens.len())];
            columns.extend(others.iter().map(|(name, column)| (name.to_string(), column.len())));
            columns.iter().any(|(_, count)| *count != columns[0].1).then(|| {
                let counts: Vec<String> = columns.iter().map(|(name, count)| format!("{name} {count}")).collect();
                format!("the columns of the {word}s have different lengths: {}", counts.join(", "))
            })
        })
    }

    fn malformed(&self) -> Option<String> {
        let i = self.widths.len();
        let (kind, [a, b, c, d]) = self.parts(i)?;
        let node = self.node(i);
        let entries = match kind {
            kind::SELECT => 2 * d as usize,
            kind::CALL => d as usize,
            _ => 0,
        };
        let why = if kind == kind::CONST && u64::from(a) + u64::from(b) > self.p.bits.len() as u64 {
            format!("it has {b} bits from place {a} on, and there are {} bits", self.p.bits.len())
        } else if entries > 0 && self.side(c, entries).is_none() {
            format!("it has {entries} side entries from place {c} on, and there are {}", self.p.side.len())
        } else if let Some(late) = self.uses(i).into_iter().find(|used| *used >= i as u64) {
            format!("node {late} does not stand before it")
        } else if let kind::VAR | kind::CONST | kind::CALL = kind {
            "its width is 0".into()
        } else {
            let mut uses = self.uses(i);
            uses.dedup();
            let widths: Vec<String> =
                uses.iter().map(|used| format!("node {used} is {} wide", self.widths[*used as usize])).collect();
            let array = match self.p.index_width.get(a as usize).zip(self.p.value_width.get(a as usize)) {
                Some((index, value)) if kind == kind::SELECT => {
                    format!("array {a} has indices of {index} bits and values of {value}; ")
                }
                None if kind == kind::SELECT => {
                    "an array that is not in the table has indices of 32 bits and values of 8; ".into()
                }
                _ => String::new(),
            };
            let wanted = match kind {
                kind::NOT | kind::BOOL_AND | kind::BOOL_OR => ", and a Bool is 1 wide",
                kind::ITE => ", and a Bool, which is 1 wide, and two of one width are wanted",
                kind::EXTRACT => ", and its highest bit and its lowest are wanted, in this order and counted from 0",
                kind::CONCAT | kind::ZERO_EXT | kind::SIGN_EXT => ", and the result has 2^64 bits or more",
                kind::BV_NOT | kind::NEG | kind::SELECT => "",
                _ => ", and one width is wanted",
            };
            format!("{array}{}{wanted}", widths.join(", "))
        };
        Some(format!("{node} is not well formed: {why}"))
    }

    // ------------------------------------------------------------ 2

    fn names(&self) -> Option<String> {
        let mut before: Vec<(String, &[u8])> = Vec::new();
        for (table, (_, arena, starts, lens, _)) in self.tables().into_iter().enumerate() {
            for i in 0..starts.len() {
                let entry = self.entry(table, i);
                let Some(name) = name_at(arena, starts, lens, i) else {
                    return Some(format!(
                        "{entry}: its name has {} bytes from place {} on, and there are {}",
                        lens[i],
                        starts[i],
                        arena.len()
                    ));
                };
                if let Some(why) = bad_name(name) {
                    return Some(format!("{entry} {why}"));
                }
                if let Some((first, _)) = before.iter().find(|(_, earlier)| *earlier == name) {
                    return Some(format!("{entry} has the name of {}", first.trim_end_matches(',')));
                }
                before.push((entry, name));
            }
        }
        None
    }

    // ------------------------------------------------------------ 6 and 11

    /// The nodes that are used more than once and may not be, each with what is told of it.
    fn shared(&self) -> Vec<(usize, String)> {
        let count = self.widths.len();
        let mut users: Vec<Vec<String>> = vec![Vec::new(); count];
        let mut uses = vec![0u64; count];
        let mut used = |node: u64, by: &dyn Fn() -> String| {
            let Some(i) = usize::try_from(node).ok().filter(|i| *i < count) else { return };
            uses[i] += 1;
            if users[i].len() < 4 && !matches!(self.parts(i), Some((kind::VAR | kind::CONST, _))) {
                users[i].push(by());
            }
        };
        for i in 0..count {
            self.uses(i).into_iter().for_each(|node| used(node, &|| format!("node {i}")));
        }
        self.p.roots.iter().enumerate().for_each(|(k, root)| used(*root, &|| format!("root {k}")));
        let shared = (0..count).filter(|i| users[*i].len() > 1);
        let told = |i: usize| {
            let more = if uses[i] > 4 { ", .." } else { "" };
            format!("{} is used {} times, by {}{more}", self.node(i), uses[i], users[i].join(", "))
        };
        shared.map(|i| (i, told(i))).collect()
    }

    fn clash(&self) -> Option<String> {
        let shared = self.shared();
        self.tables().into_iter().enumerate().find_map(|(table, (_, arena, starts, lens, _))| {
            (0..starts.len()).find_map(|i| {
                let name = name_at(arena, starts, lens, i)?;
                let (_, text) = shared.iter().find(|(node, _)| name == format!("d{node}").as_bytes())?;
                Some(format!("{} has the name under which a term is bound: {text}", self.entry(table, i)))
            })
        })
    }

    // ------------------------------------------------------------ 4 and 7, of declarations

    fn declared_variables(&self) -> Option<String> {
        let i = self.p.var_width.iter().position(|width| *width == 0)?;
        Some(format!("{} has width 0", self.entry(0, i)))
    }

    fn first_call(&self, function: usize) -> Option<usize> {
        (0..self.widths.len()).find(|i| matches!(self.parts(*i), Some((kind::CALL, [f, ..])) if f as usize == function))
    }

    fn declared_functions(&self) -> Option<String> {
        (0..self.p.func_width.len()).find_map(|f| {
            if self.p.func_width[f] == 0 {
                return Some(format!("{} has width 0", self.entry(2, f)));
            }
            let Some(call) = self.first_call(f) else {
                return Some(format!("{} is called by no node; leave it out", self.entry(2, f)));
            };
            let (_, [_, _, start, count]) = self.parts(call)?;
            let Some(arguments) = self.side(start, count as usize) else {
                let entries = self.p.side.len();
                return Some(format!(
                    "{} the first call of function {f}: place {start} is past the {entries} side entries",
                    self.node(call)
                ));
            };
            let zero = arguments.iter().find(|argument| self.widths.get(**argument as usize) == Some(&0))?;
            Some(format!("{} the first call of function {f}: node {zero}, an argument, has width 0", self.node(call)))
        })
    }

    // ------------------------------------------------------------ below the roots: 1, 3, 4, 5, 7

    /// The first thing with this refusal that the walk over the roots meets.
    fn below_roots(&self, refusal: Refusal) -> Option<String> {
        let seen = &mut HashSet::new();
        self.p.roots.iter().enumerate().find_map(|(k, root)| self.term(*root, true, Place::Root(k), refusal, seen))
    }

    /// The first below a node. What was seen before and where a Bool was wanted likewise has nothing.
    fn term(
        &self,
        node: u64,
        wants_bool: bool,
        place: Place,
        refusal: Refusal,
        seen: &mut HashSet<(u64, bool)>,
    ) -> Option<String> {
        if !seen.insert((node, wants_bool)) {
            return None;
        }
        let at = || match place {
            Place::Root(k) => format!("root {k}:"),
            Place::Below(parent) => format!("below {}", self.node(parent).trim_end_matches(',')) + ":",
        };
        let faulty = |which: Refusal, what: String| (which == refusal).then(|| format!("{} {what}", at()));
        let count = self.widths.len();
        let Some(i) = usize::try_from(node).ok().filter(|i| *i < count) else {
            return faulty(Refusal::Malformed, format!("there is no node {node}; there are {count} nodes"));
        };
        let (kind, operands) = self.parts(i)?;
        let is_bool = matches!(kind, kind::EQ..=kind::BOOL_OR);
        let sort = (is_bool != wants_bool).then(|| {
            let text = if is_bool {
                "is a Bool, and a bit-vector is wanted; `ite` makes one of it"
            } else {
                "is a bit-vector, and a Bool is wanted; a comparison makes one of it"
            };
            (Refusal::Sort, format!("{} {text}", self.node(i)))
        });
        // With `let` a term that is bound is looked at by itself, before the sort that its uses want.
        let own = [sort, self.asked(i, kind, operands)].into_iter().flatten().find_map(|(which, what)| faulty(which, what));
        own.or_else(|| {
            self.walked(i, kind, operands).into_iter().enumerate().find_map(|(k, operand)| {
                let wants_bool = matches!(kind, kind::NOT | kind::BOOL_AND | kind::BOOL_OR) || (kind == kind::ITE && k == 0);
                self.term(operand, wants_bool, Place::Below(i), refusal, seen)
            })
        })
    }

    /// The operands that are terms, in the order of the script: a rotation's amount is none, and the stores stand before the index, the
    /// innermost first.
    fn walked(&self, i: usize, kind: u8, operands: [u32; 4]) -> Vec<u64> {
        match kind {
            kind::ROTL | kind::ROTR => vec![u64::from(operands[0])],
            kind::SELECT => {
                let stores = self.side(operands[2], 2 * operands[3] as usize).unwrap_or_default().as_chunks::<2>().0;
                stores.iter().rev().flatten().copied().chain([u64::from(operands[1])]).collect()
            }
            _ => self.uses(i),
        }
    }

    // ------------------------------------------------------------ 14

    /// The first term below a root that cannot be evaluated. Printing passed, so that every node is there.
    fn wide(&self) -> Option<String> {
        self.p.roots.iter().enumerate().find_map(|(k, root)| {
            let mut ahead = vec![*root];
            while let Some(node) = ahead.pop() {
                let i = usize::try_from(node).ok()?;
                let (kind, operands) = self.parts(i)?;
                let (node, without) = (self.node(i), "leave the root out to replay the others");
                if let kind::SELECT | kind::CALL = kind {
                    let what = if kind == kind::SELECT { "select" } else { "call" };
                    return Some(format!("below root {k}: {node} is a {what}, which has no value in a trace; {without}"));
                }
                if self.widths.get(i).is_some_and(|width| *width > 64) {
                    let width = self.widths[i];
                    return Some(format!("below root {k}: {node} is {width} wide, and 64 bits are the most; {without}"));
                }
                ahead.extend(self.walked(i, kind, operands).into_iter().rev());
            }
            None
        })
    }

    /// What the tables ask of a term itself.
    fn asked(&self, i: usize, kind: u8, [a, b, c, d]: [u32; 4]) -> Option<(Refusal, String)> {
        let p = self.p;
        let node = self.node(i);
        match kind {
            kind::VAR => match p.var_node.iter().position(|node| *node == i as u64) {
                None => Some((Refusal::Var, format!("{node} has no entry in the table of variables"))),
                Some(entry) if p.var_width.get(entry) != Some(&self.widths[i]) => {
                    let declared = p.var_width.get(entry)?;
                    Some((
                        Refusal::Var,
                        format!("{node} has width {}, and {} has {declared}", self.widths[i], self.entry(0, entry)),
                    ))
                }
                Some(_) => None,
            },
            kind::ROTL | kind::ROTR if !matches!(self.parts(b as usize), Some((kind::CONST, _))) => {
                let by = self.node(b as usize);
                Some((Refusal::Rotate, format!("{node} is by {by} which is no constant; write it as shifts")))
            }
            kind::ROTL | kind::ROTR if !(1..=65_536).contains(&self.widths[i]) => {
                Some((Refusal::Rotate, format!("{node} is {} wide, and a rotation has from 1 to 65536 bits", self.widths[i])))
            }
            kind::SELECT if a as usize >= p.aname_start.len() => {
                Some((Refusal::Malformed, format!("{node} has array {a}, and there are {}", p.aname_start.len())))
            }
            kind::CALL => {
                let function = a as usize;
                let Some(&width) = p.func_width.get(function) else {
                    return Some((Refusal::Malformed, format!("{node} has function {a}, and there are {}", p.func_width.len())));
                };
                if width != u64::from(b) {
                    return Some((
                        Refusal::Signature,
                        format!("{node} has width {b}, and {} has {width}", self.entry(2, function)),
                    ));
                }
                let first = self.first_call(function)?;
                let (_, [_, _, start, count]) = self.parts(first)?;
                let widths = |start, count| -> Option<Vec<u64>> {
                    self.side(start, count as usize)?
                        .iter()
                        .map(|argument| self.widths.get(*argument as usize).copied())
                        .collect()
                };
                let (here, there) = (widths(c, d), widths(start, count));
                (here != there).then(|| {
                    let list = |widths: Option<Vec<u64>>| format!("{:?}", widths.unwrap_or_default());
                    let text = format!(
                        "{node} has arguments of widths {}, and the first call, node {first}, {}; declare a function for each",
                        list(here),
                        list(there)
                    );
                    (Refusal::Signature, text)
                })
            }
            _ => None,
        }
    }
}

fn name_at<'a>(arena: &'a [u8], starts: &[u64], lens: &[u64], i: usize) -> Option<&'a [u8]> {
    let (start, len) = (usize::try_from(*starts.get(i)?).ok()?, usize::try_from(*lens.get(i)?).ok()?);
    arena.get(start..)?.get(..len)
}

/// A name for a message, which is text.
fn shown(name: &[u8]) -> String {
    String::from_utf8_lossy(&quoted_name(name)).into_owned()
}

/// What is wrong with a name by itself.
fn bad_name(name: &[u8]) -> Option<String> {
    if name.is_empty() {
        return Some("has an empty name".into());
    }
    if let Some(byte) = name.iter().find(|byte| matches!(byte, 0..=31 | 127 | b'|' | b'\\')) {
        return Some(format!("has the byte {byte} in its name, which no name may have"));
    }
    if let b'@' | b'.' = name[0] {
        return Some("has a name that begins with `@` or `.`".into());
    }
    // Reserved words are the library's to know: a problem that declares this name and nothing else.
    let one = Problem {
        nodes: &node(kind::VAR, [1, 0, 0, 0]),
        names: name,
        name_start: &[0],
        name_len: &[name.len() as u64],
        var_node: &[0],
        var_width: &[1],
        ..Problem::default()
    };
    (echo_size(&one) == Err(Refusal::Name)).then(|| "has a reserved word for its name".into())
}
