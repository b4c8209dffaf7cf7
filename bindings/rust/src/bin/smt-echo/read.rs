//! `read`: the problem of a script.

use crate::input::SCRIPTS;
use crate::{Args, Command, Failure};
use smt_echo::{MAX_SCRIPT_DEPTH, OwnedProblem, ReadRefusal, next_script, read_script, read_stack, script_depth};
use std::thread;

pub const COMMAND: Command = Command {
    name: "read",
    summary: "the problem of a script, in the binary layout or in the text form",
    help: "\
usage: smt-echo read [--show] [-o FILE] [FILE]

Reads a script back into nodes, bits, side entries, roots and tables, and writes the problem in the binary layout; with --show in the text
form. `print` gives the same script again, byte for byte. The bytes must be a script as `print` writes it, or they are refused with 13; so
is a script with `let`, which `print --let` writes.

The nodes are placed by a rule, since the script does not tell which problem it was printed from: the variables; a call on zeros for each
function that no assertion calls; then each term as its last operand ends, and a new constant just before the term that first uses it.

Every subcommand that takes a problem takes a script too.

Example:
    $ printf 'problem\\n0 const 5 8\\n1 var 8\\n2 ult 1 0\\nroot 2\\nvariable |x| 8 node 1\\n' | smt-echo print -o less.smt2
    $ smt-echo read --show less.smt2
    problem
    variable |x| 8 node 0
    0 var 8
    1 const #b00000101
    2 ult 0 1
    root 2
    $ smt-echo read less.smt2 | smt-echo print | cmp - less.smt2
",
    options: &[("--show", "", "write the text form")],
    files: 1,
    run,
};

/// What every script begins with.
pub const HEAD: &[u8] = b"(set-logic ";

fn run(args: &Args) -> Result<Vec<u8>, Failure> {
    let problem = script(&args.source(0).bytes(SCRIPTS)?)?;
    let problem = problem.lend();
    Ok(if args.has("--show") { problem.to_text() } else { problem.to_layout() })
}

/// The problem of a script.
pub fn script(bytes: &[u8]) -> Result<OwnedProblem, Failure> {
    with_stack(longest_deep([bytes]).map(read_stack), || read_script(bytes))?.map_err(|refusal| {
        let look = match refusal {
            ReadRefusal::NoScript => fault(bytes),
            ReadRefusal::Limit => over(bytes),
            _ => None,
        };
        let look = look.map(|fault| match fault.line {
            None => format!("the end: {}", fault.text),
            Some(line) => format!("line {line}: {}", fault.text),
        });
        Failure::Refused { refusal: refusal.to_string(), look }
    })
}

/// The length of the longest of the scripts that are nested too deeply to be accepted. By which number one is refused only reading tells: on a
/// thread with the stack for it.
pub fn longest_deep<'a>(scripts: impl IntoIterator<Item = &'a [u8]>) -> Option<usize> {
    scripts.into_iter().filter(|script| script_depth(script) > MAX_SCRIPT_DEPTH).map(<[u8]>::len).max()
}

/// Calls a function on a thread with so much stack, or where none is given on this one.
pub fn with_stack<T: Send>(stack: Option<usize>, call: impl FnOnce() -> T + Send) -> Result<T, Failure> {
    let Some(stack) = stack else { return Ok(call()) };
    thread::scope(|scope| match thread::Builder::new().stack_size(stack).spawn_scoped(scope, call).map(thread::ScopedJoinHandle::join) {
        Ok(Ok(done)) => Ok(done),
        _ => Err(Failure::NotDone("a script is nested too deeply for the stack that memory allows".into())),
    })
}

/// The most bytes and lines of a script in which the line at fault is looked for: it is read once for each line.
const LOOKED_THROUGH: (usize, usize) = (1 << 20, 2_000);

const END: &[u8] = b"(check-sat)\n";

/// The lines of a script's logic.
const LOGICS: [&[u8]; 3] = [b"(set-logic QF_BV)\n", b"(set-logic QF_ABV)\n", b"(set-logic QF_AUFBV)\n"];

/// What is wrong with bytes that are no script.
pub struct Fault {
    /// From 1; none for the end.
    pub line: Option<usize>,
    pub text: String,
}

/// The line at fault in bytes that are no script: the first declaration with which no script goes on, or the first assertion that is none
/// beside these declarations.
pub fn fault(bytes: &[u8]) -> Option<Fault> {
    let lines: Vec<&[u8]> = bytes.split_inclusive(|byte| *byte == b'\n').collect();
    if bytes.len() > LOOKED_THROUGH.0 || lines.len() > LOOKED_THROUGH.1 || longest_deep([bytes]).is_some() {
        return None;
    }
    let at = |line: usize, text: &str| Some(Fault { line: Some(line), text: text.into() });
    let is_script = |parts: &[&[u8]]| read_script(&parts.concat()) != Err(ReadRefusal::NoScript);
    // No name has byte 13, so that a line with it is none of a script's.
    if let Some(line) = lines.iter().position(|line| line.ends_with(b"\r\n")) {
        return at(line + 1, "it ends with bytes 13 and 10, and a line of a script ends with byte 10 alone");
    }
    let Some(end) = next_script(bytes) else {
        return Some(Fault { line: None, text: "a script ends with `(check-sat)` and a line feed (byte 10)".into() });
    };
    if end < bytes.len() {
        let line = lines.iter().position(|line| *line == END)? + 2;
        let split = if bytes[end..].starts_with(HEAD) { "; `smt-echo split` cuts scripts that stand end to end" } else { "" };
        return at(line, &format!("more follows the line `(check-sat)`{split}"));
    }
    let Some((logic, lines)) = lines[..lines.len() - 1].split_first().filter(|(logic, _)| logic.starts_with(HEAD)) else {
        return at(1, "a script begins with the line of its logic");
    };
    let (declarations, assertions) = lines.split_at(lines.iter().take_while(|line| line.starts_with(b"(declare-")).count());
    let header = [&[*logic], declarations].concat();
    if is_script(&[&header.concat(), END]) {
        let none = |line: &&[u8]| !line.starts_with(b"(assert ") || !is_script(&[&header.concat(), line, END]);
        let place = assertions.iter().position(none)?;
        let text = if assertions[place].starts_with(END.trim_ascii_end()) {
            "the line feed (byte 10) behind `(check-sat)` is missing"
        } else if assertions[place].starts_with(b"(assert (let ((") {
            "it has `let`, and what `smt-echo print --let` writes is not read back"
        } else {
            "it is no assertion over these declarations as the printer writes it"
        };
        return at(place + header.len() + 1, text);
    }
    let goes_on = |count: usize| {
        LOGICS.iter().any(|logic| is_script(&[logic, &declarations[..count].concat(), END]))
    };
    match (1..=declarations.len()).find(|count| !goes_on(*count)) {
        None => at(1, "the logic is not the one of these declarations"),
        Some(count) => at(count + 1, "it is no declaration as the printer writes it, or its name is refused or given before"),
    }
}

/// The line with which a script that is over a limit goes over it: the first declaration or assertion up to which the script is refused alike.
pub fn over(bytes: &[u8]) -> Option<Fault> {
    let lines: Vec<&[u8]> = bytes.split_inclusive(|byte| *byte == b'\n').collect();
    if bytes.len() > LOOKED_THROUGH.0 || lines.len() > LOOKED_THROUGH.1 {
        return None;
    }
    if let Some(line) = lines.iter().position(|line| script_depth(line) > MAX_SCRIPT_DEPTH) {
        return Some(Fault { line: Some(line + 1), text: format!("more than {MAX_SCRIPT_DEPTH} brackets are open at once") });
    }
    // What the declarations up to a line, or all of them and the assertions up to a line, are refused with.
    let declared = lines.iter().skip(1).take_while(|line| line.starts_with(b"(declare-")).count();
    let refused = |count: usize| {
        let is_over = |logic: &[u8]| read_script(&[logic, &lines[1..=count].concat(), END].concat()) == Err(ReadRefusal::Limit);
        if count < declared { LOGICS.iter().any(|logic| is_over(logic)) } else { is_over(lines[0]) }
    };
    let counts: Vec<usize> = (1..lines.len() - 1).collect();
    let line = counts.get(counts.partition_point(|count| !refused(*count)))? + 1;
    Some(Fault { line: Some(line), text: "with it the problem is over a limit, or has a number that its record cannot hold".into() })
}
