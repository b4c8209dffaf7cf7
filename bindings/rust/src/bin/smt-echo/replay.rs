//! `replay`: which assertions hold on logged values.

use crate::input::{self, Source};
use crate::{Args, Command, Failure, formulas, look, room};
use smt_echo::{Problem, Trace, TraceRefusal, replay_trace};
use std::io::Write;

pub const COMMAND: Command = Command {
    name: "replay",
    summary: "which assertions of a problem hold on each row of a trace",
    help: "\
usage: smt-echo replay [--formulas] [-o FILE] PROBLEM [TRACE]

TRACE is CSV: a head with the names of all variables of the problem, in any order, and a row of values for each line after it, decimal, or
hexadecimal behind 0x. docs/FORMATS.md has more. One of the two files may be standard input. Writes a line for each row, its number from
0 and whether all assertions hold there or which fail, by their numbers from 0; with --formulas each that fails follows, as in a map file.
A row on which all hold is a model of the script. Where a rule's negation is asserted `holds` marks a counterexample; where invariants are
asserted `fails` marks the fault. The problem has 64 roots at most, and no term wider than 64 bits, select or call below them.

Example:
    $ printf 'problem\\nvariable |a| 8 node 0\\nvariable |b| 8 node 1\\n0 var 8\\n1 var 8\\n2 ult 0 1\\n3 ne 0 1\\nroot 2\\nroot 3\\n' > less.txt
    $ printf 'b,a\\n4,3\\n3,0x4\\n7,7\\n' > log.csv
    $ smt-echo replay less.txt log.csv
    0 holds
    1 fails 0
    2 fails 0 1
    $ printf 'a,b\\n7,7\\n' | smt-echo replay --formulas less.txt
    0 fails 0 1
        0: |a| < |b|
        1: |a| != |b|
",
    options: &[("--formulas", "", "after a row that fails write each assertion that does, as a formula")],
    files: 2,
    run,
};

fn run(args: &Args) -> Result<Vec<u8>, Failure> {
    let (of_problem, of_trace) = (args.source(0), args.source(1));
    if let (Source::Standard, Source::Standard) = (of_problem, of_trace) {
        return Err(Failure::Usage("`replay` wants a problem and a trace, and only one of them can be standard input".into()));
    }
    let problem = of_problem.problem()?;
    let problem = &problem.lend();
    let csv = of_trace.bytes(input::TRACE)?;
    // Without rows, or with one where there are no variables: what is wrong with the problem itself, so that its names are all different.
    replay_trace(problem, &[], &mut [0], &mut [0]).map_err(|refusal| refused(problem, refusal))?;
    let trace = Trace::from_csv(problem, &csv).map_err(|error| of_trace.malformed(error))?;
    let rows = trace.rows();
    let (Some(mut masks), Some(mut counts)) = (room::zeros(rows), room::zeros(rows)) else {
        return Err(of_trace.not_done(format!("has {rows} rows, more than memory allows; replay it in parts, each with the head")));
    };
    replay_trace(problem, trace.values(), &mut masks, &mut counts).map_err(|refusal| match refusal {
        TraceRefusal::Values => {
            let look = trace.misfit(problem).map(|error| format!("{of_trace}:{}:{}: {}", error.line, error.column, error.message));
            Failure::Refused { refusal: refusal.to_string(), look }
        }
        _ => refused(problem, refusal),
    })?;
    let lines = if args.has("--formulas") { formulas::lines(problem)? } else { Vec::new() };
    let lines = lines.split_inclusive(|byte| *byte == b'\n').enumerate();
    let formulas: Vec<Vec<u8>> = lines.map(|(root, line)| [format!("    {root}: ").as_bytes(), line].concat()).collect();
    let mut length = 0usize;
    told(&masks, problem.roots.len(), &formulas, |part| length = length.saturating_add(part.len()));
    let Some(mut result) = room::empty(length) else {
        let next = if formulas.is_empty() { "replay the trace in parts, each with the head" } else { "it is shorter without `--formulas`" };
        return Err(Failure::NotDone(format!("the result has {length} bytes, more than memory allows; {next}")));
    };
    told(&masks, problem.roots.len(), &formulas, |part| result.extend_from_slice(part));
    Ok(result)
}

fn refused(problem: &Problem<'_>, refusal: TraceRefusal) -> Failure {
    Failure::Refused { refusal: refusal.to_string(), look: look::trace(problem, refusal) }
}

/// A line for each row, and the formulas of those that fail if there are any, part by part.
fn told(masks: &[u64], roots: usize, formulas: &[Vec<u8>], mut part: impl FnMut(&[u8])) {
    let mut line = Vec::new();
    for (row, mask) in masks.iter().enumerate() {
        let failing = || (0..roots).filter(|root| mask >> root & 1 == 0);
        let all = if failing().next().is_none() { "holds" } else { "fails" };
        line.clear();
        write!(line, "{row} {all}").expect("a vector takes all");
        failing().for_each(|root| write!(line, " {root}").expect("a vector takes all"));
        line.push(b'\n');
        part(&line);
        failing().filter_map(|root| formulas.get(root)).for_each(|formula| part(formula));
    }
}
