//! `widths`: how wide each node is.

use crate::{Args, Command, Failure, look};
use smt_echo::{NODE_BYTES, ext_wf};

pub const COMMAND: Command = Command {
    name: "widths",
    summary: "the width of each node of a problem",
    help: "\
usage: smt-echo widths [-o FILE] [FILE]

Writes a line for each node, its number and its width; a Bool has width 1. Only nodes, bits, side entries and the widths of arrays are
looked at: names and roots may be wrong. The first node that is not well formed is refused with 1 and told.

Example:
    $ printf 'problem\\n0 var 8\\n1 concat 0 0\\n2 eq 0 0\\n' | smt-echo widths
    0 8
    1 16
    2 1
",
    options: &[],
    files: 1,
    run,
};

fn run(args: &Args) -> Result<Vec<u8>, Failure> {
    let problem = args.source(0).problem()?;
    let p = &problem.lend();
    let mut widths = vec![0; p.nodes.len() / NODE_BYTES];
    let count = ext_wf(p.nodes, p.bits, p.side, p.index_width, p.value_width, &mut widths)
        .map_err(|refusal| Failure::Refused { refusal: refusal.to_string(), look: look::nodes(p, refusal) })?;
    Ok(widths[..count].iter().enumerate().map(|(node, width)| format!("{node} {width}\n")).collect::<String>().into_bytes())
}
