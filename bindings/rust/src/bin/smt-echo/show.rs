//! `show`: a problem in another form.

use crate::{Args, Command, Failure};

pub const COMMAND: Command = Command {
    name: "show",
    summary: "a problem in the text form, or in the binary layout",
    help: "\
usage: smt-echo show [--binary] [-o FILE] [FILE]

Writes a problem in the text form, one thing a line; with --binary in the binary layout. docs/COMMAND.md has the grammar of the text form.
The problem is written as it is, also one that `print` refuses: the text is read back as the same problem, byte for byte.

Example:
    $ printf 'problem\\n0 var 8 ; x\\n1 const 5 8\\n2 ult 0 1\\nroot 2\\nvariable |x| 8 node 0\\n' | smt-echo show --binary -o less.bin
    $ smt-echo show less.bin
    problem
    variable |x| 8 node 0
    0 var 8
    1 const #b00000101
    2 ult 0 1
    root 2
",
    options: &[("--binary", "", "write the binary layout")],
    files: 1,
    run,
};

fn run(args: &Args) -> Result<Vec<u8>, Failure> {
    let problem = args.source(0).problem()?;
    let problem = problem.lend();
    Ok(if args.has("--binary") { problem.to_layout() } else { problem.to_text() })
}
