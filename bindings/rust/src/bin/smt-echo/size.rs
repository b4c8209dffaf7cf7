//! `size`: how long a problem's script is.

use crate::{Args, Command, Failure, room};
use smt_echo::echo_size;

pub const COMMAND: Command = Command {
    name: "size",
    summary: "how long the script of a problem is, and how many terms it has",
    help: "\
usage: smt-echo size [-o FILE] [FILE]

Writes two lines: the length in bytes of the script that `print` writes, with or without --hidden, and how many terms it has. A term is a
variable, a constant or an operator, counted as often as it stands there; a rotation's amount, an array's name and a store are none.
A problem that `print` refuses is refused here, by the same number.

Example:
    $ printf 'problem\\nvariable |x| 8 node 0\\n0 var 8\\n1 const 5 8\\n2 add 0 1\\n3 eq 2 0\\nroot 3\\n' | smt-echo size
    length 103
    terms 5
",
    options: &[],
    files: 1,
    run,
};

fn run(args: &Args) -> Result<Vec<u8>, Failure> {
    let problem = args.source(0).problem()?;
    let problem = &problem.lend();
    let size = echo_size(problem).map_err(|refusal| room::refused(problem, refusal))?;
    Ok(format!("length {}\nterms {}\n", size.length, size.terms).into_bytes())
}
