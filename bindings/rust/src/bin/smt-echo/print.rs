//! `print`: a problem as a script.

use crate::{Args, Command, Failure, room};
use smt_echo::{echo_ext, echo_hidden, echo_let};

pub const COMMAND: Command = Command {
    name: "print",
    summary: "a problem as an SMT-LIB script",
    help: "\
usage: smt-echo print [--hidden | --let] [-o FILE] [FILE]

Writes the SMT-LIB script of a problem. With --hidden each constant shows zeros in its width, so that the script can be sent on without
the addresses in it; names, widths, rotate amounts and the shape of the terms still show, and a solver's answer to it says nothing about
the problem. With --let a term that is used more than once is bound by `let` in each assertion, under the name d and its node's number, and
not refused with 6; where a declared name is such a name, the problem is refused with 11. A script with `let` is not read back, but refused
with 13. A problem without such terms prints as before.

A refused problem has no script: the number, the reason and what to look at go to standard error, and the status is 1.

Example:
    $ printf 'problem\\nvariable |x| 8 node 0\\n0 var 8\\n1 const 5 8\\n2 add 0 1\\n3 eq 2 0\\nroot 3\\n' > sum.txt
    $ smt-echo print sum.txt
    (set-logic QF_BV)
    (declare-const |x| (_ BitVec 8))
    (assert (= (bvadd |x| #b00000101) |x|))
    (check-sat)
    $ smt-echo print --hidden sum.txt | tail -n 2
    (assert (= (bvadd |x| #b00000000) |x|))
    (check-sat)
    $ sed 's/eq 2 0/eq 2 2/' sum.txt | smt-echo print --let | tail -n 2
    (assert (let ((|d2| (bvadd |x| #b00000101))) (= |d2| |d2|)))
    (check-sat)
",
    options: &[
        ("--hidden", "", "show zeros for each constant, in its width"),
        ("--let", "", "bind terms that are used more than once by `let`"),
    ],
    files: 1,
    run,
};

fn run(args: &Args) -> Result<Vec<u8>, Failure> {
    if args.has("--hidden") && args.has("--let") {
        return Err(Failure::Usage("`--hidden` does not go with `--let`".into()));
    }
    let problem = args.source(0).problem()?;
    let problem = &problem.lend();
    if args.has("--let") {
        room::grown(problem, echo_let)
    } else if args.has("--hidden") {
        room::measured(problem, 1, echo_hidden)
    } else {
        room::measured(problem, 1, echo_ext)
    }
}
