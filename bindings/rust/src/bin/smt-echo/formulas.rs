//! `formulas`: the roots of a problem as the lines of a map file.

use crate::{Args, Command, Failure, room};
use smt_echo::{Problem, echo_formulas};

pub const COMMAND: Command = Command {
    name: "formulas",
    summary: "the assertions of a problem as formulas, one line each",
    help: "\
usage: smt-echo formulas [-o FILE] [FILE]

Writes a line for each root of a problem, as someone would write it in a map file. From the loosest: or; and; bor; bxor; band; == !=;
< <= > >=; << >>; + -; * / %; before an operand ! ~ -. Comparisons, / and % are unsigned and >> is the logical shift; every other kind
stands by its SMT-LIB name, as in extract(7, 0, |x|). Operators of one level group to the left, and brackets stand only where they are
needed. A problem that `print` refuses is refused here, by the same number.

Example:
    $ printf 'problem\\nvariable |x| 8 node 0\\n0 var 8\\n1 const 5 8\\n2 and 0 1\\n3 eq 2 1\\nroot 3\\n' | smt-echo formulas
    (|x| band #b00000101) == #b00000101
",
    options: &[],
    files: 1,
    run,
};

fn run(args: &Args) -> Result<Vec<u8>, Failure> {
    lines(&args.source(0).problem()?.lend())
}

/// The lines. They have at most twice the bytes of the script: what is longer in a formula is a comma between arguments, or `==` in brackets, a
/// byte each.
pub fn lines(problem: &Problem<'_>) -> Result<Vec<u8>, Failure> {
    room::measured(problem, 2, echo_formulas)
}
