//! `fewest`: the fewest roots with which a problem is still refused.

use crate::{Args, Command, Failure};
use smt_echo::{Problem, Refusal, fewest_roots};

pub const COMMAND: Command = Command {
    name: "fewest",
    summary: "the fewest roots with which a problem is still refused alike",
    help: "\
usage: smt-echo fewest [--show] [-o FILE] [FILE]

Writes two lines: the number that `print` refuses a problem with, 0 if it does not, and the places of the fewest roots, from 0, with which
alone it has the same number. There are two at most, and none where the number does not depend on the roots or is not from 1 to 7. The
number is a result here and no refusal: the status is 0. With --show the problem with these roots alone is written instead, in the text
form; the status is 2 where the number is not from 1 to 7.

Example:
    $ printf 'problem\\nvariable |x| 8 node 0\\n0 var 8\\n1 ule 0 0\\n2 eq 0 0\\n3 ult 0 0\\nroot 1\\nroot 2\\nroot 3\\nroot 2\\n' > four.txt
    $ smt-echo fewest four.txt
    number 6
    roots 1 3
    $ smt-echo fewest --show four.txt | tail -n 2
    root 2
    root 2
",
    options: &[("--show", "", "write the problem with these roots alone, in the text form")],
    files: 1,
    run,
};

fn run(args: &Args) -> Result<Vec<u8>, Failure> {
    let problem = args.source(0).problem()?;
    let problem = problem.lend();
    let told = fewest_roots(&problem);
    let number = told.refusal.map_or(0, Refusal::number);
    if args.has("--show") {
        if !(1..=7).contains(&number) {
            return Err(args.source(0).not_done(format!("has the number {number}, and roots are told for 1 to 7")));
        }
        let roots: Vec<u64> = told.positions().iter().map(|place| problem.roots[*place]).collect();
        return Ok(Problem { roots: &roots, ..problem }.to_text());
    }
    let places: String = told.positions().iter().map(|place| format!(" {place}")).collect();
    Ok(format!("number {number}\nroots{places}\n").into_bytes())
}
