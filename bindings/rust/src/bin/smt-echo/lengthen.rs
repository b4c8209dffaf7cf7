//! `lengthen`: shorter records as node records.

use crate::{Args, Command, Failure, look, shorten};
use smt_echo::{MAX_NODES_LEN, lengthen_records};

pub const COMMAND: Command = Command {
    name: "lengthen",
    summary: "shorter records as node records of 17 bytes",
    help: "\
usage: smt-echo lengthen [-o FILE] [FILE]

The input is shorter records, as `shorten` writes them, and nothing else. Writes the node records, 17 bytes each.

Example:
    $ printf '\\000\\010\\000\\000\\000' | smt-echo lengthen | od -An -tu1
       0   8   0   0   0   0   0   0   0   0   0   0   0   0   0   0
       0
",
    options: &[],
    files: 1,
    run,
};

fn run(args: &Args) -> Result<Vec<u8>, Failure> {
    let new = args.source(0).bytes(shorten::MOST)?;
    let mut old = vec![0; MAX_NODES_LEN];
    let length = lengthen_records(&new, &mut old)
        .map_err(|refusal| Failure::Refused { refusal: refusal.to_string(), look: look::shorter(&new) })?;
    old.truncate(length);
    Ok(old)
}
