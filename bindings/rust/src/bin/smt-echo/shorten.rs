//! `shorten`: node records in the shorter form.

use crate::{Args, Command, Failure, look};
use smt_echo::{RecordRefusal, shorten_records};

pub const COMMAND: Command = Command {
    name: "shorten",
    summary: "node records of 17 bytes as shorter records",
    help: "\
usage: smt-echo shorten [-o FILE] [FILE]

The input is node records and nothing else, 17 bytes each, at most 2048. Writes each with its kind byte and only the operands that its
kind has, 4 bytes each. `lengthen` gives the records back.

Example:
    $ printf '\\000\\010\\000\\000\\000\\000\\000\\000\\000\\000\\000\\000\\000\\000\\000\\000\\000' > one.records
    $ smt-echo shorten one.records | od -An -tu1
       0   8   0   0   0
",
    options: &[],
    files: 1,
    run,
};

/// The most bytes that are read: enough to be over either limit.
pub const MOST: u64 = 1 << 20;

fn run(args: &Args) -> Result<Vec<u8>, Failure> {
    let old = args.source(0).bytes(MOST)?;
    let mut new = vec![0; old.len()]; // never longer than the old
    let length = shorten_records(&old, &mut new).map_err(|refusal| Failure::Refused {
        refusal: refusal.to_string(),
        look: match refusal {
            RecordRefusal::Limit => Some(format!("there are {} bytes, and the limit is {}", old.len(), smt_echo::MAX_NODES_LEN)),
            _ => look::records(&old),
        },
    })?;
    new.truncate(length);
    Ok(new)
}
