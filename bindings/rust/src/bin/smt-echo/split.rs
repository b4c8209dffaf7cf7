//! `split`: the scripts of a file that joins them.

use crate::{Args, Command, Failure, input, output};
use smt_echo::scripts;
use std::fs;
use std::io;
use std::path::Path;

pub const COMMAND: Command = Command {
    name: "split",
    summary: "the scripts of a file that joins scripts",
    help: "\
usage: smt-echo split [--take NUMBER | --into FOLDER] [-o FILE] [FILE]

The input joins scripts with nothing between them; a script ends with its line `(check-sat)`. Writes a line for each: its number from 0, the
byte where it starts and its length. With --take that script itself. With --into each script goes to a file NUMBER.smt2 of a folder that is
made for it, whole or not at all; nothing is written to standard output then.

Bytes after the last check-sat line belong to no script: the status is 2 then, the message tells where they start, and nothing is written.

Example:
    $ printf '(set-logic QF_BV)\\n(check-sat)\\n(set-logic QF_ABV)\\n(check-sat)\\n' > release.smt2
    $ smt-echo split release.smt2
    0 0 30
    1 30 31
    $ smt-echo split --take 1 release.smt2
    (set-logic QF_ABV)
    (check-sat)
",
    options: &[
        ("--take", "NUMBER", "write the script of this number, from 0"),
        ("--into", "FOLDER", "write each script to a file of its own in FOLDER, which is made"),
    ],
    files: 1,
    run,
};

fn run(args: &Args) -> Result<Vec<u8>, Failure> {
    if args.has("--into") && (args.has("--take") || args.out.is_some()) {
        return Err(Failure::Usage("`--into` goes with neither `--take` nor `-o`".into()));
    }
    let take = match args.value("--take") {
        None => None,
        Some(number) => match number.to_str().and_then(|number| number.parse::<usize>().ok()) {
            None => return Err(Failure::Usage("`--take` wants the number of a script".into())),
            number => number,
        },
    };
    let file = args.source(0).bytes(input::SCRIPTS)?;
    let mut found = scripts(&file);
    let all: Vec<&[u8]> = found.by_ref().collect();
    let not_done = |why: String| args.source(0).not_done(why);
    let rest = found.rest().len();
    if rest > 0 {
        return Err(not_done(format!(
            "the last {rest} bytes, from byte {} on, are no script: {} scripts stand before them",
            file.len() - rest,
            all.len()
        )));
    }
    if let Some(number) = take {
        let script = all.get(number).ok_or_else(|| not_done(format!("there is no script {number}; there are {}", all.len())))?;
        return Ok(script.to_vec());
    }
    if let Some(folder) = args.value("--into") {
        let folder = Path::new(folder);
        into(folder, &all).map_err(|error| Failure::NotDone(format!("{}: cannot be written: {error}", folder.display())))?;
        return Ok(Vec::new());
    }
    let mut at = 0;
    let mut lines = String::new();
    for (number, script) in all.iter().enumerate() {
        lines += &format!("{number} {at} {}\n", script.len());
        at += script.len();
    }
    Ok(lines.into_bytes())
}

/// A new folder with the scripts, made beside and then put in its place.
fn into(folder: &Path, scripts: &[&[u8]]) -> io::Result<()> {
    if fs::symlink_metadata(folder).is_ok() {
        return Err(io::Error::new(io::ErrorKind::AlreadyExists, "it is there already"));
    }
    let (part, ()) = output::beside(folder, |part| fs::create_dir(part))?;
    let written = scripts.iter().enumerate().try_for_each(|(number, script)| fs::write(part.join(format!("{number}.smt2")), script));
    let done = written.and_then(|()| fs::rename(&part, folder));
    if done.is_err() {
        _ = fs::remove_dir_all(&part);
    }
    done
}
