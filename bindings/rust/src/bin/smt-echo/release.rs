//! `release`: whether each name has one meaning in the scripts of a release.

use crate::input::{SCRIPTS, Source};
use crate::{Args, Command, Failure, read};
use smt_echo::{MAX_SCRIPTS, ReleaseRefusal, check_release, release_stack, scripts};
use std::collections::HashMap;

pub const COMMAND: Command = Command {
    name: "release",
    summary: "whether each name has one meaning in the scripts of a release",
    help: "\
usage: smt-echo release [-o FILE] [FILE ..]

A release is up to 64 scripts with nothing between them: the files one behind the other in this order, or standard input. It is accepted
if every script can be read back, and each name has the same kind, widths and arguments in every script that declares it. Writes how
many scripts there are.

Scripts are numbered from 0 over all files. Refused with 9 if there are more than 64 or one is over a limit, with 13 if one cannot be
read (bytes after the last check-sat line are one more), and with 17 if one declares a name otherwise than one before it. What to look
at is then the file and line; for 17 the name, and its declaration in both scripts.

Example:
    $ printf 'problem\\n0 var 16\\n1 eq 0 0\\nroot 1\\nvariable |i| 16 node 0\\n' > rule
    $ smt-echo print -o a.smt2 rule
    $ sed s/16/17/ rule | smt-echo print -o b.smt2
    $ smt-echo release a.smt2 a.smt2
    scripts 2
    $ smt-echo release a.smt2 a.smt2 b.smt2 2>&1 | tail -n 1
    look at: |i|: (declare-const |i| (_ BitVec 16)) in script 0, a.smt2:2; (declare-const |i| (_ BitVec 17)) in script 2, b.smt2:2
",
    options: &[],
    files: usize::MAX,
    run,
};

fn run(args: &Args) -> Result<Vec<u8>, Failure> {
    let release = Release::joined(args.sources())?;
    let file = &release.bytes[..];
    let stack = read::longest_deep(scripts(file).take(MAX_SCRIPTS)).map(release_stack);
    match read::with_stack(stack, || check_release(file))? {
        Ok(()) => Ok(format!("scripts {}\n", scripts(file).count()).into_bytes()),
        Err(refusal) => Err(Failure::Refused { refusal: refusal.to_string(), look: Some(release.look(refusal)) }),
    }
}

/// Files one behind the other.
struct Release<'a> {
    bytes: Vec<u8>,
    /// Where each begins.
    files: Vec<(usize, &'a Source)>,
}

impl<'a> Release<'a> {
    fn joined(sources: &'a [Source]) -> Result<Release<'a>, Failure> {
        if sources.iter().filter(|source| matches!(source, Source::Standard)).count() > 1 {
            return Err(Failure::Usage("`-`, standard input, can be read once".into()));
        }
        let mut release = Release { bytes: Vec::new(), files: Vec::new() };
        for source in sources {
            release.files.push((release.bytes.len(), source));
            let mut bytes = source.bytes(SCRIPTS)?;
            if (release.bytes.len() + bytes.len()) as u64 > SCRIPTS {
                return Err(source.not_done(format!("with it the release is longer than {SCRIPTS} bytes, the most that are read")));
            }
            release.bytes.append(&mut bytes);
        }
        Ok(release)
    }

    /// A byte's file and line.
    fn place(&self, at: usize) -> String {
        let (start, source) = self.files.iter().rfind(|(start, _)| *start <= at).expect("a file begins at 0");
        let line = self.bytes[*start..at].iter().filter(|byte| **byte == b'\n').count() + 1;
        format!("{source}:{line}")
    }

    /// What to look at in a refused release.
    fn look(&self, refusal: ReleaseRefusal) -> String {
        let number = refusal.script();
        let begins = self.begins(number);
        let whole = || format!("script {number}, which begins at {}", self.place(begins));
        match refusal {
            ReleaseRefusal::Limit { script: MAX_SCRIPTS } => format!("{}; there are {}", whole(), scripts(&self.bytes).count()),
            ReleaseRefusal::Limit { .. } | ReleaseRefusal::NoScript { .. } => {
                let script = scripts(&self.bytes).nth(number).unwrap_or(&self.bytes[begins..]);
                let look = if let ReleaseRefusal::Limit { .. } = refusal { read::over } else { read::fault };
                match look(script) {
                    None => whole(),
                    Some(read::Fault { line: None, text }) => format!("{}: {text}", whole()),
                    Some(read::Fault { line: Some(line), text }) => {
                        let before: usize = script.split_inclusive(|byte| *byte == b'\n').take(line - 1).map(<[u8]>::len).sum();
                        format!("script {number}, {}: {text}", self.place(begins + before))
                    }
                }
            }
            ReleaseRefusal::TwoMeanings { .. } => self.meanings(number).unwrap_or_else(whole),
        }
    }

    /// Where a script begins, or what follows the last.
    fn begins(&self, number: usize) -> usize {
        scripts(&self.bytes).take(number).map(<[u8]>::len).sum()
    }

    /// A name that a script declares otherwise than one before it, with both declarations: the first such name of the script, and the first script
    /// that has it.
    fn meanings(&self, number: usize) -> Option<String> {
        let mut before: HashMap<&[u8], Declaration<'_>> = HashMap::new();
        let mut begins = 0;
        for (script, text) in scripts(&self.bytes).enumerate().take(number + 1) {
            let declared = declarations(text).map(|(at, name, line)| Declaration { script, at: begins + at, name, line });
            if script < number {
                declared.for_each(|declaration| _ = before.entry(declaration.name).or_insert(declaration));
            } else {
                let differ = |other: &Declaration<'_>| before.get(other.name).is_some_and(|one| one.line != other.line);
                let differing: Vec<Declaration<'_>> = declared.filter(differ).collect();
                let other = differing.first()?;
                let one = &before[other.name];
                let more = match differing.len() - 1 {
                    0 => String::new(),
                    1 => "; and one name more of that script".into(),
                    count => format!("; and {count} names more of that script"),
                };
                let name = shortened(other.name, 0);
                return Some(format!("{name}: {}; {}{more}", self.told(one, other), self.told(other, one)));
            }
            begins += text.len();
        }
        None
    }

    /// A declaration that differs from another, with its place.
    fn told(&self, one: &Declaration<'_>, other: &Declaration<'_>) -> String {
        let differs = one.line.iter().zip(other.line).take_while(|(a, b)| a == b).count();
        format!("{} in script {}, {}", shortened(one.line, differs), one.script, self.place(one.at))
    }
}

struct Declaration<'a> {
    script: usize,
    /// Where it begins in the release.
    at: usize,
    /// With its bars.
    name: &'a [u8],
    line: &'a [u8],
}

/// The declarations of a script that is read: place, name with its bars, and line.
fn declarations(script: &[u8]) -> impl Iterator<Item = (usize, &[u8], &[u8])> {
    let mut at = 0;
    let lines = script.split_inclusive(|byte| *byte == b'\n').map(move |line| {
        at += line.len();
        (at - line.len(), line.trim_ascii_end())
    });
    lines.skip(1).take_while(|(_, line)| line.starts_with(b"(declare-")).filter_map(|(at, line)| {
        let start = line.iter().position(|byte| *byte == b'|')?;
        let length = line[start + 1..].iter().position(|byte| *byte == b'|')?;
        Some((at, &line[start..start + length + 2], line))
    })
}

/// A text for a message: of a long one the start, and what stands around a place.
fn shortened(text: &[u8], place: usize) -> String {
    const WHOLE: usize = 200;
    const PART: usize = 60;
    let shown = |part: &[u8]| String::from_utf8_lossy(part).into_owned();
    if text.len() <= WHOLE {
        return shown(text);
    }
    let from = place.saturating_sub(PART / 2).max(PART);
    let to = (from + PART).min(text.len());
    let start = shown(&text[..PART]);
    match (place < PART, to < text.len()) {
        (true, _) => format!("{start} .."),
        (false, true) => format!("{start} .. {} ..", shown(&text[from..to])),
        (false, false) => format!("{start} .. {}", shown(&text[from..])),
    }
}
