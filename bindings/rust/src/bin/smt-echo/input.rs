//! What is read: a file or standard input, and a problem in any of its forms.

use crate::{Failure, read};
use smt_echo::{OwnedProblem, TEXT_HEAD, TEXT_MARK, excerpt};
use std::fmt;
use std::fs::File;
use std::io::{self, Read};
use std::path::PathBuf;

/// The most bytes of a problem. Within the limits the binary layout has 327,824, and what `show` writes is shorter than this too.
const PROBLEM: u64 = 16 << 20;

/// The most bytes of a trace.
pub const TRACE: u64 = 256 << 20;

/// The most bytes of a file of scripts.
pub const SCRIPTS: u64 = 1 << 30;

/// Where an input comes from.
pub enum Source {
    Standard,
    File(PathBuf),
}

impl fmt::Display for Source {
    fn fmt(&self, f: &mut fmt::Formatter<'_>) -> fmt::Result {
        match self {
            Source::Standard => f.write_str("standard input"),
            Source::File(path) => path.display().fmt(f),
        }
    }
}

impl Source {
    /// The bytes of the input, up to so many.
    pub fn bytes(&self, most: u64) -> Result<Vec<u8>, Failure> {
        let (bytes, all) = self.first(most)?;
        if all { Ok(bytes) } else { Err(self.too_long(most, "")) }
    }

    /// The bytes of the input up to one more than so many, and whether that is no more than these. Of a file that is known to have more only
    /// the first few are read.
    fn first(&self, most: u64) -> Result<(Vec<u8>, bool), Failure> {
        let failed = |error: io::Error| self.not_done(format!("cannot be read: {error}"));
        let mut bytes = Vec::new();
        let more = match self {
            Source::File(path) => {
                let file = File::open(path).map_err(failed)?;
                let more = file.metadata().map_err(failed)?.len() > most;
                let taken = if more { read::HEAD.len() as u64 } else { most + 1 };
                file.take(taken).read_to_end(&mut bytes).map_err(failed)?;
                more
            }
            Source::Standard => {
                io::stdin().lock().take(most + 1).read_to_end(&mut bytes).map_err(failed)?;
                false
            }
        };
        let all = !more && bytes.len() as u64 <= most;
        Ok((bytes, all))
    }

    fn too_long(&self, most: u64, next: &str) -> Failure {
        self.not_done(format!("is longer than {most} bytes, the most that are read{next}"))
    }

    /// The problem of the input, in the form that its first bytes tell. The binary layout begins with a count whose upper bytes are 0.
    pub fn problem(&self) -> Result<OwnedProblem, Failure> {
        let (bytes, all) = self.first(PROBLEM)?;
        if !all {
            let script = bytes.starts_with(read::HEAD);
            Err(self.too_long(PROBLEM, if script { " of a problem; `smt-echo read` reads a longer script" } else { "" }))
        } else if bytes.is_empty() {
            Err(self.not_done("is empty, and no problem: the empty problem is the line `problem`".into()))
        } else if bytes.starts_with(read::HEAD) {
            read::script(&bytes)
        } else if bytes.strip_prefix(TEXT_MARK).unwrap_or(&bytes).starts_with(TEXT_HEAD.as_bytes()) {
            OwnedProblem::from_text(&bytes).map_err(|error| self.malformed(error))
        } else if bytes.get(4..8).map_or(!bytes.contains(&0), |upper| upper != [0; 4]) {
            let first = bytes.split(|byte| *byte == b'\n').next().unwrap_or_default();
            Err(self.not_done(format!(
                "is no problem: its first line is `{}`, and it begins neither with the line `problem`, nor with a count of the binary \
                 layout, nor with `(set-logic `",
                excerpt(first)
            )))
        } else {
            OwnedProblem::from_layout(&bytes)
                .map_err(|error| self.not_done(format!("is no problem in the binary layout: {error}")))
        }
    }

    pub fn not_done(&self, why: String) -> Failure {
        Failure::NotDone(format!("{self}: {why}"))
    }

    /// What is wrong with a text, by line and column.
    pub fn malformed(&self, error: smt_echo::TextError) -> Failure {
        Failure::NotDone(format!("{self}:{}:{}: {}", error.line, error.column, error.message))
    }
}
