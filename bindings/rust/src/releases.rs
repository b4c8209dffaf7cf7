//! Releases: files of scripts in which each name has one meaning.

use crate::{raw, read_stack, script_depth, scripts};
use std::error::Error;
use std::fmt;

/// The most scripts of a release.
pub const MAX_SCRIPTS: usize = 64;

/// Tells whether each name has one meaning in a release, a file of up to [`MAX_SCRIPTS`] scripts with nothing between them.
///
/// On `Ok` [`read_script`](crate::read_script) reads every script of the file, and any two declarations of one name, in whichever scripts, are
/// the same: a variable of one width; an array of the same two widths; a function of the same width whose arguments have the same widths in
/// order. A variable and a function without arguments are not the same. Names are compared byte by byte. An empty file is accepted.
///
/// `Err` is the first of these that is so: there are more than [`MAX_SCRIPTS`] check-sat lines; a script that reading refuses, the first of them,
/// where bytes after the last check-sat line are one more script; the earliest script that declares a name otherwise than one before it.
///
/// ```
/// use smt_echo::{ReleaseRefusal, check_release};
///
/// let idx = |width: u32| format!("(set-logic QF_BV)\n(declare-const |idx| (_ BitVec {width}))\n(check-sat)\n");
/// let none = "(set-logic QF_BV)\n(check-sat)\n";
///
/// assert_eq!(check_release([&idx(16), none, &idx(16)].concat().as_bytes()), Ok(()));
///
/// let release = [&idx(16), none, &idx(17), &idx(16)].concat();
/// assert_eq!(check_release(release.as_bytes()), Err(ReleaseRefusal::TwoMeanings { script: 2 }));
///
/// // Cut short: what is left of the last script cannot be read, which is told before names are compared.
/// let short = &release.as_bytes()[..release.len() - 1];
/// assert_eq!(check_release(short), Err(ReleaseRefusal::NoScript { script: 3 }));
/// ```
///
/// Reading is recursive: with the longest script's length it takes no more than [`release_stack`] bytes of stack, as measured, and 2 MB where
/// [`release_depth`] is no more than [`MAX_SCRIPT_DEPTH`](crate::MAX_SCRIPT_DEPTH).
pub fn check_release(file: &[u8]) -> Result<(), ReleaseRefusal> {
    let answer = raw::check_release(file);
    let script = answer.script as usize;
    match answer.number {
        0 => Ok(()),
        9 => Err(ReleaseRefusal::Limit { script }),
        13 => Err(ReleaseRefusal::NoScript { script }),
        17 => Err(ReleaseRefusal::TwoMeanings { script }),
        n => unreachable!("check_release answered {n}, which its contract rules out"),
    }
}

/// Bytes of stack that suffice for [`check_release`] with any file whose longest script has so many bytes, as measured.
///
/// ```
/// assert_eq!(smt_echo::release_stack(500_000), 12_200_000);
/// ```
pub const fn release_stack(longest: usize) -> usize {
    read_stack(longest).saturating_add(700_000)
}

/// The depth of the deepest script of a file, by [`script_depth`]. What follows the last check-sat line is no script. Any bytes are answered.
///
/// A release with a script deeper than [`MAX_SCRIPT_DEPTH`](crate::MAX_SCRIPT_DEPTH) is never accepted, so that it can be turned away unread.
///
/// ```
/// assert_eq!(smt_echo::release_depth(b"(set-logic QF_BV)\n(check-sat)\n(a (b (c)))\n(check-sat)\n(((("), 3);
/// ```
pub fn release_depth(file: &[u8]) -> usize {
    scripts(file).map(script_depth).max().unwrap_or(0)
}

/// Why [`check_release`] refuses a file. The scripts are numbered from 0.
#[derive(Clone, Copy, Debug, PartialEq, Eq, Hash)]
pub enum ReleaseRefusal {
    /// 9: there are more than [`MAX_SCRIPTS`] check-sat lines; or a script's problem is over a limit, or has a number that does not fit the 32
    /// bits of its record.
    Limit {
        /// That script; [`MAX_SCRIPTS`] where there are more lines, which is told before anything is read.
        script: usize,
    },
    /// 13: the bytes of a script are no problem's, which are what [`echo_ext`](crate::echo_ext) prints.
    NoScript {
        /// The first script that reading refuses. What follows the last check-sat line is one more script.
        script: usize,
    },
    /// 17: a script declares a name with another kind, width or arguments than a script before it, and all scripts are read.
    TwoMeanings {
        /// The earliest such script. Which one before it disagrees is not told: see the declarations of its names.
        script: usize,
    },
}

impl ReleaseRefusal {
    /// Its number: 9, 13 or 17.
    pub const fn number(self) -> u64 {
        match self {
            ReleaseRefusal::Limit { .. } => 9,
            ReleaseRefusal::NoScript { .. } => 13,
            ReleaseRefusal::TwoMeanings { .. } => 17,
        }
    }

    /// The script that is told of, from 0.
    pub const fn script(self) -> usize {
        match self {
            ReleaseRefusal::Limit { script } | ReleaseRefusal::NoScript { script } | ReleaseRefusal::TwoMeanings { script } => {
                script
            }
        }
    }
}

impl fmt::Display for ReleaseRefusal {
    fn fmt(&self, f: &mut fmt::Formatter<'_>) -> fmt::Result {
        match self {
            ReleaseRefusal::Limit { script: MAX_SCRIPTS } => {
                write!(
                    f,
                    "9 Limit: there are more than {MAX_SCRIPTS} scripts, each with its line `(check-sat)`: make two releases of them"
                )
            }
            ReleaseRefusal::Limit { script } => write!(
                f,
                "9 Limit: script {script}: its problem is over a limit (34,816 node bytes, 131,072 bits, 8,192 side entries, 256 roots, 512 \
                 entries a column, 16,384 bytes an arena), or has a number that does not fit the 32 bits of a record"
            ),
            ReleaseRefusal::NoScript { script } => write!(
                f,
                "13 NoScript: script {script} is no problem's script: a script is read only as the printer writes it, byte for byte, up to \
                 and with its line `(check-sat)`"
            ),
            ReleaseRefusal::TwoMeanings { script } => write!(
                f,
                "17 TwoMeanings: script {script} declares a name with another kind, width or arguments than a script before it: rename it in \
                 one of the two, or give it one meaning in both"
            ),
        }
    }
}

impl Error for ReleaseRefusal {}
