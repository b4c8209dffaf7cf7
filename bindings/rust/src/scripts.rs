//! Files that join scripts with nothing between them.

use crate::raw;
use std::iter::FusedIterator;

/// The length of the first script in a file: up to and with its first check-sat line. `None` where the file has no such line.
///
/// A check-sat line is a whole line: `(check-sat)` and byte 10, at the start of the file or after byte 10. Any bytes are answered, also such
/// as no printer wrote; only lines are looked at.
///
/// ```
/// use smt_echo::next_script;
///
/// let file = b"(set-logic QF_BV)\n(check-sat)\n(set-logic QF_ABV)\n(check-sat)\n";
/// assert_eq!(next_script(file), Some(30));
/// assert_eq!(next_script(&file[30..]), Some(31));
/// assert_eq!(next_script(&file[61..]), None);
/// assert_eq!(next_script(b" (check-sat)\n"), None);
/// ```
pub fn next_script(file: &[u8]) -> Option<usize> {
    let answer = raw::next_script(file);
    (answer.found == 1).then_some(answer.length as usize)
}

/// The scripts of a file, in order. What follows the last check-sat line is in none of them: [`Scripts::rest`] has it.
///
/// No script that the printer prints is the beginning of a longer one, so that a file that joins scripts gives exactly these scripts back.
///
/// ```
/// use smt_echo::scripts;
///
/// let file = b"(set-logic QF_BV)\n(check-sat)\n(set-logic QF_ABV)\n(check-sat)\n(set-logic";
/// let mut found = scripts(file);
/// assert_eq!(found.next(), Some(&file[..30]));
/// assert_eq!(found.next(), Some(&file[30..61]));
/// assert_eq!(found.next(), None);
/// assert_eq!(found.rest(), b"(set-logic");
/// ```
pub fn scripts(file: &[u8]) -> Scripts<'_> {
    Scripts { rest: file }
}

/// The iterator that [`scripts`] hands out.
#[derive(Clone, Debug)]
pub struct Scripts<'a> {
    rest: &'a [u8],
}

impl<'a> Scripts<'a> {
    /// What is left of the file: once the iterator is at its end, what follows the last check-sat line.
    pub fn rest(&self) -> &'a [u8] {
        self.rest
    }
}

impl<'a> Iterator for Scripts<'a> {
    type Item = &'a [u8];

    fn next(&mut self) -> Option<&'a [u8]> {
        let (script, rest) = self.rest.split_at(next_script(self.rest)?);
        self.rest = rest;
        Some(script)
    }
}

impl FusedIterator for Scripts<'_> {}
