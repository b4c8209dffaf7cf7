//! The replay of a trace.

use crate::{MAX_TRACE_ROOTS, Problem, Refusal, raw, refusal};
use std::error::Error;
use std::fmt;

/// The replay of a trace: rows of values, one for each declared variable in table order. Answers how many rows there are.
///
/// On `Ok(rows)`, bit `k` of `masks[j]` is 1 exactly when root `k` holds on row `j`, and `counts[j]` is how many of its bits are ones; what
/// lies past the rows is what it was. On `Err` every element of both is 0.
///
/// ```
/// use smt_echo::{Problem, TraceRefusal, kind, node, replay_trace};
///
/// // a = b, and a < b
/// let nodes = [
///     node(kind::VAR, [8, 0, 0, 0]),
///     node(kind::VAR, [8, 0, 0, 0]),
///     node(kind::EQ, [0, 1, 0, 0]),
///     node(kind::ULT, [0, 1, 0, 0]),
/// ]
/// .concat();
/// let problem = Problem {
///     nodes: &nodes,
///     roots: &[2, 3],
///     names: b"ab",
///     name_start: &[0, 1],
///     name_len: &[1, 1],
///     var_node: &[0, 1],
///     var_width: &[8, 8],
///     ..Problem::default()
/// };
/// let (mut masks, mut counts) = ([9; 4], [9; 4]);
/// assert_eq!(replay_trace(&problem, &[5, 5, 5, 6, 6, 5], &mut masks, &mut counts), Ok(3));
/// assert_eq!(masks, [1, 2, 0, 9]);
/// assert_eq!(counts, [1, 1, 0, 9]);
/// assert_eq!(replay_trace(&problem, &[5, 256], &mut masks, &mut counts), Err(TraceRefusal::Values));
/// assert_eq!(masks, [0; 4]);
/// ```
///
/// The evaluation is recursive: see [Stack](crate#stack).
pub fn replay_trace(problem: &Problem<'_>, values: &[u64], masks: &mut [u64], counts: &mut [u64]) -> Result<usize, TraceRefusal> {
    let answer = raw::replay_trace(problem, values, masks, counts);
    match answer.number {
        0 => Ok(answer.rows as usize),
        14 => Err(TraceRefusal::Wide),
        15 => Err(TraceRefusal::Values),
        n => Err(TraceRefusal::Printer(refusal::of_number(n))),
    }
}

/// Why [`replay_trace`] refuses a trace. If several things are wrong the order is that of [`Refusal`] but for `Room`, then `Wide`, `Values`, and
/// `Room` last.
#[derive(Clone, Copy, Debug, PartialEq, Eq, Hash)]
pub enum TraceRefusal {
    /// 14: a term that a root reaches is wider than 64 bits, or a select or call.
    Wide,
    /// 15: the values are no whole number of rows, or one does not fit the width of its variable.
    Values,
    /// A refusal of the printer. [`Refusal::Room`] is that of the two outputs; more than [`MAX_TRACE_ROOTS`] roots is [`Refusal::Limit`].
    Printer(Refusal),
}

impl TraceRefusal {
    /// The number, as in C.
    pub const fn number(self) -> u64 {
        match self {
            TraceRefusal::Wide => 14,
            TraceRefusal::Values => 15,
            TraceRefusal::Printer(refusal) => refusal.number(),
        }
    }
}

impl fmt::Display for TraceRefusal {
    fn fmt(&self, f: &mut fmt::Formatter<'_>) -> fmt::Result {
        let text = match self {
            TraceRefusal::Wide => "a term below a root is wider than 64 bits, or a select or call",
            TraceRefusal::Values => "the values are no whole number of rows, or one does not fit the width of its variable",
            TraceRefusal::Printer(Refusal::Room) => {
                return write!(f, "10 Room: masks or counts has fewer elements than there are rows, and nothing else is wrong");
            }
            TraceRefusal::Printer(Refusal::Limit) => return write!(f, "{}; for a trace {MAX_TRACE_ROOTS} roots", Refusal::Limit),
            TraceRefusal::Printer(refusal) => return refusal.fmt(f),
        };
        write!(f, "{} {self:?}: {text}", self.number())
    }
}

impl Error for TraceRefusal {}
