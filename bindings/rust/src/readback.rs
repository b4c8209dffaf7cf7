//! Scripts read back.

use crate::owned::{InputMut, OwnedProblem, ProblemMut};
use crate::{MAX_ARENA_LEN, MAX_BITS_LEN, MAX_COLUMN_LEN, MAX_NODES_LEN, MAX_ROOTS_LEN, MAX_SIDE_LEN, raw};
use std::error::Error;
use std::fmt;

/// Reads a script back into a problem: the nodes, bits, side entries, roots and tables that [`echo_ext`](crate::echo_ext) prints as this
/// script, byte for byte.
///
/// A script does not tell which problem it was printed from, so the nodes are placed by a rule: the variables in the order of their
/// declarations; then for each function in order that no assertion calls a call on zeros; then the terms, each as its last operand ends. Equal
/// constants are one node, and the amount of a rotation is a constant as wide as the rotation. A new constant stands just before the first
/// term, in the order of nodes, that uses it, several for one term in the order of the script. Bits, side entries and names follow the nodes
/// and tables without gaps; an empty list starts at the end so far.
///
/// The outputs are set aside as long as the limits allow, so that [`ReadRefusal::Room`] does not occur. The bytes are one script and nothing
/// else: [`scripts`](crate::scripts) cuts a file of several.
///
/// ```
/// use smt_echo::{ReadRefusal, kind, node, read_script};
///
/// let script = b"(set-logic QF_BV)\n(declare-const |x| (_ BitVec 8))\n(assert (bvult |x| #b00000101))\n(check-sat)\n";
/// let problem = read_script(script)?;
/// assert_eq!(problem.nodes[17..34], node(kind::CONST, [0, 8, 0, 0]));
/// assert_eq!(problem.nodes[34..], node(kind::ULT, [0, 1, 0, 0]));
/// assert_eq!(problem.bits, [1, 0, 1, 0, 0, 0, 0, 0]);
/// assert_eq!(problem.names, b"x");
///
/// assert_eq!(read_script(b"(set-logic  QF_BV)\n(check-sat)\n"), Err(ReadRefusal::NoScript)); // two blanks
/// # Ok::<(), ReadRefusal>(())
/// ```
///
/// Reading is recursive, and a script nested deeply is read to its end before it is refused. As measured, 2 MB of stack suffice for a script that
/// is no deeper than [`MAX_SCRIPT_DEPTH`], and [`read_stack`]`(script.len())` bytes for any other: who takes files from strangers asks
/// [`script_depth`] first, or calls it on a thread with that much.
pub fn read_script(script: &[u8]) -> Result<OwnedProblem, ReadRefusal> {
    let mut problem = OwnedProblem::default();
    for (output, most) in problem.inputs_mut().into_iter().zip(LIMITS) {
        match output {
            InputMut::Bytes(bytes) => *bytes = vec![0; most],
            InputMut::Numbers(numbers) => *numbers = vec![0; most],
        }
    }
    let sizes = read_script_into(script, &mut problem.lend_mut())?;
    for (output, used) in problem.inputs_mut().into_iter().zip(sizes.lengths()) {
        match output {
            InputMut::Bytes(bytes) => bytes.truncate(used),
            InputMut::Numbers(numbers) => numbers.truncate(used),
        }
    }
    Ok(problem)
}

/// The most elements of each of the eighteen, in order.
const LIMITS: [usize; 18] = {
    let (arena, column) = (MAX_ARENA_LEN, MAX_COLUMN_LEN);
    [
        MAX_NODES_LEN,
        MAX_BITS_LEN,
        MAX_SIDE_LEN,
        MAX_ROOTS_LEN,
        arena,
        column,
        column,
        column,
        column,
        arena,
        column,
        column,
        column,
        column,
        arena,
        column,
        column,
        column,
    ]
};

/// Reads a script as [`read_script`] does, into outputs that are lent.
///
/// On `Ok(sizes)` each output begins with its part of the problem, and what lies past that is what it was. On `Err` every element of every
/// output is 0.
pub fn read_script_into(script: &[u8], out: &mut ProblemMut<'_>) -> Result<ReadSizes, ReadRefusal> {
    let answer = raw::read_script(script, out);
    match answer.number {
        0 => Ok(ReadSizes {
            nodes: answer.nodes as usize,
            bits: answer.bits as usize,
            side: answer.side as usize,
            roots: answer.roots as usize,
            names: answer.names as usize,
            variables: answer.variables as usize,
            anames: answer.anames as usize,
            arrays: answer.arrays as usize,
            fnames: answer.fnames as usize,
            functions: answer.functions as usize,
        }),
        9 => Err(ReadRefusal::Limit),
        10 => Err(ReadRefusal::Room),
        13 => Err(ReadRefusal::NoScript),
        n => unreachable!("read_script answered {n}, which its contract rules out"),
    }
}

/// How many elements of each output [`read_script_into`] used. The columns of a table are of one length, told once.
#[derive(Clone, Copy, Debug, Default, PartialEq, Eq, Hash)]
pub struct ReadSizes {
    /// Of `nodes`: bytes, [`NODE_BYTES`](crate::NODE_BYTES) a record.
    pub nodes: usize,
    /// Of `bits`.
    pub bits: usize,
    /// Of `side`.
    pub side: usize,
    /// Of `roots`.
    pub roots: usize,
    /// Of `names`.
    pub names: usize,
    /// Of each of `name_start`, `name_len`, `var_node` and `var_width`.
    pub variables: usize,
    /// Of `anames`.
    pub anames: usize,
    /// Of each of `aname_start`, `aname_len`, `index_width` and `value_width`.
    pub arrays: usize,
    /// Of `fnames`.
    pub fnames: usize,
    /// Of each of `fname_start`, `fname_len` and `func_width`.
    pub functions: usize,
}

impl ReadSizes {
    /// The elements of each of the eighteen, in order.
    pub fn lengths(&self) -> [usize; 18] {
        let ReadSizes { nodes, bits, side, roots, names, variables: v, anames, arrays: a, fnames, functions: f } = *self;
        [nodes, bits, side, roots, names, v, v, v, v, anames, a, a, a, a, fnames, f, f, f]
    }
}

/// The most brackets that are open at once in a script that is accepted: one of `(assert`, one a node, one a store, one of `(_`.
pub const MAX_SCRIPT_DEPTH: usize = 6_146;

/// Bytes of stack that suffice for [`read_script`] with any script of so many bytes, as measured. One that is no deeper than
/// [`MAX_SCRIPT_DEPTH`] takes 2 MB at most.
///
/// A thread for any script of 100,000 bytes:
///
/// ```
/// assert_eq!(smt_echo::read_stack(100_000), 3_500_000);
/// ```
pub const fn read_stack(script_len: usize) -> usize {
    script_len.saturating_mul(20).saturating_add(1_500_000)
}

/// The most brackets that are open at once in a script. A name stands between bars, and its brackets are none. Any bytes are answered.
///
/// A script deeper than [`MAX_SCRIPT_DEPTH`] is never accepted, so that it can be turned away unread; one within it takes no more than 2 MB of
/// stack.
///
/// ```
/// use smt_echo::script_depth;
///
/// assert_eq!(script_depth(b"(set-logic QF_BV)\n(declare-const |((((| (_ BitVec 8))\n(check-sat)\n"), 2);
/// ```
pub fn script_depth(script: &[u8]) -> usize {
    let (mut depth, mut most, mut in_name) = (0_usize, 0, false);
    for byte in script {
        match byte {
            b'|' => in_name = !in_name,
            b'(' if !in_name => {
                depth += 1;
                most = most.max(depth);
            }
            b')' if !in_name => depth = depth.saturating_sub(1),
            _ => {}
        }
    }
    most
}

/// Why [`read_script`] refuses bytes. If several things are wrong the order is `NoScript`, `Limit`, `Room`.
#[derive(Clone, Copy, Debug, PartialEq, Eq, Hash)]
pub enum ReadRefusal {
    /// 13: the bytes are no problem's script, which is what [`echo_ext`](crate::echo_ext) prints, byte for byte. A problem may have any
    /// number of nodes, bits, side entries and roots and any operand here, but no width of 2^64 or more.
    NoScript,
    /// 9: the problem that the script is rebuilt as is over a limit, or a number of it does not fit the 32 bits of its record.
    Limit,
    /// 10: an output is too short, and nothing else is wrong. [`read_script`] never answers this.
    Room,
}

impl ReadRefusal {
    /// Its number: 9, 10 or 13.
    pub const fn number(self) -> u64 {
        match self {
            ReadRefusal::NoScript => 13,
            ReadRefusal::Limit => 9,
            ReadRefusal::Room => 10,
        }
    }
}

impl fmt::Display for ReadRefusal {
    fn fmt(&self, f: &mut fmt::Formatter<'_>) -> fmt::Result {
        let text = match self {
            ReadRefusal::NoScript => {
                "the bytes are no problem's script: a script is read only as the printer writes it, byte for byte, with no other blank, \
                 comment, spelling, order or logic line"
            }
            ReadRefusal::Limit => {
                "the script's problem is over a limit (34,816 node bytes, 131,072 bits, 8,192 side entries, 256 roots, 512 entries a \
                 column, 16,384 bytes an arena), or has a number that does not fit the 32 bits of a record"
            }
            ReadRefusal::Room => {
                "an output is shorter than its part of the problem, and nothing else is wrong: call again with a longer one"
            }
        };
        write!(f, "{} {self:?}: {text}", self.number())
    }
}

impl Error for ReadRefusal {}
