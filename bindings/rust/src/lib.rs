//! A printer of SMT-LIB scripts, proved: a problem over bit-vectors, arrays and functions is printed whole or refused by a number.
//!
//! This package is a thin, safe layer over the proved library. [`echo_ext`] prints a [`Problem`], [`echo_hidden`] prints it with constants
//! hidden, [`echo_let`] with shared terms bound by `let`, [`echo_formulas`] writes its roots as the lines of a map file, [`echo_size`] tells
//! beforehand how long its script is, [`fewest_roots`] tells which roots of a refused one matter, [`replay_trace`] which assertions hold on
//! logged values, [`ext_wf`] is the width pass alone, [`scripts`] cuts a file that joins scripts, [`check_release`] tells whether each name has
//! one meaning in it, [`read_script`] reads a script back into a problem, and [`shorten_records`] and [`lengthen_records`] convert node records
//! into shorter ones and back.
//! Terms are node records ([`node`], [`kind`]), and every input is a slice that is lent for the call. An [`OwnedProblem`] has slices of its
//! own, and is read from and written to files. The command `smt-echo` of this package is over the same functions (docs/COMMAND.md).
//!
//! Is there an 8-bit `x` with `x + 5 = x`?
//!
//! ```
//! use smt_echo::{Problem, echo_ext, echo_size, kind, node};
//!
//! let nodes = [
//!     node(kind::VAR, [8, 0, 0, 0]),   // 0: a variable of width 8
//!     node(kind::CONST, [0, 8, 0, 0]), // 1: the constant of the 8 bits from bit 0 on
//!     node(kind::ADD, [0, 1, 0, 0]),   // 2: node 0 + node 1
//!     node(kind::EQ, [2, 0, 0, 0]),    // 3: node 2 = node 0
//! ]
//! .concat();
//! let problem = Problem {
//!     nodes: &nodes,
//!     bits: &[1, 0, 1, 0, 0, 0, 0, 0], // 5, the lowest bit first
//!     roots: &[3],
//!     names: b"x",
//!     name_start: &[0],
//!     name_len: &[1],
//!     var_node: &[0],
//!     var_width: &[8],
//!     ..Problem::default()
//! };
//! let mut out = vec![0; echo_size(&problem)?.length];
//! let length = echo_ext(&problem, &mut out)?;
//! assert_eq!(
//!     std::str::from_utf8(&out[..length])?,
//!     "(set-logic QF_BV)\n\
//!      (declare-const |x| (_ BitVec 8))\n\
//!      (assert (= (bvadd |x| #b00000101) |x|))\n\
//!      (check-sat)\n"
//! );
//! # Ok::<(), Box<dyn std::error::Error>>(())
//! ```
//!
//! # Stack
//!
//! The walk over the terms is recursive, and its depth comes from the problem. The repository's README.md has the stack that it
//! needs. On a thread with less, a deep problem ends the process, as any overflow of the stack does; nothing is proved about the stack.
//! Reading a script is recursive too, and so is the check of a release, which reads its scripts: [`read_stack`] and
//! [`release_stack`] tell what they take.

#![deny(missing_docs)]
#![deny(unsafe_code)]

mod csv;
pub mod kind;
mod layout;
mod owned;
#[allow(unsafe_code)]
mod raw;
mod readback;
mod records;
mod refusal;
mod releases;
mod scripts;
mod text;
mod traces;

pub use csv::Trace;
pub use layout::LayoutError;
pub use owned::{Input, OwnedProblem, ProblemMut};
pub use readback::{MAX_SCRIPT_DEPTH, ReadRefusal, ReadSizes, read_script, read_script_into, read_stack, script_depth};
pub use records::{RecordRefusal, lengthen_records, shorten_records};
pub use refusal::{Refusal, WidthRefusal};
pub use releases::{MAX_SCRIPTS, ReleaseRefusal, check_release, release_depth, release_stack};
pub use scripts::{Scripts, next_script, scripts};
pub use text::{TEXT_HEAD, TEXT_MARK, TextError, excerpt, node_parts, quoted_name};
pub use traces::{TraceRefusal, replay_trace};

/// Bytes of a node record.
pub const NODE_BYTES: usize = 17;
/// The most node records.
pub const MAX_NODES: usize = 2_048;
/// The most elements of [`Problem::nodes`]: [`MAX_NODES`] records.
pub const MAX_NODES_LEN: usize = MAX_NODES * NODE_BYTES;
/// The most elements of [`Problem::bits`].
pub const MAX_BITS_LEN: usize = 131_072;
/// The most elements of [`Problem::side`].
pub const MAX_SIDE_LEN: usize = 8_192;
/// The most elements of [`Problem::roots`].
pub const MAX_ROOTS_LEN: usize = 256;
/// The most elements of any table column: `name_start`, `name_len`, `var_node`, `var_width`, `aname_start`, `aname_len`,
/// `index_width`, `value_width`, `fname_start`, `fname_len`, `func_width`.
pub const MAX_COLUMN_LEN: usize = 512;
/// The most bytes of any arena: `names`, `anames`, `fnames`.
pub const MAX_ARENA_LEN: usize = 16_384;
/// The widest index and the widest value of an array.
pub const MAX_ARRAY_WIDTH: u64 = 65_536;
/// The most elements of [`Problem::roots`] for [`replay_trace`]: one for each bit of a mask.
pub const MAX_TRACE_ROOTS: usize = 64;

/// A problem: eighteen slices, which are only read. The default is the empty problem, of which every slice is empty.
///
/// The three tables have columns of one length each. Entry `i` of a table has the name `arena[start[i]..start[i] + len[i]]`. Names are
/// bytes from 32 on other than 127, `|` and `\`, not empty, and all different, over the tables too. The first byte is no `@` and no `.`, and the
/// words of SMT-LIB, 2.7 too, and some of solvers' (`bvadd`, `let`, `int_to_bv`, ..) are reserved.
///
/// Bytes from 128 on are permitted, so that a name may be a `str` in any alphabet, or bytes in any other encoding; a script has them as they
/// are, and is UTF-8 only if its names are. Names are compared byte by byte: two spellings of one letter are two names.
#[derive(Clone, Copy, Debug, Default, PartialEq, Eq, Hash)]
pub struct Problem<'a> {
    /// Node records of [`NODE_BYTES`] bytes each, as [`node`] makes them. An operand is the number of an earlier node.
    pub nodes: &'a [u8],
    /// The bits of constants, each 0 or 1, the least significant first. A constant node says where its bits are.
    pub bits: &'a [u8],
    /// The side entries: the stores of selects and the arguments of calls, as numbers of nodes. A select or call says where its own are.
    pub side: &'a [u64],
    /// The nodes that are asserted, in order. Each must be Bool.
    pub roots: &'a [u64],
    /// The arena of the variables' names.
    pub names: &'a [u8],
    /// For each variable, where its name starts in the arena.
    pub name_start: &'a [u64],
    /// For each variable, how long its name is.
    pub name_len: &'a [u64],
    /// For each variable, its node.
    pub var_node: &'a [u64],
    /// For each variable, its width, which is its node's.
    pub var_width: &'a [u64],
    /// The arena of the arrays' names.
    pub anames: &'a [u8],
    /// For each array, where its name starts in the arena.
    pub aname_start: &'a [u64],
    /// For each array, how long its name is.
    pub aname_len: &'a [u64],
    /// For each array, the width of its index: from 1 to [`MAX_ARRAY_WIDTH`].
    pub index_width: &'a [u64],
    /// For each array, the width of its value, and so of a select from it: from 1 to [`MAX_ARRAY_WIDTH`].
    pub value_width: &'a [u64],
    /// The arena of the functions' names. A function's argument widths are those of the first node that calls it.
    pub fnames: &'a [u8],
    /// For each function, where its name starts in the arena.
    pub fname_start: &'a [u64],
    /// For each function, how long its name is.
    pub fname_len: &'a [u64],
    /// For each function, the width of its result.
    pub func_width: &'a [u64],
}

/// The record of a node: its kind and four operands, each with the least significant byte first.
///
/// [`kind`] says which operands a kind has. Those that it does not have are 0, or the record is refused by
/// [`Refusal::Encoding`].
///
/// ```
/// use smt_echo::{kind, node};
///
/// let record = node(kind::ZERO_EXT, [3, 258, 0, 0]);
/// assert_eq!(record, [16, 3, 0, 0, 0, 2, 1, 0, 0, 0, 0, 0, 0, 0, 0, 0, 0]);
/// ```
pub fn node(kind: u8, operands: [u32; 4]) -> [u8; NODE_BYTES] {
    let mut record = [0; NODE_BYTES];
    record[0] = kind;
    for (place, operand) in record[1..].chunks_exact_mut(4).zip(operands) {
        place.copy_from_slice(&operand.to_le_bytes());
    }
    record
}

/// Prints a problem as an SMT-LIB script, and answers the script's length.
///
/// On `Ok(length)` the script is `out[..length]`, and `out[length..]` is what it was. On `Err` every byte of `out` is 0. The answer and
/// all of `out` depend on the problem and on what `out` was, and on nothing else.
///
/// [`Refusal::Room`] comes last: it says that nothing is wrong but the length of `out`. The length that is needed is not answered here:
/// [`echo_size`] tells the length to set aside.
///
/// ```
/// use smt_echo::{Problem, Refusal, echo_ext};
///
/// let mut out = [b'.'; 32];
/// assert_eq!(echo_ext(&Problem::default(), &mut out), Ok(30));
/// assert_eq!(&out, b"(set-logic QF_BV)\n(check-sat)\n..");
///
/// assert_eq!(echo_ext(&Problem::default(), &mut out[..29]), Err(Refusal::Room));
/// assert_eq!(out[..29], [0; 29]);
/// ```
///
/// The walk is recursive: see [Stack](crate#stack).
pub fn echo_ext(problem: &Problem<'_>, out: &mut [u8]) -> Result<usize, Refusal> {
    length_of(raw::echo_ext(problem, out))
}

fn length_of(answer: raw::EchoAnswer) -> Result<usize, Refusal> {
    match answer.number {
        0 => Ok(answer.length as usize),
        n => Err(refusal::of_number(n)),
    }
}

/// Prints a problem as [`echo_ext`] does, but each constant shows zeros in its width: a script that can be sent on without the addresses
/// that are in it.
///
/// The length or the refusal is the one that [`echo_ext`] answers with a buffer of the same length, and `out` is treated alike. Two
/// problems that differ in bits alone, each 0 or 1, and in none that lies in the constant of some rotation's amount, reached or not, have
/// the same answer and the same script.
///
/// A hidden script still shows names, widths, the amounts of rotations, the numbers of extracts and extensions, and the shape of the
/// terms. Nothing is promised about equal problems: two problems with one hidden script may differ in any constant, and a solver's answer
/// to a hidden script says nothing about the problem. While the call runs `out` holds the plain script; when it is back it does not.
///
/// ```
/// use smt_echo::{Problem, echo_hidden, kind, node};
///
/// let nodes = [
///     node(kind::VAR, [8, 0, 0, 0]),
///     node(kind::CONST, [0, 8, 0, 0]),
///     node(kind::ROTL, [0, 1, 0, 0]), // by the constant, 3
///     node(kind::EQ, [2, 1, 0, 0]),
/// ]
/// .concat();
/// let problem = Problem {
///     nodes: &nodes,
///     bits: &[1, 1, 0, 0, 0, 0, 0, 0],
///     roots: &[3],
///     names: b"x",
///     name_start: &[0],
///     name_len: &[1],
///     var_node: &[0],
///     var_width: &[8],
///     ..Problem::default()
/// };
/// let mut out = [0; 200];
/// let length = echo_hidden(&problem, &mut out)?;
/// assert!(out[..length].ends_with(b"(assert (= ((_ rotate_left 3) |x|) #b00000000))\n(check-sat)\n"));
/// # Ok::<(), Box<dyn std::error::Error>>(())
/// ```
///
/// The walk is recursive: see [Stack](crate#stack).
pub fn echo_hidden(problem: &Problem<'_>, out: &mut [u8]) -> Result<usize, Refusal> {
    length_of(raw::echo_hidden(problem, out))
}

/// Prints a problem as [`echo_ext`] does, with each shared term bound by `let`: in each assertion every node that is no variable and no
/// constant, is reached from the root and is used twice or more is bound under the name `d` and its number, the lowest node outermost.
///
/// Uses are counted as for [`Refusal::Shared`], which does not occur here; a declared name that is a shared node's is [`Refusal::Clash`] in
/// its place. Equal scripts mean equal trees; equal trees may have different scripts. A problem without shared nodes is answered as by
/// [`echo_ext`], byte for byte.
///
/// No function tells the length of this script: [`echo_size`] speaks of the plain one. Begin with some length (the command does with 1 MB) and
/// double it until the answer is not [`Refusal::Room`]; a problem within the limits can need more than a machine has.
///
/// ```
/// use smt_echo::{Problem, echo_let, kind, node};
///
/// let nodes = [
///     node(kind::VAR, [8, 0, 0, 0]),
///     node(kind::NEG, [0, 0, 0, 0]), // 1: used twice
///     node(kind::EQ, [1, 1, 0, 0]),
/// ]
/// .concat();
/// let problem = Problem {
///     nodes: &nodes,
///     roots: &[2],
///     names: b"x",
///     name_start: &[0],
///     name_len: &[1],
///     var_node: &[0],
///     var_width: &[8],
///     ..Problem::default()
/// };
/// let mut out = [0; 200];
/// let length = echo_let(&problem, &mut out)?;
/// assert!(std::str::from_utf8(&out[..length])?.contains("(assert (let ((|d1| (bvneg |x|))) (= |d1| |d1|)))\n"));
/// # Ok::<(), Box<dyn std::error::Error>>(())
/// ```
///
/// The walk is recursive: see [Stack](crate#stack).
pub fn echo_let(problem: &Problem<'_>, out: &mut [u8]) -> Result<usize, Refusal> {
    length_of(raw::echo_let(problem, out))
}

/// Prints the roots of a problem as formulas, one line a root ended by byte 10: the lines of a map file, as a person would write them.
///
/// From the loosest: `or`; `and`; `bor`; `bxor`; `band`; `==` `!=`; `<` `<=` `>` `>=`; `<<` `>>`; `+` `-`; `*` `/` `%`; and before an operand
/// `!` `~` `-`. Comparisons, division and remainder are the unsigned ones and `>>` is the logical shift; all other kinds stand by their
/// SMT-LIB name, as in `extract(7, 0, |x|)`, a call by its own, as in `|f|(|x|, |y|)`. Operators of one level group to the left, and brackets
/// stand only where leaving out a pair would change the tree. The refusals are those of [`echo_ext`]; [`Refusal::Room`] is about these lines.
/// Without roots the length is 0. On `Err` every byte of `out` is 0, and past the lines `out` is what it was. Twice the length that
/// [`echo_size`] tells suffices for `out`: what is longer in a line is a comma between arguments, or `==` in brackets, a byte each. No
/// proof says so.
///
/// ```
/// use smt_echo::{Problem, echo_formulas, kind, node};
///
/// let nodes = [
///     node(kind::VAR, [8, 0, 0, 0]),
///     node(kind::CONST, [0, 8, 0, 0]),
///     node(kind::ADD, [0, 1, 0, 0]),
///     node(kind::EQ, [2, 0, 0, 0]),
/// ]
/// .concat();
/// let problem = Problem {
///     nodes: &nodes,
///     bits: &[1, 0, 1, 0, 0, 0, 0, 0],
///     roots: &[3],
///     names: b"x",
///     name_start: &[0],
///     name_len: &[1],
///     var_node: &[0],
///     var_width: &[8],
///     ..Problem::default()
/// };
/// let mut out = [0; 100];
/// let length = echo_formulas(&problem, &mut out)?;
/// assert_eq!(std::str::from_utf8(&out[..length])?, "|x| + #b00000101 == |x|\n");
/// # Ok::<(), Box<dyn std::error::Error>>(())
/// ```
///
/// The walk is recursive: see [Stack](crate#stack).
pub fn echo_formulas(problem: &Problem<'_>, out: &mut [u8]) -> Result<usize, Refusal> {
    length_of(raw::echo_formulas(problem, out))
}

/// What [`echo_size`] tells of a script.
#[derive(Clone, Copy, Debug, PartialEq, Eq, Hash)]
pub struct Size {
    /// The script's length in bytes. It is below 2^42, which can be more than a machine has.
    pub length: usize,
    /// How many terms the walk over the roots enters: variables, constants and operators, each as often as it stands there. A rotation's
    /// amount is none; a select is one, with its index and the index and value of each store. Terms other than variables and constants
    /// are no more than there are nodes.
    pub terms: u64,
}

/// The size of the script that [`echo_ext`] prints, so that the output can be set aside beforehand.
///
/// On `Ok(size)`, [`echo_ext`] accepts with a buffer of `size.length` bytes or more, and refuses by [`Refusal::Room`] with fewer. `Err` is
/// the refusal that [`echo_ext`] answers whatever the buffer, so it is never [`Refusal::Room`].
///
/// ```
/// use smt_echo::{Problem, Refusal, Size, echo_size};
///
/// assert_eq!(echo_size(&Problem::default()), Ok(Size { length: 30, terms: 0 }));
/// assert_eq!(echo_size(&Problem { roots: &[0], ..Problem::default() }), Err(Refusal::Malformed));
/// ```
///
/// It is not recursive.
pub fn echo_size(problem: &Problem<'_>) -> Result<Size, Refusal> {
    let answer = raw::echo_size(problem);
    match answer.number {
        0 => Ok(Size { length: answer.length as usize, terms: answer.terms }),
        n => Err(refusal::of_number(n)),
    }
}

/// What [`fewest_roots`] tells of a problem.
#[derive(Clone, Copy, Debug, PartialEq, Eq, Hash)]
pub struct Fewest {
    /// What [`echo_ext`] answers with an endless buffer: nothing where it accepts, or else its refusal. It is never [`Refusal::Room`].
    pub refusal: Option<Refusal>,
    positions: [usize; 2],
    count: usize,
}

impl Fewest {
    /// The positions in `roots`, rising from 0: none, one or two.
    pub fn positions(&self) -> &[usize] {
        &self.positions[..self.count]
    }
}

/// The fewest roots with which a problem is still refused by the same number.
///
/// For a refusal from 1 to 7 the positions are the shortest rising list of places in `roots` whose roots, in that order and alone, give the
/// problem the same refusal: the first is as early as can be, and then the second. Two always suffice; there are none where the refusal does
/// not depend on the roots. For any other answer there are none.
///
/// ```
/// use smt_echo::{Problem, Refusal, fewest_roots, kind, node};
///
/// let nodes = [
///     node(kind::VAR, [8, 0, 0, 0]),
///     node(kind::EQ, [0, 0, 0, 0]),
///     node(kind::ULT, [0, 0, 0, 0]),
/// ]
/// .concat();
/// let problem = Problem {
///     nodes: &nodes,
///     roots: &[1, 2, 2], // node 2 is asserted twice
///     names: b"x",
///     name_start: &[0],
///     name_len: &[1],
///     var_node: &[0],
///     var_width: &[8],
///     ..Problem::default()
/// };
/// let told = fewest_roots(&problem);
/// assert_eq!(told.refusal, Some(Refusal::Shared));
/// assert_eq!(told.positions(), [1, 2]);
/// ```
pub fn fewest_roots(problem: &Problem<'_>) -> Fewest {
    let answer = raw::fewest_roots(problem);
    Fewest {
        refusal: match answer.number {
            0 => None,
            n => Some(refusal::of_number(n)),
        },
        positions: [answer.first as usize, answer.second as usize],
        count: answer.count as usize,
    }
}

/// The width pass: are all nodes well formed, and how wide is each? Answers the number of nodes.
///
/// On `Ok(count)` the width of node `i` is `out[i]` for each `i` below `count`, and `out[count..]` is what it was; a Bool has width 1. On
/// `Err` every element of `out` is 0.
///
/// `index_width` and `value_width` are those of the array table. A select from an array past their end has an index of width 32 and is
/// 8 wide.
///
/// ```
/// use smt_echo::{WidthRefusal, ext_wf, kind, node};
///
/// let nodes = [node(kind::VAR, [8, 0, 0, 0]), node(kind::CONCAT, [0, 0, 0, 0])].concat();
/// let mut widths = [7; 3];
/// assert_eq!(ext_wf(&nodes, &[], &[], &[], &[], &mut widths), Ok(2));
/// assert_eq!(widths, [8, 16, 7]);
///
/// // Node 1 negates a bit-vector of width 8 as if it were Bool.
/// let nodes = [node(kind::VAR, [8, 0, 0, 0]), node(kind::NOT, [0, 0, 0, 0])].concat();
/// assert_eq!(ext_wf(&nodes, &[], &[], &[], &[], &mut widths), Err(WidthRefusal::Malformed { node: 1 }));
/// assert_eq!(widths, [0, 0, 0]);
///
/// // Node 1 selects from an array of 24-bit addresses and 16-bit words.
/// let nodes = [node(kind::VAR, [24, 0, 0, 0]), node(kind::SELECT, [0, 0, 0, 0])].concat();
/// assert_eq!(ext_wf(&nodes, &[], &[], &[24], &[16], &mut widths), Ok(2));
/// assert_eq!(widths[..2], [24, 16]);
/// ```
pub fn ext_wf(
    nodes: &[u8],
    bits: &[u8],
    side: &[u64],
    index_width: &[u64],
    value_width: &[u64],
    out: &mut [u64],
) -> Result<usize, WidthRefusal> {
    let answer = raw::ext_wf(nodes, bits, side, index_width, value_width, out);
    match answer.number {
        0 => Ok(answer.count as usize),
        n => Err(refusal::of_width_number(n, answer.count as usize)),
    }
}

/// The example of README.md, as a test.
#[cfg(doctest)]
#[doc = include_str!("../README.md")]
struct Readme;
