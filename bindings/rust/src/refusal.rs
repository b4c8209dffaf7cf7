//! Why a problem is refused.

use std::error::Error;
use std::fmt;

/// Why [`echo_ext`](crate::echo_ext), [`echo_hidden`](crate::echo_hidden), [`echo_let`](crate::echo_let),
/// [`echo_formulas`](crate::echo_formulas) and [`echo_size`](crate::echo_size) refuse a problem, and what [`fewest_roots`](crate::fewest_roots)
/// tells of a refused one.
///
/// If several things are wrong the order is: `Limit`, `Encoding`, `Malformed` (columns), `ArrayWidth`, `Malformed` (nodes), `Name`, `Shared`
/// or for `echo_let` `Clash`, `Var` and `Signature` (declarations), then what the walk over the roots meets first, and `Room` last.
///
/// ```
/// use smt_echo::Refusal;
///
/// assert_eq!(Refusal::Shared.number(), 6);
/// assert!(Refusal::Shared.to_string().starts_with("6 Shared: "));
/// ```
#[derive(Clone, Copy, Debug, PartialEq, Eq, PartialOrd, Ord, Hash)]
pub enum Refusal {
    /// 1: a node is not well formed, which [`ext_wf`](crate::ext_wf) finds; the columns of a table differ in length; a root is no node;
    /// or a reached select or call has the number of an array or function that its table does not have.
    Malformed = 1,
    /// 2: a declared name is empty, reaches past its arena, has a byte that is not allowed, begins with `@` or `.`, is reserved, or is
    /// given twice.
    Name,
    /// 3: a Bool where a bit-vector is wanted, or a bit-vector where a Bool is, as for a root.
    Sort,
    /// 4: a variable is declared with width 0; or one below a root is not in its table, or is there with another width.
    Var,
    /// 5: a rotation below a root is by a term that is no constant node, or its width is above 65,536.
    Rotate,
    /// 6: a node that is no variable and no constant is used more than once, reached or not. [`echo_let`](crate::echo_let) never answers this.
    Shared,
    /// 7: no node calls a function of the table, its width there is 0, or its first call reads past the side entries; or a call below a
    /// root has another width than the table, or other arguments in number or width than that first call.
    Signature,
    /// 8: the last record is cut short, a kind is above 38, an operand that the kind does not have is not 0, or a bit is neither 0 nor 1.
    Encoding,
    /// 9: a slice is longer than its limit.
    Limit,
    /// 10: the script, or the lines, are longer than the buffer, and nothing else is wrong. [`echo_size`](crate::echo_size) tells the length to
    /// set aside for a script, and never answers this.
    Room,
    /// 11, of [`echo_let`](crate::echo_let) alone: a declared name is `d` and the number of a node that is used more than once, reached or
    /// not, and is no variable and no constant.
    Clash,
    /// 12: a width in the array table is 0 or above 65,536, whether a node names the array or not.
    ArrayWidth,
}

impl Refusal {
    /// All of them, by number: 1 to 12.
    pub const ALL: [Refusal; 12] = [
        Refusal::Malformed,
        Refusal::Name,
        Refusal::Sort,
        Refusal::Var,
        Refusal::Rotate,
        Refusal::Shared,
        Refusal::Signature,
        Refusal::Encoding,
        Refusal::Limit,
        Refusal::Room,
        Refusal::Clash,
        Refusal::ArrayWidth,
    ];

    /// Its number: 1 to 12.
    pub const fn number(self) -> u64 {
        self as u64
    }
}

impl fmt::Display for Refusal {
    fn fmt(&self, f: &mut fmt::Formatter<'_>) -> fmt::Result {
        let text = match self {
            Refusal::Malformed => {
                "a node is not well formed (ext_wf tells which), the columns of a table differ in length, a root is no node, or a \
                 select or call below a root names an array or function that is not in its table"
            }
            Refusal::Name => {
                "a declared name is empty or reaches past its arena, has a byte below 32, byte 127, a `|` or a `\\`, begins with \
                 `@` or `.`, is reserved, or is given twice, be it in two tables: look at names, anames and fnames"
            }
            Refusal::Sort => {
                "a Bool stands where a bit-vector is wanted, or the other way about: look at the roots, which are Bool, and at the \
                 operands below them"
            }
            Refusal::Var => {
                "an element of var_width is 0, or a variable below a root is not in var_node, or its first entry there has another \
                 width in var_width"
            }
            Refusal::Rotate => {
                "a rotation below a root is by a term that is no constant node, or its width is above 65,536: look at the second \
                 operand of ROTL and ROTR"
            }
            Refusal::Shared => {
                "a node that is no variable and no constant is used more than once, by operands, side entries and roots together: \
                 repeat it for each use, or print with echo_let"
            }
            Refusal::Signature => {
                "no node calls a function of the table, its func_width is 0, or its first call reads past the side entries; or a call \
                 below a root has another width than func_width says, or other arguments in number or width than that first call"
            }
            Refusal::Encoding => ENCODING,
            Refusal::Limit => {
                "a slice is over its limit: 34,816 node bytes, 131,072 bits, 8,192 side entries, 256 roots, 512 entries a column, \
                 16,384 bytes an arena"
            }
            Refusal::Room => {
                "what is to be written is longer than the buffer, and nothing else is wrong: call again with a longer one"
            }
            Refusal::Clash => {
                "a declared name is d and the number of a node that is used more than once: rename it, in names, anames or fnames"
            }
            Refusal::ArrayWidth => ARRAY_WIDTH,
        };
        write!(f, "{} {self:?}: {text}", self.number())
    }
}

impl Error for Refusal {}

/// Why [`ext_wf`](crate::ext_wf) refuses nodes. If several things are wrong the order is `Limit`, `Encoding`,
/// `Malformed` (columns), `ArrayWidth`, `Malformed` (a node), `Room`.
#[derive(Clone, Copy, Debug, PartialEq, Eq, Hash)]
pub enum WidthRefusal {
    /// 1: a node is not well formed, or the two columns of the array table differ in length.
    Malformed {
        /// The first such node, or the number of nodes where the columns differ.
        node: usize,
    },
    /// 8: the last record is cut short, a kind is above 38, an operand that the kind does not have is not 0, or a bit is neither 0 nor 1.
    Encoding,
    /// 9: a slice is longer than its limit.
    Limit,
    /// 10: there are more nodes than the slice for the widths has elements, and nothing else is wrong.
    Room,
    /// 12: a width in the array table is 0 or above 65,536, whether a node names the array or not.
    ArrayWidth,
}

impl WidthRefusal {
    /// Its number: 1, 8, 9, 10 or 12.
    pub const fn number(self) -> u64 {
        match self {
            WidthRefusal::Malformed { .. } => 1,
            WidthRefusal::Encoding => 8,
            WidthRefusal::Limit => 9,
            WidthRefusal::Room => 10,
            WidthRefusal::ArrayWidth => 12,
        }
    }
}

impl fmt::Display for WidthRefusal {
    fn fmt(&self, f: &mut fmt::Formatter<'_>) -> fmt::Result {
        match self {
            WidthRefusal::Malformed { node } => write!(
                f,
                "1 Malformed: node {node} is not well formed: look at its operands (earlier nodes only), their widths, and the bits or \
                 side entries that it reads; or, where {node} is the number of nodes, index_width and value_width differ in length"
            ),
            WidthRefusal::Encoding => write!(f, "8 Encoding: {ENCODING}"),
            WidthRefusal::Limit => {
                write!(
                    f,
                    "9 Limit: a slice is over its limit: 34,816 node bytes, 131,072 bits, 8,192 side entries, 512 array widths"
                )
            }
            WidthRefusal::ArrayWidth => write!(f, "12 ArrayWidth: {ARRAY_WIDTH}"),
            WidthRefusal::Room => {
                write!(
                    f,
                    "10 Room: there are more nodes than elements for the widths, and nothing else is wrong: call again with more"
                )
            }
        }
    }
}

impl Error for WidthRefusal {}

const ENCODING: &str = "the length of nodes is no multiple of 17, a kind is above 38, an operand that its kind does not have is not 0, \
                        or an element of bits is neither 0 nor 1";

const ARRAY_WIDTH: &str = "an element of index_width or value_width is 0 or above 65,536, whether a node names the array or not";

/// The refusal of a number that the printer answered.
pub(crate) fn of_number(n: u64) -> Refusal {
    match n {
        1 => Refusal::Malformed,
        2 => Refusal::Name,
        3 => Refusal::Sort,
        4 => Refusal::Var,
        5 => Refusal::Rotate,
        6 => Refusal::Shared,
        7 => Refusal::Signature,
        8 => Refusal::Encoding,
        9 => Refusal::Limit,
        10 => Refusal::Room,
        11 => Refusal::Clash,
        12 => Refusal::ArrayWidth,
        n => unreachable!("echo_ext answered {n}, which its contract rules out"),
    }
}

/// The refusal of a number and a count that the width pass answered.
pub(crate) fn of_width_number(n: u64, count: usize) -> WidthRefusal {
    match n {
        1 => WidthRefusal::Malformed { node: count },
        8 => WidthRefusal::Encoding,
        9 => WidthRefusal::Limit,
        10 => WidthRefusal::Room,
        12 => WidthRefusal::ArrayWidth,
        n => unreachable!("ext_wf answered {n}, which its contract rules out"),
    }
}
