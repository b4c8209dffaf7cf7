//! A problem that owns its slices, for programs that build one or read it from a file.

use crate::Problem;

/// A problem with slices of its own: [`Problem`]'s eighteen, under the same names. [`lend`](OwnedProblem::lend) hands it to the functions.
///
/// It is read from and written to two forms, the binary layout ([`from_layout`](OwnedProblem::from_layout), [`Problem::to_layout`]) and the
/// text form ([`from_text`](OwnedProblem::from_text), [`Problem::to_text`]). docs/FORMATS.md has both. [`read_script`](crate::read_script) reads
/// it from its script.
///
/// ```
/// use smt_echo::{OwnedProblem, echo_size};
///
/// let text = b"problem\nvariable |x| 8 node 0\n0 var 8\n1 const 5 8\n2 ult 0 1\nroot 2\n";
/// let problem = OwnedProblem::from_text(text)?;
/// assert_eq!(echo_size(&problem.lend())?.length, 95);
/// assert_eq!(OwnedProblem::from_layout(&problem.lend().to_layout())?, problem);
/// # Ok::<(), Box<dyn std::error::Error>>(())
/// ```
#[derive(Clone, Debug, Default, PartialEq, Eq, Hash)]
#[allow(missing_docs)]
pub struct OwnedProblem {
    pub nodes: Vec<u8>,
    pub bits: Vec<u8>,
    pub side: Vec<u64>,
    pub roots: Vec<u64>,
    pub names: Vec<u8>,
    pub name_start: Vec<u64>,
    pub name_len: Vec<u64>,
    pub var_node: Vec<u64>,
    pub var_width: Vec<u64>,
    pub anames: Vec<u8>,
    pub aname_start: Vec<u64>,
    pub aname_len: Vec<u64>,
    pub index_width: Vec<u64>,
    pub value_width: Vec<u64>,
    pub fnames: Vec<u8>,
    pub fname_start: Vec<u64>,
    pub fname_len: Vec<u64>,
    pub func_width: Vec<u64>,
}

/// The eighteen slices of a problem as outputs, under the names of [`Problem`].
#[derive(Debug)]
#[allow(missing_docs)]
pub struct ProblemMut<'a> {
    pub nodes: &'a mut [u8],
    pub bits: &'a mut [u8],
    pub side: &'a mut [u64],
    pub roots: &'a mut [u64],
    pub names: &'a mut [u8],
    pub name_start: &'a mut [u64],
    pub name_len: &'a mut [u64],
    pub var_node: &'a mut [u64],
    pub var_width: &'a mut [u64],
    pub anames: &'a mut [u8],
    pub aname_start: &'a mut [u64],
    pub aname_len: &'a mut [u64],
    pub index_width: &'a mut [u64],
    pub value_width: &'a mut [u64],
    pub fnames: &'a mut [u8],
    pub fname_start: &'a mut [u64],
    pub fname_len: &'a mut [u64],
    pub func_width: &'a mut [u64],
}

/// The names of the eighteen inputs, in order.
pub(crate) const INPUTS: [&str; 18] = [
    "nodes",
    "bits",
    "side",
    "roots",
    "names",
    "name_start",
    "name_len",
    "var_node",
    "var_width",
    "anames",
    "aname_start",
    "aname_len",
    "index_width",
    "value_width",
    "fnames",
    "fname_start",
    "fname_len",
    "func_width",
];

/// An input, for what treats all eighteen alike.
#[derive(Clone, Copy, Debug)]
pub enum Input<'a> {
    /// Elements of one byte.
    Bytes(&'a [u8]),
    /// Elements of 64 bits.
    Numbers(&'a [u64]),
}

pub(crate) enum InputMut<'a> {
    Bytes(&'a mut Vec<u8>),
    Numbers(&'a mut Vec<u64>),
}

impl OwnedProblem {
    /// The problem, lent.
    pub fn lend(&self) -> Problem<'_> {
        Problem {
            nodes: &self.nodes,
            bits: &self.bits,
            side: &self.side,
            roots: &self.roots,
            names: &self.names,
            name_start: &self.name_start,
            name_len: &self.name_len,
            var_node: &self.var_node,
            var_width: &self.var_width,
            anames: &self.anames,
            aname_start: &self.aname_start,
            aname_len: &self.aname_len,
            index_width: &self.index_width,
            value_width: &self.value_width,
            fnames: &self.fnames,
            fname_start: &self.fname_start,
            fname_len: &self.fname_len,
            func_width: &self.func_width,
        }
    }

    /// The problem's slices, lent as outputs: what [`read_script_into`](crate::read_script_into) writes.
    pub fn lend_mut(&mut self) -> ProblemMut<'_> {
        ProblemMut {
            nodes: &mut self.nodes,
            bits: &mut self.bits,
            side: &mut self.side,
            roots: &mut self.roots,
            names: &mut self.names,
            name_start: &mut self.name_start,
            name_len: &mut self.name_len,
            var_node: &mut self.var_node,
            var_width: &mut self.var_width,
            anames: &mut self.anames,
            aname_start: &mut self.aname_start,
            aname_len: &mut self.aname_len,
            index_width: &mut self.index_width,
            value_width: &mut self.value_width,
            fnames: &mut self.fnames,
            fname_start: &mut self.fname_start,
            fname_len: &mut self.fname_len,
            func_width: &mut self.func_width,
        }
    }

    pub(crate) fn inputs_mut(&mut self) -> [InputMut<'_>; 18] {
        use InputMut::{Bytes, Numbers};
        [
            Bytes(&mut self.nodes),
            Bytes(&mut self.bits),
            Numbers(&mut self.side),
            Numbers(&mut self.roots),
            Bytes(&mut self.names),
            Numbers(&mut self.name_start),
            Numbers(&mut self.name_len),
            Numbers(&mut self.var_node),
            Numbers(&mut self.var_width),
            Bytes(&mut self.anames),
            Numbers(&mut self.aname_start),
            Numbers(&mut self.aname_len),
            Numbers(&mut self.index_width),
            Numbers(&mut self.value_width),
            Bytes(&mut self.fnames),
            Numbers(&mut self.fname_start),
            Numbers(&mut self.fname_len),
            Numbers(&mut self.func_width),
        ]
    }
}

impl<'a> Problem<'a> {
    /// The eighteen inputs in order, each with its name.
    pub fn inputs(&self) -> [(&'static str, Input<'a>); 18] {
        use Input::{Bytes, Numbers};
        let slices = [
            Bytes(self.nodes),
            Bytes(self.bits),
            Numbers(self.side),
            Numbers(self.roots),
            Bytes(self.names),
            Numbers(self.name_start),
            Numbers(self.name_len),
            Numbers(self.var_node),
            Numbers(self.var_width),
            Bytes(self.anames),
            Numbers(self.aname_start),
            Numbers(self.aname_len),
            Numbers(self.index_width),
            Numbers(self.value_width),
            Bytes(self.fnames),
            Numbers(self.fname_start),
            Numbers(self.fname_len),
            Numbers(self.func_width),
        ];
        std::array::from_fn(|i| (INPUTS[i], slices[i]))
    }
}
