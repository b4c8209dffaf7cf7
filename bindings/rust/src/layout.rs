//! The binary layout of a problem: the eighteen inputs in order, each a count and then so many elements. docs/FORMATS.md has it.

use crate::owned::{INPUTS, InputMut};
use crate::{Input, OwnedProblem, Problem};
use std::error::Error;
use std::fmt;

/// Why bytes are no problem in the binary layout. An input is told by its place from 1 on and its name.
#[derive(Clone, Copy, Debug, PartialEq, Eq, Hash)]
pub enum LayoutError {
    /// The bytes end inside this input.
    Early {
        /// The input's place, from 0.
        input: usize,
    },
    /// Bytes follow the last input.
    LeftOver,
}

impl fmt::Display for LayoutError {
    fn fmt(&self, f: &mut fmt::Formatter<'_>) -> fmt::Result {
        match self {
            LayoutError::Early { input } => write!(f, "ends early in input {}, {}", input + 1, INPUTS[*input]),
            LayoutError::LeftOver => write!(f, "bytes are left over after input 18, {}", INPUTS[17]),
        }
    }
}

impl Error for LayoutError {}

impl OwnedProblem {
    /// Reads the binary layout. Limits are not looked at: a problem over one is read, and refused by [`Refusal::Limit`](crate::Refusal).
    pub fn from_layout(mut bytes: &[u8]) -> Result<OwnedProblem, LayoutError> {
        let mut problem = OwnedProblem::default();
        for (input, elements) in problem.inputs_mut().into_iter().enumerate() {
            let early = LayoutError::Early { input };
            let (count, rest) = bytes.split_first_chunk().ok_or(early)?;
            let count = usize::try_from(u64::from_le_bytes(*count)).map_err(|_| early)?;
            let size = match elements {
                InputMut::Bytes(_) => 1,
                InputMut::Numbers(_) => 8,
            };
            let length = count.checked_mul(size).filter(|length| *length <= rest.len()).ok_or(early)?;
            let (content, rest) = rest.split_at(length);
            match elements {
                InputMut::Bytes(bytes) => bytes.extend_from_slice(content),
                InputMut::Numbers(numbers) => numbers.extend(content.as_chunks().0.iter().map(|word| u64::from_le_bytes(*word))),
            }
            bytes = rest;
        }
        if bytes.is_empty() { Ok(problem) } else { Err(LayoutError::LeftOver) }
    }
}

impl Problem<'_> {
    /// Writes the binary layout.
    pub fn to_layout(&self) -> Vec<u8> {
        let mut out = Vec::new();
        for (_, input) in self.inputs() {
            match input {
                Input::Bytes(bytes) => {
                    out.extend((bytes.len() as u64).to_le_bytes());
                    out.extend_from_slice(bytes);
                }
                Input::Numbers(numbers) => {
                    out.extend((numbers.len() as u64).to_le_bytes());
                    out.extend(numbers.iter().flat_map(|number| number.to_le_bytes()));
                }
            }
        }
        out
    }
}
