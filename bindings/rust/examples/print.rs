//! Prints one problem: is there an 8-bit x with x + 5 = x? It is the marked case M2. The first line has the label, the number and the
//! length that were answered; the script follows.

use smt_echo::{Problem, echo_ext, kind, node};
use std::io::{self, Write};
use std::process::ExitCode;

fn main() -> io::Result<ExitCode> {
    let nodes = [
        node(kind::VAR, [8, 0, 0, 0]),
        node(kind::CONST, [0, 8, 0, 0]),
        node(kind::ADD, [0, 1, 0, 0]),
        node(kind::EQ, [2, 0, 0, 0]),
    ]
    .concat();
    let problem = Problem {
        nodes: &nodes,
        bits: &[1, 0, 1, 0, 0, 0, 0, 0],
        roots: &[3],
        names: b"x",
        name_start: &[0],
        name_len: &[1],
        var_node: &[0],
        var_width: &[8],
        ..Problem::default()
    };
    let mut out = [0; 200];
    match echo_ext(&problem, &mut out) {
        Ok(length) => {
            let mut terminal = io::stdout().lock();
            writeln!(terminal, "M2 0 {length}")?;
            terminal.write_all(&out[..length])?;
            terminal.flush()?;
            Ok(ExitCode::SUCCESS)
        }
        Err(refusal) => {
            eprintln!("M2 is refused: {refusal}");
            Ok(ExitCode::FAILURE)
        }
    }
}
