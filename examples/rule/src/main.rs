//! Shortening rules of a linker for a small RISC-V microcontroller (RV32, compressed instructions, addresses of 32 bits), as problems.
//!
//!   rule NAME > FILE      writes a problem in the binary layout
//!
//! A rule says that two pieces of code do the same wherever its condition holds. As a problem: the condition is assumed, and that the
//! two differ is asserted. `unsat` is then the proof of the rule, and `sat` comes with values for which it is wrong.

mod build;

use build::{Build, Node};
use smt_echo::{OwnedProblem, kind};
use std::io::{self, Write};
use std::process::ExitCode;

const PROBLEMS: [(&str, fn() -> OwnedProblem); 10] = [
    ("call", || call(20, Asserted::RuleIsWrong)),
    ("call-wide", || call(21, Asserted::RuleIsWrong)),
    ("call-assumed", || call(20, Asserted::AssumptionsOnly)),
    ("call-shared", call_shared),
    ("load", load),
    ("mask", || mask(16)),
    ("mask-wide", || mask(17)),
    ("extend", || extend("idx")),
    ("extend-renamed", || extend("half")),
    ("many", many),
];

fn main() -> io::Result<ExitCode> {
    let name = std::env::args().nth(1).unwrap_or_default();
    match PROBLEMS.iter().find(|(known, _)| *known == name) {
        Some((_, problem)) => {
            io::stdout().write_all(&problem().lend().to_layout())?;
            Ok(ExitCode::SUCCESS)
        }
        None => {
            eprintln!("usage: rule NAME, one of {}", PROBLEMS.map(|(name, _)| name).join(" "));
            Ok(ExitCode::from(2))
        }
    }
}

enum Asserted {
    RuleIsWrong,
    AssumptionsOnly,
}

/// A call through two instructions made one.
///
///     auipc ra, hi          jal ra, offset
///     jalr  ra, lo(ra)
///
/// The pair jumps to pc + hi * 4096 + lo, where hi has 20 bits and lo is signed and has 12, and clears the lowest bit. The short call jumps
/// to pc + offset, where the offset is the low 21 bits of the distance, signed. The condition: the distance lies from -2^reach to
/// 2^reach - 1, and pc and distance are even. It is right with a reach of 20: the offset's 21 bits hold just these. With 21, one bit too
/// many, it is wrong.
///
/// What is compared is what the machine does at the target: `step`, a function of which nothing is known, of the byte that `code` has there.
fn call(reach: u32, asserted: Asserted) -> OwnedProblem {
    let mut b = Build::default();
    let c = Call::declared(&mut b);
    let low = b.constant(1 << reach, 32);
    let size = b.constant(2 << reach, 32);
    let zero = b.constant(0, 1);

    let distance = c.distance(&mut b);
    let shifted = b.two(kind::ADD, distance, low);
    let within = b.two(kind::ULT, shifted, size);
    b.assert(within);
    for number in [c.pc, c.lo] {
        let bit = b.extract(0, 0, number);
        let even = b.two(kind::EQ, bit, zero);
        b.assert(even);
    }
    match asserted {
        Asserted::RuleIsWrong => {
            let long = c.long_target(&mut b);
            let short = c.short_target(&mut b);
            let (after_long, after_short) = (c.step(&mut b, long), c.step(&mut b, short));
            let differ = b.two(kind::NE, after_long, after_short);
            b.assert(differ);
        }
        // A function that is declared must be called, if only outside of the assertions.
        Asserted::AssumptionsOnly => _ = c.step(&mut b, c.pc),
    }
    b.problem
}

/// The rule written as one would in a hurry: the distance is one node, and used three times.
fn call_shared() -> OwnedProblem {
    let mut b = Build::default();
    let c = Call::declared(&mut b);
    let low = b.constant(1 << 20, 32);
    let size = b.constant(2 << 20, 32);
    let distance = c.distance(&mut b);
    let shifted = b.two(kind::ADD, distance, low);
    let within = b.two(kind::ULT, shifted, size);
    b.assert(within);
    let long = b.two(kind::ADD, c.pc, distance);
    let offset = b.extract(20, 0, distance);
    let offset = b.sign_extend(offset, 11);
    let short = b.two(kind::ADD, c.pc, offset);
    let (after_long, after_short) = (c.step(&mut b, long), c.step(&mut b, short));
    let differ = b.two(kind::NE, after_long, after_short);
    b.assert(differ);
    b.problem
}

/// What the problems about the call have in common.
struct Call {
    pc: Node,
    hi: Node,
    lo: Node,
    code: u32,
    step: u32,
}

impl Call {
    fn declared(b: &mut Build) -> Call {
        Call {
            pc: b.variable("pc", 32),
            hi: b.variable("hi", 20),
            lo: b.variable("lo", 12),
            code: b.array("code", 32, 8),
            step: b.function("step", 32),
        }
    }

    /// hi * 4096 + lo.
    fn distance(&self, b: &mut Build) -> Node {
        let zeros = b.constant(0, 12);
        let high = b.two(kind::CONCAT, self.hi, zeros);
        let low = b.sign_extend(self.lo, 20);
        b.two(kind::ADD, high, low)
    }

    fn long_target(&self, b: &mut Build) -> Node {
        let distance = self.distance(b);
        let sum = b.two(kind::ADD, self.pc, distance);
        let mask = b.constant(0xffff_fffe, 32);
        b.two(kind::AND, sum, mask)
    }

    fn short_target(&self, b: &mut Build) -> Node {
        let distance = self.distance(b);
        let offset = b.extract(20, 0, distance);
        let offset = b.sign_extend(offset, 11);
        b.two(kind::ADD, self.pc, offset)
    }

    fn step(&self, b: &mut Build, target: Node) -> Node {
        let byte = b.select(self.code, target);
        b.call(self.step, 32, &[byte])
    }
}

/// A load through two instructions made one, for addresses that 12 signed bits hold.
///
///     lui a0, hi            lbu a0, lo(zero)
///     lbu a0, lo(a0)
///
/// The condition: hi is 0, so that the sum is lo itself.
fn load() -> OwnedProblem {
    let mut b = Build::default();
    let hi = b.variable("hi", 20);
    let lo = b.variable("lo", 12);
    let memory = b.array("memory", 32, 8);
    let zeros = b.constant(0, 12);
    let none = b.constant(0, 20);

    let fits = b.two(kind::EQ, hi, none);
    b.assert(fits);
    let high = b.two(kind::CONCAT, hi, zeros);
    let low = b.sign_extend(lo, 20);
    let address = b.two(kind::ADD, high, low);
    let long = b.select(memory, address);
    let address = b.sign_extend(lo, 20);
    let short = b.select(memory, address);
    let differ = b.two(kind::NE, long, short);
    b.assert(differ);
    b.problem
}

/// An index that is cut to 16 bits and scaled for a table of half-words, made one instruction.
///
///     slli a0, a0, 16       slli a0, a0, 1
///     srli a0, a0, 15
///
/// The condition: the index is below 2^bits. It is right with 16 bits, which are those that the pair keeps. With 17, one bit too many, it is
/// wrong: 16 bits are kept where 17 are needed. There is no array and no function in it, so that logged values can be replayed.
fn mask(bits: u32) -> OwnedProblem {
    let mut b = Build::default();
    let idx = b.variable("idx", 32);
    let end = b.constant(1 << bits, 32);
    let [up, down, one] = [16, 15, 1].map(|amount| b.constant(amount, 32));

    let within = b.two(kind::ULT, idx, end);
    b.assert(within);
    let shifted = b.two(kind::SHL, idx, up);
    let long = b.two(kind::LSHR, shifted, down);
    let short = b.two(kind::SHL, idx, one);
    let differ = b.two(kind::NE, long, short);
    b.assert(differ);
    b.problem
}

/// An index that a load has extended with zeros, and that is cut to its 16 bits again, left as it is.
///
///     lhu  a0, 0(a1)        lhu a0, 0(a1)
///     slli a0, a0, 16
///     srli a0, a0, 16
///
/// There is no condition. Its writer took `idx` for what the memory has, 16 bits, where `mask` has it for the register, 32 bits: each rule is
/// right, and in one release the name has two meanings.
fn extend(name: &str) -> OwnedProblem {
    let mut b = Build::default();
    let half = b.variable(name, 16);
    let amount = b.constant(16, 32);
    let loaded = b.zero_extend(half, 16);
    let shifted = b.two(kind::SHL, loaded, amount);
    let long = b.two(kind::LSHR, shifted, amount);
    let short = b.zero_extend(half, 16);
    let differ = b.two(kind::NE, long, short);
    b.assert(differ);
    b.problem
}

/// The condition of `call` for each of 200 branches of a table. By a slip the one at place 150 is that at 57 again, so that its node is
/// asserted twice.
fn many() -> OwnedProblem {
    let mut b = Build::default();
    let low = b.constant(1 << 20, 32);
    let size = b.constant(2 << 20, 32);
    let within: Vec<Node> = (0..200)
        .map(|k| {
            let distance = b.variable(&format!("branch{k}"), 32);
            let shifted = b.two(kind::ADD, distance, low);
            b.two(kind::ULT, shifted, size)
        })
        .collect();
    (0..200).for_each(|k| b.assert(within[if k == 150 { 57 } else { k }]));
    b.problem
}
