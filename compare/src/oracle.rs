//! The Rust, called as it is, and the model with an array's two widths as parameters (compare/by_table.py), which is asked where a width
//! of the array table is not the Rust's. Where all are, both are asked and have to agree. They take decoded nodes and bits, so records are
//! decoded here; what they cannot be asked (numbers 8, 9, 10 and 12) stands in added.rs.
use crate::problem::Problem;

/// The calls into one of the two, which have types of their own.
macro_rules! called {
    ($name:ident) => {
        mod $name {
            use crate::problem::Problem;
            use ::$name::blast_kernel::DagNode as D;
            use ::$name::echo_kernel::{EchoError, echo_ext};
            use ::$name::sliver_kernel::{ExtNode, SliverCheckError, ext_wf};

            fn core(k: u8, a: usize, b: usize, c: usize) -> D {
                match k {
                    0 => D::Var(a),
                    1 => D::Const(a, b),
                    2 => D::Add(a, b),
                    3 => D::Sub(a, b),
                    4 => D::Mul(a, b),
                    5 => D::Udiv(a, b),
                    6 => D::Urem(a, b),
                    7 => D::And(a, b),
                    8 => D::Or(a, b),
                    9 => D::Xor(a, b),
                    10 => D::Shl(a, b),
                    11 => D::Lshr(a, b),
                    12 => D::Ashr(a, b),
                    13 => D::Rotr(a, b),
                    14 => D::Extract(a, b, c),
                    15 => D::Concat(a, b),
                    16 => D::ZeroExt(a, b),
                    17 => D::SignExt(a, b),
                    18 => D::Ite(a, b, c),
                    19 => D::Eq(a, b),
                    20 => D::Ne(a, b),
                    21 => D::Ult(a, b),
                    22 => D::Ule(a, b),
                    23 => D::Ugt(a, b),
                    24 => D::Uge(a, b),
                    25 => D::Slt(a, b),
                    26 => D::Sle(a, b),
                    27 => D::Sgt(a, b),
                    28 => D::Sge(a, b),
                    29 => D::Not(a),
                    30 => D::BoolAnd(a, b),
                    31 => D::BoolOr(a, b),
                    32 => D::BvNot(a),
                    33 => D::Neg(a),
                    34 => D::Rotl(a, b),
                    35 => D::Sdiv(a, b),
                    36 => D::Srem(a, b),
                    _ => unreachable!("kind {k} is not one of the core's"),
                }
            }

            fn decoded(p: &Problem) -> Vec<ExtNode> {
                (0..p.count())
                    .map(|i| {
                        let [a, b, c, d] = [0, 1, 2, 3].map(|k| p.operand(i, k) as usize);
                        match p.kind_of(i) {
                            37 => ExtNode::Select(a, b, c, d),
                            38 => ExtNode::Call(a, b, c, d),
                            k => ExtNode::Core(core(k, a, b, c)),
                        }
                    })
                    .collect()
            }

            fn numbers(xs: &[u64]) -> Vec<usize> {
                xs.iter().map(|x| usize::try_from(*x).expect("a host of 64 bits")).collect()
            }

            pub fn widths(p: &Problem) -> Result<Vec<u64>, usize> {
                match ext_wf(&decoded(p), p.bits.len(), &numbers(&p.side)) {
                    Ok(ws) => Ok(ws.iter().map(|w| *w as u64).collect()),
                    Err(SliverCheckError::Ext { node }) => Err(node),
                    Err(_) => unreachable!("the width pass has one refusal"),
                }
            }

            pub fn script(p: &Problem) -> Result<Vec<u8>, u32> {
                let bits: Vec<bool> = p.bits.iter().map(|b| *b == 1).collect();
                echo_ext(
                    &decoded(p),
                    &bits,
                    &numbers(&p.side),
                    &numbers(&p.roots),
                    &p.names,
                    &numbers(&p.name_start),
                    &numbers(&p.name_len),
                    &numbers(&p.var_node),
                    &numbers(&p.var_width),
                    &p.anames,
                    &numbers(&p.aname_start),
                    &numbers(&p.aname_len),
                    &p.fnames,
                    &numbers(&p.fname_start),
                    &numbers(&p.fname_len),
                    &numbers(&p.func_width),
                )
                .map_err(|e| match e {
                    EchoError::Malformed => 1,
                    EchoError::Name => 2,
                    EchoError::Sort => 3,
                    EchoError::Var => 4,
                    EchoError::Rotate => 5,
                    EchoError::Shared => 6,
                    EchoError::Signature => 7,
                })
            }
        }
    };
}

called!(kernel);
called!(model);

/// All widths of the array table are the Rust's.
fn rusts(p: &Problem) -> bool {
    p.index_width.iter().all(|w| *w == 32) && p.value_width.iter().all(|w| *w == 8)
}

/// The widths, or the node refused.
pub fn widths(p: &Problem) -> Result<Vec<u64>, usize> {
    ::model::arrays::set(&p.index_width, &p.value_width);
    let answer = model::widths(p);
    if rusts(p) {
        assert!(kernel::widths(p) == answer, "the model is not the Rust");
    }
    answer
}

/// The script, or the number of the refusal.
pub fn script(p: &Problem) -> Result<Vec<u8>, u32> {
    ::model::arrays::set(&p.index_width, &p.value_width);
    let answer = model::script(p);
    if rusts(p) {
        assert!(kernel::script(p) == answer, "the model is not the Rust");
    }
    answer
}
