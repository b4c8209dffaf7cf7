//! The kinds of a node, for [`node`](crate::node), with the operands that each has; the rest of the four are 0.
//!
//! `a`, `b` and `c` are numbers of earlier nodes. A term is a bit-vector or a Bool. The name in SMT-LIB stands in brackets.

macro_rules! kinds {
    ($($(#[$doc:meta])* $name:ident = $number:literal;)*) => {
        $($(#[$doc])* pub const $name: u8 = $number;)*

        /// How many kinds there are.
        pub const COUNT: u8 = [$($number as u8),*].len() as u8;

        const NAMES: [&str; COUNT as usize] = [$(stringify!($name)),*];
    };
}

kinds! {
    /// A variable: its width.
    VAR = 0;
    /// A constant: the place of its lowest bit in `bits`, and its width.
    CONST = 1;
    /// `a`, `b`: the sum (`bvadd`). Both have one width, as in every kind of two bit-vectors but [`CONCAT`].
    ADD = 2;
    /// `a`, `b`: the difference (`bvsub`).
    SUB = 3;
    /// `a`, `b`: the product (`bvmul`).
    MUL = 4;
    /// `a`, `b`: the unsigned quotient (`bvudiv`).
    UDIV = 5;
    /// `a`, `b`: the unsigned remainder (`bvurem`).
    UREM = 6;
    /// `a`, `b`: and, bit by bit (`bvand`).
    AND = 7;
    /// `a`, `b`: or, bit by bit (`bvor`).
    OR = 8;
    /// `a`, `b`: exclusive or, bit by bit (`bvxor`).
    XOR = 9;
    /// `a`, `b`: `a` shifted left by `b` (`bvshl`).
    SHL = 10;
    /// `a`, `b`: `a` shifted right by `b`, zeros moving in (`bvlshr`).
    LSHR = 11;
    /// `a`, `b`: `a` shifted right by `b`, the sign moving in (`bvashr`).
    ASHR = 12;
    /// `a`, `b`: `a` rotated right by `b`, which must be a [`CONST`] (`rotate_right`, by the amount modulo the width).
    ROTR = 13;
    /// The highest bit, the lowest bit, `a`: those bits of `a`, both ends included (`extract`).
    EXTRACT = 14;
    /// `a`, `b`: one after the other, `a` the high bits (`concat`).
    CONCAT = 15;
    /// `a` and by how many bits: zeros in front (`zero_extend`).
    ZERO_EXT = 16;
    /// `a` and by how many bits: the sign in front (`sign_extend`).
    SIGN_EXT = 17;
    /// `a`, `b`, `c`: `b` if the Bool `a` holds, else `c`, two bit-vectors (`ite`).
    ITE = 18;
    /// `a`, `b`: a Bool, whether two bit-vectors are equal (`=`).
    EQ = 19;
    /// `a`, `b`: a Bool, whether two bit-vectors differ (`distinct`).
    NE = 20;
    /// `a`, `b`: a Bool, unsigned less (`bvult`).
    ULT = 21;
    /// `a`, `b`: a Bool, unsigned less or equal (`bvule`).
    ULE = 22;
    /// `a`, `b`: a Bool, unsigned greater (`bvugt`).
    UGT = 23;
    /// `a`, `b`: a Bool, unsigned greater or equal (`bvuge`).
    UGE = 24;
    /// `a`, `b`: a Bool, signed less (`bvslt`).
    SLT = 25;
    /// `a`, `b`: a Bool, signed less or equal (`bvsle`).
    SLE = 26;
    /// `a`, `b`: a Bool, signed greater (`bvsgt`).
    SGT = 27;
    /// `a`, `b`: a Bool, signed greater or equal (`bvsge`).
    SGE = 28;
    /// `a`: a Bool negated (`not`).
    NOT = 29;
    /// `a`, `b`: two Bools, both (`and`).
    BOOL_AND = 30;
    /// `a`, `b`: two Bools, one or both (`or`).
    BOOL_OR = 31;
    /// `a`: not, bit by bit (`bvnot`).
    BV_NOT = 32;
    /// `a`: the negative in two's complement (`bvneg`).
    NEG = 33;
    /// `a`, `b`: `a` rotated left by `b`, which must be a [`CONST`] (`rotate_left`, by the amount modulo the width).
    ROTL = 34;
    /// `a`, `b`: the signed quotient (`bvsdiv`).
    SDIV = 35;
    /// `a`, `b`: the signed remainder, with the sign of `a` (`bvsrem`).
    SREM = 36;
    /// The number of an array, `a`, a place in `side` and a count n: what the array has at the index `a` after n stores (`select`,
    /// `store`). The stores are n pairs of an index and a value in `side`, the first the outermost. Indices and values are as wide as the
    /// array's `index_width` and `value_width`.
    SELECT = 37;
    /// The number of a function, the width of the result, a place in `side` and a count n: a call with the n arguments there.
    CALL = 38;
}

/// The name of a kind, as the constant here has it: `name(2)` is `ADD`. `None` where there is no such kind.
pub fn name(kind: u8) -> Option<&'static str> {
    NAMES.get(usize::from(kind)).copied()
}

/// How many operands a kind has, the first ones of its record. `None` where there is no such kind.
pub fn operand_count(kind: u8) -> Option<usize> {
    match kind {
        VAR | NOT | BV_NOT | NEG => Some(1),
        EXTRACT | ITE => Some(3),
        SELECT | CALL => Some(4),
        _ if kind < COUNT => Some(2),
        _ => None,
    }
}
