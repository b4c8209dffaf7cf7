//! A problem as it is lent to the entry points: the eighteen inputs, as bytes and 64-bit numbers.

#[derive(Clone, Default)]
pub struct Problem {
    pub nodes: Vec<u8>,
    pub bits: Vec<u8>,
    pub side: Vec<u64>,
    pub roots: Vec<u64>,
    pub names: Vec<u8>,
    pub name_start: Vec<u64>,
    pub name_len: Vec<u64>,
    pub var_node: Vec<u64>,
    pub var_width: Vec<u64>,
    pub anames: Vec<u8>,
    pub aname_start: Vec<u64>,
    pub aname_len: Vec<u64>,
    pub index_width: Vec<u64>,
    pub value_width: Vec<u64>,
    pub fnames: Vec<u8>,
    pub fname_start: Vec<u64>,
    pub fname_len: Vec<u64>,
    pub func_width: Vec<u64>,
}

/// Kinds by number, in the order of document 01.
pub mod kind {
    pub const VAR: u8 = 0;
    pub const CONST: u8 = 1;
    pub const ADD: u8 = 2;
    pub const SUB: u8 = 3;
    pub const ROTR: u8 = 13;
    pub const EXTRACT: u8 = 14;
    pub const CONCAT: u8 = 15;
    pub const ZERO_EXT: u8 = 16;
    pub const SIGN_EXT: u8 = 17;
    pub const ITE: u8 = 18;
    pub const EQ: u8 = 19;
    pub const ULT: u8 = 21;
    pub const SLT: u8 = 25;
    pub const SGE: u8 = 28;
    pub const NOT: u8 = 29;
    pub const BOOL_AND: u8 = 30;
    pub const BOOL_OR: u8 = 31;
    pub const BV_NOT: u8 = 32;
    pub const NEG: u8 = 33;
    pub const ROTL: u8 = 34;
    pub const SDIV: u8 = 35;
    pub const SREM: u8 = 36;
    pub const SELECT: u8 = 37;
    pub const CALL: u8 = 38;
    pub const COUNT: u8 = 39;
}

/// How many of the four operands a kind has.
pub fn operand_count(k: u8) -> usize {
    match k {
        kind::VAR | kind::NOT | kind::BV_NOT | kind::NEG => 1,
        kind::EXTRACT | kind::ITE => 3,
        kind::SELECT | kind::CALL => 4,
        _ => 2,
    }
}

/// Two operands of one width, and the result has that width or is Bool.
pub fn is_same_width(k: u8) -> bool {
    (kind::ADD..=kind::ROTR).contains(&k) || (kind::EQ..=kind::SGE).contains(&k) || (kind::ROTL..=kind::SREM).contains(&k)
}

pub fn is_rotation(k: u8) -> bool {
    k == kind::ROTR || k == kind::ROTL
}

/// The result is a Bool.
pub fn is_bool(k: u8) -> bool {
    (kind::EQ..=kind::BOOL_OR).contains(&k)
}

pub fn record(k: u8, o: [u32; 4]) -> [u8; 17] {
    let mut r = [0u8; 17];
    r[0] = k;
    for (i, x) in o.iter().enumerate() {
        r[1 + 4 * i..5 + 4 * i].copy_from_slice(&x.to_le_bytes());
    }
    r
}

impl Problem {
    /// Adds a node and answers its number.
    pub fn node(&mut self, k: u8, o: &[u32]) -> u32 {
        let mut all = [0u32; 4];
        all[..o.len()].copy_from_slice(o);
        self.nodes.extend_from_slice(&record(k, all));
        (self.nodes.len() / 17 - 1) as u32
    }
    /// How many whole records there are.
    pub fn count(&self) -> usize {
        self.nodes.len() / 17
    }
    pub fn kind_of(&self, i: usize) -> u8 {
        self.nodes[17 * i]
    }
    pub fn operand(&self, i: usize, k: usize) -> u32 {
        let at = 17 * i + 1 + 4 * k;
        u32::from_le_bytes(self.nodes[at..at + 4].try_into().unwrap())
    }
    pub fn set_operand(&mut self, i: usize, k: usize, x: u32) {
        let at = 17 * i + 1 + 4 * k;
        self.nodes[at..at + 4].copy_from_slice(&x.to_le_bytes());
    }
    pub fn var_entry(&mut self, name: &[u8], node: u64, width: u64) {
        self.name_start.push(self.names.len() as u64);
        self.name_len.push(name.len() as u64);
        self.names.extend_from_slice(name);
        self.var_node.push(node);
        self.var_width.push(width);
    }
    /// Of the Rust's widths.
    pub fn array_entry(&mut self, name: &[u8]) {
        self.array_of(name, 32, 8);
    }
    pub fn array_of(&mut self, name: &[u8], index: u64, value: u64) {
        self.aname_start.push(self.anames.len() as u64);
        self.aname_len.push(name.len() as u64);
        self.anames.extend_from_slice(name);
        self.index_width.push(index);
        self.value_width.push(value);
    }
    pub fn func_entry(&mut self, name: &[u8], width: u64) {
        self.fname_start.push(self.fnames.len() as u64);
        self.fname_len.push(name.len() as u64);
        self.fnames.extend_from_slice(name);
        self.func_width.push(width);
    }
}

/// SplitMix64: the numbers follow from the seed.
pub struct Rng(pub u64);

impl Rng {
    pub fn next(&mut self) -> u64 {
        self.0 = self.0.wrapping_add(0x9E37_79B9_7F4A_7C15);
        let mut z = self.0;
        z = (z ^ (z >> 30)).wrapping_mul(0xBF58_476D_1CE4_E5B9);
        z = (z ^ (z >> 27)).wrapping_mul(0x94D0_49BB_1331_11EB);
        z ^ (z >> 31)
    }
    /// Below n.
    pub fn below(&mut self, n: u64) -> u64 {
        self.next() % n
    }
    /// From a to b, both included.
    pub fn from_to(&mut self, a: u64, b: u64) -> u64 {
        a + self.below(b - a + 1)
    }
    pub fn one_in(&mut self, n: u64) -> bool {
        self.below(n) == 0
    }
    pub fn pick<T: Copy>(&mut self, xs: &[T]) -> T {
        xs[self.below(xs.len() as u64) as usize]
    }
}
