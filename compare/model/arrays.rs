//! The widths of arrays by the table: a part of the model that by_table.py makes of the Rust. The table is set before the Rust is called, and the
//! array is told where a select is looked at.
use std::cell::{Cell, RefCell};

thread_local! {
    static TABLE: RefCell<(Vec<u64>, Vec<u64>)> = const { RefCell::new((Vec::new(), Vec::new())) };
    static ARRAY: Cell<usize> = const { Cell::new(0) };
}

/// The two columns.
pub fn set(index: &[u64], value: &[u64]) {
    TABLE.with(|t| *t.borrow_mut() = (index.to_vec(), value.to_vec()));
}

/// The array of the select that is looked at.
pub fn at(array: usize) {
    ARRAY.with(|a| a.set(array));
}

/// Past the table an array has an index of 32 bits and a value of 8.
fn widths(array: usize) -> (u64, u64) {
    TABLE.with(|t| {
        let t = t.borrow();
        (t.0.get(array).copied().unwrap_or(32), t.1.get(array).copied().unwrap_or(8))
    })
}

pub fn index() -> usize {
    widths(ARRAY.with(Cell::get)).0 as usize
}

pub fn value() -> usize {
    widths(ARRAY.with(Cell::get)).1 as usize
}

/// What follows the name in the declaration of array k.
pub fn sorts(k: usize) -> Vec<u8> {
    let (index, value) = widths(k);
    format!(" (Array (_ BitVec {index}) (_ BitVec {value})))\n").into_bytes()
}
