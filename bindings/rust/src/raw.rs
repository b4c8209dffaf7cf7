//! The calls into the C library, and all of the unsafe code.
//!
//! The library asks of its caller what include/echo.h lists, and a safe caller of the functions here cannot fail in it:
//!
//! - each pointer comes from a slice, so it is not null, is aligned, and is good for its length;
//! - each output is a `&mut` slice, so no input and no other output overlaps it, and no other thread has it;
//! - the inputs are `&` slices, so nobody writes them during the call; the library only reads them and keeps no pointer;
//! - the structs that are answered are declared as in the header, and any bits are a value of their fields;
//! - nothing is asked of the elements.
//!
//! The library never unwinds.

use crate::{Problem, ProblemMut};

#[repr(C)]
pub struct EchoAnswer {
    pub number: u64,
    pub length: u64,
}

#[repr(C)]
pub struct SizeAnswer {
    pub number: u64,
    pub length: u64,
    pub terms: u64,
}

#[repr(C)]
pub struct RecordAnswer {
    pub number: u64,
    pub length: u64,
}

#[repr(C)]
pub struct FewestAnswer {
    pub number: u64,
    pub count: u64,
    pub first: u64,
    pub second: u64,
}

#[repr(C)]
pub struct WidthAnswer {
    pub number: u64,
    pub count: u64,
}

#[repr(C)]
pub struct ScriptAnswer {
    pub found: u64,
    pub length: u64,
}

#[repr(C)]
pub struct ReleaseAnswer {
    pub number: u64,
    pub script: u64,
}

#[repr(C)]
pub struct TraceAnswer {
    pub number: u64,
    pub rows: u64,
}

#[repr(C)]
pub struct ReadAnswer {
    pub number: u64,
    pub nodes: u64,
    pub bits: u64,
    pub side: u64,
    pub roots: u64,
    pub names: u64,
    pub variables: u64,
    pub anames: u64,
    pub arrays: u64,
    pub fnames: u64,
    pub functions: u64,
}

mod c {
    use super::{
        EchoAnswer, FewestAnswer, ReadAnswer, RecordAnswer, ReleaseAnswer, ScriptAnswer, SizeAnswer, TraceAnswer, WidthAnswer,
    };

    unsafe extern "C" {
        pub fn echo_ext(
            nodes: *const u8,
            nodes_len: usize,
            bits: *const u8,
            bits_len: usize,
            side: *const u64,
            side_len: usize,
            roots: *const u64,
            roots_len: usize,
            names: *const u8,
            names_len: usize,
            name_start: *const u64,
            name_start_len: usize,
            name_len: *const u64,
            name_len_len: usize,
            var_node: *const u64,
            var_node_len: usize,
            var_width: *const u64,
            var_width_len: usize,
            anames: *const u8,
            anames_len: usize,
            aname_start: *const u64,
            aname_start_len: usize,
            aname_len: *const u64,
            aname_len_len: usize,
            index_width: *const u64,
            index_width_len: usize,
            value_width: *const u64,
            value_width_len: usize,
            fnames: *const u8,
            fnames_len: usize,
            fname_start: *const u64,
            fname_start_len: usize,
            fname_len: *const u64,
            fname_len_len: usize,
            func_width: *const u64,
            func_width_len: usize,
            out: *mut u8,
            out_len: usize,
        ) -> EchoAnswer;

        pub fn echo_hidden(
            nodes: *const u8,
            nodes_len: usize,
            bits: *const u8,
            bits_len: usize,
            side: *const u64,
            side_len: usize,
            roots: *const u64,
            roots_len: usize,
            names: *const u8,
            names_len: usize,
            name_start: *const u64,
            name_start_len: usize,
            name_len: *const u64,
            name_len_len: usize,
            var_node: *const u64,
            var_node_len: usize,
            var_width: *const u64,
            var_width_len: usize,
            anames: *const u8,
            anames_len: usize,
            aname_start: *const u64,
            aname_start_len: usize,
            aname_len: *const u64,
            aname_len_len: usize,
            index_width: *const u64,
            index_width_len: usize,
            value_width: *const u64,
            value_width_len: usize,
            fnames: *const u8,
            fnames_len: usize,
            fname_start: *const u64,
            fname_start_len: usize,
            fname_len: *const u64,
            fname_len_len: usize,
            func_width: *const u64,
            func_width_len: usize,
            out: *mut u8,
            out_len: usize,
        ) -> EchoAnswer;

        pub fn echo_let(
            nodes: *const u8,
            nodes_len: usize,
            bits: *const u8,
            bits_len: usize,
            side: *const u64,
            side_len: usize,
            roots: *const u64,
            roots_len: usize,
            names: *const u8,
            names_len: usize,
            name_start: *const u64,
            name_start_len: usize,
            name_len: *const u64,
            name_len_len: usize,
            var_node: *const u64,
            var_node_len: usize,
            var_width: *const u64,
            var_width_len: usize,
            anames: *const u8,
            anames_len: usize,
            aname_start: *const u64,
            aname_start_len: usize,
            aname_len: *const u64,
            aname_len_len: usize,
            index_width: *const u64,
            index_width_len: usize,
            value_width: *const u64,
            value_width_len: usize,
            fnames: *const u8,
            fnames_len: usize,
            fname_start: *const u64,
            fname_start_len: usize,
            fname_len: *const u64,
            fname_len_len: usize,
            func_width: *const u64,
            func_width_len: usize,
            out: *mut u8,
            out_len: usize,
        ) -> EchoAnswer;

        pub fn echo_formulas(
            nodes: *const u8,
            nodes_len: usize,
            bits: *const u8,
            bits_len: usize,
            side: *const u64,
            side_len: usize,
            roots: *const u64,
            roots_len: usize,
            names: *const u8,
            names_len: usize,
            name_start: *const u64,
            name_start_len: usize,
            name_len: *const u64,
            name_len_len: usize,
            var_node: *const u64,
            var_node_len: usize,
            var_width: *const u64,
            var_width_len: usize,
            anames: *const u8,
            anames_len: usize,
            aname_start: *const u64,
            aname_start_len: usize,
            aname_len: *const u64,
            aname_len_len: usize,
            index_width: *const u64,
            index_width_len: usize,
            value_width: *const u64,
            value_width_len: usize,
            fnames: *const u8,
            fnames_len: usize,
            fname_start: *const u64,
            fname_start_len: usize,
            fname_len: *const u64,
            fname_len_len: usize,
            func_width: *const u64,
            func_width_len: usize,
            out: *mut u8,
            out_len: usize,
        ) -> EchoAnswer;

        pub fn echo_size(
            nodes: *const u8,
            nodes_len: usize,
            bits: *const u8,
            bits_len: usize,
            side: *const u64,
            side_len: usize,
            roots: *const u64,
            roots_len: usize,
            names: *const u8,
            names_len: usize,
            name_start: *const u64,
            name_start_len: usize,
            name_len: *const u64,
            name_len_len: usize,
            var_node: *const u64,
            var_node_len: usize,
            var_width: *const u64,
            var_width_len: usize,
            anames: *const u8,
            anames_len: usize,
            aname_start: *const u64,
            aname_start_len: usize,
            aname_len: *const u64,
            aname_len_len: usize,
            index_width: *const u64,
            index_width_len: usize,
            value_width: *const u64,
            value_width_len: usize,
            fnames: *const u8,
            fnames_len: usize,
            fname_start: *const u64,
            fname_start_len: usize,
            fname_len: *const u64,
            fname_len_len: usize,
            func_width: *const u64,
            func_width_len: usize,
        ) -> SizeAnswer;

        pub fn fewest_roots(
            nodes: *const u8,
            nodes_len: usize,
            bits: *const u8,
            bits_len: usize,
            side: *const u64,
            side_len: usize,
            roots: *const u64,
            roots_len: usize,
            names: *const u8,
            names_len: usize,
            name_start: *const u64,
            name_start_len: usize,
            name_len: *const u64,
            name_len_len: usize,
            var_node: *const u64,
            var_node_len: usize,
            var_width: *const u64,
            var_width_len: usize,
            anames: *const u8,
            anames_len: usize,
            aname_start: *const u64,
            aname_start_len: usize,
            aname_len: *const u64,
            aname_len_len: usize,
            index_width: *const u64,
            index_width_len: usize,
            value_width: *const u64,
            value_width_len: usize,
            fnames: *const u8,
            fnames_len: usize,
            fname_start: *const u64,
            fname_start_len: usize,
            fname_len: *const u64,
            fname_len_len: usize,
            func_width: *const u64,
            func_width_len: usize,
        ) -> FewestAnswer;

        pub fn replay_trace(
            nodes: *const u8,
            nodes_len: usize,
            bits: *const u8,
            bits_len: usize,
            side: *const u64,
            side_len: usize,
            roots: *const u64,
            roots_len: usize,
            names: *const u8,
            names_len: usize,
            name_start: *const u64,
            name_start_len: usize,
            name_len: *const u64,
            name_len_len: usize,
            var_node: *const u64,
            var_node_len: usize,
            var_width: *const u64,
            var_width_len: usize,
            anames: *const u8,
            anames_len: usize,
            aname_start: *const u64,
            aname_start_len: usize,
            aname_len: *const u64,
            aname_len_len: usize,
            index_width: *const u64,
            index_width_len: usize,
            value_width: *const u64,
            value_width_len: usize,
            fnames: *const u8,
            fnames_len: usize,
            fname_start: *const u64,
            fname_start_len: usize,
            fname_len: *const u64,
            fname_len_len: usize,
            func_width: *const u64,
            func_width_len: usize,
            values: *const u64,
            values_len: usize,
            masks: *mut u64,
            masks_len: usize,
            counts: *mut u64,
            counts_len: usize,
        ) -> TraceAnswer;

        pub fn ext_wf(
            nodes: *const u8,
            nodes_len: usize,
            bits: *const u8,
            bits_len: usize,
            side: *const u64,
            side_len: usize,
            index_width: *const u64,
            index_width_len: usize,
            value_width: *const u64,
            value_width_len: usize,
            out: *mut u64,
            out_len: usize,
        ) -> WidthAnswer;

        pub fn next_script(file: *const u8, file_len: usize) -> ScriptAnswer;
        pub fn check_release(file: *const u8, file_len: usize) -> ReleaseAnswer;

        pub fn read_script(
            script: *const u8,
            script_len: usize,
            nodes: *mut u8,
            nodes_len: usize,
            bits: *mut u8,
            bits_len: usize,
            side: *mut u64,
            side_len: usize,
            roots: *mut u64,
            roots_len: usize,
            names: *mut u8,
            names_len: usize,
            name_start: *mut u64,
            name_start_len: usize,
            name_len: *mut u64,
            name_len_len: usize,
            var_node: *mut u64,
            var_node_len: usize,
            var_width: *mut u64,
            var_width_len: usize,
            anames: *mut u8,
            anames_len: usize,
            aname_start: *mut u64,
            aname_start_len: usize,
            aname_len: *mut u64,
            aname_len_len: usize,
            index_width: *mut u64,
            index_width_len: usize,
            value_width: *mut u64,
            value_width_len: usize,
            fnames: *mut u8,
            fnames_len: usize,
            fname_start: *mut u64,
            fname_start_len: usize,
            fname_len: *mut u64,
            fname_len_len: usize,
            func_width: *mut u64,
            func_width_len: usize,
        ) -> ReadAnswer;

        pub fn shorten_records(old: *const u8, old_len: usize, out: *mut u8, out_len: usize) -> RecordAnswer;

        pub fn lengthen_records(new: *const u8, new_len: usize, out: *mut u8, out_len: usize) -> RecordAnswer;
    }
}

pub fn echo_ext(p: &Problem<'_>, out: &mut [u8]) -> EchoAnswer {
    // SAFETY: the list at the top.
    unsafe {
        c::echo_ext(
            p.nodes.as_ptr(),
            p.nodes.len(),
            p.bits.as_ptr(),
            p.bits.len(),
            p.side.as_ptr(),
            p.side.len(),
            p.roots.as_ptr(),
            p.roots.len(),
            p.names.as_ptr(),
            p.names.len(),
            p.name_start.as_ptr(),
            p.name_start.len(),
            p.name_len.as_ptr(),
            p.name_len.len(),
            p.var_node.as_ptr(),
            p.var_node.len(),
            p.var_width.as_ptr(),
            p.var_width.len(),
            p.anames.as_ptr(),
            p.anames.len(),
            p.aname_start.as_ptr(),
            p.aname_start.len(),
            p.aname_len.as_ptr(),
            p.aname_len.len(),
            p.index_width.as_ptr(),
            p.index_width.len(),
            p.value_width.as_ptr(),
            p.value_width.len(),
            p.fnames.as_ptr(),
            p.fnames.len(),
            p.fname_start.as_ptr(),
            p.fname_start.len(),
            p.fname_len.as_ptr(),
            p.fname_len.len(),
            p.func_width.as_ptr(),
            p.func_width.len(),
            out.as_mut_ptr(),
            out.len(),
        )
    }
}

pub fn echo_hidden(p: &Problem<'_>, out: &mut [u8]) -> EchoAnswer {
    // SAFETY: the list at the top.
    unsafe {
        c::echo_hidden(
            p.nodes.as_ptr(),
            p.nodes.len(),
            p.bits.as_ptr(),
            p.bits.len(),
            p.side.as_ptr(),
            p.side.len(),
            p.roots.as_ptr(),
            p.roots.len(),
            p.names.as_ptr(),
            p.names.len(),
            p.name_start.as_ptr(),
            p.name_start.len(),
            p.name_len.as_ptr(),
            p.name_len.len(),
            p.var_node.as_ptr(),
            p.var_node.len(),
            p.var_width.as_ptr(),
            p.var_width.len(),
            p.anames.as_ptr(),
            p.anames.len(),
            p.aname_start.as_ptr(),
            p.aname_start.len(),
            p.aname_len.as_ptr(),
            p.aname_len.len(),
            p.index_width.as_ptr(),
            p.index_width.len(),
            p.value_width.as_ptr(),
            p.value_width.len(),
            p.fnames.as_ptr(),
            p.fnames.len(),
            p.fname_start.as_ptr(),
            p.fname_start.len(),
            p.fname_len.as_ptr(),
            p.fname_len.len(),
            p.func_width.as_ptr(),
            p.func_width.len(),
            out.as_mut_ptr(),
            out.len(),
        )
    }
}

pub fn echo_let(p: &Problem<'_>, out: &mut [u8]) -> EchoAnswer {
    // SAFETY: the list at the top.
    unsafe {
        c::echo_let(
            p.nodes.as_ptr(),
            p.nodes.len(),
            p.bits.as_ptr(),
            p.bits.len(),
            p.side.as_ptr(),
            p.side.len(),
            p.roots.as_ptr(),
            p.roots.len(),
            p.names.as_ptr(),
            p.names.len(),
            p.name_start.as_ptr(),
            p.name_start.len(),
            p.name_len.as_ptr(),
            p.name_len.len(),
            p.var_node.as_ptr(),
            p.var_node.len(),
            p.var_width.as_ptr(),
            p.var_width.len(),
            p.anames.as_ptr(),
            p.anames.len(),
            p.aname_start.as_ptr(),
            p.aname_start.len(),
            p.aname_len.as_ptr(),
            p.aname_len.len(),
            p.index_width.as_ptr(),
            p.index_width.len(),
            p.value_width.as_ptr(),
            p.value_width.len(),
            p.fnames.as_ptr(),
            p.fnames.len(),
            p.fname_start.as_ptr(),
            p.fname_start.len(),
            p.fname_len.as_ptr(),
            p.fname_len.len(),
            p.func_width.as_ptr(),
            p.func_width.len(),
            out.as_mut_ptr(),
            out.len(),
        )
    }
}

pub fn echo_formulas(p: &Problem<'_>, out: &mut [u8]) -> EchoAnswer {
    // SAFETY: the list at the top.
    unsafe {
        c::echo_formulas(
            p.nodes.as_ptr(),
            p.nodes.len(),
            p.bits.as_ptr(),
            p.bits.len(),
            p.side.as_ptr(),
            p.side.len(),
            p.roots.as_ptr(),
            p.roots.len(),
            p.names.as_ptr(),
            p.names.len(),
            p.name_start.as_ptr(),
            p.name_start.len(),
            p.name_len.as_ptr(),
            p.name_len.len(),
            p.var_node.as_ptr(),
            p.var_node.len(),
            p.var_width.as_ptr(),
            p.var_width.len(),
            p.anames.as_ptr(),
            p.anames.len(),
            p.aname_start.as_ptr(),
            p.aname_start.len(),
            p.aname_len.as_ptr(),
            p.aname_len.len(),
            p.index_width.as_ptr(),
            p.index_width.len(),
            p.value_width.as_ptr(),
            p.value_width.len(),
            p.fnames.as_ptr(),
            p.fnames.len(),
            p.fname_start.as_ptr(),
            p.fname_start.len(),
            p.fname_len.as_ptr(),
            p.fname_len.len(),
            p.func_width.as_ptr(),
            p.func_width.len(),
            out.as_mut_ptr(),
            out.len(),
        )
    }
}

pub fn echo_size(p: &Problem<'_>) -> SizeAnswer {
    // SAFETY: the list at the top.
    unsafe {
        c::echo_size(
            p.nodes.as_ptr(),
            p.nodes.len(),
            p.bits.as_ptr(),
            p.bits.len(),
            p.side.as_ptr(),
            p.side.len(),
            p.roots.as_ptr(),
            p.roots.len(),
            p.names.as_ptr(),
            p.names.len(),
            p.name_start.as_ptr(),
            p.name_start.len(),
            p.name_len.as_ptr(),
            p.name_len.len(),
            p.var_node.as_ptr(),
            p.var_node.len(),
            p.var_width.as_ptr(),
            p.var_width.len(),
            p.anames.as_ptr(),
            p.anames.len(),
            p.aname_start.as_ptr(),
            p.aname_start.len(),
            p.aname_len.as_ptr(),
            p.aname_len.len(),
            p.index_width.as_ptr(),
            p.index_width.len(),
            p.value_width.as_ptr(),
            p.value_width.len(),
            p.fnames.as_ptr(),
            p.fnames.len(),
            p.fname_start.as_ptr(),
            p.fname_start.len(),
            p.fname_len.as_ptr(),
            p.fname_len.len(),
            p.func_width.as_ptr(),
            p.func_width.len(),
        )
    }
}

pub fn fewest_roots(p: &Problem<'_>) -> FewestAnswer {
    // SAFETY: the list at the top.
    unsafe {
        c::fewest_roots(
            p.nodes.as_ptr(),
            p.nodes.len(),
            p.bits.as_ptr(),
            p.bits.len(),
            p.side.as_ptr(),
            p.side.len(),
            p.roots.as_ptr(),
            p.roots.len(),
            p.names.as_ptr(),
            p.names.len(),
            p.name_start.as_ptr(),
            p.name_start.len(),
            p.name_len.as_ptr(),
            p.name_len.len(),
            p.var_node.as_ptr(),
            p.var_node.len(),
            p.var_width.as_ptr(),
            p.var_width.len(),
            p.anames.as_ptr(),
            p.anames.len(),
            p.aname_start.as_ptr(),
            p.aname_start.len(),
            p.aname_len.as_ptr(),
            p.aname_len.len(),
            p.index_width.as_ptr(),
            p.index_width.len(),
            p.value_width.as_ptr(),
            p.value_width.len(),
            p.fnames.as_ptr(),
            p.fnames.len(),
            p.fname_start.as_ptr(),
            p.fname_start.len(),
            p.fname_len.as_ptr(),
            p.fname_len.len(),
            p.func_width.as_ptr(),
            p.func_width.len(),
        )
    }
}

pub fn replay_trace(p: &Problem<'_>, values: &[u64], masks: &mut [u64], counts: &mut [u64]) -> TraceAnswer {
    // SAFETY: the list at the top.
    unsafe {
        c::replay_trace(
            p.nodes.as_ptr(),
            p.nodes.len(),
            p.bits.as_ptr(),
            p.bits.len(),
            p.side.as_ptr(),
            p.side.len(),
            p.roots.as_ptr(),
            p.roots.len(),
            p.names.as_ptr(),
            p.names.len(),
            p.name_start.as_ptr(),
            p.name_start.len(),
            p.name_len.as_ptr(),
            p.name_len.len(),
            p.var_node.as_ptr(),
            p.var_node.len(),
            p.var_width.as_ptr(),
            p.var_width.len(),
            p.anames.as_ptr(),
            p.anames.len(),
            p.aname_start.as_ptr(),
            p.aname_start.len(),
            p.aname_len.as_ptr(),
            p.aname_len.len(),
            p.index_width.as_ptr(),
            p.index_width.len(),
            p.value_width.as_ptr(),
            p.value_width.len(),
            p.fnames.as_ptr(),
            p.fnames.len(),
            p.fname_start.as_ptr(),
            p.fname_start.len(),
            p.fname_len.as_ptr(),
            p.fname_len.len(),
            p.func_width.as_ptr(),
            p.func_width.len(),
            values.as_ptr(),
            values.len(),
            masks.as_mut_ptr(),
            masks.len(),
            counts.as_mut_ptr(),
            counts.len(),
        )
    }
}

pub fn ext_wf(nodes: &[u8], bits: &[u8], side: &[u64], index_width: &[u64], value_width: &[u64], out: &mut [u64]) -> WidthAnswer {
    // SAFETY: the list at the top.
    unsafe {
        c::ext_wf(
            nodes.as_ptr(),
            nodes.len(),
            bits.as_ptr(),
            bits.len(),
            side.as_ptr(),
            side.len(),
            index_width.as_ptr(),
            index_width.len(),
            value_width.as_ptr(),
            value_width.len(),
            out.as_mut_ptr(),
            out.len(),
        )
    }
}

pub fn next_script(file: &[u8]) -> ScriptAnswer {
    // SAFETY: the list at the top.
    unsafe { c::next_script(file.as_ptr(), file.len()) }
}

pub fn check_release(file: &[u8]) -> ReleaseAnswer {
    // SAFETY: the list at the top.
    unsafe { c::check_release(file.as_ptr(), file.len()) }
}

pub fn read_script(script: &[u8], out: &mut ProblemMut<'_>) -> ReadAnswer {
    // SAFETY: the list at the top.
    unsafe {
        c::read_script(
            script.as_ptr(),
            script.len(),
            out.nodes.as_mut_ptr(),
            out.nodes.len(),
            out.bits.as_mut_ptr(),
            out.bits.len(),
            out.side.as_mut_ptr(),
            out.side.len(),
            out.roots.as_mut_ptr(),
            out.roots.len(),
            out.names.as_mut_ptr(),
            out.names.len(),
            out.name_start.as_mut_ptr(),
            out.name_start.len(),
            out.name_len.as_mut_ptr(),
            out.name_len.len(),
            out.var_node.as_mut_ptr(),
            out.var_node.len(),
            out.var_width.as_mut_ptr(),
            out.var_width.len(),
            out.anames.as_mut_ptr(),
            out.anames.len(),
            out.aname_start.as_mut_ptr(),
            out.aname_start.len(),
            out.aname_len.as_mut_ptr(),
            out.aname_len.len(),
            out.index_width.as_mut_ptr(),
            out.index_width.len(),
            out.value_width.as_mut_ptr(),
            out.value_width.len(),
            out.fnames.as_mut_ptr(),
            out.fnames.len(),
            out.fname_start.as_mut_ptr(),
            out.fname_start.len(),
            out.fname_len.as_mut_ptr(),
            out.fname_len.len(),
            out.func_width.as_mut_ptr(),
            out.func_width.len(),
        )
    }
}

pub fn shorten_records(old: &[u8], out: &mut [u8]) -> RecordAnswer {
    // SAFETY: the list at the top.
    unsafe { c::shorten_records(old.as_ptr(), old.len(), out.as_mut_ptr(), out.len()) }
}

pub fn lengthen_records(new: &[u8], out: &mut [u8]) -> RecordAnswer {
    // SAFETY: the list at the top.
    unsafe { c::lengthen_records(new.as_ptr(), new.len(), out.as_mut_ptr(), out.len()) }
}
