//! The proved port, called through its C interface.
use crate::problem::Problem;

#[repr(C)]
pub struct Said {
    pub number: u64,
    /// a length, a count or a refused node
    pub count: u64,
}

#[repr(C)]
#[derive(Clone, Copy, PartialEq, Eq, Debug)]
pub struct Size {
    pub number: u64,
    pub length: u64,
    pub terms: u64,
}

/// How many elements of each output a script takes that is read back.
#[repr(C)]
#[derive(Clone, Copy, PartialEq, Eq, Debug)]
pub struct Read {
    pub number: u64,
    pub sizes: [u64; 10],
}

#[rustfmt::skip]
unsafe extern "C" {
    fn read_script(
        script: *const u8, script_len: usize,
        nodes: *mut u8, nodes_len: usize, bits: *mut u8, bits_len: usize,
        side: *mut u64, side_len: usize, roots: *mut u64, roots_len: usize,
        names: *mut u8, names_len: usize, name_start: *mut u64, name_start_len: usize,
        name_len: *mut u64, name_len_len: usize, var_node: *mut u64, var_node_len: usize,
        var_width: *mut u64, var_width_len: usize,
        anames: *mut u8, anames_len: usize, aname_start: *mut u64, aname_start_len: usize,
        aname_len: *mut u64, aname_len_len: usize,
        index_width: *mut u64, index_width_len: usize, value_width: *mut u64, value_width_len: usize,
        fnames: *mut u8, fnames_len: usize, fname_start: *mut u64, fname_start_len: usize,
        fname_len: *mut u64, fname_len_len: usize, func_width: *mut u64, func_width_len: usize,
    ) -> Read;
    fn echo_ext(
        nodes: *const u8, nodes_len: usize, bits: *const u8, bits_len: usize,
        side: *const u64, side_len: usize, roots: *const u64, roots_len: usize,
        names: *const u8, names_len: usize, name_start: *const u64, name_start_len: usize,
        name_len: *const u64, name_len_len: usize, var_node: *const u64, var_node_len: usize,
        var_width: *const u64, var_width_len: usize,
        anames: *const u8, anames_len: usize, aname_start: *const u64, aname_start_len: usize,
        aname_len: *const u64, aname_len_len: usize,
        index_width: *const u64, index_width_len: usize, value_width: *const u64, value_width_len: usize,
        fnames: *const u8, fnames_len: usize, fname_start: *const u64, fname_start_len: usize,
        fname_len: *const u64, fname_len_len: usize, func_width: *const u64, func_width_len: usize,
        out: *mut u8, out_len: usize,
    ) -> Said;
    fn echo_hidden(
        nodes: *const u8, nodes_len: usize, bits: *const u8, bits_len: usize,
        side: *const u64, side_len: usize, roots: *const u64, roots_len: usize,
        names: *const u8, names_len: usize, name_start: *const u64, name_start_len: usize,
        name_len: *const u64, name_len_len: usize, var_node: *const u64, var_node_len: usize,
        var_width: *const u64, var_width_len: usize,
        anames: *const u8, anames_len: usize, aname_start: *const u64, aname_start_len: usize,
        aname_len: *const u64, aname_len_len: usize,
        index_width: *const u64, index_width_len: usize, value_width: *const u64, value_width_len: usize,
        fnames: *const u8, fnames_len: usize, fname_start: *const u64, fname_start_len: usize,
        fname_len: *const u64, fname_len_len: usize, func_width: *const u64, func_width_len: usize,
        out: *mut u8, out_len: usize,
    ) -> Said;
    fn echo_let(
        nodes: *const u8, nodes_len: usize, bits: *const u8, bits_len: usize,
        side: *const u64, side_len: usize, roots: *const u64, roots_len: usize,
        names: *const u8, names_len: usize, name_start: *const u64, name_start_len: usize,
        name_len: *const u64, name_len_len: usize, var_node: *const u64, var_node_len: usize,
        var_width: *const u64, var_width_len: usize,
        anames: *const u8, anames_len: usize, aname_start: *const u64, aname_start_len: usize,
        aname_len: *const u64, aname_len_len: usize,
        index_width: *const u64, index_width_len: usize, value_width: *const u64, value_width_len: usize,
        fnames: *const u8, fnames_len: usize, fname_start: *const u64, fname_start_len: usize,
        fname_len: *const u64, fname_len_len: usize, func_width: *const u64, func_width_len: usize,
        out: *mut u8, out_len: usize,
    ) -> Said;
    fn echo_size(
        nodes: *const u8, nodes_len: usize, bits: *const u8, bits_len: usize,
        side: *const u64, side_len: usize, roots: *const u64, roots_len: usize,
        names: *const u8, names_len: usize, name_start: *const u64, name_start_len: usize,
        name_len: *const u64, name_len_len: usize, var_node: *const u64, var_node_len: usize,
        var_width: *const u64, var_width_len: usize,
        anames: *const u8, anames_len: usize, aname_start: *const u64, aname_start_len: usize,
        aname_len: *const u64, aname_len_len: usize,
        index_width: *const u64, index_width_len: usize, value_width: *const u64, value_width_len: usize,
        fnames: *const u8, fnames_len: usize, fname_start: *const u64, fname_start_len: usize,
        fname_len: *const u64, fname_len_len: usize, func_width: *const u64, func_width_len: usize,
    ) -> Size;
    fn ext_wf(
        nodes: *const u8, nodes_len: usize, bits: *const u8, bits_len: usize, side: *const u64, side_len: usize,
        index_width: *const u64, index_width_len: usize, value_width: *const u64, value_width_len: usize,
        out: *mut u64, out_len: usize,
    ) -> Said;
}

/// The printer. A Rust slice is what the interface asks for: never null, aligned, no overlap with the output.
#[rustfmt::skip]
pub fn script(p: &Problem, out: &mut [u8]) -> Said {
    unsafe {
        echo_ext(
            p.nodes.as_ptr(), p.nodes.len(), p.bits.as_ptr(), p.bits.len(),
            p.side.as_ptr(), p.side.len(), p.roots.as_ptr(), p.roots.len(),
            p.names.as_ptr(), p.names.len(), p.name_start.as_ptr(), p.name_start.len(),
            p.name_len.as_ptr(), p.name_len.len(), p.var_node.as_ptr(), p.var_node.len(),
            p.var_width.as_ptr(), p.var_width.len(),
            p.anames.as_ptr(), p.anames.len(), p.aname_start.as_ptr(), p.aname_start.len(),
            p.aname_len.as_ptr(), p.aname_len.len(),
            p.index_width.as_ptr(), p.index_width.len(), p.value_width.as_ptr(), p.value_width.len(),
            p.fnames.as_ptr(), p.fnames.len(), p.fname_start.as_ptr(), p.fname_start.len(),
            p.fname_len.as_ptr(), p.fname_len.len(), p.func_width.as_ptr(), p.func_width.len(),
            out.as_mut_ptr(), out.len(),
        )
    }
}

/// The printer, with constants hidden.
#[rustfmt::skip]
pub fn hidden(p: &Problem, out: &mut [u8]) -> Said {
    unsafe {
        echo_hidden(
            p.nodes.as_ptr(), p.nodes.len(), p.bits.as_ptr(), p.bits.len(),
            p.side.as_ptr(), p.side.len(), p.roots.as_ptr(), p.roots.len(),
            p.names.as_ptr(), p.names.len(), p.name_start.as_ptr(), p.name_start.len(),
            p.name_len.as_ptr(), p.name_len.len(), p.var_node.as_ptr(), p.var_node.len(),
            p.var_width.as_ptr(), p.var_width.len(),
            p.anames.as_ptr(), p.anames.len(), p.aname_start.as_ptr(), p.aname_start.len(),
            p.aname_len.as_ptr(), p.aname_len.len(),
            p.index_width.as_ptr(), p.index_width.len(), p.value_width.as_ptr(), p.value_width.len(),
            p.fnames.as_ptr(), p.fnames.len(), p.fname_start.as_ptr(), p.fname_start.len(),
            p.fname_len.as_ptr(), p.fname_len.len(), p.func_width.as_ptr(), p.func_width.len(),
            out.as_mut_ptr(), out.len(),
        )
    }
}

/// The printer, with shared terms bound by let.
#[rustfmt::skip]
pub fn lets(p: &Problem, out: &mut [u8]) -> Said {
    unsafe {
        echo_let(
            p.nodes.as_ptr(), p.nodes.len(), p.bits.as_ptr(), p.bits.len(),
            p.side.as_ptr(), p.side.len(), p.roots.as_ptr(), p.roots.len(),
            p.names.as_ptr(), p.names.len(), p.name_start.as_ptr(), p.name_start.len(),
            p.name_len.as_ptr(), p.name_len.len(), p.var_node.as_ptr(), p.var_node.len(),
            p.var_width.as_ptr(), p.var_width.len(),
            p.anames.as_ptr(), p.anames.len(), p.aname_start.as_ptr(), p.aname_start.len(),
            p.aname_len.as_ptr(), p.aname_len.len(),
            p.index_width.as_ptr(), p.index_width.len(), p.value_width.as_ptr(), p.value_width.len(),
            p.fnames.as_ptr(), p.fnames.len(), p.fname_start.as_ptr(), p.fname_start.len(),
            p.fname_len.as_ptr(), p.fname_len.len(), p.func_width.as_ptr(), p.func_width.len(),
            out.as_mut_ptr(), out.len(),
        )
    }
}

/// The size of the script.
#[rustfmt::skip]
pub fn size(p: &Problem) -> Size {
    unsafe {
        echo_size(
            p.nodes.as_ptr(), p.nodes.len(), p.bits.as_ptr(), p.bits.len(),
            p.side.as_ptr(), p.side.len(), p.roots.as_ptr(), p.roots.len(),
            p.names.as_ptr(), p.names.len(), p.name_start.as_ptr(), p.name_start.len(),
            p.name_len.as_ptr(), p.name_len.len(), p.var_node.as_ptr(), p.var_node.len(),
            p.var_width.as_ptr(), p.var_width.len(),
            p.anames.as_ptr(), p.anames.len(), p.aname_start.as_ptr(), p.aname_start.len(),
            p.aname_len.as_ptr(), p.aname_len.len(),
            p.index_width.as_ptr(), p.index_width.len(), p.value_width.as_ptr(), p.value_width.len(),
            p.fnames.as_ptr(), p.fnames.len(), p.fname_start.as_ptr(), p.fname_start.len(),
            p.fname_len.as_ptr(), p.fname_len.len(), p.func_width.as_ptr(), p.func_width.len(),
        )
    }
}

/// The width pass.
#[rustfmt::skip]
pub fn widths(p: &Problem, out: &mut [u64]) -> Said {
    unsafe {
        ext_wf(
            p.nodes.as_ptr(), p.nodes.len(), p.bits.as_ptr(), p.bits.len(), p.side.as_ptr(), p.side.len(),
            p.index_width.as_ptr(), p.index_width.len(), p.value_width.as_ptr(), p.value_width.len(),
            out.as_mut_ptr(), out.len(),
        )
    }
}

/// A script read back into the outputs, of each the first so many elements.
#[rustfmt::skip]
pub fn read(script: &[u8], p: &mut Problem, n: &[usize; 18]) -> Read {
    // Safety: each output has so many elements and more.
    unsafe {
        read_script(
            script.as_ptr(), script.len(),
            p.nodes.as_mut_ptr(), n[0], p.bits.as_mut_ptr(), n[1],
            p.side.as_mut_ptr(), n[2], p.roots.as_mut_ptr(), n[3],
            p.names.as_mut_ptr(), n[4], p.name_start.as_mut_ptr(), n[5],
            p.name_len.as_mut_ptr(), n[6], p.var_node.as_mut_ptr(), n[7],
            p.var_width.as_mut_ptr(), n[8],
            p.anames.as_mut_ptr(), n[9], p.aname_start.as_mut_ptr(), n[10],
            p.aname_len.as_mut_ptr(), n[11],
            p.index_width.as_mut_ptr(), n[12], p.value_width.as_mut_ptr(), n[13],
            p.fnames.as_mut_ptr(), n[14], p.fname_start.as_mut_ptr(), n[15],
            p.fname_len.as_mut_ptr(), n[16], p.func_width.as_mut_ptr(), n[17],
        )
    }
}
