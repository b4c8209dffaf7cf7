//! Files of scripts end to end, cut by the port: `next_script` again and again, beside two ways to go from line to line in Rust. All three
//! are compared before anything is timed.

/// What `next_script` answers.
#[repr(C)]
struct Answer {
    found: u64,
    length: u64,
}

unsafe extern "C" {
    fn next_script(file: *const u8, length: usize) -> Answer;
    fn memchr(at: *const u8, byte: i32, length: usize) -> *const u8;
}

const LAST: &[u8] = b"(check-sat)\n";

/// The number of scripts, and what follows the last.
pub type Cut = (usize, usize);

pub fn port(file: &[u8]) -> Cut {
    let (mut n, mut at) = (0, 0);
    loop {
        // Safety: the pair is that of a slice.
        let a = unsafe { next_script(file[at..].as_ptr(), file.len() - at) };
        if a.found == 0 {
            return (n, file.len() - at);
        }
        n += 1;
        at += a.length as usize;
    }
}

/// Line by line with the C library's `memchr`.
pub fn by_memchr(file: &[u8]) -> Cut {
    let (mut n, mut at, mut from) = (0, 0, 0);
    loop {
        // Safety: what is searched is a slice.
        let found = unsafe { memchr(file[at..].as_ptr(), 10, file.len() - at) };
        if found.is_null() {
            return (n, file.len() - from);
        }
        let end = found as usize - file.as_ptr() as usize + 1;
        if &file[at..end] == LAST {
            n += 1;
            from = end;
        }
        at = end;
    }
}

/// Line by line with the standard library.
pub fn by_lines(file: &[u8]) -> Cut {
    let (mut n, mut at, mut from) = (0, 0, 0);
    for line in file.split_inclusive(|b| *b == 10) {
        at += line.len();
        if line == LAST {
            n += 1;
            from = at;
        }
    }
    (n, file.len() - from)
}

/// A script so many times.
pub fn repeated(script: &[u8], length: usize) -> Vec<u8> {
    script.repeat(length / script.len() + 1)
}
