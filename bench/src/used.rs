//! How many bytes of stack a call takes: it runs in a thread whose stack is filled with a pattern before; what lies between the call and the
//! lowest byte that differs afterwards was used.
use std::ffi::{c_int, c_void};

/// The C library's, which the standard library links anyway: its own threads do not take a stack that is lent.
mod c {
    use super::*;
    #[repr(C, align(16))]
    pub struct Attributes(pub [u8; 256]);
    unsafe extern "C" {
        pub fn pthread_attr_init(a: *mut Attributes) -> c_int;
        pub fn pthread_attr_setstack(a: *mut Attributes, low: *mut c_void, size: usize) -> c_int;
        pub fn pthread_create(
            thread: *mut usize,
            a: *const Attributes,
            start: extern "C" fn(*mut c_void) -> *mut c_void,
            with: *mut c_void,
        ) -> c_int;
        pub fn pthread_join(thread: usize, result: *mut *mut c_void) -> c_int;
    }
}

const PATTERN: u8 = 0xA5;

struct Job<'a> {
    call: &'a mut dyn FnMut(),
    /// The address of a local of the caller: the used stack is counted from here.
    top: usize,
}

#[inline(never)]
extern "C" fn start(with: *mut c_void) -> *mut c_void {
    // Safety: `used` lends the job for as long as the thread runs.
    let job = unsafe { &mut *with.cast::<Job>() };
    job.top = (&raw const job) as usize;
    (job.call)();
    std::ptr::null_mut()
}

/// Runs the call on a stack of its own and answers how many bytes of it were touched.
pub fn used(stack: &mut [u8], call: &mut dyn FnMut()) -> usize {
    stack.fill(PATTERN);
    let mut job = Job { call, top: 0 };
    let low = stack.as_mut_ptr();
    // Safety: the stack and the job outlive the thread, which is joined; the length is a multiple of the page size, and so is the start.
    unsafe {
        let mut a = c::Attributes([0; 256]);
        let mut thread = 0;
        assert_eq!(c::pthread_attr_init(&mut a), 0);
        assert_eq!(c::pthread_attr_setstack(&mut a, low.cast(), stack.len()), 0);
        assert_eq!(c::pthread_create(&mut thread, &a, start, (&raw mut job).cast()), 0);
        assert_eq!(c::pthread_join(thread, std::ptr::null_mut()), 0);
    }
    let lowest = stack.iter().position(|b| *b != PATTERN).unwrap();
    assert!(lowest > 4096, "the stack was too small");
    job.top - (low as usize + lowest)
}

/// A stack of so many bytes, at the start of a page.
pub fn stack(room: &mut Vec<u8>, size: usize) -> &mut [u8] {
    room.resize(size + 4096, 0);
    let skip = room.as_ptr().align_offset(4096);
    &mut room[skip..skip + size]
}
