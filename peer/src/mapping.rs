//! Words at the end of a mapping: what lies behind them can be neither read nor written, and whoever tries is ended. So
//! the calls on them are made in a process of its own, and what it writes into them is seen here.

use std::ffi::{c_int, c_long, c_void};
use std::panic::{catch_unwind, AssertUnwindSafe};
use std::ptr;

extern "C" {
    fn mmap(
        start: *mut c_void,
        bytes: usize,
        access: c_int,
        flags: c_int,
        file: c_int,
        offset: i64,
    ) -> *mut c_void;
    fn mprotect(start: *mut c_void, bytes: usize, access: c_int) -> c_int;
    fn munmap(start: *mut c_void, bytes: usize) -> c_int;
    fn sysconf(name: c_int) -> c_long;
    fn fork() -> c_int;
    fn waitpid(process: c_int, status: *mut c_int, options: c_int) -> c_int;
    fn _exit(status: c_int) -> !;
}

// Linux has these numbers.
const NO_ACCESS: c_int = 0;
const READ_AND_WRITE: c_int = 1 | 2;
const SHARED_WITHOUT_A_FILE: c_int = 0x01 | 0x20;
const PAGE_BYTES: c_int = 30;

/// How many bytes at least cannot be touched behind the words. A slice may be said to have more.
const BEHIND: usize = 1 << 16;

/// A word's bytes.
const WORD: usize = size_of::<u32>();

/// Words of which the last is the last of its mapping.
pub struct Mapped {
    start: *mut c_void,
    bytes: usize,
    first: *mut u32,
    count: usize,
}

impl Mapped {
    pub fn holding(content: &[u32]) -> Mapped {
        // A mapping of its own, so that nothing else is there; only what lies before BEHIND is ever written.
        unsafe {
            let page = sysconf(PAGE_BYTES) as usize;
            let open = (content.len() * WORD).next_multiple_of(page);
            let bytes = open + BEHIND.next_multiple_of(page);
            let start = mmap(
                ptr::null_mut(),
                bytes,
                READ_AND_WRITE,
                SHARED_WITHOUT_A_FILE,
                -1,
                0,
            );
            assert!(start as isize != -1, "{bytes} bytes can be mapped");
            let end = start.cast::<u8>().add(open);
            assert_eq!(mprotect(end.cast(), bytes - open, NO_ACCESS), 0);
            let first = end.sub(content.len() * WORD).cast::<u32>();
            ptr::copy_nonoverlapping(content.as_ptr(), first, content.len());
            Mapped {
                start,
                bytes,
                first,
                count: content.len(),
            }
        }
    }

    pub fn pointer(&self) -> *mut u32 {
        self.first
    }

    pub fn count(&self) -> usize {
        self.count
    }

    pub fn content(&self) -> Vec<u32> {
        (0..self.count)
            .map(|place| unsafe { self.first.add(place).read_volatile() })
            .collect()
    }
}

impl Drop for Mapped {
    fn drop(&mut self) {
        unsafe {
            munmap(self.start, self.bytes);
        }
    }
}

/// Does the work in a process of its own, and answers whether it came to its end there. A matcher's call allocates nothing
/// and takes no lock, since other threads may have been at that when the process was made.
pub fn comes_to_its_end(work: impl FnOnce()) -> bool {
    unsafe {
        let process = fork();
        if process == 0 {
            let ended = catch_unwind(AssertUnwindSafe(work)).is_ok();
            _exit(c_int::from(!ended));
        }
        assert!(process > 0, "a process can be made");
        let mut status = -1;
        assert_eq!(waitpid(process, &mut status, 0), process);
        status == 0
    }
}
