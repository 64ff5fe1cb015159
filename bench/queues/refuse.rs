//! Laid before a program (`LD_PRELOAD`), refuses its request for memory number `REFUSE`, and prints how many there were.
use std::ffi::{CStr, c_char, c_void};
use std::sync::atomic::{AtomicU64, Ordering::SeqCst};

unsafe extern "C" {
    fn __libc_malloc(size: usize) -> *mut c_void;
    fn __libc_realloc(block: *mut c_void, size: usize) -> *mut c_void;
    fn getenv(name: *const c_char) -> *const c_char;
    fn atexit(run: extern "C" fn()) -> i32;
    fn dprintf(file: i32, format: *const c_char, ...) -> i32;
    fn syscall(number: i64, ...) -> i64;
}

static REQUESTS: AtomicU64 = AtomicU64::new(0);
static REFUSED: AtomicU64 = AtomicU64::new(0);

extern "C" fn tell() {
    unsafe { dprintf(2, c"requests: %lu\n".as_ptr(), REQUESTS.load(SeqCst)) };
}

/// True for the request that is to be refused.
fn is_refused() -> bool {
    if REQUESTS.fetch_add(1, SeqCst) == 0 {
        let text = unsafe { getenv(c"REFUSE".as_ptr()) };
        if !text.is_null() {
            let digits = unsafe { CStr::from_ptr(text) }.to_bytes();
            let number = digits.iter().fold(0, |sum, digit| 10 * sum + u64::from(digit - b'0'));
            REFUSED.store(number, SeqCst);
        }
        unsafe { atexit(tell) };
    }
    REQUESTS.load(SeqCst) == REFUSED.load(SeqCst)
}

#[unsafe(no_mangle)]
unsafe extern "C" fn malloc(size: usize) -> *mut c_void {
    if is_refused() { std::ptr::null_mut() } else { unsafe { __libc_malloc(size) } }
}

#[unsafe(no_mangle)]
unsafe extern "C" fn realloc(block: *mut c_void, size: usize) -> *mut c_void {
    if is_refused() { std::ptr::null_mut() } else { unsafe { __libc_realloc(block, size) } }
}

/// A program with threads ends by this call, and what `atexit` was given isn't run.
#[unsafe(no_mangle)]
unsafe extern "C" fn _exit(status: i32) -> ! {
    const EXIT_GROUP: i64 = 231;
    if REQUESTS.load(SeqCst) > 0 {
        tell();
    }
    unsafe { syscall(EXIT_GROUP, status) };
    loop {}
}
