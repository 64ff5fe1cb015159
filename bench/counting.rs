//! Laid before a program that answers lines (`LD_PRELOAD`), counts what a line takes: its instructions, which it has it make one at a
//! time, or its requests for memory. It needs no debugger, and nothing of the processor's counters. Linux on x86-64.
//!
//! Standard input is a file of lines. One that begins with `count ` is read alone, without that word; the others are read in blocks.
//! What a program writes that begins with `measure ` is counted, too, from there to its next write; its requests for memory from there on.
//! Behind `measure memory ` no instructions are counted, so that much may be done there.
//! For each counted line, when its reply is written, and at the end of the program, a row is appended to the file that `COUNTS` names:
//! the instructions from the end of the read, or of that write, to the next write, the requests for memory so far, the bytes in use, and
//! the most that ever were.
//! `COUNT_OF=steps` counts instructions, and no memory, `COUNT_OF=memory` the other way round. What the C library takes to find memory
//! and to take it back isn't counted: it differs by what came before, and from library to library.
use std::arch::asm;
use std::ffi::{CStr, c_char, c_int, c_void};
use std::sync::atomic::{AtomicBool, AtomicI32, AtomicU64, AtomicUsize, Ordering::Relaxed};

unsafe extern "C" {
    fn __libc_malloc(size: usize) -> *mut c_void;
    fn __libc_calloc(count: usize, size: usize) -> *mut c_void;
    fn __libc_realloc(block: *mut c_void, size: usize) -> *mut c_void;
    fn __libc_memalign(alignment: usize, size: usize) -> *mut c_void;
    fn __libc_free(block: *mut c_void);
    fn malloc_usable_size(block: *mut c_void) -> usize;
    fn getenv(name: *const c_char) -> *const c_char;
    fn open(path: *const c_char, flags: c_int, ...) -> c_int;
    fn dprintf(file: c_int, format: *const c_char, ...) -> c_int;
    fn lseek(file: c_int, offset: i64, whence: c_int) -> i64;
    fn mmap(at: *mut c_void, length: usize, may: c_int, how: c_int, file: c_int, offset: i64) -> *mut c_void;
    fn signal(number: c_int, handler: extern "C" fn(c_int)) -> usize;
    fn syscall(number: i64, ...) -> i64;
}

const READ: i64 = 0;
const WRITE: i64 = 1;
const EXIT_GROUP: i64 = 231;
const TRAP: c_int = 5;
const MARK: &[u8] = b"count ";
const WRITTEN_MARK: &[u8] = b"measure ";
const MEMORY_MARK: &[u8] = b"measure memory ";
// In bytes, how much is read at once.
const BLOCK: usize = 16_384;

static IS_OF_MEMORY: AtomicBool = AtomicBool::new(false);
static NOTES: AtomicI32 = AtomicI32::new(-1);
// The lines, and how far they were read.
static LINES: AtomicUsize = AtomicUsize::new(0);
static LENGTH: AtomicUsize = AtomicUsize::new(0);
static AT: AtomicUsize = AtomicUsize::new(0);
// True from the read of a counted line to the write of its reply.
static IS_COUNTED: AtomicBool = AtomicBool::new(false);
static IS_IN_LIBRARY: AtomicBool = AtomicBool::new(false);
static STEPS: AtomicU64 = AtomicU64::new(0);
static REQUESTS: AtomicU64 = AtomicU64::new(0);
static IN_USE: AtomicU64 = AtomicU64::new(0);
static MOST: AtomicU64 = AtomicU64::new(0);

/// Runs before the program does.
#[unsafe(link_section = ".init_array")]
#[used]
static BEGIN: extern "C" fn() = begin;

extern "C" fn begin() {
    const APPEND: c_int = 0o2101;
    let (notes, of) = unsafe { (getenv(c"COUNTS".as_ptr()), getenv(c"COUNT_OF".as_ptr())) };
    if notes.is_null() || of.is_null() {
        return;
    }
    IS_OF_MEMORY.store(unsafe { CStr::from_ptr(of) } == c"memory", Relaxed);
    NOTES.store(unsafe { open(notes, APPEND, 0o600) }, Relaxed);
    unsafe { signal(TRAP, took_a_step) };
}

extern "C" fn took_a_step(_number: c_int) {
    STEPS.store(STEPS.load(Relaxed) + u64::from(!IS_IN_LIBRARY.load(Relaxed)), Relaxed);
}

// ---- lines

fn lines() -> &'static [u8] {
    if LINES.load(Relaxed) == 0 {
        const END: c_int = 2;
        let length = unsafe { lseek(0, 0, END) } as usize;
        LINES.store(unsafe { mmap(std::ptr::null_mut(), length, 1, 2, 0, 0) } as usize, Relaxed);
        LENGTH.store(length, Relaxed);
    }
    unsafe { std::slice::from_raw_parts(LINES.load(Relaxed) as *const u8, LENGTH.load(Relaxed)) }
}

fn end_of_line(text: &[u8], at: usize) -> usize {
    text[at..].iter().position(|byte| *byte == b'\n').map_or(text.len(), |length| at + length + 1)
}

/// What is read next, and whether it is counted.
fn next_block(most: usize) -> (&'static [u8], bool) {
    let (text, first) = (lines(), AT.load(Relaxed));
    if text[first..].starts_with(MARK) {
        let end = end_of_line(text, first);
        AT.store(end, Relaxed);
        return (&text[first + MARK.len()..end], true);
    }
    let mut end = first;
    while end < text.len() && !text[end..].starts_with(MARK) {
        let behind = end_of_line(text, end);
        if behind - first > most.min(BLOCK) {
            break;
        }
        end = behind;
    }
    if end == first {
        // A line that is longer than what is asked for is read in parts.
        end = text.len().min(first + most);
    }
    AT.store(end, Relaxed);
    (&text[first..end], false)
}

#[unsafe(no_mangle)]
unsafe extern "C" fn read(file: c_int, to: *mut u8, length: usize) -> isize {
    if file != 0 || NOTES.load(Relaxed) < 0 {
        return unsafe { syscall(READ, file, to, length) as isize };
    }
    let (block, is_counted) = next_block(length);
    unsafe { std::ptr::copy_nonoverlapping(block.as_ptr(), to, block.len()) };
    IS_COUNTED.store(is_counted, Relaxed);
    if is_counted {
        begin_to_count();
    }
    block.len() as isize
}

#[inline(always)]
fn begin_to_count() {
    if !IS_OF_MEMORY.load(Relaxed) {
        STEPS.store(0, Relaxed);
        // From here on the processor stops behind each instruction.
        unsafe { asm!("pushfq", "or qword ptr [rsp], 0x100", "popfq") };
    }
}

fn begins_a_count(from: *const c_void, length: usize) -> bool {
    let written = unsafe { std::slice::from_raw_parts(from as *const u8, length) };
    let is_for_both = !written.starts_with(MEMORY_MARK);
    NOTES.load(Relaxed) >= 0 && written.starts_with(WRITTEN_MARK) && (is_for_both || IS_OF_MEMORY.load(Relaxed))
}

#[unsafe(no_mangle)]
unsafe extern "C" fn write(file: c_int, from: *const c_void, length: usize) -> isize {
    if file == 1 && IS_COUNTED.load(Relaxed) {
        unsafe { asm!("pushfq", "and qword ptr [rsp], 0xfffffffffffffeff", "popfq") };
        IS_COUNTED.store(false, Relaxed);
        tell();
    }
    let written = unsafe { syscall(WRITE, file, from, length) as isize };
    if file == 1 && begins_a_count(from, length) {
        REQUESTS.store(0, Relaxed);
        IS_COUNTED.store(true, Relaxed);
        begin_to_count();
    }
    written
}

fn tell() {
    let [steps, requests, in_use, most] = [&STEPS, &REQUESTS, &IN_USE, &MOST].map(|it| it.load(Relaxed));
    unsafe { dprintf(NOTES.load(Relaxed), c"%lu %lu %lu %lu\n".as_ptr(), steps, requests, in_use, most) };
    // (what the C library takes to print is no request of the program's)
    REQUESTS.store(requests, Relaxed);
}

// ---- memory

/// A call of the C library's, which answers a block or none.
fn asked(call: impl FnOnce() -> *mut c_void) -> *mut c_void {
    IS_IN_LIBRARY.store(true, Relaxed);
    let block = call();
    if IS_OF_MEMORY.load(Relaxed) {
        REQUESTS.fetch_add(1, Relaxed);
        let size = unsafe { malloc_usable_size(block) } as u64;
        MOST.fetch_max(IN_USE.fetch_add(size, Relaxed) + size, Relaxed);
    }
    IS_IN_LIBRARY.store(false, Relaxed);
    block
}

fn gives_back(block: *mut c_void) {
    if IS_OF_MEMORY.load(Relaxed) {
        IN_USE.fetch_sub(unsafe { malloc_usable_size(block) } as u64, Relaxed);
    }
}

#[unsafe(no_mangle)]
unsafe extern "C" fn malloc(size: usize) -> *mut c_void {
    asked(|| unsafe { __libc_malloc(size) })
}

#[unsafe(no_mangle)]
unsafe extern "C" fn calloc(count: usize, size: usize) -> *mut c_void {
    asked(|| unsafe { __libc_calloc(count, size) })
}

#[unsafe(no_mangle)]
unsafe extern "C" fn realloc(block: *mut c_void, size: usize) -> *mut c_void {
    gives_back(block);
    asked(|| unsafe { __libc_realloc(block, size) })
}

#[unsafe(no_mangle)]
unsafe extern "C" fn aligned_alloc(alignment: usize, size: usize) -> *mut c_void {
    asked(|| unsafe { __libc_memalign(alignment, size) })
}

#[unsafe(no_mangle)]
unsafe extern "C" fn free(block: *mut c_void) {
    gives_back(block);
    IS_IN_LIBRARY.store(true, Relaxed);
    unsafe { __libc_free(block) };
    IS_IN_LIBRARY.store(false, Relaxed);
}

/// How the program ends, if not by `main`.
#[unsafe(no_mangle)]
unsafe extern "C" fn _exit(status: c_int) -> ! {
    tell();
    unsafe { syscall(EXIT_GROUP, status) };
    loop {}
}

/// Runs behind the program.
#[unsafe(link_section = ".fini_array")]
#[used]
static FINISH: extern "C" fn() = tell_at_end;

extern "C" fn tell_at_end() {
    tell();
}
