//! What a Rattle library asks of its host, memory, and what of a bench is counted. Each benchmark in Rust takes it in by `#[path]`.
use std::alloc::{Layout, alloc, dealloc, realloc};

/// What is counted: its name, and a run of so many rounds.
pub type Row = (String, Box<dyn Fn(u64) -> u64>);

pub fn row(name: String, run: impl Fn(u64) -> u64 + 'static) -> Row {
    (name, Box::new(run))
}

/// Where the program was called as `PROGRAM count ROW ROUNDS`, makes so many rounds of that row, and prints its name; past the last row it
/// prints nothing. Returns whether it was called so.
pub fn is_counted(rows: impl IntoIterator<Item = Row>) -> bool {
    let words: Vec<String> = std::env::args().skip(1).collect();
    let ["count", at, rounds] = words.iter().map(String::as_str).collect::<Vec<_>>()[..] else {
        return false;
    };
    if let Some((name, run)) = rows.into_iter().nth(at.parse().unwrap()) {
        std::hint::black_box(run(rounds.parse().unwrap()));
        println!("{name}");
    }
    true
}

/// What an allocation answers to a Rattle library.
#[repr(C)]
struct Tried {
    ok: bool,
    block: *mut u8,
}

// A block keeps its size before it, since it is freed without one.
const HEADER: usize = 16;

#[unsafe(no_mangle)]
extern "C" fn rattle_alloc(size: usize, _align: usize) -> Tried {
    let Ok(layout) = Layout::from_size_align(size + HEADER, HEADER) else {
        return Tried { ok: false, block: std::ptr::null_mut() };
    };
    unsafe { kept(alloc(layout), size) }
}

#[unsafe(no_mangle)]
unsafe extern "C" fn rattle_realloc(block: *mut u8, _kept: usize, size: usize, _align: usize) -> Tried {
    unsafe {
        let start = block.sub(HEADER);
        let was = start.cast::<usize>().read();
        let layout = Layout::from_size_align_unchecked(was + HEADER, HEADER);
        kept(realloc(start, layout, size + HEADER), size)
    }
}

unsafe fn kept(start: *mut u8, size: usize) -> Tried {
    if start.is_null() {
        return Tried { ok: false, block: start };
    }
    unsafe {
        start.cast::<usize>().write(size);
        Tried { ok: true, block: start.add(HEADER) }
    }
}

#[unsafe(no_mangle)]
unsafe extern "C" fn rattle_dealloc(block: *mut u8) {
    unsafe {
        let start = block.sub(HEADER);
        let size = start.cast::<usize>().read();
        dealloc(start, Layout::from_size_align_unchecked(size + HEADER, HEADER));
    }
}
