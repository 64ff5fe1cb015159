//! Counts instructions: `steps PROGRAM` runs a program one instruction at a time from each line `begin WHAT` that it writes
//! to its next line, and prints how many that took. What lies between runs at full speed. Linux on x86-64.
use std::ffi::{CString, c_char, c_int, c_long};
use std::process::exit;

unsafe extern "C" {
    fn fork() -> c_int;
    fn execv(path: *const c_char, words: *const *const c_char) -> c_int;
    fn waitpid(process: c_int, status: *mut c_int, options: c_int) -> c_int;
    fn ptrace(request: c_int, ...) -> c_long;
}

const TRACE_ME: c_int = 0;
const READ_WORD: c_int = 1;
const READ_REGISTER: c_int = 3;
const STEP: c_int = 9;
const GO_TO_CALL: c_int = 24;

// Where a register lies among those that the kernel keeps of a stopped program.
const RDX: usize = 12 * 8;
const RSI: usize = 13 * 8;
const CALL: usize = 15 * 8;
const RIP: usize = 16 * 8;
const WRITE: u64 = 1;

struct Program(c_int);

impl Program {
    fn started(path: &str) -> Program {
        let path = CString::new(path).unwrap();
        unsafe {
            let process = fork();
            if process == 0 {
                ptrace(TRACE_ME, 0, 0usize, 0usize);
                execv(path.as_ptr(), [path.as_ptr(), std::ptr::null()].as_ptr());
                exit(127);
            }
            let mut status = 0;
            waitpid(process, &mut status, 0);
            Program(process)
        }
    }

    // Lets the program go on to its next stop; whether it still runs.
    fn goes_on(&self, how: c_int) -> bool {
        let mut status = 0;
        unsafe {
            ptrace(how, self.0, 0usize, 0usize);
            waitpid(self.0, &mut status, 0);
        }
        status & 0xff == 0x7f
    }

    fn register(&self, place: usize) -> u64 {
        unsafe { ptrace(READ_REGISTER, self.0, place, 0usize) as u64 }
    }

    // The line that the program is about to write; none where its next call is another.
    fn line(&self) -> String {
        if self.register(CALL) != WRITE {
            return String::new();
        }
        let (from, length) = (self.register(RSI), self.register(RDX).min(200));
        let words = (0..length).step_by(8).map(|at| unsafe { ptrace(READ_WORD, self.0, (from + at) as usize, 0usize) });
        let bytes: Vec<u8> = words.flat_map(|word| word.to_le_bytes()).take(length as usize).collect();
        String::from_utf8_lossy(&bytes).lines().next().unwrap_or("").to_string()
    }
}

fn main() {
    let Some(path) = std::env::args().nth(1) else {
        exit(64);
    };
    let program = Program::started(&path);
    // Each call stops the program twice: before it and behind it.
    while program.goes_on(GO_TO_CALL) {
        let line = program.line();
        let call = program.register(RIP) - 2;
        if !program.goes_on(GO_TO_CALL) {
            break;
        }
        let Some(what) = line.strip_prefix("begin ") else {
            continue;
        };
        let mut steps = 0u64;
        while steps == 0 || program.register(RIP) != call {
            if !program.goes_on(STEP) {
                exit(1);
            }
            steps += 1;
        }
        println!("{what}: {steps}");
    }
}
