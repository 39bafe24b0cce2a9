//! What is asked of valgrind's callgrind, which counts the instructions of this program where `instructions.sh` runs it.
use std::arch::asm;
use std::ffi::CString;
use std::hint::black_box;

// The requests of callgrind, as in valgrind's callgrind.h.
const ZERO: u64 = 0x4354_0001;
const DUMP_AT: u64 = 0x4354_0003;
const START: u64 = 0x4354_0004;
const STOP: u64 = 0x4354_0005;

/// A request to valgrind. Where the program runs without it, nothing happens.
fn ask(request: u64, word: u64) {
    let words = [request, word, 0, 0, 0, 0];
    // SAFETY: the instructions turn a register round to what it was; valgrind knows them, and reads the words.
    unsafe {
        asm!(
            "rol rdi, 3", "rol rdi, 13", "rol rdi, 61", "rol rdi, 51", "xchg rbx, rbx",
            in("rax") words.as_ptr(), inout("rdx") 0u64 => _,
        );
    }
}

/// Has the instructions of a piece of work counted, in a file of their own that has this name.
pub fn counted(name: &str, work: impl FnOnce() -> u64) {
    let name = CString::new(name).expect("a name without zeros");
    ask(START, 0);
    ask(ZERO, 0);
    black_box(work());
    ask(DUMP_AT, name.as_ptr() as u64);
    ask(STOP, 0);
}
