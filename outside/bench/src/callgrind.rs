//! Requests to callgrind, under which the benchmark is run: valgrind's own instruction sequence, which does nothing outside of it.

use std::arch::asm;
use std::ffi::CString;

const BASE: u64 = ((b'C' as u64) << 24) | ((b'T' as u64) << 16);
const ZERO_STATS: u64 = BASE + 1;
const DUMP_STATS_AT: u64 = BASE + 3;

fn request(code: u64, argument: u64) {
    let words: [u64; 6] = [code, argument, 0, 0, 0, 0];
    // SAFETY: outside of valgrind the rotations add up to a whole turn of rdi and the exchange does nothing; inside, valgrind reads the words.
    unsafe {
        asm!(
            "rol rdi, 3",
            "rol rdi, 13",
            "rol rdi, 61",
            "rol rdi, 51",
            "xchg rbx, rbx",
            in("rax") words.as_ptr(),
            inout("rdx") 0u64 => _,
        );
    }
}

/// Counts the instructions of one run, and has callgrind write them down under a name.
pub fn count(name: &str, run: impl FnOnce()) {
    let name = CString::new(name).unwrap();
    request(ZERO_STATS, 0);
    run();
    request(DUMP_STATS_AT, name.as_ptr() as u64);
}
