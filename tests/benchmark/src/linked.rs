//! The functions of the crates `measured`, `measured_buffers` and `measured_fields`, as `measured_c` and so on export them. A slice passes
//! as a pointer and a length.

use crate::feed::Received;

mod symbols {
    extern "C" {
        pub fn proved_calls(
            profiles: *const u8,
            profiles_len: usize,
            script: *const u8,
            script_len: usize,
            out: *mut u8,
            out_len: usize,
        ) -> u64;
        pub fn proved_buffers(
            profiles: *const u8,
            profiles_len: usize,
            script: *const u8,
            script_len: usize,
            bytes: *const u8,
            bytes_len: usize,
            marks: *const u8,
            marks_len: usize,
            out: *mut u8,
            out_len: usize,
        ) -> u64;
        pub fn proved_lines(lines: *const u8, lines_len: usize, values: *mut i64) -> u64;
        pub fn proved_rewritten(lines: *const u8, lines_len: usize, out: *mut u8, out_len: usize) -> u64;
        pub fn proved_fields(numbers: *const u8, numbers_len: usize) -> u64;
    }
}

// SAFETY of the five: each pointer is that of a slice with the length beside it, and the functions have no `requires`.

pub fn proved_calls(profiles: &[u8], script: &[u8], out: &mut [u8]) -> u64 {
    unsafe {
        symbols::proved_calls(profiles.as_ptr(), profiles.len(), script.as_ptr(), script.len(), out.as_mut_ptr(), out.len())
    }
}

pub fn proved_buffers(profiles: &[u8], script: &[u8], received: Received, out: &mut [u8]) -> u64 {
    let Received { bytes, marks } = received;
    unsafe {
        symbols::proved_buffers(
            profiles.as_ptr(),
            profiles.len(),
            script.as_ptr(),
            script.len(),
            bytes.as_ptr(),
            bytes.len(),
            marks.as_ptr(),
            marks.len(),
            out.as_mut_ptr(),
            out.len(),
        )
    }
}

pub fn proved_lines(lines: &[u8], values: &mut i64) -> u64 {
    unsafe { symbols::proved_lines(lines.as_ptr(), lines.len(), values) }
}

pub fn proved_rewritten(lines: &[u8], out: &mut [u8]) -> u64 {
    unsafe { symbols::proved_rewritten(lines.as_ptr(), lines.len(), out.as_mut_ptr(), out.len()) }
}

pub fn proved_fields(numbers: &[u8]) -> u64 {
    unsafe { symbols::proved_fields(numbers.as_ptr(), numbers.len()) }
}
