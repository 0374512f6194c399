//! The functions of the static library, as safe Rust.
mod raw {
    extern "C" {
        pub fn velvetpalm_version() -> u32;
        pub fn velvetpalm_replay(job: *const u8, job_len: usize, out: *mut u8, out_len: usize) -> i64;
        pub fn velvetpalm_length(job: *const u8, job_len: usize) -> i64;
    }
}

pub fn version() -> u32 {
    // Safety: it takes nothing.
    unsafe { raw::velvetpalm_version() }
}

/// Replays a job into an output: the number of bytes written, or a negative result.
pub fn replay(job: &[u8], out: &mut [u8]) -> i64 {
    // Safety: both pointers come with the lengths of their slices, which do not overlap.
    unsafe { raw::velvetpalm_replay(job.as_ptr(), job.len(), out.as_mut_ptr(), out.len()) }
}

/// The number of bytes that a replay would write, or its negative result.
pub fn length(job: &[u8]) -> i64 {
    // Safety: the pointer comes with the length of its slice.
    unsafe { raw::velvetpalm_length(job.as_ptr(), job.len()) }
}
