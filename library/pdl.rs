//! The C interface of the PDL analyzer from Rust: the declaration of `pdl.h` and a safe function over it.

extern "C" {
    fn pdl_analyze(
        input: *const u8,
        input_len: usize,
        table: *mut u8,
        table_len: usize,
        faults: *mut u8,
        faults_len: usize,
        reply: *mut u64,
    );
}

/// The reply's row and its two values, 0 where it has none; the buffers are written as `pdl.h` says.
pub fn analyze(input: &[u8], table: &mut [u8], faults: &mut [u8]) -> [u64; 3] {
    let mut reply = [0; 3];
    // SAFETY: the function answers any bytes and lengths; references never are null, and those that are written never overlap.
    unsafe {
        pdl_analyze(
            input.as_ptr(),
            input.len(),
            table.as_mut_ptr(),
            table.len(),
            faults.as_mut_ptr(),
            faults.len(),
            reply.as_mut_ptr(),
        );
    }
    reply
}
