//! The proved functions, as crates/exports declares them. A slice is a pointer and a length.

extern "C" {
    fn sheet_read(bytes: *const u8, bytes_len: usize, k: usize) -> u64;
    fn sheet_fed(bytes: *const u8, bytes_len: usize, size: usize, k: usize) -> u64;
    fn sheet_verdict(bytes: *const u8, bytes_len: usize) -> u64;
    fn sheet_in_calls(bytes: *const u8, bytes_len: usize, n: u32) -> u64;
    fn sheet_run(bytes: *const u8, bytes_len: usize, calls: *const u8, calls_len: usize) -> u64;
}

/// The answer's number, and the deadline of stream k.
pub fn read(sheet: &[u8], k: usize) -> u64 {
    // SAFETY: the function requires nothing and reads only the bytes that are lent.
    unsafe { sheet_read(sheet.as_ptr(), sheet.len(), k) }
}

/// The same, the bytes fed in pieces of `size`, 0 for all in one.
pub fn fed(sheet: &[u8], size: usize, k: usize) -> u64 {
    // SAFETY: as above.
    unsafe { sheet_fed(sheet.as_ptr(), sheet.len(), size, k) }
}

/// 0 accept, 256 late, 257 overload or the refusal's number, and the late length.
pub fn verdict(sheet: &[u8]) -> u64 {
    // SAFETY: as above.
    unsafe { sheet_verdict(sheet.as_ptr(), sheet.len()) }
}

/// The same number as `verdict`, by calls that test n lengths each.
pub fn in_calls(sheet: &[u8], n: u32) -> u64 {
    // SAFETY: as above.
    unsafe { sheet_in_calls(sheet.as_ptr(), sheet.len(), n) }
}

/// How many are pending, and the clock, after the calls.
pub fn run(sheet: &[u8], calls: &[u8]) -> u64 {
    // SAFETY: as above.
    unsafe { sheet_run(sheet.as_ptr(), sheet.len(), calls.as_ptr(), calls.len()) }
}
