//! The function of the crate `bench`, from its static library.

use crate::reader::Image;

// A slice is a pointer and a length.
unsafe extern "C" {
    fn vilthorwy_bench_seeks(
        mode: u8,
        requested: u8,
        count: u32,
        image: *const u8,
        image_len: usize,
        targets: *const u32,
        targets_len: usize,
        docs: *mut u32,
        docs_len: usize,
        freqs: *mut u32,
        freqs_len: usize,
        hits: *mut u8,
        hits_len: usize,
    ) -> u64;
}

/// Seeks in order on one cursor, with what they answer in three slices: how many were served.
pub fn seeks(
    image: &Image,
    requested: u8,
    targets: &[u32],
    docs: &mut [u32],
    freqs: &mut [u32],
    hits: &mut [u8],
) -> u64 {
    // SAFETY: the slices are as long as is said, and those that are written overlap no other.
    unsafe {
        vilthorwy_bench_seeks(
            image.mode,
            requested,
            image.count,
            image.bytes.as_ptr(),
            image.bytes.len(),
            targets.as_ptr(),
            targets.len(),
            docs.as_mut_ptr(),
            docs.len(),
            freqs.as_mut_ptr(),
            freqs.len(),
            hits.as_mut_ptr(),
            hits.len(),
        )
    }
}
