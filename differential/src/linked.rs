//! The other side: the functions of the crate `exports`, from its static library.

use crate::lists::List;
use crate::reader::Answer;
#[cfg(feature = "linked-calls")]
use crate::reader::Caller;
#[cfg(feature = "linked-reading")]
use crate::reader::{Image, Reader};

fn answer(number: u64) -> Answer {
    match number.checked_sub(1 << 63) {
        None => Ok(number),
        Some(refusal) => Err(refusal),
    }
}

// A slice is a pointer and a length.
unsafe extern "C" {
    pub fn vilthorwy_write_list(
        mode: u8,
        record: u8,
        ids: *const u32,
        ids_len: usize,
        freqs: *const u32,
        freqs_len: usize,
        skips: *mut u8,
        skips_len: usize,
        postings: *mut u8,
        postings_len: usize,
        output: *mut u8,
        output_len: usize,
    ) -> u64;
    pub fn vilthorwy_write_docs(
        mode: u8,
        record: u8,
        ids: *const u32,
        ids_len: usize,
        freqs: *const u32,
        freqs_len: usize,
        announced: u32,
        skips: *mut u8,
        skips_len: usize,
        postings: *mut u8,
        postings_len: usize,
        output: *mut u8,
        output_len: usize,
    ) -> u64;
    pub fn vilthorwy_read(
        mode: u8,
        requested: u8,
        count: u32,
        image: *const u8,
        image_len: usize,
        docs: *mut u32,
        docs_len: usize,
        freqs: *mut u32,
        freqs_len: usize,
    ) -> u64;
    pub fn vilthorwy_run_calls(
        mode: u8,
        requested: u8,
        count: u32,
        image: *const u8,
        image_len: usize,
        calls: *const u64,
        calls_len: usize,
        answers: *mut u64,
        answers_len: usize,
    ) -> u64;
    pub fn vilthorwy_rank(
        mode: u8,
        count: u32,
        image: *const u8,
        image_len: usize,
        target: u32,
    ) -> u64;
    pub fn vilthorwy_total(
        mode: u8,
        count: u32,
        image: *const u8,
        image_len: usize,
        target: u32,
    ) -> u64;
    pub fn vilthorwy_validate(mode: u8, count: u32, image: *const u8, image_len: usize) -> u64;
}

/// What a writer is lent.
pub struct Lent {
    pub skips: Vec<u8>,
    pub postings: Vec<u8>,
    pub output: Vec<u8>,
}

pub fn write_list(list: &List, lent: &mut Lent) -> Answer {
    // SAFETY: each pointer comes with the length of its own slice; the mutable ones are apart.
    answer(unsafe {
        vilthorwy_write_list(
            list.mode,
            list.record.into(),
            list.ids.as_ptr(),
            list.ids.len(),
            list.freqs.as_ptr(),
            list.freqs.len(),
            lent.skips.as_mut_ptr(),
            lent.skips.len(),
            lent.postings.as_mut_ptr(),
            lent.postings.len(),
            lent.output.as_mut_ptr(),
            lent.output.len(),
        )
    })
}

pub fn write_docs(list: &List, announced: u32, lent: &mut Lent) -> Answer {
    // SAFETY: as above.
    answer(unsafe {
        vilthorwy_write_docs(
            list.mode,
            list.record.into(),
            list.ids.as_ptr(),
            list.ids.len(),
            list.freqs.as_ptr(),
            list.freqs.len(),
            announced,
            lent.skips.as_mut_ptr(),
            lent.skips.len(),
            lent.postings.as_mut_ptr(),
            lent.postings.len(),
            lent.output.as_mut_ptr(),
            lent.output.len(),
        )
    })
}

/// The reading functions.
#[cfg(feature = "linked-reading")]
pub struct Library;

#[cfg(feature = "linked-reading")]
impl Reader for Library {
    fn name(&self) -> &'static str {
        "library"
    }

    fn validate(&self, image: &Image) -> u64 {
        let bytes = &image.bytes;
        // SAFETY: as above.
        unsafe { vilthorwy_validate(image.mode, image.count, bytes.as_ptr(), bytes.len()) }
    }

    fn read(&self, image: &Image, requested: u8, docs: &mut [u32], freqs: &mut [u32]) -> Answer {
        // SAFETY: as above.
        answer(unsafe {
            vilthorwy_read(
                image.mode,
                requested,
                image.count,
                image.bytes.as_ptr(),
                image.bytes.len(),
                docs.as_mut_ptr(),
                docs.len(),
                freqs.as_mut_ptr(),
                freqs.len(),
            )
        })
    }

    fn rank(&self, image: &Image, target: u32) -> Answer {
        let bytes = &image.bytes;
        // SAFETY: as above.
        answer(unsafe {
            vilthorwy_rank(image.mode, image.count, bytes.as_ptr(), bytes.len(), target)
        })
    }

    fn total(&self, image: &Image, target: u32) -> Answer {
        let bytes = &image.bytes;
        // SAFETY: as above.
        answer(unsafe {
            vilthorwy_total(image.mode, image.count, bytes.as_ptr(), bytes.len(), target)
        })
    }
}

#[cfg(feature = "linked-calls")]
impl Caller for Library {
    fn name(&self) -> &'static str {
        "library"
    }

    fn run_calls(&self, image: &Image, requested: u8, calls: &[u64], answers: &mut [u64]) -> u64 {
        // SAFETY: as above.
        unsafe {
            vilthorwy_run_calls(
                image.mode,
                requested,
                image.count,
                image.bytes.as_ptr(),
                image.bytes.len(),
                calls.as_ptr(),
                calls.len(),
                answers.as_mut_ptr(),
                answers.len(),
            )
        }
    }
}
