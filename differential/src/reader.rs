//! What both readings of an image have in common: the library's and the plain one of `reference`.
//! The functions are those that `exports` has, with its numbers.

use std::fmt;

use crate::TERMINATED;

/// One term's bytes with its recorded mode and count. Nothing is promised of them.
#[derive(Clone, PartialEq)]
pub struct Image {
    pub mode: u8,
    pub count: u32,
    pub bytes: Vec<u8>,
}

impl fmt::Display for Image {
    fn fmt(&self, f: &mut fmt::Formatter) -> fmt::Result {
        write!(f, "mode {}, count {}, bytes", self.mode, self.count)?;
        self.bytes.iter().try_for_each(|byte| write!(f, " {byte:02X}"))
    }
}

/// A number, or the number of a refusal.
pub type Answer = Result<u64, u64>;

pub trait Reader: Sync {
    fn name(&self) -> &'static str;

    /// 0, or the number of the refusal.
    fn validate(&self, image: &Image) -> u64;

    /// All documents and frequencies, at the start of both slices. How many.
    fn read(&self, image: &Image, requested: u8, docs: &mut [u32], freqs: &mut [u32]) -> Answer;

    fn rank(&self, image: &Image, target: u32) -> Answer;

    fn total(&self, image: &Image, target: u32) -> Answer;
}

/// Numbers in an answer: the refusal's or 0, document, frequency, blocks unpacked, entries read, hit:
/// 1 where a seek's document is the target itself, else 0.
pub const ANSWER_NUMBERS: usize = 6;
pub const REFUSAL_PLACE: usize = 0;
pub const DOC_PLACE: usize = 1;
pub const FREQ_PLACE: usize = 2;
pub const ENTRIES_PLACE: usize = 4;
pub const HIT_PLACE: usize = 5;

/// The answer of a refusal.
pub fn refused(number: u64) -> [u64; ANSWER_NUMBERS] {
    let mut answer = [0; ANSWER_NUMBERS];
    answer[REFUSAL_PLACE] = number;
    answer
}

pub trait Caller: Sync {
    fn name(&self) -> &'static str;

    /// A call is kind × 2 ^ 32 + target: a step by value, a seek by value, and both on a lent
    /// cursor. How many answers were written, the opening's included.
    fn run_calls(&self, image: &Image, requested: u8, calls: &[u64], answers: &mut [u64]) -> u64;
}

#[derive(Clone, Copy, Debug)]
pub enum Call {
    Step,
    Seek(u32),
}

impl Call {
    /// Nothing where the kind is unknown.
    pub fn from_number(number: u64) -> Option<Call> {
        match number >> 32 {
            0 | 2 => Some(Call::Step),
            1 | 3 => Some(Call::Seek(number as u32)),
            _ => None,
        }
    }

    /// Whether it seeks a target above the limit.
    pub fn too_large(self) -> bool {
        matches!(self, Call::Seek(target) if target > TERMINATED)
    }
}
