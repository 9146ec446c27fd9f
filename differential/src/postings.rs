//! In place of tantivy's src/postings/mod.rs, which also declares modules whose files are not there
//! (`postings`, `term_info` and the indexing side). `Postings`, `TermInfo` and `FreqReadingOption`
//! are theirs, as far as the sources here use them.
use std::ops::Range;

#[rustfmt::skip]
#[allow(unused)]
#[path = "../../../shared/docs/src/src/postings/block_search.rs"]
mod block_search;
#[rustfmt::skip]
#[allow(unused)]
#[path = "../../../shared/docs/src/src/postings/block_segment_postings.rs"]
mod block_segment_postings;
#[rustfmt::skip]
#[allow(unused)]
#[path = "../../../shared/docs/src/src/postings/compression/mod.rs"]
pub(crate) mod compression;
#[rustfmt::skip]
#[allow(unused)]
#[path = "../../../shared/docs/src/src/postings/segment_postings.rs"]
mod segment_postings;
#[rustfmt::skip]
#[allow(unused)]
#[path = "../../../shared/docs/src/src/postings/serializer.rs"]
pub mod serializer;
#[rustfmt::skip]
#[allow(unused)]
#[path = "../../../shared/docs/src/src/postings/skip.rs"]
mod skip;

pub(crate) use self::block_search::search_block;
pub use self::block_segment_postings::BlockSegmentPostings;
pub use self::segment_postings::SegmentPostings;
pub(crate) use self::skip::{BlockInfo, SkipReader};

pub trait Postings {
    fn term_freq(&self) -> u32;
    #[allow(unused)]
    fn append_positions_with_offset(&mut self, offset: u32, output: &mut Vec<u32>);
}

#[derive(Default)]
pub struct TermInfo {
    pub doc_freq: u32,
    pub postings_range: Range<usize>,
    pub positions_range: Range<usize>,
}

#[allow(clippy::enum_variant_names)]
#[derive(Clone, Copy)]
pub(crate) enum FreqReadingOption {
    NoFreq,
    SkipFreq,
    ReadFreq,
}
