//! tantivy's posting lists, compiled from the unchanged sources of shared/docs/src, and what the
//! runs and the benchmark share.
//!
//! This file stands for tantivy's src/lib.rs, and `postings` for its src/postings/mod.rs: both name
//! files and crates that are not there. `rustfmt` is kept away from the sources, which it would
//! otherwise follow and change.

pub mod book;
pub mod damage;
pub mod images;
#[cfg(feature = "linked")]
pub mod linked;
#[cfg(feature = "linked-bench")]
pub mod linked_bench;
pub mod lists;
pub mod oracle;
mod postings;
pub mod reader;
pub mod reference;
mod stubs;

#[rustfmt::skip]
#[allow(unused)]
#[path = "../../../shared/docs/src/src/docset.rs"]
mod docset;
#[rustfmt::skip]
#[allow(unused)]
#[path = "../../../shared/docs/src/src/schema/index_record_option.rs"]
mod index_record_option;

use docset::TERMINATED;
use stubs::{directory, fastfield, fieldnorm, index, positions, query, schema, termdict};

type DocId = u32;
type Score = f32;
type Result<T> = std::io::Result<T>;

/// Fail points are for tantivy's own tests; its releases compile them to nothing.
macro_rules! fail_point {
    ($name:expr, $action:expr) => {};
}
use fail_point;
