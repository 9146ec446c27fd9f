//! tantivy's crate `common`, as far as the posting lists lean on it.
use std::io::{self, Write};

#[rustfmt::skip]
#[allow(unused)]
#[path = "../../../../../shared/docs/src/common/src/serialize.rs"]
mod serialize;
#[rustfmt::skip]
#[allow(unused)]
#[path = "../../../../../shared/docs/src/common/src/vint.rs"]
mod vint;

pub use serialize::BinarySerializable;
pub use vint::VInt;

pub type Endianness = byteorder::LittleEndian;

#[allow(clippy::len_without_is_empty)]
pub trait HasLen {
    fn len(&self) -> usize;
}

/// Only in the signature of `DocSet::fill_bitset_block`, which nobody calls.
pub enum TinySet {}

impl TinySet {
    pub fn insert_mut(&mut self, _: u32) -> bool {
        match *self {}
    }
}

pub struct CountingWriter<W> {
    underlying: W,
    written_bytes: u64,
}

impl<W: Write> CountingWriter<W> {
    pub fn wrap(underlying: W) -> Self {
        CountingWriter { underlying, written_bytes: 0 }
    }

    pub fn written_bytes(&self) -> u64 {
        self.written_bytes
    }

    pub fn finish(self) -> W {
        self.underlying
    }
}

impl<W: Write> Write for CountingWriter<W> {
    fn write(&mut self, bytes: &[u8]) -> io::Result<usize> {
        let written = self.underlying.write(bytes)?;
        self.written_bytes += written as u64;
        Ok(written)
    }

    fn flush(&mut self) -> io::Result<()> {
        self.underlying.flush()
    }
}
