//! The modules of tantivy that the sources name and that are not compiled here. `OwnedBytes` and
//! `FileSlice` work; a type without values only has to exist, and shows that its code never runs.

pub mod directory {
    use std::convert::Infallible;
    use std::io::{self, Read};
    use std::marker::PhantomData;
    use std::ops::Range;
    use std::sync::Arc;

    use common::CountingWriter;

    use super::schema::Field;

    /// A part of shared bytes. common/src/file_slice.rs has the real `FileSlice` over file handles
    /// and async reads; here a file is bytes in memory.
    #[derive(Clone)]
    pub struct OwnedBytes {
        bytes: Arc<[u8]>,
        part: Range<usize>,
    }

    impl OwnedBytes {
        pub fn empty() -> Self {
            OwnedBytes { bytes: Arc::new([]), part: 0..0 }
        }

        #[inline]
        pub fn as_slice(&self) -> &[u8] {
            &self.bytes[self.part.clone()]
        }

        pub fn len(&self) -> usize {
            self.part.len()
        }

        pub fn split(self, n: usize) -> (OwnedBytes, OwnedBytes) {
            assert!(n <= self.len());
            let middle = self.part.start + n;
            let first = OwnedBytes { bytes: self.bytes.clone(), part: self.part.start..middle };
            (first, OwnedBytes { part: middle..self.part.end, ..self })
        }

        #[inline]
        pub fn advance(&mut self, n: usize) {
            assert!(n <= self.part.len());
            self.part.start += n;
        }
    }

    impl Read for OwnedBytes {
        fn read(&mut self, buffer: &mut [u8]) -> io::Result<usize> {
            let n = self.as_slice().read(buffer)?;
            self.advance(n);
            Ok(n)
        }
    }

    #[derive(Clone)]
    pub struct FileSlice(OwnedBytes);

    impl FileSlice {
        pub fn read_bytes(&self) -> io::Result<OwnedBytes> {
            Ok(self.0.clone())
        }
    }

    impl From<&[u8]> for FileSlice {
        fn from(bytes: &[u8]) -> Self {
            FileSlice(OwnedBytes { bytes: bytes.into(), part: 0..bytes.len() })
        }
    }

    pub type WritePtr = Vec<u8>;

    pub struct CompositeWrite<W>(Infallible, PhantomData<W>);

    impl<W> CompositeWrite<W> {
        pub fn wrap(_: W) -> Self {
            unreachable!()
        }

        pub fn for_field(&mut self, _: Field) -> &mut CountingWriter<W> {
            match self.0 {}
        }

        pub fn close(self) -> io::Result<()> {
            match self.0 {}
        }
    }
}

pub mod fastfield {
    pub enum AliveBitSet {}

    impl AliveBitSet {
        pub fn is_alive(&self, _: u32) -> bool {
            match *self {}
        }
    }
}

pub mod fieldnorm {
    pub enum FieldNormReader {}

    impl FieldNormReader {
        pub fn num_docs(&self) -> u32 {
            match *self {}
        }

        pub fn fieldnorm_id(&self, _: u32) -> u8 {
            match *self {}
        }
    }
}

pub mod index {
    use super::directory::WritePtr;
    use super::schema::Schema;

    pub enum Segment {}

    pub enum SegmentComponent {
        Positions,
        Postings,
        Terms,
    }

    impl Segment {
        pub fn open_write(&self, _: SegmentComponent) -> crate::Result<WritePtr> {
            match *self {}
        }

        pub fn schema(&self) -> Schema {
            match *self {}
        }
    }
}

pub mod positions {
    use std::convert::Infallible;
    use std::io;
    use std::marker::PhantomData;

    #[derive(Clone)]
    pub enum PositionReader {}

    impl PositionReader {
        pub fn read(&mut self, _: u64, _: &mut [u32]) {
            match *self {}
        }
    }

    pub struct PositionSerializer<W>(Infallible, PhantomData<W>);

    impl<W> PositionSerializer<W> {
        pub fn new(_: W) -> Self {
            unreachable!()
        }

        pub fn written_bytes(&self) -> u64 {
            match self.0 {}
        }

        pub fn write_positions_delta(&mut self, _: &[u32]) {
            match self.0 {}
        }

        pub fn close_term(&mut self) -> io::Result<()> {
            match self.0 {}
        }

        pub fn close(self) -> io::Result<()> {
            match self.0 {}
        }
    }
}

pub mod query {
    use crate::Score;

    pub enum Bm25Weight {}

    impl Bm25Weight {
        pub fn for_one_term_without_explain(_: u64, _: u64, _: Score) -> Self {
            unreachable!()
        }

        pub fn score(&self, _: u8, _: u32) -> Score {
            match *self {}
        }

        pub fn max_score(&self) -> Score {
            match *self {}
        }

        pub fn tf_factor(&self, _: u8, _: u32) -> Score {
            match *self {}
        }
    }
}

pub mod schema {
    pub use crate::index_record_option::IndexRecordOption;

    #[derive(Clone, Copy)]
    pub enum Field {}
    pub enum Schema {}
    pub enum FieldEntry {}
    pub enum FieldType {}

    impl Schema {
        pub fn get_field_entry(&self, _: Field) -> &FieldEntry {
            match *self {}
        }
    }

    impl FieldEntry {
        pub fn field_type(&self) -> &FieldType {
            match *self {}
        }
    }

    impl FieldType {
        pub fn index_record_option(&self) -> Option<IndexRecordOption> {
            match *self {}
        }
    }
}

pub mod termdict {
    use std::io;

    use crate::postings::TermInfo;

    /// Takes terms and forgets them, so that a `FieldSerializer` runs without a dictionary.
    pub struct TermDictionaryBuilder<W>(W);

    impl<W> TermDictionaryBuilder<W> {
        pub fn create(writer: W) -> io::Result<Self> {
            Ok(TermDictionaryBuilder(writer))
        }

        pub fn insert_key(&mut self, _: &[u8]) -> io::Result<()> {
            Ok(())
        }

        pub fn insert_value(&mut self, _: &TermInfo) -> io::Result<()> {
            Ok(())
        }

        pub fn finish(self) -> io::Result<W> {
            Ok(self.0)
        }
    }
}
