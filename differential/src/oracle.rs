//! What the Rust answers. Modes are 0 (`Basic`), 1 (`WithFreqs`) and 2 (`WithFreqsAndPositions`).

use common::CountingWriter;

use crate::directory::FileSlice;
pub use crate::docset::TERMINATED;
use crate::docset::{DocSet, SeekDangerResult};
use crate::lists::List;
use crate::postings::serializer::{FieldSerializer, PostingsSerializer};
use crate::postings::{BlockSegmentPostings, Postings, SegmentPostings};
use crate::reader::{Call, Image, ANSWER_NUMBERS};
use crate::schema::IndexRecordOption;

fn option(mode: u8) -> IndexRecordOption {
    match mode {
        0 => IndexRecordOption::Basic,
        1 => IndexRecordOption::WithFreqs,
        2 => IndexRecordOption::WithFreqsAndPositions,
        _ => panic!("mode {mode}"),
    }
}

/// The image of one term. `clear` is private; a new serializer is in the state that it leaves, which
/// `write_terms` shows.
pub fn write(mode: u8, record: bool, ids: &[u32], freqs: &[u32]) -> Vec<u8> {
    let mut image = Vec::new();
    let mut serializer = PostingsSerializer::new(0.0, option(mode), None);
    serializer.new_term(ids.len() as u32, record);
    for (&id, &freq) in ids.iter().zip(freqs) {
        serializer.write_doc(id, freq);
    }
    serializer.close_term(ids.len() as u32, &mut image).unwrap();
    image
}

/// The images of several terms of one field, one after the other, through `FieldSerializer`, which
/// clears one `PostingsSerializer` for each of them. Not for mode 2: it would ask for positions.
pub fn write_terms(mode: u8, lists: &[List]) -> Vec<u8> {
    let [mut terms, mut postings, mut positions] =
        [(); 3].map(|_| CountingWriter::wrap(Vec::new()));
    let mut field =
        FieldSerializer::create(option(mode), 0, &mut terms, &mut postings, &mut positions, None)
            .unwrap();
    for list in lists {
        let count = list.ids.len() as u32;
        field.new_term(&[], count, list.record).unwrap();
        for (&id, &freq) in list.ids.iter().zip(&list.freqs) {
            field.write_doc(id, freq, &[]);
        }
        field.close_term().unwrap();
    }
    field.close().unwrap();
    // The field begins with its number of tokens.
    postings.finish().split_off(size_of::<u64>())
}

/// An image in the Rust's hands. Only sound ones may get there: of others it reads on for ever, or
/// panics. The same goes for targets above `TERMINATED`.
pub struct Opener {
    mode: u8,
    count: u32,
    file: FileSlice,
}

impl Opener {
    pub fn new(image: &Image) -> Opener {
        Opener { mode: image.mode, count: image.count, file: (&image.bytes[..]).into() }
    }

    fn blocks(&self, requested: u8) -> BlockSegmentPostings {
        let (mode, requested) = (option(self.mode), option(requested));
        BlockSegmentPostings::open(self.count, self.file.clone(), mode, requested).unwrap()
    }

    fn open(&self, requested: u8) -> SegmentPostings {
        SegmentPostings::from_block_postings(self.blocks(requested), None)
    }

    /// All documents and their frequencies.
    pub fn read(&self, requested: u8) -> Vec<(u32, u32)> {
        let mut cursor = self.open(requested);
        let mut documents = Vec::with_capacity(self.count as usize);
        while cursor.doc() != TERMINATED {
            documents.push((cursor.doc(), cursor.term_freq()));
            cursor.advance();
        }
        documents
    }

    /// The same, into two slices that are as long as the list.
    pub fn read_into(&self, requested: u8, docs: &mut [u32], freqs: &mut [u32]) {
        let mut cursor = self.open(requested);
        for (doc, freq) in docs.iter_mut().zip(freqs) {
            *doc = cursor.doc();
            *freq = cursor.term_freq();
            cursor.advance();
        }
    }

    /// The answer to opening and to each call.
    pub fn calls(&self, requested: u8, calls: &[Call]) -> Vec<Shown> {
        let mut cursor = self.open(requested);
        let mut shown = vec![self.show(&cursor, None)];
        for &call in calls {
            make(call, &mut cursor);
            shown.push(self.show(&cursor, Some(call)));
        }
        shown
    }

    /// The same by `seek_danger`, whose own word for the hit is taken.
    pub fn calls_by_danger(&self, requested: u8, calls: &[Call]) -> Vec<Shown> {
        let mut cursor = self.open(requested);
        let mut shown = vec![self.show(&cursor, None)];
        for &call in calls {
            let hit = make_by_danger(call, &mut cursor);
            shown.push(Shown { hit, ..self.show(&cursor, None) });
        }
        shown
    }

    fn show(&self, cursor: &SegmentPostings, call: Option<Call>) -> Shown {
        let (doc, freq, hit) = answer(cursor, call);
        let held = &cursor.block_cursor;
        assert!(held.block_is_loaded());
        Shown { doc, freq, hit, block: (self.count - held.skip_reader().remaining_docs()) / 128 }
    }

    /// Calls and answers as `exports` has them, of which the Rust has document, frequency and hit.
    pub fn run_calls(&self, requested: u8, calls: &[u64], answers: &mut [u64]) {
        let mut cursor = self.open(requested);
        let mut answers = answers.chunks_exact_mut(ANSWER_NUMBERS);
        let mut put = |(doc, freq, hit): (u32, u32, bool)| {
            let numbers = [0, doc.into(), freq.into(), 0, 0, hit.into()];
            answers.next().unwrap().copy_from_slice(&numbers);
        };
        put(answer(&cursor, None));
        for &call in calls {
            let call = Call::from_number(call).unwrap();
            make(call, &mut cursor);
            put(answer(&cursor, Some(call)));
        }
    }

    /// Seeks in order, with what they answer in three slices: documents, frequencies and hits.
    pub fn seek_into(
        &self,
        requested: u8,
        targets: &[u32],
        docs: &mut [u32],
        freqs: &mut [u32],
        hits: &mut [u8],
    ) {
        let mut cursor = self.open(requested);
        for (((&target, doc), freq), hit) in targets.iter().zip(docs).zip(freqs).zip(hits) {
            let call = Call::Seek(target);
            make(call, &mut cursor);
            let (found_doc, found_freq, found_hit) = answer(&cursor, Some(call));
            (*doc, *freq, *hit) = (found_doc, found_freq, found_hit.into());
        }
    }

    /// The number of ids below the target, by a fresh cursor.
    pub fn rank(&self, target: u32) -> u64 {
        assert!(target <= TERMINATED);
        self.blocks(0).rank(target).into()
    }

    /// The sum of frequencies below the target, by a walk.
    pub fn total(&self, target: u32) -> u64 {
        let mut cursor = self.open(1);
        let mut sum = 0;
        while cursor.doc() < target {
            sum += u64::from(cursor.term_freq());
            cursor.advance();
        }
        sum
    }
}

/// What a cursor shows.
#[derive(Clone, Copy)]
pub struct Shown {
    pub doc: u32,
    pub freq: u32,
    pub hit: bool,
    /// The number of the block that is held, all of whose values are unpacked.
    pub block: u32,
}

#[inline]
fn make(call: Call, cursor: &mut SegmentPostings) {
    match call {
        Call::Step => cursor.advance(),
        Call::Seek(target) => {
            assert!(target <= TERMINATED);
            cursor.seek(target)
        }
    };
}

/// Makes the call, a seek by `seek_danger`, and answers whether that found its target. For `TERMINATED`
/// it would not move. Of any docset it wants targets that rise, and may spoil it on a miss; a posting
/// list has the trait's default, `seek` and a comparison, which takes any and leaves it valid.
fn make_by_danger(call: Call, cursor: &mut SegmentPostings) -> bool {
    match call {
        Call::Seek(target) if target < TERMINATED => {
            cursor.seek_danger(target) == SeekDangerResult::Found
        }
        _ => {
            make(call, cursor);
            false
        }
    }
}

/// The document, its frequency, and whether it is the target of the seek that came to it. At the end
/// the frequency is 0, as document 01 has it, since the Rust shows what an earlier document left there.
/// The Rust's `seek` doesn't tell the hit, so its document is compared with the target; `seek_danger`
/// tells it by the same rule, but doesn't move for `TERMINATED` (`make_by_danger`).
#[inline]
fn answer(cursor: &SegmentPostings, call: Option<Call>) -> (u32, u32, bool) {
    match cursor.doc() {
        TERMINATED => (TERMINATED, 0, false),
        doc => {
            let hit = matches!(call, Some(Call::Seek(target)) if target == doc);
            (doc, cursor.term_freq(), hit)
        }
    }
}
