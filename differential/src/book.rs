//! Document 01's book, with document 02's Asks 2 and 10: what each call on a cursor is to answer.

use std::collections::BTreeSet;

use crate::reader::{refused, Call, ANSWER_NUMBERS};
use crate::reference::END;

/// A position over the documents and the blocks visited. Of the cursor it knows nothing.
struct Book<'a> {
    documents: &'a [(u32, u32)],
    position: usize,
    visited: BTreeSet<usize>,
}

impl Book<'_> {
    /// Opening and steps have no target.
    fn answer(&mut self, target: Option<u32>) -> [u64; ANSWER_NUMBERS] {
        let block = self.position / 128;
        self.visited.insert(block);
        let document = self.documents.get(self.position).copied();
        // Ask 2: at the end no document is there, whatever the target.
        let hit = document.is_some_and(|(doc, _)| target == Some(doc));
        let (doc, freq) = document.unwrap_or((END, 0));
        // Of the entries the book says nothing: each is read once, up to that of the held block.
        let entries = (self.documents.len() / 128).min(block + 1) as u64;
        [0, doc.into(), freq.into(), self.visited.len() as u64, entries, hit.into()]
    }

    fn call(&mut self, call: Call) -> [u64; ANSWER_NUMBERS] {
        let end = self.documents.len();
        match call {
            Call::Step => {
                self.position = end.min(self.position + 1);
                self.answer(None)
            }
            // Ask 10: at the end too.
            Call::Seek(target) if target > END => refused(10),
            Call::Seek(target) => {
                while self.position < end && self.documents[self.position].0 < target {
                    self.position += 1;
                }
                self.answer(Some(target))
            }
        }
    }
}

/// The opening's answer and one for each call, over documents with their frequencies.
pub fn book(documents: &[(u32, u32)], calls: &[Call]) -> Vec<[u64; ANSWER_NUMBERS]> {
    let mut book = Book { documents, position: 0, visited: BTreeSet::new() };
    let mut answers = vec![book.answer(None)];
    answers.extend(calls.iter().map(|call| book.call(*call)));
    answers
}
