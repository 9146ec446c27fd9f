//! The writing runs: what `exports` writes and refuses, beside the Rust's bytes and document 01's
//! numbers.

use std::sync::LazyLock;

use differential::linked::{write_docs, write_list, Lent};
use differential::lists::{all_lists, documents, Form, List};
use differential::oracle::{self, TERMINATED};

use crate::{equal, Bytes, Outcome};

/// The function that is called, the second one with the count that it announces.
#[derive(Clone, Copy, Debug)]
enum By {
    List,
    Docs(u32),
}

/// A list of as many ids as frequencies: written as the Rust writes it, or refused for its first
/// bad document. That is asked of single documents too, if told so: it takes some time.
pub fn check(list: &List, single: bool) -> Outcome {
    match refusal(list) {
        None => accepted(list),
        Some(number) => {
            let (count, blocks) = (list.ids.len(), list.ids.len() / 128);
            let ample = [8 * blocks, 1008 * blocks, 1016 * blocks + 10 * count + 10];
            run(By::List, list, ample, Err(number))?;
            // The lack of room is met last, behind another count than the list's own.
            run(By::List, list, [0; 3], Err(number))?;
            if single {
                for announced in [count as u32, count as u32 + 1] {
                    run(By::Docs(announced), list, ample, Err(number))?;
                    run(By::Docs(announced), list, [0; 3], Err(number))?;
                }
            }
            Ok(())
        }
    }
}

/// What is asked before any document: the mode, then as many ids as frequencies.
pub fn check_beginning() -> Outcome {
    let list =
        |mode, ids| List { mode, record: true, ids: vec![TERMINATED; ids], freqs: vec![0; 2] };
    for mode in [2, 3, 255] {
        run(By::List, &list(mode, 3), [0; 3], Err(1))?;
        for ids in [2, 3] {
            run(By::Docs(5), &list(mode, ids), [0; 3], Err(1))?;
        }
    }
    for mode in [0, 1] {
        for ids in [0, 1, 3] {
            run(By::List, &list(mode, ids), [0; 3], Err(14))?;
            run(By::Docs(5), &list(mode, ids), [0; 3], Err(14))?;
        }
    }
    Ok(())
}

/// All lists of up to three documents over the numbers at the limits, most of them bad.
pub fn short_lists(form: Form) -> Vec<List> {
    all_lists(form, |list| match list.ids.len() {
        3 => vec![],
        _ => documents([0, 1, 2, TERMINATED - 1, TERMINATED, u32::MAX], &[0, 1, u32::MAX]),
    })
}

/// The list with its document at a place spoiled, in each way and in two ways at once.
pub fn spoiled(list: &List, place: usize) -> Vec<List> {
    let (id, freq) = (list.ids[place], list.freqs[place]);
    let mut documents = vec![(TERMINATED, freq), (u32::MAX, 0), (id, 0)];
    if place > 0 {
        documents.extend([(list.ids[place - 1], freq), (list.ids[0], 0)]);
    }
    let with = |(id, freq)| {
        let mut list = list.clone();
        list.ids[place] = id;
        list.freqs[place] = freq;
        list
    };
    documents.into_iter().map(with).collect()
}

/// The number under which document 01 refuses a list for one of its documents.
fn refusal(list: &List) -> Option<u64> {
    let mut previous = None;
    for (&id, &freq) in list.ids.iter().zip(&list.freqs) {
        if id >= TERMINATED {
            return Some(11);
        }
        if previous.is_some_and(|previous| id <= previous) {
            return Some(12);
        }
        if list.kept() && freq == 0 {
            return Some(13);
        }
        previous = Some(id);
    }
    None
}

fn accepted(list: &List) -> Outcome {
    let image = oracle::write(list.mode, list.record, &list.ids, &list.freqs);
    let (skips, postings) = areas(list, &image);
    let count = list.ids.len() as u32;
    let exact = [skips.len(), postings.len(), image.len()];
    for by in [By::List, By::Docs(count)] {
        for spare in [0, 100] {
            let lengths = exact.map(|length| length + spare);
            run(by, list, lengths, Ok([skips, postings, &image]))?;
        }
        for short in 0..3 {
            let mut lengths = exact;
            if lengths[short] > 0 {
                lengths[short] -= 1;
                run(by, list, lengths, Err(15))?;
            }
        }
    }
    // The announced count is asked for before any room.
    for announced in [count + 1, count.wrapping_sub(1)] {
        run(By::Docs(announced), list, exact, Err(14))?;
        run(By::Docs(announced), list, [0; 3], Err(14))?;
    }
    Ok(())
}

/// The skip entries and the packed blocks inside an image, which the two areas hold afterwards.
fn areas<'a>(list: &List, image: &'a [u8]) -> (&'a [u8], &'a [u8]) {
    let blocks = list.ids.len() / 128;
    if blocks == 0 {
        return (&[], &[]);
    }
    let size = if list.kept() { 8 } else { 5 };
    // Of the skip length's bytes the last alone has its top bit set.
    let begin = 1 + image.iter().position(|byte| *byte >= 128).unwrap();
    let (skips, rest) = image[begin..].split_at(size * blocks);
    let width = |entry: &[u8]| entry[4] % 32 + if list.kept() { entry[5] } else { 0 };
    let bits: usize = skips.chunks(size).map(|entry| usize::from(width(entry))).sum();
    (skips, &rest[..16 * bits])
}

/// Wanted are skip entries, packed blocks and image at the start of the three buffers, or the
/// refusal. What lies behind must stay, and all of it where the list is refused.
fn run(by: By, list: &List, lengths: [usize; 3], wanted: Result<[&[u8]; 3], u64>) -> Outcome {
    let [skips, postings, output] = lengths.map(|length| unwritten(length).to_vec());
    let mut lent = Lent { skips, postings, output };
    let answer = match by {
        By::List => write_list(list, &mut lent),
        By::Docs(announced) => write_docs(list, announced, &mut lent),
    };
    let what = |part| format!("{by:?} into {lengths:?} bytes, {part}");
    equal(|| what("answer"), answer, wanted.map(|[.., image]| image.len() as u64))?;
    let holds = |part, found: &[u8], written: &[u8]| {
        let rest = &unwritten(found.len())[written.len()..];
        let (front, behind) = found.split_at(written.len());
        equal(|| what(part), Bytes(front), Bytes(written))?;
        equal(|| format!("{} behind", what(part)), Bytes(behind), Bytes(rest))
    };
    let [skips, postings, output] = wanted.unwrap_or_default();
    holds("output", &lent.output, output)?;
    holds("skips", &lent.skips, skips)?;
    holds("postings", &lent.postings, postings)
}

/// What a buffer holds before it is lent: bytes that differ from one to the next.
fn unwritten(length: usize) -> &'static [u8] {
    static BYTES: LazyLock<Vec<u8>> =
        LazyLock::new(|| (0..1 << 18).map(|i| (89 * i + 171) as u8).collect());
    &BYTES[..length]
}
