//! Sound images: what a reader answers, beside the Rust's answers and the list that the image is of.

use differential::book::book;
use differential::images::{odd_image, Style};
#[cfg(feature = "linked-bench")]
use differential::linked_bench;
use differential::lists::{List, Rng};
use differential::oracle::{self, Opener, TERMINATED};
use differential::reader::{Call, Caller, Image, Reader, ANSWER_NUMBERS, ENTRIES_PLACE, HIT_PLACE};
#[cfg(feature = "linked-bench")]
use differential::reader::{DOC_PLACE, FREQ_PLACE, REFUSAL_PLACE};

use crate::seeks::{Manner, Seeks};
use crate::{equal, Bytes, Outcome, Tally, CALLERS, READERS};

/// The written image, one in the non-strict form and one of any kind: whole readings, ranks, totals
/// and lists of calls.
pub fn check(list: &List, rng: &mut Rng, tally: &mut Tally) -> Outcome {
    let bytes = oracle::write(list.mode, list.record, &list.ids, &list.freqs);
    let written = Image { mode: list.mode, count: list.ids.len() as u32, bytes };
    let any = Style::any(rng);
    let others = [Style::NON_STRICT, any].map(|style| odd_image(list, style, rng));
    for image in [&written].into_iter().chain(&others) {
        let difference = |difference| format!("{difference}\n  in {image}");
        let before = image.bytes.clone();
        check_image(list, image, rng, tally).map_err(difference)?;
        equal(|| "image afterwards".into(), Bytes(&image.bytes), Bytes(&before))?;
    }
    Ok(())
}

fn check_image(list: &List, image: &Image, rng: &mut Rng, tally: &mut Tally) -> Outcome {
    tally.images += 1;
    let opener = Opener::new(image);
    for reader in READERS {
        equal(|| format!("{}, validate", reader.name()), reader.validate(image), 0)?;
    }
    for requested in 0..3 {
        let documents = documents(list, requested);
        equal(|| format!("Rust, read {requested}"), &opener.read(requested), &documents)?;
        for reader in READERS {
            read(*reader, image, requested, &documents)?;
        }
        let calls = some_calls(rng, &list.ids);
        check_calls(image, &opener, requested, &documents, &calls, tally)?;
    }
    counts(list, image, &opener, rng, tally)?;
    seeks_beside(list, image, &opener, rng, tally)?;
    #[cfg(feature = "linked-bench")]
    unserved(image)?;
    CALLERS.iter().try_for_each(|caller| unanswered(*caller, image))
}

/// What a reader gets who requests this mode.
pub fn documents(list: &List, requested: u8) -> Vec<(u32, u32)> {
    list.ids.iter().copied().zip(list.freqs_read(requested)).collect()
}

fn read(reader: &dyn Reader, image: &Image, requested: u8, documents: &[(u32, u32)]) -> Outcome {
    let count = documents.len();
    let what = |what| format!("{}, read {requested}, {what}", reader.name());
    for spare in [0, 3] {
        let (answer, found) = read_into(reader, image, requested, [count + spare; 2]);
        equal(|| what("how many"), answer, Ok(count as u64))?;
        equal(|| what("documents"), &found[..count], documents)?;
        equal(|| what("behind"), &found[count..], &unwritten(count..count + spare)[..])?;
    }
    if count > 0 {
        for lengths in [[count - 1, count], [count, count - 1]] {
            let (answer, found) = read_into(reader, image, requested, lengths);
            equal(|| what("into too little"), answer, Err(15))?;
            equal(|| what("into too little"), &found, &unwritten(0..count - 1))?;
        }
    }
    for requested in [3, 255] {
        let (answer, found) = read_into(reader, image, requested, [count; 2]);
        equal(|| what("requested too much"), answer, Err(1))?;
        equal(|| what("requested too much"), &found, &unwritten(0..count))?;
    }
    Ok(())
}

/// Into slices of these lengths. What stands in them afterwards, side by side.
pub fn read_into(
    reader: &dyn Reader,
    image: &Image,
    requested: u8,
    lengths: [usize; 2],
) -> (Result<u64, u64>, Vec<(u32, u32)>) {
    let before = unwritten(0..lengths[0].max(lengths[1]));
    let (mut docs, mut freqs): (Vec<u32>, Vec<u32>) = before.into_iter().unzip();
    docs.truncate(lengths[0]);
    freqs.truncate(lengths[1]);
    let answer = reader.read(image, requested, &mut docs, &mut freqs);
    (answer, docs.into_iter().zip(freqs).collect())
}

/// What the slices hold before they are lent.
pub fn unwritten(places: std::ops::Range<usize>) -> Vec<(u32, u32)> {
    let number = |place: usize| (place as u32).wrapping_mul(0x9E37_79B9);
    places.map(|place| (!number(place), number(place))).collect()
}

/// The targets one below each id, those at it, and those one above.
fn beside(ids: &[u32]) -> [Vec<u32>; 3] {
    [0, 1, 2].map(|more| ids.iter().map(|id| (id + more).saturating_sub(1)).collect())
}

/// Seeks one below every id, at every id, one above every id, and all of these in order: four lists of
/// calls, each of them continued to the end and at it. Up to there the targets don't fall, so that a
/// seek hits exactly where the list has its target.
fn seeks_beside(
    list: &List,
    image: &Image,
    opener: &Opener,
    rng: &mut Rng,
    tally: &mut Tally,
) -> Outcome {
    let requested = rng.below(3) as u8;
    let documents = documents(list, requested);
    let at_the_end = [TERMINATED, list.ids.last().copied().unwrap_or(0), TERMINATED];
    let beside = beside(&list.ids);
    let mut all = beside.concat();
    all.sort();
    for mut targets in beside.into_iter().chain([all]) {
        let listed = |target| u64::from(list.ids.binary_search(target).is_ok());
        let mut hits: Vec<u64> = targets.iter().map(listed).collect();
        targets.extend(at_the_end);
        hits.extend(at_the_end.map(|_| 0));
        let seeks: Vec<Call> = targets.iter().copied().map(Call::Seek).collect();
        let answers = book(&documents, &seeks);
        let found = answers[1..].iter().map(|answer| answer[HIT_PLACE]).collect();
        equal(|| format!("book, hits of {targets:?}"), found, hits)?;
        let mut number = |target: &u32| (1 + 2 * rng.below(2)) << 32 | u64::from(*target);
        let calls: Vec<u64> = targets.iter().map(&mut number).collect();
        check_calls(image, opener, requested, &documents, &calls, tally)?;
    }
    Ok(())
}

/// Ranks and totals at every id and beside it.
fn counts(
    list: &List,
    image: &Image,
    opener: &Opener,
    rng: &mut Rng,
    tally: &mut Tally,
) -> Outcome {
    let mut targets = beside(&list.ids).concat();
    targets.extend([0, 1, TERMINATED - 1, TERMINATED]);
    targets.sort();
    targets.dedup();
    let freqs = list.freqs_read(1);
    let (mut below, mut sum) = (0, 0);
    for target in targets {
        while below < list.ids.len() && list.ids[below] < target {
            sum += u64::from(freqs[below]);
            below += 1;
        }
        let rank = || format!("rank of {target}");
        let total = || format!("total below {target}");
        equal(|| format!("Rust, {}", rank()), opener.rank(target), below as u64)?;
        // The slower ones now and then.
        let all = rng.below(16) == 0;
        if all {
            equal(|| format!("Rust, {}", total()), opener.total(target), sum)?;
        }
        for reader in READERS {
            if all || reader.name() == "library" {
                let name = reader.name();
                let found = reader.rank(image, target);
                equal(|| format!("{name}, {}", rank()), found, Ok(below as u64))?;
                let found = reader.total(image, target);
                equal(|| format!("{name}, {}", total()), found, Ok(sum))?;
            }
        }
        tally.targets += 1;
    }
    for target in [TERMINATED + 1, u32::MAX] {
        for reader in READERS {
            let name = reader.name();
            equal(|| format!("{name}, rank of {target}"), reader.rank(image, target), Err(10))?;
            equal(|| format!("{name}, total of {target}"), reader.total(image, target), Err(10))?;
        }
    }
    Ok(())
}

/// Steps, and seeks near by, far on, at the borders of blocks, backward and beyond the limit; a walk
/// to the end now and then.
pub fn some_calls(rng: &mut Rng, ids: &[u32]) -> Vec<u64> {
    let by_step = rng.below(16) == 0;
    let length = if by_step { ids.len() + 4 } else { 8 + rng.below(48) as usize };
    // Where the cursor is, more or less.
    let mut place = 0;
    let mut call = |by_step| {
        let lent = 2 * rng.below(2);
        let choice = if by_step { 0 } else { rng.below(24) };
        let mut to = place;
        match choice {
            0..=6 => {
                place += 1;
                // A step takes no notice of the target.
                let target = if rng.below(4) == 0 { rng.draw() % (1 << 32) } else { 0 };
                return lent << 32 | target;
            }
            7..=12 => place += rng.below(4),
            13..=16 => place += rng.below(ids.len() as u64 / 6 + 2),
            17..=19 => place = (place / 128 + 1 + rng.below(2)) * 128 - 1 + rng.below(2),
            20..=22 => to = rng.below(place + 1),
            _ => {
                let odd = [TERMINATED, TERMINATED + 1, u32::MAX, 1 << 31 | rng.draw() as u32];
                return (1 + lent) << 32 | u64::from(odd[rng.below(4) as usize]);
            }
        }
        to = if choice < 20 { place } else { to };
        let near = ids.get(to as usize).map_or(TERMINATED, |id| *id);
        let target = (near + rng.below(3) as u32).saturating_sub(1).min(TERMINATED);
        (1 + lent) << 32 | u64::from(target)
    };
    (0..length).map(|_| call(by_step)).collect()
}

/// A list of calls: each answer is the book's, and document, frequency, number of blocks held so far
/// and hit are the Rust's. With `linked-bench` its seeks are made on two arrays as well. A difference
/// is told of as few calls as show it.
pub fn check_calls(
    image: &Image,
    opener: &Opener,
    requested: u8,
    documents: &[(u32, u32)],
    calls: &[u64],
    tally: &mut Tally,
) -> Outcome {
    tally.call_lists += 1;
    tally.calls += calls.len() as u64;
    let check = |calls: &[u64]| compare_calls(image, opener, requested, documents, calls);
    let mut difference = match check(calls) {
        Ok(seeks) => {
            tally.seeks.add(&seeks);
            return Ok(());
        }
        Err(difference) => difference,
    };
    let mut calls = calls.to_vec();
    let mut place = calls.len();
    while place > 0 {
        place -= 1;
        let mut fewer = calls.clone();
        fewer.remove(place);
        if let Err(less) = check(&fewer) {
            (calls, difference) = (fewer, less);
        }
    }
    let shown = |call: &u64| {
        let lent = if call >> 33 == 1 { " lent" } else { "" };
        format!("{:?}{lent}", Call::from_number(*call).unwrap())
    };
    let calls: Vec<String> = calls.iter().map(shown).collect();
    Err(format!("requested {requested}, {}: {difference}", calls.join(", ")))
}

fn compare_calls(
    image: &Image,
    opener: &Opener,
    requested: u8,
    documents: &[(u32, u32)],
    numbers: &[u64],
) -> Result<Seeks, String> {
    let calls: Vec<Call> = numbers.iter().map(|call| Call::from_number(*call).unwrap()).collect();
    let wanted = book(documents, &calls);
    rust_calls(opener, requested, &calls, &wanted)?;
    let length = ANSWER_NUMBERS * wanted.len();
    for caller in CALLERS {
        let name = caller.name();
        let (written, found) = calls_into(*caller, image, requested, numbers, length + 2);
        equal(|| format!("{name}, how many answers"), written, wanted.len() as u64)?;
        for (at, answer) in found[..length].chunks(ANSWER_NUMBERS).enumerate() {
            equal(|| format!("{name}, answer {at}"), answer, &wanted[at][..])?;
        }
        let behind = UNANSWERED..UNANSWERED + 2;
        let behind = behind.map(|number| number + length as u64);
        equal(|| format!("{name}, behind"), &found[length..], &behind.collect::<Vec<u64>>()[..])?;
    }
    let manners = numbers.iter().map(|number| Manner::of_call(*number));
    let mut seeks = Seeks::default();
    seeks.count(manners.zip(calls.iter().copied()), &wanted);
    #[cfg(feature = "linked-bench")]
    on_arrays(image, requested, documents, &calls, &mut seeks)?;
    Ok(seeks)
}

/// The seeks alone, on two lent arrays in the library's own loop, which ends at the first refusal.
#[cfg(feature = "linked-bench")]
fn on_arrays(
    image: &Image,
    requested: u8,
    documents: &[(u32, u32)],
    calls: &[Call],
    tried: &mut Seeks,
) -> Outcome {
    let target = |call: &Call| match call {
        Call::Seek(target) => Some(*target),
        Call::Step => None,
    };
    let targets: Vec<u32> = calls.iter().filter_map(target).collect();
    let seeks: Vec<Call> = targets.iter().copied().map(Call::Seek).collect();
    let answers = book(documents, &seeks);
    let served = answers[1..].iter().take_while(|answer| answer[REFUSAL_PLACE] == 0).count();
    let length = targets.len() + 2;
    let mut wanted = unstored(length);
    // Of opening nothing is stored.
    for (place, answer) in wanted.iter_mut().zip(&answers[1..=served]) {
        let [doc, freq] = [DOC_PLACE, FREQ_PLACE].map(|place| answer[place] as u32);
        *place = ((doc, freq), answer[HIT_PLACE] as u8);
    }
    let (found, stored) = seeks_into(image, requested, &targets, [length; 3]);
    let what = |what| format!("on arrays, seeks {targets:?}, {what}");
    equal(|| what("how many are served"), found, served as u64)?;
    equal(|| what("what is stored"), stored, wanted)?;
    let made = seeks.into_iter().take(served + 1);
    tried.count(made.map(|seek| (Manner::OnArrays, seek)), &answers);
    Ok(())
}

/// No seek on arrays is served, nor anything stored, where one of the slices is too short.
#[cfg(feature = "linked-bench")]
fn unserved(image: &Image) -> Outcome {
    for short in 0..3 {
        let mut lengths = [3; 3];
        lengths[short] = 2;
        let found = seeks_into(image, 1, &[0, 1, 2], lengths);
        equal(|| format!("on arrays, into {lengths:?}"), found, (0, unstored(2)))?;
    }
    Ok(())
}

/// A document with its frequency, and whether it was a hit.
#[cfg(feature = "linked-bench")]
type Stored = ((u32, u32), u8);

/// On arrays, into slices of these lengths. What stands in them afterwards, side by side.
#[cfg(feature = "linked-bench")]
fn seeks_into(
    image: &Image,
    requested: u8,
    targets: &[u32],
    lengths: [usize; 3],
) -> (u64, Vec<Stored>) {
    let before = unstored(lengths.into_iter().max().unwrap_or(0));
    let ((mut docs, mut freqs), mut hits): ((Vec<u32>, Vec<u32>), Vec<u8>) =
        before.into_iter().unzip();
    docs.truncate(lengths[0]);
    freqs.truncate(lengths[1]);
    hits.truncate(lengths[2]);
    let served = linked_bench::seeks(image, requested, targets, &mut docs, &mut freqs, &mut hits);
    (served, docs.into_iter().zip(freqs).zip(hits).collect())
}

/// What the slices hold before they are lent. No hit is 2 or more.
#[cfg(feature = "linked-bench")]
fn unstored(length: usize) -> Vec<Stored> {
    unwritten(0..length).into_iter().zip((2..=255).cycle()).collect()
}

/// Nothing is answered, nor anything written, where answers have no room or a kind is unknown.
pub fn unanswered(caller: &dyn Caller, image: &Image) -> Outcome {
    let (step, seek) = (0, 3 << 32 | 5);
    for (calls, length) in [
        (&[][..], ANSWER_NUMBERS - 1),
        (&[step, seek][..], 3 * ANSWER_NUMBERS - 1),
        (&[step, seek][..], 0),
        (&[4 << 32][..], 2 * ANSWER_NUMBERS),
        (&[step, u64::MAX, seek][..], 9 * ANSWER_NUMBERS),
    ] {
        let what = || format!("{}, {calls:X?} into {length}", caller.name());
        let (written, found) = calls_into(caller, image, 1, calls, length);
        let untouched: Vec<u64> = (UNANSWERED..UNANSWERED + length as u64).collect();
        equal(what, (written, found), (0, untouched))?;
    }
    Ok(())
}

/// By `seek` and by `seek_danger`. A target above the limit never gets to the Rust, and changes nothing.
fn rust_calls(
    opener: &Opener,
    requested: u8,
    calls: &[Call],
    wanted: &[[u64; ANSWER_NUMBERS]],
) -> Outcome {
    let taken: Vec<Call> = calls.iter().copied().filter(|call| !call.too_large()).collect();
    let by_seek = opener.calls(requested, &taken);
    let by_danger = opener.calls_by_danger(requested, &taken);
    let not_above = |at: usize| at == 0 || !calls[at - 1].too_large();
    for (by, shown) in [("seek", by_seek), ("seek_danger", by_danger)] {
        let wanted = wanted.iter().enumerate().filter(|(at, _)| not_above(*at));
        let mut held = std::collections::BTreeSet::new();
        for ((at, wanted), shown) in wanted.zip(shown) {
            held.insert(shown.block);
            let (doc, freq) = (shown.doc.into(), shown.freq.into());
            // Entries read it doesn't count.
            let entries = wanted[ENTRIES_PLACE];
            let found = [0, doc, freq, held.len() as u64, entries, shown.hit.into()];
            equal(|| format!("Rust by {by}, answer {at}"), &found, wanted)?;
        }
    }
    Ok(())
}

/// What the answers hold before they are lent, counting up.
pub const UNANSWERED: u64 = 0xABCD_0000_0000;

pub fn calls_into(
    caller: &dyn Caller,
    image: &Image,
    requested: u8,
    calls: &[u64],
    length: usize,
) -> (u64, Vec<u64>) {
    let mut answers: Vec<u64> = (UNANSWERED..UNANSWERED + length as u64).collect();
    (caller.run_calls(image, requested, calls, &mut answers), answers)
}
