//! Damaged images: every answer is the one that `reference` gives, and nothing lent changes. The
//! Rust sees only those that turn out to be sound.

use differential::lists::Rng;
use differential::oracle::{Opener, TERMINATED};
use differential::reader::{Caller, Image, Reader, ANSWER_NUMBERS};
use differential::reference::{sound, Reference};

use crate::sound::{calls_into, check_calls, read_into, unanswered};
use crate::{equal, Bytes, Outcome, Tally, CALLERS, READERS};

pub fn check(image: &Image, rng: &mut Rng, tally: &mut Tally) -> Outcome {
    let wanted = sound(image);
    tally.damaged += 1;
    tally.refused[wanted.as_ref().map_or_else(|number| usize::from(*number), |_| 0)] += 1;
    let before = image.bytes.clone();
    for reader in READERS.iter().filter(|reader| reader.name() != Reference::NAME) {
        read(*reader, image, rng)?;
        counts(*reader, image, rng)?;
    }
    for caller in CALLERS.iter().filter(|caller| caller.name() != Reference::NAME) {
        calls(*caller, image, rng, tally)?;
        if rng.below(16) == 0 {
            unanswered(*caller, image)?;
        }
    }
    equal(|| "image afterwards".into(), Bytes(&image.bytes), Bytes(&before))?;
    match wanted {
        Ok(documents) => with_the_rust(image, &documents, rng, tally),
        Err(_) => Ok(()),
    }
}

fn with_the_rust(
    image: &Image,
    documents: &[(u32, u32)],
    rng: &mut Rng,
    tally: &mut Tally,
) -> Outcome {
    let opener = Opener::new(image);
    equal(|| "Rust, read 1".into(), &opener.read(1)[..], documents)?;
    let mut calls = some_calls(rng, image);
    calls.truncate(30);
    check_calls(image, &opener, 1, documents, &calls, tally)
}

fn read(reader: &dyn Reader, image: &Image, rng: &mut Rng) -> Outcome {
    let name = reader.name();
    equal(|| format!("{name}, validate"), reader.validate(image), Reference.validate(image))?;
    let requested = [0, 1, 2, 3, 255][rng.below(5) as usize];
    // Of large counts there are too few bytes to get that far.
    let count = image.count.min(1000) as usize;
    let short = rng.below(8) as usize;
    let lengths = [count - usize::from(short == 1 && count > 0), count + usize::from(short == 2)];
    let (found, slices) = read_into(reader, image, requested, lengths);
    let (wanted, right) = read_into(&Reference, image, requested, lengths);
    let what = || format!("{name}, read {requested} into {lengths:?}");
    equal(what, found, wanted)?;
    equal(|| format!("{}, what is in them", what()), slices, right)
}

fn counts(reader: &dyn Reader, image: &Image, rng: &mut Rng) -> Outcome {
    let name = reader.name();
    for _ in 0..3 {
        let target = some_target(rng, image);
        let (found, wanted) = (reader.rank(image, target), Reference.rank(image, target));
        equal(|| format!("{name}, rank of {target}"), found, wanted)?;
        let (found, wanted) = (reader.total(image, target), Reference.total(image, target));
        equal(|| format!("{name}, total below {target}"), found, wanted)?;
    }
    Ok(())
}

fn calls(caller: &dyn Caller, image: &Image, rng: &mut Rng, tally: &mut Tally) -> Outcome {
    for requested in [rng.below(2) as u8, [1, 2, 3, 255][rng.below(4) as usize]] {
        let calls = some_calls(rng, image);
        tally.damaged_calls += calls.len() as u64;
        let length = ANSWER_NUMBERS * (1 + calls.len()) + rng.below(3) as usize;
        let (found, answers) = calls_into(caller, image, requested, &calls, length);
        let (wanted, right) = calls_into(&Reference, image, requested, &calls, length);
        let what = || format!("{}, requested {requested}, calls {calls:X?}", caller.name());
        equal(|| format!("{}, how many answers", what()), found, wanted)?;
        for (at, (answer, right)) in
            answers.chunks(ANSWER_NUMBERS).zip(right.chunks(ANSWER_NUMBERS)).enumerate()
        {
            equal(|| format!("{}, answer {at}", what()), answer, right)?;
        }
    }
    Ok(())
}

/// Some calls, or steps over the whole image.
fn some_calls(rng: &mut Rng, image: &Image) -> Vec<u64> {
    let kind = |rng: &mut Rng, seek| (2 * rng.below(2) + seek) << 32;
    if image.count < 400 && rng.below(32) == 0 {
        return (0..image.count + 2).map(|_| kind(rng, 0)).collect();
    }
    let mut call = |_| match rng.below(3) {
        0 => kind(rng, 0),
        _ => kind(rng, 1) | u64::from(some_target(rng, image)),
    };
    (0..7).map(&mut call).collect()
}

/// Something at which there may be a difference: small numbers, last ids, limits.
fn some_target(rng: &mut Rng, image: &Image) -> u32 {
    let blocks = u64::from(image.count / 128);
    if blocks > 0 && rng.below(3) > 0 {
        let size = [5, 8][rng.below(2) as usize];
        let at = 1 + size * rng.below(blocks.min(8)) as usize;
        if let Some(bytes) = image.bytes.get(at..at + 4) {
            let last = u32::from_le_bytes(bytes.try_into().unwrap());
            return last.wrapping_add(rng.below(3) as u32).wrapping_sub(1);
        }
    }
    match rng.below(10) {
        0 => TERMINATED,
        1 => TERMINATED - 1,
        2 => TERMINATED + 1,
        3 => 1 << 31 | rng.draw() as u32,
        4 => rng.below(1 << 31) as u32,
        5 => rng.below(1000) as u32,
        _ => rng.below(10) as u32,
    }
}
