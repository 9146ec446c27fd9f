//! What documents 01 and 02 say in numbers, tried on the Rust over the shims, on the plain reading and,
//! where it is linked, on the library.

use differential::lists::List;
use differential::oracle::{self, Opener, TERMINATED};
use differential::reader::{refused, Image, ANSWER_NUMBERS};

use crate::{equal, Bytes, Outcome, CALLERS, READERS};

/// 01's worked lists: mode, ids, frequencies, and the bytes of the recorded list.
pub fn worked_lists() -> Outcome {
    let ones = |count| vec![1; count];
    let fifteen = "00 ".repeat(15);
    let but_127 = (0..127).chain([128]).collect();
    let lists: [(u8, Vec<u32>, Vec<u32>, String); 12] = [
        (0, vec![], vec![], "".into()),
        (1, vec![], vec![], "".into()),
        (1, vec![0], ones(1), "80 81".into()),
        (0, vec![0], ones(1), "80".into()),
        (1, vec![3, 7, 300], vec![1, 2, 130], "83 84 25 82 81 82 02 81".into()),
        (1, (0..128).collect(), ones(128), "88 7F 00 00 00 40 00 00 00".into()),
        (0, (0..128).collect(), ones(128), "85 7F 00 00 00 40".into()),
        (0, (0..127).collect(), ones(127), format!("80 {}", "81 ".repeat(126))),
        (0, (1..129).collect(), ones(128), format!("85 80 00 00 00 41 01 {fifteen}")),
        (0, but_127, ones(128), format!("85 80 00 00 00 41 {fifteen} 80")),
        (0, (0..129).collect(), ones(129), "85 7F 00 00 00 40 81".into()),
        (0, vec![TERMINATED - 1], ones(1), "7E 7F 7F 7F 87".into()),
    ];
    for (mode, ids, freqs, bytes) in lists {
        let byte = |word| u8::from_str_radix(word, 16).unwrap();
        let wanted: Vec<u8> = bytes.split_whitespace().map(byte).collect();
        let found = oracle::write(mode, true, &ids, &freqs);
        equal(|| format!("worked list, mode {mode}, ids {ids:?}"), Bytes(&found), Bytes(&wanted))?;
    }
    // The first four bytes of 3, 7, 300 are the list without its frequencies.
    let image = Image { mode: 1, count: 3, bytes: vec![0x83, 0x84, 0x25, 0x82] };
    let found = Opener::new(&image).read(1);
    equal(|| "worked list without frequencies".into(), found, vec![(3, 1), (7, 1), (300, 1)])
}

/// Calls by value, on a lent cursor where `LENT` is added.
const STEP: u64 = 0;
const SEEK: u64 = 1 << 32;
const LENT: u64 = 2 << 32;

type Numbers = [u64; ANSWER_NUMBERS];

const AT_THE_END: Numbers = [0, 2147483647, 0, 1, 0, 0];

/// The ids 3, 7, 300 with the frequencies 1, 2, 130.
fn worked_image() -> Image {
    Image { mode: 1, count: 3, bytes: vec![0x83, 0x84, 0x25, 0x82, 0x81, 0x82, 0x02, 0x81] }
}

/// Document 02's Ask 10 in numbers: a target that is too large, before the end and at it, by value and
/// on a lent cursor, on the worked list and on the empty one.
pub fn worked_too_large() -> Outcome {
    let too_large = refused(10);
    let calls = [
        (SEEK + 2147483648, too_large),
        (LENT + SEEK + 2147483648, too_large),
        (SEEK + 301, AT_THE_END),
        (SEEK + 2147483648, too_large),
        (LENT + SEEK + 4294967295, too_large),
        (LENT + SEEK + 2147483647, AT_THE_END),
        (STEP, AT_THE_END),
    ];
    answered(&worked_image(), [0, 3, 1, 1, 0, 0], &calls)?;
    for mode in [1, 0] {
        answered(&Image { mode, count: 0, bytes: vec![] }, AT_THE_END, &calls)?;
    }
    Ok(())
}

/// Document 02's Ask 2 in numbers: targets that are there and beside, ahead, at the present document,
/// behind it and at the end; and 2147483647, which the largest id is beside.
pub fn worked_hits() -> Outcome {
    let [at_7, at_300] = [|hit| [0, 7, 2, 1, 0, hit], |hit| [0, 300, 130, 1, 0, hit]];
    let calls = [
        (SEEK + 3, [0, 3, 1, 1, 0, 1]),
        (LENT + SEEK + 4, at_7(0)),
        (SEEK + 7, at_7(1)),
        (LENT + SEEK + 6, at_7(0)),
        (LENT + SEEK + 7, at_7(1)),
        (LENT + STEP + 300, at_300(0)),
        (LENT + SEEK + 300, at_300(1)),
        (SEEK + 299, at_300(0)),
        (SEEK + 7, at_300(0)),
        (STEP, AT_THE_END),
        (SEEK + 300, AT_THE_END),
        (LENT + SEEK + 2147483647, AT_THE_END),
    ];
    answered(&worked_image(), [0, 3, 1, 1, 0, 0], &calls)?;
    let image = Image { mode: 0, count: 1, bytes: vec![0x7E, 0x7F, 0x7F, 0x7F, 0x87] };
    let at_largest = |hit| [0, 2147483646, 1, 1, 0, hit];
    let calls = [
        (LENT + SEEK + 2147483645, at_largest(0)),
        (SEEK + 2147483646, at_largest(1)),
        (SEEK + 2147483647, AT_THE_END),
        (SEEK + 2147483647, AT_THE_END),
    ];
    answered(&image, at_largest(0), &calls)
}

/// Opening has the first answer, each call its own.
fn answered(image: &Image, first: Numbers, calls: &[(u64, Numbers)]) -> Outcome {
    let (calls, answers): (Vec<u64>, Vec<Numbers>) = calls.iter().copied().unzip();
    let wanted = [vec![first], answers].concat().concat();
    for caller in CALLERS {
        let mut found = vec![7; wanted.len()];
        let many = caller.run_calls(image, 1, &calls, &mut found);
        let what = || format!("{}, worked calls\n  of {image}", caller.name());
        equal(what, (many, &found), (1 + calls.len() as u64, &wanted))?;
    }
    Ok(())
}

/// An accepted list: what a cleared serializer writes is what a new one writes.
pub fn two_terms(list: &List) -> Outcome {
    let image = oracle::write(list.mode, list.record, &list.ids, &list.freqs);
    let twice = oracle::write_terms(list.mode, &[list.clone(), list.clone()]);
    equal(|| "two terms of one field".into(), Bytes(&twice), Bytes(&image.repeat(2)))
}

/// Images that document 01, and what was decided of its open points, name with their number.
pub fn worked_refusals() -> Outcome {
    let block = "7F 00 00 00 40";
    let cases = [
        (0, 0, "", 0),
        (0, 0, "80", 9),
        (1, 0, "00", 9),
        (2, 0, "", 1),
        (0, 2147483648, "", 2),
        (0, 1, "01 00 00 00 00 80", 8),
        (0, 1, "00 00 00 00 90", 8),
        (0, 2, "80 80", 6),
        (0, 1, "7F 7F 7F 7F 87", 6),
        (0, 1, "7E 7F 7F 7F 87", 0),
        (0, 1, "80 00", 9),
        (0, 3, "81 80 01", 8),
        (1, 2, "81 80 01", 6),
        (1, 1, "80 80", 7),
        (1, 3, "83 84 25 82", 0),
        (1, 3, "83 84 25 82 81 82", 8),
        (0, 128, &format!("85 {block}"), 0),
        (1, 128, &format!("85 {block}"), 0),
        (1, 128, &format!("88 {block} 00 00 00"), 0),
        (0, 128, &format!("85 {block} 00"), 9),
        (0, 128, &format!("86 {block} 00"), 4),
        (0, 128, "", 3),
        (0, 128, "85 7F", 3),
        (0, 128, "85 80 00 00 00 40", 6),
        (0, 128, "85 FF FF FF 7F 40", 5),
        (1, 128, &format!("88 {block} 21 00 00"), 5),
        (1, 129, &format!("88 {block} 00 00 00 81"), 8),
        (0, 129, &format!("85 {block} 80"), 6),
        (0, 256, "8A 7F 00 00 00 40 7F 00 00 00 40", 5),
    ];
    for (mode, count, bytes, number) in cases {
        let byte = |word| u8::from_str_radix(word, 16).unwrap();
        let bytes = bytes.split_whitespace().map(byte).collect();
        let image = Image { mode, count, bytes };
        for reader in READERS {
            let name = reader.name();
            equal(|| format!("{name}, validate\n  of {image}"), reader.validate(&image), number)?;
        }
    }
    Ok(())
}
