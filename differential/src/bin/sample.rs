//! The sample of the Rust's images that the program `vectors` replays, to standard output:
//! `cargo run --release --bin sample > ../crates/vectors/stdin`. The head of
//! crates/vectors/src/main.rt has its layout.

use std::io::Write;

use differential::lists::{Form, List, Rng, Shape};
use differential::oracle::{self, TERMINATED};

const SEED: u64 = 1;

/// Modes, and whether frequencies are recorded.
const FORMS: [Form; 4] = [(1, true), (0, true), (1, false), (0, false)];

/// Lengths without a full block, tried in every form and shape.
const SHORT: [usize; 5] = [0, 1, 2, 3, 20];

/// Lengths around the multiples of 128. Each shape and each form comes up at several of them.
const LONG: [usize; 9] = [127, 128, 129, 255, 256, 257, 384, 400, 300];

fn main() {
    let mut lists = worked();
    let mut rng = Rng::new(SEED);
    let shapes = shapes();
    for count in SHORT {
        for form in FORMS {
            for shape in shapes {
                lists.push(shape.list(&mut rng, form, count));
            }
        }
    }
    // Frequencies that are kept make the images that have most to compare: every other list.
    let mut shape = shapes.iter().cycle();
    let mut other = FORMS[1..].iter().cycle();
    for count in LONG {
        for form in [FORMS[0], *other.next().unwrap()] {
            lists.push(shape.next().unwrap().list(&mut rng, form, count));
        }
    }
    let mut sample = Vec::new();
    sample.extend((lists.len() as u16).to_le_bytes());
    for list in &lists {
        append(&mut sample, list);
    }
    eprintln!("seed {SEED}: {} images, {} bytes", lists.len(), sample.len());
    std::io::stdout().write_all(&sample).unwrap();
}

/// Gaps of 1, small and large ones, up to the last id that there is; frequencies of 1, small ones
/// and all that fit 32 bits.
fn shapes() -> [Shape; 5] {
    [(0, 0, false), (3, 3, false), (31, 0, true), (7, 32, true), (0, 32, true)]
        .map(|(gap_bits, freq_bits, to_the_end)| Shape { gap_bits, freq_bits, to_the_end })
}

/// The worked lists of document 01.
fn worked() -> Vec<List> {
    let list = |mode, ids: Vec<u32>, freqs: Vec<u32>| List { mode, record: true, ids, freqs };
    let ones = |mode, ids: Vec<u32>| {
        let freqs = vec![1; ids.len()];
        list(mode, ids, freqs)
    };
    vec![
        ones(1, vec![]),
        ones(1, vec![0]),
        ones(0, vec![0]),
        list(1, vec![3, 7, 300], vec![1, 2, 130]),
        ones(1, (0..128).collect()),
        ones(0, (0..128).collect()),
        ones(1, (0..127).collect()),
        ones(0, (1..129).collect()),
        ones(0, (0..127).chain([128]).collect()),
        ones(0, (0..129).collect()),
        ones(0, vec![TERMINATED - 1]),
    ]
}

fn append(sample: &mut Vec<u8>, list: &List) {
    let image = oracle::write(list.mode, list.record, &list.ids, &list.freqs);
    sample.extend([list.mode, list.record.into()]);
    sample.extend((list.ids.len() as u16).to_le_bytes());
    sample.extend((image.len() as u16).to_le_bytes());
    for number in list.ids.iter().chain(&list.freqs) {
        sample.extend(number.to_le_bytes());
    }
    sample.extend(image);
}
