//! Times for writing 4,000,000 documents, for reading them all and for 100,000 rising seeks over
//! them, frequencies included: the Rust's and, where it is linked, the library's. Of two lists: one
//! whose blocks have nearly all the same widths, and one whose blocks have each its own.

use std::time::Instant;

#[cfg(feature = "linked-reading")]
use differential::linked::Library;
use differential::lists::{List, Rng};
use differential::oracle::{self, Opener};
#[cfg(feature = "linked-calls")]
use differential::reader::Caller;
#[cfg(feature = "linked-reading")]
use differential::reader::Reader;
use differential::reader::{Image, ANSWER_NUMBERS};

const SEED: u64 = 1;
const DOCUMENTS: usize = 4_000_000;
const SEEKS: usize = 100_000;
const RUNS: usize = 60;

fn main() {
    let mut rng = Rng::new(SEED);
    let one_range = one_range(&mut rng);
    measure("one range of gaps and one of frequencies", &one_range, &mut rng);
    let drawn_anew = drawn_anew(&mut rng);
    measure("ranges drawn anew for each block", &drawn_anew, &mut rng);
}

fn measure(what: &str, list: &List, rng: &mut Rng) {
    let last = list.ids[DOCUMENTS - 1];
    println!("{what}: seed {SEED}, {DOCUMENTS} documents, last id {last}");
    let image = Image { mode: 1, count: DOCUMENTS as u32, bytes: write(list) };
    // Opening is timed, the Rust's own copy of the image is not.
    let opener = Opener::new(&image);
    read(list, &image, &opener);
    // One target in each of as many equal stretches.
    let stretch = last / SEEKS as u32;
    let target = |i: usize| i as u32 * stretch + rng.below(stretch.into()) as u32;
    let targets: Vec<u32> = (0..SEEKS).map(target).collect();
    seek(&image, &opener, &targets);
    #[cfg(feature = "linked-bench")]
    seek_on_core(&image, &opener, &targets);
}

/// Gaps of 1 to 19 and frequencies of 1 to 10, recorded.
fn one_range(rng: &mut Rng) -> List {
    let mut id = 0;
    let mut document = || {
        id += 1 + rng.below(19) as u32;
        (id, 1 + rng.below(10) as u32)
    };
    let (ids, freqs) = (0..DOCUMENTS).map(|_| document()).unzip();
    List { mode: 1, record: true, ids, freqs }
}

/// Each block of 128 has its own ranges: gaps and frequencies of 1 to a power of two, from 1 to 512.
fn drawn_anew(rng: &mut Rng) -> List {
    let mut id = 0;
    let [mut gaps, mut counts] = [1; 2];
    let mut document = |i: usize| {
        if i % 128 == 0 {
            [gaps, counts] = [(); 2].map(|_| 1 << rng.below(10));
        }
        id += 1 + rng.below(gaps) as u32;
        (id, 1 + rng.below(counts) as u32)
    };
    let (ids, freqs) = (0..DOCUMENTS).map(&mut document).unzip();
    List { mode: 1, record: true, ids, freqs }
}

fn write(list: &List) -> Vec<u8> {
    let mut image = Vec::new();
    let mut rust = || image = oracle::write(list.mode, list.record, &list.ids, &list.freqs);
    #[cfg(not(feature = "linked"))]
    report("document written", DOCUMENTS, &mut [("Rust", &mut rust)]);
    #[cfg(feature = "linked")]
    {
        use differential::linked::{write_docs, write_list, Lent};
        let [skips, postings, output] = [(); 3].map(|_| vec![0; 4 * DOCUMENTS]);
        let mut lent = Lent { skips, postings, output };
        let mut length = 0;
        let mut library = || length = write_list(list, &mut lent).unwrap() as usize;
        let sides: &mut [Side] = &mut [("Rust", &mut rust), ("library", &mut library)];
        report("document written", DOCUMENTS, sides);
        assert!(lent.output[..length] == image, "the images differ");
        // The Rust writes document by document in any case; the library asks the questions of the whole list, then makes the single calls.
        lent.output[..length].fill(0);
        let announced = DOCUMENTS as u32;
        let mut rust = || image = oracle::write(list.mode, list.record, &list.ids, &list.freqs);
        let mut library = || length = write_docs(list, announced, &mut lent).unwrap() as usize;
        // Without an output the last question is answered no, and nothing is written.
        let [skips, postings] = [(); 2].map(|_| vec![0; 4 * DOCUMENTS]);
        let mut without_output = Lent { skips, postings, output: Vec::new() };
        let mut questions =
            || assert_eq!(write_docs(list, announced, &mut without_output), Err(15));
        let sides: &mut [Side] = &mut [
            ("Rust", &mut rust),
            ("library", &mut library),
            ("the questions of the whole list alone", &mut questions),
        ];
        let times = report("document written by single calls", DOCUMENTS, sides);
        let calls = times[1] - times[2];
        println!("the single calls, without these: {calls:.2} ns, ratio {:.2}", calls / times[0]);
        assert!(lent.output[..length] == image, "the images differ");
    }
    image
}

/// All documents with their frequencies, into two slices.
#[cfg_attr(not(feature = "linked-reading"), allow(unused_variables))]
fn read(list: &List, image: &Image, opener: &Opener) {
    let [mut docs, mut freqs] = [(); 2].map(|_| vec![0; DOCUMENTS]);
    let mut rust = || opener.read_into(1, &mut docs, &mut freqs);
    #[cfg(not(feature = "linked-reading"))]
    report("document read", DOCUMENTS, &mut [("Rust", &mut rust)]);
    #[cfg(feature = "linked-reading")]
    {
        let [mut found_docs, mut found_freqs] = [(); 2].map(|_| vec![0; DOCUMENTS]);
        let mut library = || {
            Library.read(image, 1, &mut found_docs, &mut found_freqs).unwrap();
        };
        // It asks all questions of an image before it writes anything; the Rust asks none.
        let mut validate = || assert_eq!(Library.validate(image), 0);
        let sides: &mut [Side] = &mut [
            ("Rust", &mut rust),
            ("library", &mut library),
            ("the library's validation alone", &mut validate),
        ];
        report("document read", DOCUMENTS, sides);
        assert!((&found_docs, &found_freqs) == (&docs, &freqs), "the documents differ");
    }
    assert!((&docs, &freqs) == (&list.ids, &list.freqs), "the documents differ");
}

/// Both sides take the same calls and fill the same answers, ANSWER_NUMBERS each, of which the Rust
/// has document, frequency and hit.
#[cfg_attr(not(feature = "linked-calls"), allow(unused_variables))]
fn seek(image: &Image, opener: &Opener, targets: &[u32]) {
    let seeks = |kind: u64| -> Vec<u64> {
        targets.iter().map(|target| kind << 32 | u64::from(*target)).collect()
    };
    let by_value = seeks(1);
    let mut answers = vec![0; ANSWER_NUMBERS * (1 + SEEKS)];
    let mut rust = || opener.run_calls(1, &by_value, &mut answers);
    #[cfg(not(feature = "linked-calls"))]
    report("seek", SEEKS, &mut [("Rust", &mut rust)]);
    #[cfg(feature = "linked-calls")]
    {
        use differential::reader::{DOC_PLACE, FREQ_PLACE, HIT_PLACE, REFUSAL_PLACE};
        let lent = seeks(3);
        let [mut found, mut found_lent] = [(); 2].map(|_| vec![0; ANSWER_NUMBERS * (1 + SEEKS)]);
        let mut library = || {
            Library.run_calls(image, 1, &by_value, &mut found);
        };
        let mut library_lent = || {
            Library.run_calls(image, 1, &lent, &mut found_lent);
        };
        let sides: &mut [Side] = &mut [
            ("Rust", &mut rust),
            ("library by value", &mut library),
            ("on a lent cursor", &mut library_lent),
        ];
        report("seek", SEEKS, sides);
        for found in [&found, &found_lent] {
            for (found, wanted) in found.chunks(ANSWER_NUMBERS).zip(answers.chunks(ANSWER_NUMBERS))
            {
                let of_both = |answer: &[u64]| {
                    [REFUSAL_PLACE, DOC_PLACE, FREQ_PLACE, HIT_PLACE].map(|place| answer[place])
                };
                assert!(of_both(found) == of_both(wanted), "the answers differ");
            }
        }
    }
}

/// The library's seeks as its own loops make them, without a copy of the cursor: both sides store
/// document, frequency and hit of each answer in three slices.
#[cfg(feature = "linked-bench")]
fn seek_on_core(image: &Image, opener: &Opener, targets: &[u32]) {
    use differential::linked_bench::seeks;
    let [mut docs, mut freqs, mut found_docs, mut found_freqs] = [(); 4].map(|_| vec![0; SEEKS]);
    let [mut hits, mut found_hits] = [(); 2].map(|_| vec![0; SEEKS]);
    let mut rust = || opener.seek_into(1, targets, &mut docs, &mut freqs, &mut hits);
    let mut core = || {
        let [docs, freqs] = [&mut found_docs, &mut found_freqs];
        assert_eq!(seeks(image, 1, targets, docs, freqs, &mut found_hits), SEEKS as u64);
    };
    report("seek into three slices", SEEKS, &mut [("Rust", &mut rust), ("core", &mut core)]);
    let found = (&found_docs, &found_freqs, &found_hits);
    assert!(found == (&docs, &freqs, &hits), "the answers differ");
}

type Side<'a> = (&'a str, &'a mut dyn FnMut());

/// The sides take turns, and the best of several runs counts. The Rust comes first.
fn report(what: &str, count: usize, sides: &mut [Side]) -> Vec<f64> {
    let mut best = vec![f64::INFINITY; sides.len()];
    for _ in 0..RUNS {
        for ((_, side), best) in sides.iter_mut().zip(&mut best) {
            let start = Instant::now();
            side();
            *best = best.min(start.elapsed().as_nanos() as f64 / count as f64);
        }
    }
    print!("a {what}: Rust {:.2} ns", best[0]);
    for ((name, _), time) in sides.iter().zip(&best).skip(1) {
        print!("; {name} {time:.2} ns, ratio {:.2}", time / best[0]);
    }
    println!();
    best
}
