//! Writes a list of three documents in both ways, validates its image, and reads it in every way the library has.

// A slice is a pointer and a length.
#[link(name = "exports", kind = "static")]
unsafe extern "C" {
    #[rustfmt::skip]
    fn vilthorwy_write_list(mode: u8, record: u8, ids: *const u32, ids_len: usize, freqs: *const u32, freqs_len: usize, skips: *mut u8,
        skips_len: usize, postings: *mut u8, postings_len: usize, output: *mut u8, output_len: usize) -> u64;
    #[rustfmt::skip]
    fn vilthorwy_write_docs(mode: u8, record: u8, ids: *const u32, ids_len: usize, freqs: *const u32, freqs_len: usize, announced: u32,
        skips: *mut u8, skips_len: usize, postings: *mut u8, postings_len: usize, output: *mut u8, output_len: usize) -> u64;
    fn vilthorwy_validate(mode: u8, count: u32, image: *const u8, image_len: usize) -> u64;
    #[rustfmt::skip]
    fn vilthorwy_read(mode: u8, requested: u8, count: u32, image: *const u8, image_len: usize, docs: *mut u32, docs_len: usize,
        freqs: *mut u32, freqs_len: usize) -> u64;
    fn vilthorwy_rank(mode: u8, count: u32, image: *const u8, image_len: usize, target: u32) -> u64;
    fn vilthorwy_total(mode: u8, count: u32, image: *const u8, image_len: usize, target: u32) -> u64;
    #[rustfmt::skip]
    fn vilthorwy_run_calls(mode: u8, requested: u8, count: u32, image: *const u8, image_len: usize, calls: *const u64, calls_len: usize,
        answers: *mut u64, answers_len: usize) -> u64;
}

/// How many numbers an answer of `vilthorwy_run_calls` is, and the places of some of them, as in include/vilthorwy.h.
const ANSWER_NUMBERS: usize = 6;
const REFUSAL_PLACE: usize = 0;
const DOC_PLACE: usize = 1;
const FREQ_PLACE: usize = 2;
const UNPACKED_PLACE: usize = 3;
const HIT_PLACE: usize = 5;
/// The document answered behind the last one, and the number under which a target above it is refused.
const TERMINATED: u32 = 2147483647;
const TARGET_TOO_LARGE: u64 = 10;

/// The answer itself; the program ends where it is a refusal.
fn taken(call: &str, answer: u64) -> u64 {
    assert!(answer < 1 << 63, "{call} refused: {}", answer - (1 << 63));
    answer
}

fn main() {
    let (ids, freqs) = ([3u32, 7, 300], [1u32, 2, 130]);
    // Room for any list of three documents; include/vilthorwy.h says how much a longer one needs.
    let (mut skips, mut postings, mut output, mut again) = ([0u8; 8], [0u8; 1008], [0u8; 30], [0u8; 30]);
    // SAFETY: each pointer comes with the length of what it points to, and what is written is borrowed for writing.
    unsafe {
        let size = vilthorwy_write_list(
            1, 1, ids.as_ptr(), ids.len(), freqs.as_ptr(), freqs.len(), skips.as_mut_ptr(), skips.len(), postings.as_mut_ptr(),
            postings.len(), output.as_mut_ptr(), output.len(),
        );
        let same = vilthorwy_write_docs(
            1, 1, ids.as_ptr(), ids.len(), freqs.as_ptr(), freqs.len(), 3, skips.as_mut_ptr(), skips.len(), postings.as_mut_ptr(),
            postings.len(), again.as_mut_ptr(), again.len(),
        );
        let image = &output[..taken("write_list", size) as usize];
        assert_eq!(image, &again[..taken("write_docs", same) as usize]);
        print!("image:");
        image.iter().for_each(|byte| print!(" {byte:02X}"));

        let refusal = vilthorwy_validate(1, 3, image.as_ptr(), image.len()); // a number alone, 0 where the image is sound
        println!("\nvalidate: {refusal}");
        assert_eq!(refusal, 0);

        let (mut docs, mut counts) = ([0u32; 3], [0u32; 3]);
        let n = vilthorwy_read(1, 1, 3, image.as_ptr(), image.len(), docs.as_mut_ptr(), 3, counts.as_mut_ptr(), 3);
        for i in 0..taken("read", n) as usize {
            println!("document {}, frequency {}", docs[i], counts[i]);
        }
        let below = taken("rank", vilthorwy_rank(1, 3, image.as_ptr(), image.len(), 300));
        let occurrences = taken("total", vilthorwy_total(1, 3, image.as_ptr(), image.len(), 300));
        println!("documents below 300: {below}, occurrences: {occurrences}");

        // Seeks 7 and 8, a step to the end, and there a seek to a mistyped target: by value, and on a lent cursor.
        let seek = 1u64 << 32;
        let by_value = [seek + 7, seek + 8, 0, seek + 2147483648];
        let lent = by_value.map(|call| (2 << 32) + call); // kinds 2 and 3 for 0 and 1
        let [mut answers, mut lent_answers] = [[0u64; 5 * ANSWER_NUMBERS]; 2];
        for (calls, answers) in [(by_value, &mut answers), (lent, &mut lent_answers)] {
            let n = vilthorwy_run_calls(1, 1, 3, image.as_ptr(), image.len(), calls.as_ptr(), 4, answers.as_mut_ptr(), answers.len());
            assert_eq!(n, 5, "opening and the four calls are answered");
        }
        assert_eq!(answers, lent_answers);
        let (others, last) = answers.split_at(4 * ANSWER_NUMBERS);
        for answer in others.chunks(ANSWER_NUMBERS) {
            assert_eq!(answer[REFUSAL_PLACE], 0, "the call isn't refused");
            let itself = if answer[HIT_PLACE] == 1 { ", the target itself" } else { "" };
            println!("at {}, frequency {}, {} unpacked{itself}", answer[DOC_PLACE], answer[FREQ_PLACE], answer[UNPACKED_PLACE]);
        }
        assert_eq!(last[REFUSAL_PLACE], TARGET_TOO_LARGE, "the mistyped target is refused");
        println!("refused: a target above {TERMINATED}");
    }
}
