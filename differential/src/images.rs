//! Sound images, also such as the writer never writes.

use bitpacking::{BitPacker, BitPacker4x};

use crate::lists::{List, Rng};
use crate::reader::Image;

/// What document 01 leaves open in an image.
#[derive(Clone, Copy)]
pub struct Style {
    /// Blocks in the strict form, out of four.
    pub strict: u64,
    /// Widths above the least, and something in the ignored bits and bytes.
    pub wide: bool,
    /// Zero groups in short numbers.
    pub zero_groups: bool,
}

impl Style {
    /// As older writers have it: no block in the strict form.
    pub const NON_STRICT: Style = Style { strict: 0, wide: false, zero_groups: false };

    pub fn any(rng: &mut Rng) -> Style {
        let strict = [0, 2, 4][rng.below(3) as usize];
        Style { strict, wide: rng.below(2) == 0, zero_groups: rng.below(2) == 0 }
    }
}

/// An image of an accepted list, mostly one that the writer never writes.
pub fn odd_image(list: &List, style: Style, rng: &mut Rng) -> Image {
    let (mut skips, mut postings) = (Vec::new(), Vec::new());
    let mut previous = None;
    let blocks = list.ids.chunks_exact(128).zip(list.freqs.chunks_exact(128));
    for (ids, freqs) in blocks {
        let strict = u32::from(rng.below(4) < style.strict);
        let mut deltas = Vec::new();
        for &id in ids {
            deltas.push(previous.map_or(id, |previous| id - previous - strict));
            previous = Some(id);
        }
        let mut pack = |values: &[u32], widest| {
            let least = BitPacker4x::new().num_bits(values);
            let more = if style.wide { rng.below(u64::from(widest - least) + 1) } else { 0 };
            pack(values, least + more as u8, &mut postings)
        };
        let width = pack(&deltas, 31);
        let values: Vec<u32> = freqs.iter().map(|freq| freq.wrapping_sub(strict)).collect();
        let freq_width = if list.kept() { pack(&values, 32) } else { 0 };
        let mut ignored = || if style.wide { rng.draw() as u8 } else { 0 };
        skips.extend(ids[127].to_le_bytes());
        skips.push(width | (strict as u8) << 6 | ignored() & 0xA0);
        if list.kept() {
            skips.extend([freq_width, ignored(), ignored()]);
        }
    }
    let full = list.ids.len() / 128 * 128;
    let mut bytes = Vec::new();
    let mut zeros =
        |longest| if style.zero_groups && rng.below(4) == 0 { rng.below(longest) } else { 0 };
    if full > 0 {
        short_number(skips.len() as u64, zeros(9), 10, &mut bytes);
    }
    bytes.extend(skips);
    bytes.extend(postings);
    let mut previous = previous.unwrap_or(0);
    for &id in &list.ids[full..] {
        short_number((id - previous).into(), zeros(5), 5, &mut bytes);
        previous = id;
    }
    if list.kept() {
        for &freq in &list.freqs[full..] {
            short_number(freq.into(), zeros(5), 5, &mut bytes);
        }
    }
    Image { mode: list.mode, count: list.ids.len() as u32, bytes }
}

/// Packs a block and returns the width.
pub fn pack(values: &[u32], width: u8, postings: &mut Vec<u8>) -> u8 {
    let mut packed = [0; 512];
    let length = BitPacker4x::new().compress(values, &mut packed, width);
    postings.extend(&packed[..length]);
    width
}

/// With some zero groups at its upper end, as far as `longest` bytes.
pub fn short_number(mut number: u64, zeros: u64, longest: usize, bytes: &mut Vec<u8>) {
    let begin = bytes.len();
    while number >= 128 {
        bytes.push((number % 128) as u8);
        number /= 128;
    }
    bytes.push(number as u8);
    let length = (bytes.len() - begin + zeros as usize).min(longest);
    bytes.resize((begin + length).max(bytes.len()), 0);
    *bytes.last_mut().unwrap() |= 128;
}
