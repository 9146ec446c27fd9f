//! Images with something wrong in them. Some are sound all the same.

use bitpacking::{BitPacker, BitPacker4x};

use crate::images::{pack, short_number};
use crate::lists::{halves, List, Rng};
use crate::reader::Image;

fn with_bytes(image: &Image, bytes: Vec<u8>) -> Image {
    Image { bytes, ..*image }
}

/// Each byte changed to every other value, or to those that lie close to it or at a limit.
pub fn changed(image: &Image, every: bool) -> Vec<Image> {
    let mut images = Vec::new();
    for place in 0..image.bytes.len() {
        let byte = image.bytes[place];
        let mut values: Vec<u8> = if every {
            (0..=255).collect()
        } else {
            let limits = [0, 1, 5, 8, 0x1F, 0x20, 0x21, 0x3F, 0x40, 0x5F, 0x7F, 0x80, 0x81, 0xFF];
            let flipped = (0..8).map(|bit| byte ^ 1 << bit);
            let beside = [byte.wrapping_add(1), byte.wrapping_sub(1)];
            limits.into_iter().chain(flipped).chain(beside).collect()
        };
        values.sort();
        values.dedup();
        for value in values.into_iter().filter(|value| *value != byte) {
            let mut bytes = image.bytes.clone();
            bytes[place] = value;
            images.push(with_bytes(image, bytes));
        }
    }
    images
}

/// Cut at each place, lengthened, and with each byte missing or another one before it.
pub fn cut_and_lengthened(image: &Image) -> Vec<Image> {
    let mut images = Vec::new();
    let length = image.bytes.len();
    for place in 0..length {
        images.push(with_bytes(image, image.bytes[..place].to_vec()));
        let mut bytes = image.bytes.clone();
        bytes.remove(place);
        images.push(with_bytes(image, bytes));
    }
    for place in 0..=length {
        for byte in [0, 0x80, 0x81] {
            let mut bytes = image.bytes.clone();
            bytes.insert(place, byte);
            images.push(with_bytes(image, bytes));
        }
    }
    for more in [&[0x81, 0x81][..], &[1, 1, 1], &[0x80; 16], &[0; 16], &[0x81; 128]] {
        images.push(with_bytes(image, [&image.bytes, more].concat()));
    }
    images
}

/// Other counts and modes for the same bytes.
pub fn miscounted(image: &Image) -> Vec<Image> {
    let mut counts: Vec<u32> = [1, 2, 3, 127, 128, 129, 256]
        .iter()
        .flat_map(|by| [image.count.wrapping_add(*by), image.count.wrapping_sub(*by)])
        .collect();
    counts.extend([image.count, 0, 1, 127, 128, 2147483520, 2147483646, 2147483647, 2147483648]);
    counts.push(u32::MAX);
    let modes = [0, 1, 2, 3, 255];
    let with = |count| modes.map(|mode| Image { mode, count, bytes: image.bytes.clone() });
    counts.into_iter().flat_map(with).collect()
}

/// Other skip lengths before the same entries and blocks, of an image with a full block.
pub fn other_skip_lengths(image: &Image) -> Vec<Image> {
    let blocks = u64::from(image.count / 128);
    let after = 1 + image.bytes.iter().position(|byte| *byte >= 128).unwrap_or(0);
    let rest = &image.bytes[after.min(image.bytes.len())..];
    let left = rest.len() as u64;
    let mut images = Vec::new();
    let mut push = |number: &[u8]| images.push(with_bytes(image, [number, rest].concat()));
    let beside = |number: u64| [number.wrapping_sub(1), number, number + 1];
    let mut lengths = vec![0, 1 << 31, 1 << 32, 1 << 63, u64::MAX, u64::MAX - 7];
    lengths.extend([5 * blocks, 8 * blocks, 12 * blocks, left].iter().flat_map(|n| beside(*n)));
    for length in lengths {
        for zeros in [0, 1, 9, 10] {
            let mut number = Vec::new();
            short_number(length, zeros, 11, &mut number);
            push(&number);
        }
    }
    // 2 ^ 64 and more, and a number that never ends.
    for last in [0x82, 0x83, 0xFF, 0x02, 0x00] {
        push(&[&[5; 1][..], &[0; 8], &[last]].concat());
        push(&[&[0x7F; 9][..], &[last]].concat());
    }
    images
}

/// A block as its entry and its bytes have it.
struct Block {
    last: u32,
    strict: bool,
    ignored: u8,
    width: u8,
    docs: Vec<u32>,
    freq_width: u8,
    freqs: Vec<u32>,
}

impl Block {
    /// The document width is the least for these values again.
    fn fit(&mut self) {
        self.width = BitPacker4x::new().num_bits(&self.docs).min(31);
    }
}

/// An image before it is put together.
struct Parts {
    mode: u8,
    count: u32,
    kept: bool,
    blocks: Vec<Block>,
    /// Differences, then frequencies, with their zero groups.
    tail: Vec<(u64, u64)>,
    tail_freqs: Vec<(u64, u64)>,
    /// How much more than the entries take the skip length says, and its zero groups.
    skip_length: (i64, u64),
    more: Vec<u8>,
}

/// An image of an accepted list, with a few things wrong.
pub fn spoiled(list: &List, faults: u64, rng: &mut Rng) -> Image {
    let mut parts = Parts::of(list, rng);
    for _ in 0..faults {
        parts.spoil(rng);
    }
    parts.image()
}

impl Parts {
    fn of(list: &List, rng: &mut Rng) -> Parts {
        let mut blocks = Vec::new();
        let mut previous = None;
        for (ids, freqs) in list.ids.chunks_exact(128).zip(list.freqs.chunks_exact(128)) {
            let strict = rng.below(2) == 0;
            let less = u32::from(strict);
            let mut docs = Vec::new();
            for &id in ids {
                docs.push(previous.map_or(id, |previous| id - previous - less));
                previous = Some(id);
            }
            let freqs: Vec<u32> = freqs.iter().map(|freq| freq.wrapping_sub(less)).collect();
            let (ignored, last) = (rng.draw() as u8 & 0xA0, ids[127]);
            let freq_width = BitPacker4x::new().num_bits(&freqs);
            let mut block = Block { last, strict, ignored, width: 0, docs, freq_width, freqs };
            block.fit();
            blocks.push(block);
        }
        let full = 128 * blocks.len();
        let mut previous = previous.unwrap_or(0);
        let mut tail = Vec::new();
        for &id in &list.ids[full..] {
            tail.push(((id - previous).into(), 0));
            previous = id;
        }
        let kept = list.kept();
        let tail_freqs = if kept { &list.freqs[full..] } else { &[] };
        Parts {
            mode: list.mode,
            count: list.ids.len() as u32,
            kept,
            blocks,
            tail,
            tail_freqs: tail_freqs.iter().map(|freq| (u64::from(*freq), 0)).collect(),
            skip_length: (0, 0),
            more: Vec::new(),
        }
    }

    fn spoil(&mut self, rng: &mut Rng) {
        if !self.blocks.is_empty() && rng.below(3) > 0 {
            let which = rng.below(self.blocks.len() as u64) as usize;
            return self.spoil_block(which, rng);
        }
        let numbers = if rng.below(2) == 0 { &mut self.tail } else { &mut self.tail_freqs };
        let place = rng.below(numbers.len().max(1) as u64) as usize;
        let odd = [0, 1, 127, 2147483645, 2147483646, 2147483647, 4294967295, 1 << 32, 34359738367];
        match rng.below(7) {
            0..=2 if !numbers.is_empty() => numbers[place].0 = odd[rng.below(9) as usize],
            3 if !numbers.is_empty() => numbers[place].1 = 1 + rng.below(6),
            4 => numbers.truncate(place),
            5 => self.tail_freqs.clear(),
            _ => self.more.push([0, 0x80, 0x81, 0xFF][rng.below(4) as usize]),
        }
    }

    fn spoil_block(&mut self, which: usize, rng: &mut Rng) {
        let before = which.checked_sub(1).map_or(0, |before| self.blocks[before].last);
        let place = rng.below(128) as usize;
        let block = &mut self.blocks[which];
        match rng.below(13) {
            // An entry that isn't its block's.
            0 => {
                let lasts = [before, before + 1, block.last + 1, block.last - 1, 2147483646];
                block.last = [&lasts[..], &[2147483647, u32::MAX]].concat()[rng.below(7) as usize];
            }
            1 => block.freq_width = [31, 32, 33, 34, 63, 128, 255][rng.below(7) as usize],
            2 => block.width = [0, 1, 30, 31][rng.below(4) as usize],
            3 => block.strict = !block.strict,
            // The id before once more, in the non-strict form.
            4 => block.docs[place] = 0,
            // A difference so large that the ids after it go past the limit, or come around.
            5 | 6 => {
                let room = 2147483647u32.wrapping_sub(block.last);
                let by = [1, room.wrapping_sub(1), room, room.wrapping_add(1), 1 << 30];
                let by = by[rng.below(5) as usize];
                block.docs[place] = block.docs[place].wrapping_add(by) & 0x7FFF_FFFF;
                if rng.below(2) == 0 {
                    block.last = block.last.wrapping_add(by);
                }
                block.fit();
            }
            7 => {
                for _ in 0..1 + rng.below(5) {
                    block.docs[rng.below(128) as usize] = 0x7FFF_FFFF;
                }
                block.fit();
            }
            // Frequency 0, or 2 ^ 32 in the strict form.
            8 => block.freqs[place] = 0,
            9 => {
                block.freqs[place] = u32::MAX;
                block.freq_width = 32;
            }
            10 => {
                let other = rng.below(self.blocks.len() as u64) as usize;
                self.blocks.swap(which, other);
            }
            11 => self.skip_length.0 = rng.below(9) as i64 - 4,
            _ => self.skip_length.1 = rng.below(11),
        }
    }

    fn image(&self) -> Image {
        let (mut entries, mut postings, mut bytes) = (Vec::new(), Vec::new(), Vec::new());
        for block in &self.blocks {
            let mask = (1 << block.width) - 1;
            let docs: Vec<u32> = block.docs.iter().map(|value| value & mask).collect();
            pack(&docs, block.width, &mut postings);
            entries.extend(block.last.to_le_bytes());
            entries.push(block.width | u8::from(block.strict) << 6 | block.ignored);
            if self.kept {
                // Of a width above 32 there are no bytes.
                let width = block.freq_width.min(32);
                let mask = ((1u64 << width) - 1) as u32;
                let freqs: Vec<u32> = block.freqs.iter().map(|value| value & mask).collect();
                pack(&freqs, width, &mut postings);
                entries.extend([block.freq_width, block.ignored, block.ignored]);
            }
        }
        if !self.blocks.is_empty() {
            let (more, zeros) = self.skip_length;
            let length = (entries.len() as i64 + more) as u64;
            short_number(length, zeros, 11, &mut bytes);
        }
        bytes.extend(entries);
        bytes.extend(postings);
        for &(number, zeros) in self.tail.iter().chain(&self.tail_freqs) {
            short_number(number, zeros, 7, &mut bytes);
        }
        bytes.extend(&self.more);
        Image { mode: self.mode, count: self.count, bytes }
    }
}

/// Bytes that stand for nothing, though many of them could be the end of a number or an entry.
pub fn random(rng: &mut Rng) -> Image {
    let count = [rng.below(4), rng.below(40), 126 + rng.below(6), 256 + rng.below(3)];
    let count = count[rng.below(4) as usize] as u32;
    let blocks = count as usize / 128;
    let mode = rng.below(2) as u8;
    let mut bytes = Vec::new();
    if blocks > 0 && rng.below(8) > 0 {
        // Entries with some chance: small last ids that rise, small widths.
        let size = if mode == 1 && rng.below(2) == 0 { 8 } else { 5 };
        bytes.push(128 + (size * blocks) as u8);
        let mut last = rng.below(300) as u32;
        for _ in 0..blocks {
            bytes.extend(last.to_le_bytes());
            bytes.push((rng.below(3) + 0x40 * rng.below(2)) as u8);
            if size == 8 {
                bytes.extend([rng.below(2) as u8, 0, 0]);
            }
            last += rng.below(300) as u32;
        }
    }
    for _ in 0..rng.below(40) {
        let byte = rng.draw() as u8;
        bytes.push(if rng.below(3) == 0 { byte } else { 0x80 | byte % 8 });
    }
    Image { mode, count, bytes }
}

/// An image that still fails, of which no byte can be left out or be 0, and no count be less in the
/// ways tried here.
pub fn smallest(mut image: Image, fails: impl Fn(&Image) -> bool) -> Image {
    let attempt = |image: &mut Image, change: &dyn Fn(&mut Image)| {
        let mut changed = image.clone();
        change(&mut changed);
        let taken = changed != *image && fails(&changed);
        if taken {
            *image = changed;
        }
        taken
    };
    loop {
        let before = image.clone();
        for less in [image.count, image.count / 2, 128, 1] {
            attempt(&mut image, &|image| image.count = image.count.saturating_sub(less));
        }
        for run in halves(image.bytes.len() as u32) {
            let mut end = image.bytes.len();
            while end > 0 {
                let begin = end.saturating_sub(run as usize);
                let left_out = attempt(&mut image, &|image| {
                    image.bytes.drain(begin..end);
                });
                if !left_out {
                    attempt(&mut image, &|image| image.bytes[begin..end].fill(0));
                }
                end = begin;
            }
        }
        if image == before {
            return image;
        }
    }
}
