//! Stand-in for the crate `bitpacking`: `BitPacker4x` as document 01 describes it.
//!
//! Value i lies in lane i mod 4, at the bits (i div 4) × width onward of that lane, lowest bit
//! first; word j of lane m is little-endian at byte 16 × j + 4 × m. So a row of four values has one
//! shift for its four lanes, which the compiler turns into vector code: as fast as plain Rust gets,
//! for the benchmark's sake.

const LANES: usize = 4;
const ROWS: usize = 32;

type Row = [u32; LANES];
type Block = [u32; LANES * ROWS];

#[derive(Clone)]
pub struct BitPacker4x;

// There is one packer, so the trait holds the code.
pub trait BitPacker: Sized {
    const BLOCK_LEN: usize = LANES * ROWS;

    fn new() -> Self;

    fn num_bits(&self, values: &[u32]) -> u8 {
        width(block(values))
    }

    fn num_bits_strictly_sorted(&self, previous: Option<u32>, ids: &[u32]) -> u8 {
        width(&strict_deltas(previous, ids))
    }

    fn compress(&self, values: &[u32], compressed: &mut [u8], num_bits: u8) -> usize {
        pack(block(values), compressed, num_bits)
    }

    fn compress_strictly_sorted(
        &self,
        previous: Option<u32>,
        ids: &[u32],
        compressed: &mut [u8],
        num_bits: u8,
    ) -> usize {
        pack(&strict_deltas(previous, ids), compressed, num_bits)
    }

    fn decompress(&self, compressed: &[u8], values: &mut [u32], num_bits: u8) -> usize {
        unpack(compressed, block_mut(values), num_bits, 0)
    }

    fn decompress_sorted(
        &self,
        previous: u32,
        compressed: &[u8],
        ids: &mut [u32],
        num_bits: u8,
    ) -> usize {
        let ids = block_mut(ids);
        let consumed = unpack(compressed, ids, num_bits, 0);
        add_up(previous, ids);
        consumed
    }

    fn decompress_strictly_sorted(
        &self,
        previous: Option<u32>,
        compressed: &[u8],
        ids: &mut [u32],
        num_bits: u8,
    ) -> usize {
        let ids = block_mut(ids);
        let consumed = unpack(compressed, ids, num_bits, 1);
        add_up(before(previous), ids);
        consumed
    }
}

impl BitPacker for BitPacker4x {
    fn new() -> Self {
        BitPacker4x
    }
}

fn block(values: &[u32]) -> &Block {
    values.try_into().expect("a block has 128 values")
}

fn block_mut(values: &mut [u32]) -> &mut Block {
    values.try_into().expect("a block has 128 values")
}

/// What the strict form counts from: -1 where nothing is before the first id, so that its value is
/// the id itself.
fn before(previous: Option<u32>) -> u32 {
    previous.unwrap_or(u32::MAX)
}

fn strict_deltas(previous: Option<u32>, ids: &[u32]) -> Block {
    let ids = block(ids);
    let mut deltas = [0; LANES * ROWS];
    deltas[0] = ids[0].wrapping_sub(before(previous)).wrapping_sub(1);
    for i in 1..deltas.len() {
        deltas[i] = ids[i].wrapping_sub(ids[i - 1]).wrapping_sub(1);
    }
    deltas
}

fn add_up(previous: u32, ids: &mut Block) {
    let mut sum = previous;
    for id in ids {
        sum = sum.wrapping_add(*id);
        *id = sum;
    }
}

fn width(values: &Block) -> u8 {
    let bits = values.iter().fold(0, |all, value| all | value);
    (u32::BITS - bits.leading_zeros()) as u8
}

fn word_row(compressed: &[u8], j: usize) -> Row {
    let bytes = &compressed[16 * j..16 * j + 16];
    std::array::from_fn(|m| u32::from_le_bytes(bytes[4 * m..4 * m + 4].try_into().unwrap()))
}

fn put_word_row(words: Row, compressed: &mut [u8], j: usize) {
    let bytes = &mut compressed[16 * j..16 * j + 16];
    for m in 0..LANES {
        bytes[4 * m..4 * m + 4].copy_from_slice(&words[m].to_le_bytes());
    }
}

fn pack(values: &Block, compressed: &mut [u8], num_bits: u8) -> usize {
    let width = num_bits as usize;
    let compressed = &mut compressed[..16 * width];
    let mut words = [0; LANES];
    // With width 0 no row of words is ever filled.
    for (row, values) in values.chunks_exact(LANES).enumerate() {
        let shift = row * width % 32;
        for m in 0..LANES {
            words[m] |= values[m] << shift;
        }
        if shift + width >= 32 {
            put_word_row(words, compressed, row * width / 32);
            // The upper bits of values that cross into the next row of words.
            for m in 0..LANES {
                words[m] = if shift + width > 32 { values[m] >> (32 - shift) } else { 0 };
            }
        }
    }
    16 * width
}

/// Each value gets `add` on top: 1 in the strict form.
fn unpack(compressed: &[u8], values: &mut Block, num_bits: u8, add: u32) -> usize {
    assert!(num_bits <= 32);
    let width = num_bits as usize;
    if width == 0 {
        values.fill(add);
        return 0;
    }
    let compressed = &compressed[..16 * width];
    let mask = u32::MAX >> (32 - width);
    for (row, values) in values.chunks_exact_mut(LANES).enumerate() {
        let (j, shift) = (row * width / 32, row * width % 32);
        let mut words = word_row(compressed, j).map(|word| word >> shift);
        if shift + width > 32 {
            let upper = word_row(compressed, j + 1);
            for m in 0..LANES {
                words[m] |= upper[m] << (32 - shift);
            }
        }
        for m in 0..LANES {
            values[m] = (words[m] & mask).wrapping_add(add);
        }
    }
    16 * width
}
