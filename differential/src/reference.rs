//! Document 01 read once more, with document 02's Asks 2 and 10: what stands in an image, and which
//! question it fails first. Plain code of its own, in the order of the questions; it knows neither the
//! Rust nor the library.

use crate::reader::{refused, Answer, Call, Caller, Image, Reader, ANSWER_NUMBERS};

pub const END: u32 = 2147483647;

/// The number of a question, where its answer is no.
type Asked<T> = Result<T, u8>;

fn ask(yes: bool, number: u8) -> Asked<()> {
    if yes {
        Ok(())
    } else {
        Err(number)
    }
}

/// A short number of at most `longest` bytes and below 2 ^ `bits`, and how many bytes it takes.
fn short_number(bytes: &[u8], longest: usize, bits: u32) -> Option<(u128, usize)> {
    let mut number = 0;
    for (place, byte) in bytes.iter().take(longest).enumerate() {
        number += u128::from(byte % 128) << (7 * place);
        if *byte >= 128 {
            return if number < 1 << bits { Some((number, place + 1)) } else { None };
        }
    }
    None
}

/// Value i of 128 packed at a width: lane i mod 4, from bit (i div 4) × width of that lane on. Word j
/// of lane m is little-endian at byte 16 × j + 4 × m; a value lies in two words at most.
fn packed_value(packed: &[u8], width: usize, i: usize) -> u64 {
    let (lane, bit) = (i % 4, i / 4 * width);
    let word = |j: usize| {
        let bytes = packed.get(16 * j + 4 * lane..).unwrap_or(&[]);
        bytes.iter().take(4).rev().fold(0, |word, byte| 256 * word + u64::from(*byte))
    };
    let two_words = word(bit / 32) + (word(bit / 32 + 1) << 32);
    (two_words >> (bit % 32)) % (1 << width)
}

/// An image whose first four questions are answered.
struct Laid<'a> {
    requested: u8,
    /// Full blocks.
    full: usize,
    tail: usize,
    /// Whether frequencies may follow the ids. Without a full block only the tail can tell whether
    /// they do.
    mode: u8,
    /// Of an entry, 5 or 8.
    size: usize,
    entries: &'a [u8],
    postings: &'a [u8],
}

struct Entry {
    last: u32,
    strict: bool,
    width: usize,
    freq_width: usize,
}

/// The values of one block.
struct Block {
    docs: Vec<u32>,
    freqs: Vec<u32>,
}

impl<'a> Laid<'a> {
    fn new(image: &'a Image, requested: u8) -> Asked<Laid<'a>> {
        ask(image.mode <= 1 && requested <= 2, 1)?;
        ask(image.count <= 2147483647, 2)?;
        let (mode, bytes) = (image.mode, &image.bytes[..]);
        let (full, tail) = (image.count as usize / 128, image.count as usize % 128);
        if full == 0 {
            return Ok(Laid {
                requested,
                full,
                tail,
                mode,
                size: 0,
                entries: &[],
                postings: bytes,
            });
        }
        let (length, used) = short_number(bytes, 10, 64).ok_or(3)?;
        let rest = &bytes[used..];
        ask(length <= rest.len() as u128, 3)?;
        let length = length as usize;
        let size = if mode == 1 && length >= 8 * full { 8 } else { 5 };
        ask(length == size * full, 4)?;
        let (entries, postings) = rest.split_at(length);
        Ok(Laid { requested, full, tail, mode, size, entries, postings })
    }

    fn entry(&self, block: usize) -> Entry {
        let bytes = &self.entries[self.size * block..self.size * (block + 1)];
        Entry {
            last: u32::from_le_bytes([bytes[0], bytes[1], bytes[2], bytes[3]]),
            width: usize::from(bytes[4] % 32),
            strict: bytes[4] >> 6 & 1 == 1,
            freq_width: if self.size == 8 { usize::from(bytes[5]) } else { 0 },
        }
    }

    /// Where a block's bytes begin.
    fn begin(&self, block: usize) -> usize {
        let bits = |entry: Entry| entry.width + entry.freq_width;
        (0..block).map(|before| 16 * bits(self.entry(before))).sum()
    }

    fn ask_entry(&self, block: usize) -> Asked<()> {
        let entry = self.entry(block);
        ask(entry.freq_width <= 32, 5)?;
        ask(block == 0 || entry.last > self.entry(block - 1).last, 5)?;
        ask(entry.last < END, 5)?;
        ask(self.begin(block + 1) <= self.postings.len(), 5)
    }

    /// The last id before a block, of which there is none before block 0.
    fn previous(&self, block: usize) -> Option<u32> {
        block.checked_sub(1).map(|before| self.entry(before).last)
    }

    fn block(&self, block: usize) -> Asked<Block> {
        if block == self.full {
            self.tail()
        } else {
            self.full_block(block)
        }
    }

    fn full_block(&self, block: usize) -> Asked<Block> {
        let entry = self.entry(block);
        let bytes = &self.postings[self.begin(block)..self.begin(block + 1)];
        let (packed_docs, packed_freqs) = bytes.split_at(16 * entry.width);
        let mut docs = Vec::new();
        let mut previous = self.previous(block).map(u64::from);
        for i in 0..128 {
            let value = packed_value(packed_docs, entry.width, i);
            let id = match previous {
                None => value,
                Some(previous) if entry.strict => previous + value + 1,
                Some(previous) => previous + value,
            };
            ask(previous.is_none_or(|previous| id > previous) && id < u64::from(END), 6)?;
            docs.push(id as u32);
            previous = Some(id);
        }
        ask(docs[127] == entry.last, 6)?;
        let mut freqs = vec![1; 128];
        if self.size == 8 && self.requested != 0 {
            for (i, freq) in freqs.iter_mut().enumerate() {
                let value = packed_value(packed_freqs, entry.freq_width, i);
                let number = if entry.strict { value + 1 } else { value };
                ask((1..=4294967295).contains(&number), 7)?;
                *freq = number as u32;
            }
        }
        Ok(Block { docs, freqs })
    }

    /// As many numbers as the tail has documents.
    fn tail_numbers(&self, bytes: &mut &[u8]) -> Asked<Vec<u32>> {
        let mut numbers = Vec::new();
        for _ in 0..self.tail {
            let (number, used) = short_number(bytes, 5, 32).ok_or(8)?;
            numbers.push(number as u32);
            *bytes = &bytes[used..];
        }
        Ok(numbers)
    }

    fn tail(&self) -> Asked<Block> {
        let mut bytes = &self.postings[self.begin(self.full)..];
        let differences = self.tail_numbers(&mut bytes)?;
        let mut docs = Vec::new();
        let mut previous = self.previous(self.full).map(u64::from);
        for difference in differences {
            let id = previous.unwrap_or(0) + u64::from(difference);
            ask(previous.is_none_or(|previous| id > previous) && id < u64::from(END), 6)?;
            docs.push(id as u32);
            previous = Some(id);
        }
        let mut freqs = vec![1; self.tail];
        let kept = if self.full > 0 { self.size == 8 } else { self.mode == 1 && !bytes.is_empty() };
        if self.tail > 0 && kept {
            // Bytes after the ids that nobody requested are not looked at.
            if self.requested == 0 {
                return Ok(Block { docs, freqs });
            }
            freqs = self.tail_numbers(&mut bytes)?;
            ask(freqs.iter().all(|freq| *freq >= 1), 7)?;
        }
        ask(bytes.is_empty(), 9)?;
        Ok(Block { docs, freqs })
    }
}

/// A place in the block that is held. A refused call leaves it as it was.
struct Cursor<'a> {
    laid: Laid<'a>,
    block: usize,
    held: Block,
    place: usize,
    unpacked: u64,
    entries: u64,
}

impl<'a> Cursor<'a> {
    fn open(image: &'a Image, requested: u8) -> Asked<Cursor<'a>> {
        let laid = Laid::new(image, requested)?;
        if laid.full > 0 {
            laid.ask_entry(0)?;
        }
        let held = laid.block(0)?;
        let entries = laid.full.min(1) as u64;
        Ok(Cursor { laid, block: 0, held, place: 0, unpacked: 1, entries })
    }

    fn at_the_end(&self) -> bool {
        self.block == self.laid.full && self.place == self.laid.tail
    }

    fn doc(&self) -> u32 {
        if self.at_the_end() {
            END
        } else {
            self.held.docs[self.place]
        }
    }

    fn freq(&self) -> u32 {
        if self.at_the_end() {
            0
        } else {
            self.held.freqs[self.place]
        }
    }

    fn land(&mut self, block: usize, entries: u64) -> Asked<()> {
        self.held = self.laid.block(block)?;
        self.block = block;
        self.place = 0;
        self.unpacked += 1;
        self.entries += entries;
        Ok(())
    }

    fn step(&mut self) -> Asked<()> {
        if self.at_the_end() {
            return Ok(());
        }
        if self.block == self.laid.full || self.place < 127 {
            self.place += 1;
            return Ok(());
        }
        if self.block + 1 == self.laid.full {
            return self.land(self.block + 1, 0);
        }
        self.laid.ask_entry(self.block + 1)?;
        self.land(self.block + 1, 1)
    }

    /// Whether the document that it comes to is the target itself.
    fn seek(&mut self, target: u32) -> Asked<bool> {
        ask(target <= END, 10)?;
        if self.at_the_end() {
            return Ok(false);
        }
        if self.block < self.laid.full && self.held.docs[127] < target {
            let mut block = self.block + 1;
            let mut entries = 0;
            while block < self.laid.full {
                self.laid.ask_entry(block)?;
                entries += 1;
                if self.laid.entry(block).last >= target {
                    break;
                }
                block += 1;
            }
            self.land(block, entries)?;
        }
        while self.place < self.held.docs.len() && self.held.docs[self.place] < target {
            self.place += 1;
        }
        Ok(!self.at_the_end() && self.doc() == target)
    }
}

/// All documents with their frequencies, by steps.
fn walk(image: &Image, requested: u8) -> Asked<Vec<(u32, u32)>> {
    let mut cursor = Cursor::open(image, requested)?;
    let mut documents = Vec::new();
    while !cursor.at_the_end() {
        documents.push((cursor.doc(), cursor.freq()));
        cursor.step()?;
    }
    Ok(documents)
}

/// Documents and frequencies of an image that is sound, or the number of the refusal.
pub fn sound(image: &Image) -> Result<Vec<(u32, u32)>, u8> {
    walk(image, 1)
}

fn read(image: &Image, requested: u8, room: usize) -> Asked<Vec<(u32, u32)>> {
    ask(image.mode <= 1 && requested <= 2, 1)?;
    sound(image)?;
    ask(image.count as usize <= room, 15)?;
    walk(image, requested)
}

fn rank(image: &Image, target: u32) -> Asked<u64> {
    ask(target <= END, 10)?;
    let mut cursor = Cursor::open(image, 0)?;
    cursor.seek(target)?;
    Ok((128 * cursor.block + cursor.place) as u64)
}

fn total(image: &Image, target: u32) -> Asked<u64> {
    ask(target <= END, 10)?;
    let mut cursor = Cursor::open(image, 1)?;
    let mut sum = 0;
    while cursor.doc() < target {
        sum += u64::from(cursor.freq());
        cursor.step()?;
    }
    Ok(sum)
}

/// The answer to a call that has hit or not, or that is refused.
fn answer(asked: Asked<bool>, cursor: &Cursor) -> [u64; ANSWER_NUMBERS] {
    match asked {
        Ok(hit) => {
            let (doc, freq) = (cursor.doc().into(), cursor.freq().into());
            [0, doc, freq, cursor.unpacked, cursor.entries, hit.into()]
        }
        Err(number) => refused(number.into()),
    }
}

/// The answers to opening and to each call, on any image.
fn answers(image: &Image, requested: u8, calls: &[Call]) -> Vec<[u64; ANSWER_NUMBERS]> {
    let mut cursor = match Cursor::open(image, requested) {
        Ok(cursor) => cursor,
        Err(number) => return vec![refused(number.into())],
    };
    // Only a seek has a target to hit.
    let mut answers = vec![answer(Ok(false), &cursor)];
    for call in calls {
        let asked = match *call {
            Call::Step => cursor.step().map(|()| false),
            Call::Seek(target) => cursor.seek(target),
        };
        answers.push(answer(asked, &cursor));
    }
    answers
}

/// The functions of `exports`, by this reading.
pub struct Reference;

impl Reference {
    pub const NAME: &'static str = "reference";
}

impl Reader for Reference {
    fn name(&self) -> &'static str {
        Reference::NAME
    }

    fn validate(&self, image: &Image) -> u64 {
        sound(image).map_or_else(u64::from, |_| 0)
    }

    fn read(&self, image: &Image, requested: u8, docs: &mut [u32], freqs: &mut [u32]) -> Answer {
        let documents = read(image, requested, docs.len().min(freqs.len())).map_err(u64::from)?;
        for (i, (doc, freq)) in documents.iter().enumerate() {
            docs[i] = *doc;
            freqs[i] = *freq;
        }
        Ok(documents.len() as u64)
    }

    fn rank(&self, image: &Image, target: u32) -> Answer {
        rank(image, target).map_err(u64::from)
    }

    fn total(&self, image: &Image, target: u32) -> Answer {
        total(image, target).map_err(u64::from)
    }
}

impl Caller for Reference {
    fn name(&self) -> &'static str {
        Reference::NAME
    }

    fn run_calls(&self, image: &Image, requested: u8, calls: &[u64], into: &mut [u64]) -> u64 {
        let known: Option<Vec<Call>> = calls.iter().map(|call| Call::from_number(*call)).collect();
        let Some(known) = known else { return 0 };
        if into.len() < ANSWER_NUMBERS * (1 + calls.len()) {
            return 0;
        }
        let answers = answers(image, requested, &known);
        into[..ANSWER_NUMBERS * answers.len()].copy_from_slice(answers.as_flattened());
        answers.len() as u64
    }
}
