//! The lists that are tried.

use std::fmt;

use crate::TERMINATED;

/// A list to be written. Nothing is promised of its ids and frequencies: some are to be refused.
#[derive(Clone, PartialEq)]
pub struct List {
    pub mode: u8,
    pub record: bool,
    pub ids: Vec<u32>,
    pub freqs: Vec<u32>,
}

impl List {
    /// Whether frequencies are kept.
    pub fn kept(&self) -> bool {
        self.mode != 0 && self.record
    }

    /// The frequencies that a reader gets who requests this mode.
    pub fn freqs_read(&self, requested: u8) -> Vec<u32> {
        if self.kept() && requested != 0 {
            self.freqs.clone()
        } else {
            vec![1; self.freqs.len()]
        }
    }
}

impl fmt::Display for List {
    fn fmt(&self, f: &mut fmt::Formatter) -> fmt::Result {
        let (mode, record, count) = (self.mode, self.record, self.ids.len());
        write!(f, "mode {mode}, record {record}, {count} documents (id:frequency)")?;
        let documents: Vec<(u32, u32)> =
            self.ids.iter().copied().zip(self.freqs.iter().copied()).collect();
        // Runs of ids without a gap, where their frequencies are the same.
        let together = |a: &(u32, u32), b: &(u32, u32)| a.0.wrapping_add(1) == b.0 && a.1 == b.1;
        for run in documents.chunk_by(together) {
            let (first, freq) = run[0];
            match run.len() {
                1 => write!(f, " {first}:{freq}")?,
                _ => write!(f, " {first}-{}:{freq}", run[run.len() - 1].0)?,
            }
        }
        Ok(())
    }
}

/// A mode, and whether frequencies are recorded.
pub type Form = (u8, bool);

pub const FORMS: [Form; 4] = [(0, false), (0, true), (1, false), (1, true)];

/// xorshift64*, with the state as its seed.
pub struct Rng(u64);

impl Rng {
    /// A seed of 0 would stay 0.
    pub fn new(seed: u64) -> Rng {
        Rng(seed.max(1))
    }

    pub fn draw(&mut self) -> u64 {
        self.0 ^= self.0 >> 12;
        self.0 ^= self.0 << 25;
        self.0 ^= self.0 >> 27;
        self.0.wrapping_mul(0x2545_F491_4F6C_DD1D)
    }

    /// A number below `n`, which is at most 2 ^ 32.
    pub fn below(&mut self, n: u64) -> u64 {
        ((self.draw() >> 32) * n) >> 32
    }

    /// 1 to 2 ^ `bits`, each length of number alike, so that short and long ones mix.
    fn up_to_bits(&mut self, bits: u32) -> u64 {
        let bits = self.below(u64::from(bits) + 1);
        1 + self.below(1 << bits)
    }
}

/// How the gaps and frequencies of a random list are drawn.
#[derive(Clone, Copy)]
pub struct Shape {
    /// Gaps are 1 to 2 ^ `gap_bits`, as far as they leave room for the documents after them.
    pub gap_bits: u32,
    /// Frequencies are 1 to 2 ^ `freq_bits`, at most 4294967295.
    pub freq_bits: u32,
    /// One gap is widened until the last id is 2147483646.
    pub to_the_end: bool,
}

impl Shape {
    /// The extremes, then random ones.
    pub fn several(rng: &mut Rng) -> Vec<Shape> {
        let shape = |gap_bits, freq_bits, to_the_end| Shape { gap_bits, freq_bits, to_the_end };
        let mut shapes =
            vec![shape(0, 0, false), shape(0, 32, true), shape(31, 0, true), shape(31, 32, false)];
        for i in 0..6 {
            shapes.push(shape(rng.below(32) as u32, rng.below(33) as u32, i % 2 == 0));
        }
        shapes
    }

    pub fn list(self, rng: &mut Rng, (mode, record): Form, count: usize) -> List {
        let largest = u64::from(TERMINATED) - 1;
        let mut ids: Vec<u32> = Vec::new();
        // One more than the last id, so that the first gap counts from -1.
        let mut next = 0;
        for after in (0..count as u64).rev() {
            next = (next + rng.up_to_bits(self.gap_bits)).min(largest + 1 - after);
            ids.push(next as u32 - 1);
        }
        if self.to_the_end && count > 0 {
            let place = rng.below(count as u64) as usize;
            ids[place..].iter_mut().for_each(|id| *id += (largest + 1 - next) as u32);
        }
        let mut freq = || rng.up_to_bits(self.freq_bits).min(u32::MAX.into()) as u32;
        let mut freqs: Vec<u32> = (0..count).map(|_| freq()).collect();
        if self.freq_bits == 32 && count > 0 {
            freqs[rng.below(count as u64) as usize] = u32::MAX;
        }
        List { mode, record, ids, freqs }
    }
}

/// All lists that grow out of the empty one, where `next` gives the documents that may be appended.
/// Fewer documents come first.
pub fn all_lists((mode, record): Form, next: impl Fn(&List) -> Vec<(u32, u32)>) -> Vec<List> {
    let mut lists = vec![List { mode, record, ids: vec![], freqs: vec![] }];
    let mut grown = 0;
    while grown < lists.len() {
        for (id, freq) in next(&lists[grown]) {
            let mut longer = lists[grown].clone();
            longer.ids.push(id);
            longer.freqs.push(freq);
            lists.push(longer);
        }
        grown += 1;
    }
    lists
}

/// Each of these ids with each of these frequencies.
pub fn documents(ids: impl IntoIterator<Item = u32>, freqs: &[u32]) -> Vec<(u32, u32)> {
    ids.into_iter().flat_map(|id| freqs.iter().map(move |freq| (id, *freq))).collect()
}

/// A list that still fails, from which no document can be left out, and of which no frequency and no
/// gap can be made less by one.
pub fn smallest(mut list: List, fails: impl Fn(&List) -> bool) -> List {
    // Takes the change if the list still fails with it.
    let attempt = |list: &mut List, change: &dyn Fn(&mut List)| {
        let mut changed = list.clone();
        change(&mut changed);
        let taken = changed != *list && fails(&changed);
        if taken {
            *list = changed;
        }
        taken
    };
    loop {
        let before = list.clone();
        for run in halves(list.ids.len() as u32) {
            let run = run as usize;
            let mut start = 0;
            while start + run <= list.ids.len() {
                let left_out = attempt(&mut list, &|list| {
                    list.ids.drain(start..start + run);
                    list.freqs.drain(start..start + run);
                });
                if !left_out {
                    start += run;
                }
            }
        }
        for place in 0..list.ids.len() {
            for less in halves(list.freqs[place].saturating_sub(1)) {
                attempt(&mut list, &|list| list.freqs[place] -= less.min(list.freqs[place] - 1));
            }
            let least = if place == 0 { 0 } else { list.ids[place - 1].saturating_add(1) };
            for less in halves(list.ids[place].saturating_sub(least)) {
                attempt(&mut list, &|list| {
                    let less = less.min(list.ids[place].saturating_sub(least));
                    list.ids[place..].iter_mut().for_each(|id| *id = id.saturating_sub(less));
                });
            }
        }
        if list == before {
            return list;
        }
    }
}

/// The number, its half, and so on down to 1.
pub(crate) fn halves(number: u32) -> impl Iterator<Item = u32> {
    std::iter::successors(Some(number), |number| Some(number / 2)).take_while(|number| *number > 0)
}
