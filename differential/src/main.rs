//! Runs against the Rust. `differential [SEED] [--long]` prints how many cases were tried and ends
//! with 0, or prints a smallest input that shows a difference, or what wasn't tried, and ends with 1.
//!
//! Without a feature the Rust itself is tried, and the plain reading of `reference`: both must do
//! what documents 01 and 02 say of worked lists and calls, and agree with each other and with the
//! book (`book`), on the targets that the Rust takes.

use std::env;
use std::fmt::{self, Debug};
use std::process::ExitCode;

#[cfg(feature = "linked-reading")]
use differential::linked::Library;
use differential::reader::{Caller, Reader};
use differential::reference::Reference;

use crate::seeks::Seeks;

mod damaged;
mod jobs;
mod seeks;
mod self_check;
mod sound;
#[cfg(feature = "linked")]
mod writing;

/// Nothing, or the difference.
type Outcome = Result<(), String>;

/// Those whose answers are compared.
const READERS: &[&dyn Reader] = &[
    #[cfg(feature = "linked-reading")]
    &Library,
    &Reference,
];
const CALLERS: &[&dyn Caller] = &[
    #[cfg(feature = "linked-calls")]
    &Library,
    &Reference,
];

/// How much was tried.
#[derive(Clone, Copy, Default)]
struct Tally {
    /// Lists, accepted or not.
    written: u64,
    /// Sound ones, each read whole in three requested modes.
    images: u64,
    /// Of ranks and totals.
    targets: u64,
    call_lists: u64,
    calls: u64,
    /// Those among these calls.
    seeks: Seeks,
    damaged: u64,
    damaged_calls: u64,
    /// Damaged images by the number that admission gives.
    refused: [u64; 10],
}

impl Tally {
    fn add(&mut self, other: &Tally) {
        self.written += other.written;
        self.images += other.images;
        self.targets += other.targets;
        self.call_lists += other.call_lists;
        self.calls += other.calls;
        self.seeks.add(&other.seeks);
        self.damaged += other.damaged;
        self.damaged_calls += other.damaged_calls;
        for (number, refused) in self.refused.iter_mut().zip(other.refused) {
            *number += refused;
        }
    }
}

impl fmt::Display for Tally {
    fn fmt(&self, f: &mut fmt::Formatter) -> fmt::Result {
        writeln!(f, "  {} lists written", self.written)?;
        writeln!(f, "  {} sound images read, {} targets ranked", self.images, self.targets)?;
        writeln!(f, "  {} lists of {} calls", self.call_lists, self.calls)?;
        writeln!(f, "{}", self.seeks)?;
        write!(f, "  {} damaged images with {} calls;", self.damaged, self.damaged_calls)?;
        for (number, refused) in self.refused.iter().enumerate() {
            write!(f, " {refused} are {number}{}", if number < 9 { "," } else { "" })?;
        }
        Ok(())
    }
}

fn main() -> ExitCode {
    let mut seed = 1;
    let mut long = false;
    for word in env::args().skip(1) {
        match word.as_str() {
            "--long" => long = true,
            word => seed = word.parse().expect("SEED is a number"),
        }
    }
    println!("seed {seed}{}", if long { ", long" } else { "" });
    let (tally, outcome) = jobs::run(seed, long);
    println!("cases:\n{tally}");
    let outcome = outcome.map_err(|difference| format!("DIFFERENT: {difference}"));
    match outcome.and_then(|()| tally.seeks.all_tried()) {
        Ok(()) => {
            println!("no difference");
            ExitCode::SUCCESS
        }
        Err(why) => {
            println!("{why}");
            ExitCode::FAILURE
        }
    }
}

fn equal<T: PartialEq + Debug>(what: impl Fn() -> String, found: T, wanted: T) -> Outcome {
    if found == wanted {
        return Ok(());
    }
    Err(format!("{}\n  found  {found:?}\n  wanted {wanted:?}", what()))
}

/// Shown as document 01 writes bytes.
#[derive(PartialEq)]
struct Bytes<'a>(&'a [u8]);

impl Debug for Bytes<'_> {
    fn fmt(&self, f: &mut fmt::Formatter) -> fmt::Result {
        self.0.iter().try_for_each(|byte| write!(f, "{byte:02X} "))
    }
}
