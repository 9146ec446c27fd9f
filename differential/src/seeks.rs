//! Which seeks were tried in lists of calls on sound images.

use std::cmp::Ordering::{Equal, Greater, Less};
use std::fmt;

use differential::oracle::TERMINATED;
use differential::reader::{Call, ANSWER_NUMBERS, DOC_PLACE, HIT_PLACE, REFUSAL_PLACE};

use crate::Outcome;

/// Seeks by where they find the cursor, by their target, and by whether they hit.
const KINDS: [&str; 9] = [
    "before the end, above 2147483647",
    "before the end, 2147483647",
    "before the end, above the document, missed",
    "before the end, above the document, hit",
    "before the end, the document itself, hit",
    "before the end, below the document, missed",
    "at the end, above 2147483647",
    "at the end, 2147483647",
    "at the end, below it, missed",
];

/// The place in `KINDS` of a seek that finds the cursor on a document, at the end TERMINATED.
fn kind(target: u32, doc: u32, hit: bool) -> usize {
    match (doc == TERMINATED, target.cmp(&TERMINATED), target.cmp(&doc)) {
        (false, Greater, _) => 0,
        (false, Equal, _) => 1,
        (false, Less, Greater) => 2 + usize::from(hit),
        (false, Less, Equal) => 4,
        (false, Less, Less) => 5,
        (true, Greater, _) => 6,
        (true, Equal, _) => 7,
        (true, Less, _) => 8,
    }
}

#[derive(Clone, Copy)]
pub enum Manner {
    ByValue,
    Lent,
    #[cfg(feature = "linked-bench")]
    OnArrays,
}

impl Manner {
    /// Those that a run has: on arrays only the library of `bench` seeks.
    const NAMES: &[&str] = &[
        "by value",
        "lent",
        #[cfg(feature = "linked-bench")]
        "on arrays",
    ];

    pub fn of_call(number: u64) -> Manner {
        if number >> 33 == 0 {
            Manner::ByValue
        } else {
            Manner::Lent
        }
    }
}

/// How many seeks of each kind, in each manner.
#[derive(Clone, Copy, Default)]
pub struct Seeks([[u64; KINDS.len()]; Manner::NAMES.len()]);

impl Seeks {
    pub fn add(&mut self, other: &Seeks) {
        for (number, other) in self.0.as_flattened_mut().iter_mut().zip(other.0.as_flattened()) {
            *number += other;
        }
    }

    /// Counts the seeks among these calls. The answers are the opening's and one for each call. A
    /// refused call moves nothing, so the last answer of another one tells where the cursor is.
    pub fn count(
        &mut self,
        calls: impl Iterator<Item = (Manner, Call)>,
        answers: &[[u64; ANSWER_NUMBERS]],
    ) {
        let mut doc = answers[0][DOC_PLACE] as u32;
        for ((manner, call), answer) in calls.zip(&answers[1..]) {
            if let Call::Seek(target) = call {
                let kind = kind(target, doc, answer[HIT_PLACE] == 1);
                self.0[manner as usize][kind] += 1;
            }
            if answer[REFUSAL_PLACE] == 0 {
                doc = answer[DOC_PLACE] as u32;
            }
        }
    }

    /// Whether each manner had seeks of each kind.
    pub fn all_tried(&self) -> Outcome {
        for (manner, counts) in Manner::NAMES.iter().zip(self.0) {
            if let Some(kind) = counts.iter().position(|count| *count == 0) {
                return Err(format!("NOT TRIED: seeks {manner}, {}", KINDS[kind]));
            }
        }
        Ok(())
    }
}

impl fmt::Display for Seeks {
    fn fmt(&self, f: &mut fmt::Formatter) -> fmt::Result {
        let manners = Manner::NAMES.join(", ");
        write!(f, "  seeks {manners}; where they find the cursor, and their target")?;
        for (kind, name) in KINDS.iter().enumerate() {
            let counts = self.0.map(|counts| counts[kind].to_string());
            write!(f, "\n    {} {name}", counts.join(", "))?;
        }
        Ok(())
    }
}
