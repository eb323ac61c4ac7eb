//! What a refused input or call is told.

use std::fmt;

/// A refusal number and its place.
///
/// Places of claims and proofs fit two bytes: the longest that a reader walks to
/// its end has 58,406 bytes, and entries and nodes are fewer. A model has up to
/// 67,013 bytes, so an evaluation's do not.
#[derive(Clone, Copy, Debug, PartialEq, Eq)]
pub struct Refusal {
    pub number: u16,
    pub place: u32,
}

impl Refusal {
    pub(crate) fn new(number: u16, place: usize) -> Refusal {
        Refusal {
            number,
            place: place as u32,
        }
    }

    /// "refusal × 65,536 + place", of a claim or a proof.
    pub fn packed(self) -> u32 {
        u32::from(self.number) << 16 | self.place
    }

    /// The refusal in a packed answer; 0 is acceptance.
    pub fn unpack(answer: u32) -> Option<Refusal> {
        (answer != 0).then_some(Refusal {
            number: (answer >> 16) as u16,
            place: answer & 0xffff,
        })
    }

    /// "refusal × 2^32 + place", as an evaluation answers.
    pub fn packed_wide(self) -> u64 {
        u64::from(self.number) << 32 | u64::from(self.place)
    }

    /// The refusal in the answer of an evaluation; 0 is none.
    pub fn unpack_wide(answer: u64) -> Option<Refusal> {
        (answer != 0).then_some(Refusal {
            number: (answer >> 32) as u16,
            place: answer as u32,
        })
    }
}

impl fmt::Display for Refusal {
    fn fmt(&self, f: &mut fmt::Formatter<'_>) -> fmt::Result {
        write!(f, "refuse {} at {}", self.number, self.place)
    }
}

/// A packed answer in words: `accept`, or number and place.
pub fn describe(answer: u32) -> String {
    in_words(Refusal::unpack(answer))
}

/// The answer of an evaluation in words.
pub fn describe_wide(answer: u64) -> String {
    in_words(Refusal::unpack_wide(answer))
}

fn in_words(refusal: Option<Refusal>) -> String {
    refusal.map_or("accept".to_string(), |refusal| refusal.to_string())
}

/// The packed answer of a verdict.
pub(crate) fn answer<T>(verdict: &Result<T, Refusal>) -> u32 {
    match verdict {
        Ok(_) => 0,
        Err(refusal) => refusal.packed(),
    }
}

/// The answer of an evaluation.
pub fn answer_wide<T>(outcome: &Result<T, Refusal>) -> u64 {
    match outcome {
        Ok(_) => 0,
        Err(refusal) => refusal.packed_wide(),
    }
}
