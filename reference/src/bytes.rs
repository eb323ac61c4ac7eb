//! A cursor over the bytes of one file. "Two-byte and four-byte fields are
//! little-endian and unsigned."

use crate::refusal::Refusal;
use std::ops::RangeInclusive;

/// How a file opens. The refusals of claims, proofs and models run in parallel: 10,
/// 30, 60 for the opening, then one number each for length, count, map and member.
pub struct Opening {
    pub letters: [u8; 4],
    pub number: u16,
}

pub const CLAIM: Opening = Opening {
    letters: *b"CLM1",
    number: 10,
};
/// A claim with several goals.
pub const GOAL_CLAIM: Opening = Opening {
    letters: *b"CLM2",
    number: 10,
};
pub const PROOF: Opening = Opening {
    letters: *b"PRF1",
    number: 30,
};
/// A proof with a tree for each goal.
pub const GOAL_PROOF: Opening = Opening {
    letters: *b"PRF2",
    number: 30,
};
pub const MODEL: Opening = Opening {
    letters: *b"MDL1",
    number: 60,
};
/// A model with lists of successors by action.
pub const ACTION_MODEL: Opening = Opening {
    letters: *b"MDL2",
    number: 60,
};

impl Opening {
    /// "wrong or short opening of claim, proof, model (0)"
    pub fn refusal(&self) -> Refusal {
        Refusal::new(self.number, 0)
    }
}

/// What else can be wrong with a file's bytes, as distance from its opening's
/// number.
#[derive(Clone, Copy)]
pub enum Fault {
    Length = 1,
    Count = 2,
    Map = 3,
    Member = 4,
}

pub struct Cursor<'a> {
    bytes: &'a [u8],
    at: usize,
    number: u16,
}

impl<'a> Cursor<'a> {
    /// Starts after the opening; "wrong or short opening" is refused at 0.
    pub fn open(bytes: &'a [u8], opening: &Opening) -> Result<Cursor<'a>, Refusal> {
        if bytes.starts_with(&opening.letters) {
            Ok(Cursor::after(opening, bytes))
        } else {
            Err(opening.refusal())
        }
    }

    /// Starts after an opening that is known to be there.
    pub fn after(opening: &Opening, bytes: &'a [u8]) -> Cursor<'a> {
        Cursor {
            bytes,
            at: opening.letters.len(),
            number: opening.number,
        }
    }

    pub fn offset(&self) -> usize {
        self.at
    }

    pub fn refusal(&self, fault: Fault, place: usize) -> Refusal {
        Refusal::new(self.number + fault as u16, place)
    }

    /// The next `N` bytes, or "file ends early (its length)".
    fn take<const N: usize>(&mut self) -> Result<[u8; N], Refusal> {
        let rest = self.bytes.get(self.at..).unwrap_or_default();
        match rest.first_chunk::<N>() {
            Some(chunk) => {
                self.at += N;
                Ok(*chunk)
            }
            None => Err(self.ends()),
        }
    }

    pub fn byte(&mut self) -> Result<u8, Refusal> {
        self.take::<1>().map(|[byte]| byte)
    }

    pub fn two(&mut self) -> Result<u16, Refusal> {
        self.take().map(u16::from_le_bytes)
    }

    pub fn four(&mut self) -> Result<u32, Refusal> {
        self.take().map(u32::from_le_bytes)
    }

    /// A two-byte field that is there only if its bit stands, else 0.
    pub fn two_if(&mut self, present: bool) -> Result<u16, Refusal> {
        if present {
            self.two()
        } else {
            Ok(0)
        }
    }

    /// A one-byte count; "a count out of range (its offset)".
    pub fn small_count(&mut self, range: RangeInclusive<u16>) -> Result<usize, Refusal> {
        let place = self.at;
        let count = self.byte()?;
        self.in_range(count.into(), range, place)
    }

    /// A two-byte count.
    pub fn count(&mut self, range: RangeInclusive<u16>) -> Result<usize, Refusal> {
        let place = self.at;
        let count = self.two()?;
        self.in_range(count, range, place)
    }

    fn in_range(
        &self,
        count: u16,
        range: RangeInclusive<u16>,
        place: usize,
    ) -> Result<usize, Refusal> {
        if range.contains(&count) {
            Ok(count.into())
        } else {
            Err(self.refusal(Fault::Count, place))
        }
    }

    /// Appends `count` two-byte numbers to `list`, strictly rising among
    /// themselves and each one fit to be a member.
    pub fn rising(
        &mut self,
        count: usize,
        list: &mut Vec<u16>,
        fit: impl Fn(u16) -> bool,
    ) -> Result<(), Refusal> {
        let mut last = None;
        for _ in 0..count {
            let place = self.at;
            let member = self.two()?;
            if last.is_some_and(|last| member <= last) || !fit(member) {
                return Err(self.refusal(Fault::Member, place));
            }
            last = Some(member);
            list.push(member);
        }
        Ok(())
    }

    /// Up to `count` bytes, as many as there are.
    pub fn up_to(&mut self, count: usize) -> &'a [u8] {
        let rest = self.bytes.get(self.at..).unwrap_or_default();
        let list = rest.get(..count).unwrap_or(rest);
        self.at += list.len();
        list
    }

    /// "file ends early (its length)"
    pub fn ends(&self) -> Refusal {
        self.refusal(Fault::Length, self.bytes.len())
    }

    /// "or bytes follow (offset of the first)"
    pub fn finish(self) -> Result<(), Refusal> {
        if self.at == self.bytes.len() {
            Ok(())
        } else {
            Err(self.refusal(Fault::Length, self.at))
        }
    }
}
