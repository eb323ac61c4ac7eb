//! Claims and proofs of one goal and of several. T-05: "A claim opened by `CLM2`
//! has, after the entries, a two-byte goal count of 1 to 16 and that many member
//! lists. A proof opened by `PRF2` has, after the node count, as many strictly
//! rising root numbers, and its nodes form one tree per goal." T-06: the count may
//! be zero.

use crate::bytes::{Opening, CLAIM, GOAL_CLAIM, GOAL_PROOF, PROOF};

/// The most goals of a claim.
pub const GOALS: usize = 16;

/// The forms in which a claim and its proof go together.
#[derive(Clone, Copy, Debug, PartialEq, Eq)]
#[repr(u8)]
pub enum Form {
    /// `CLM1` and `PRF1`: one list of members, and node 0 is the root.
    One = 1,
    /// `CLM2` and `PRF2`: any number of goals up to 16, and none.
    Several = 2,
}

impl Form {
    pub const ALL: [Form; 2] = [Form::One, Form::Several];

    /// The form that the writer is told by this number.
    pub fn from_number(number: u8) -> Option<Form> {
        let known = |form: &Form| *form as u8 == number;
        Form::ALL.into_iter().find(known)
    }

    /// The fewest entries and nodes. T-06: "In the `CLM2` form, zero entries and zero
    /// goals are now good, and 12 and 72 no longer apply to zero there, nor 32 to a
    /// `PRF2` node count of zero."
    pub(crate) fn fewest(self) -> u16 {
        match self {
            Form::One => 1,
            Form::Several => 0,
        }
    }

    /// The form that a claim's opening tells.
    pub(crate) fn of_claim(bytes: &[u8]) -> Option<Form> {
        let letters = bytes.first_chunk()?;
        let opens = |form: &Form| form.claim().letters == *letters;
        Form::ALL.into_iter().find(opens)
    }

    pub(crate) fn claim(self) -> &'static Opening {
        match self {
            Form::One => &CLAIM,
            Form::Several => &GOAL_CLAIM,
        }
    }

    pub(crate) fn proof(self) -> &'static Opening {
        match self {
            Form::One => &PROOF,
            Form::Several => &GOAL_PROOF,
        }
    }
}
