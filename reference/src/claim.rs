//! The claim file: entries and the members of each goal by their bytes (refusals 10
//! to 14 and 72).

use crate::bytes::{Cursor, Fault, CLAIM};
use crate::goals::{Form, GOALS};
use crate::refusal::Refusal;

#[derive(Clone, Copy, Debug, PartialEq, Eq)]
#[repr(u8)]
pub enum Kind {
    False = 0,
    True = 1,
    Letter = 2,
    Negated = 3,
    Or = 4,
    And = 5,
    Diamond = 6,
    Box = 7,
    Mu = 8,
    Nu = 9,
    Name = 10,
}

impl Kind {
    pub const ALL: [Kind; 11] = [
        Kind::False,
        Kind::True,
        Kind::Letter,
        Kind::Negated,
        Kind::Or,
        Kind::And,
        Kind::Diamond,
        Kind::Box,
        Kind::Mu,
        Kind::Nu,
        Kind::Name,
    ];

    pub fn from_byte(byte: u8) -> Option<Kind> {
        Kind::ALL.get(usize::from(byte)).copied()
    }

    /// The bit map an entry of this kind has: bit 0 for A, bit 1 for B. That of a
    /// box or diamond is of one with action 0.
    pub fn map(self) -> u8 {
        match self {
            Kind::False | Kind::True => 0,
            Kind::Or | Kind::And => 3,
            _ => 1,
        }
    }

    /// T-04: "A box or diamond may carry an action from 1 to 15 in field B (map
    /// 3)".
    pub fn fits(self, map: u8) -> bool {
        map == self.map() || map == 3 && self.is_modal()
    }

    pub fn is_fixpoint(self) -> bool {
        matches!(self, Kind::Mu | Kind::Nu)
    }

    pub fn is_modal(self) -> bool {
        matches!(self, Kind::Diamond | Kind::Box)
    }
}

/// The actions are 0 to 15.
pub const ACTIONS: usize = 16;

/// "An entry's record is its kind, A and B"; a field that is not there is 0. So
/// B of a box or diamond is its action: "map 1 means action 0".
#[derive(Clone, Copy, Debug, PartialEq, Eq)]
pub struct Entry {
    pub kind: Kind,
    pub a: u16,
    pub b: u16,
}

impl Entry {
    pub fn new(kind: Kind, a: u16, b: u16) -> Entry {
        Entry { kind, a, b }
    }

    /// The map it is written with.
    pub fn map(self) -> u8 {
        match self.kind.is_modal() && self.b != 0 {
            true => 3,
            false => self.kind.map(),
        }
    }

    /// The same with other operands; a name's fixpoint is one, an action is not.
    pub(crate) fn over(self, mut other: impl FnMut(u16) -> u16) -> Entry {
        let Entry { kind, a, b } = self;
        match kind {
            Kind::False | Kind::True | Kind::Letter | Kind::Negated => self,
            Kind::Or | Kind::And => Entry::new(kind, other(a), other(b)),
            _ => Entry::new(kind, other(a), b),
        }
    }

    /// The entry, and whether it has an action that need not be written.
    fn read(cursor: &mut Cursor) -> Result<(Entry, bool), Refusal> {
        let place = cursor.offset();
        let map = cursor.byte()?;
        let kind = Kind::from_byte(cursor.byte()?)
            .filter(|kind| kind.fits(map))
            .ok_or(cursor.refusal(Fault::Map, place))?;
        let a = cursor.two_if(map & 1 != 0)?;
        let b = cursor.two_if(map & 2 != 0)?;
        let entry = Entry::new(kind, a, b);
        Ok((entry, entry.map() != map))
    }
}

#[derive(Clone, Debug, PartialEq, Eq)]
pub struct Claim {
    pub form: Form,
    pub entries: Vec<Entry>,
    /// The members of all goals, one after another.
    pub members: Vec<u16>,
    /// How many goals there are, in the form of several none at the least.
    goals: usize,
    /// Where one goal's members end and the next one's begin.
    splits: Vec<usize>,
    /// The first box or diamond with "a 0 written out in B", which its record does
    /// not tell.
    pub(crate) written_out: Option<usize>,
}

impl Claim {
    /// Reads a claim by its bytes alone; entries are judged by `formula`.
    pub fn read(bytes: &[u8]) -> Result<Claim, Refusal> {
        let form = Form::of_claim(bytes).ok_or(CLAIM.refusal())?;
        let mut cursor = Cursor::after(form.claim(), bytes);
        let mut claim = Claim {
            form,
            entries: Vec::new(),
            members: Vec::new(),
            goals: 1,
            splits: Vec::new(),
            written_out: None,
        };
        claim.read_entries(&mut cursor)?;
        if form == Form::Several {
            claim.goals = goal_count(&mut cursor)?;
        }
        for goal in 0..claim.goals {
            if goal > 0 {
                claim.splits.push(claim.members.len());
            }
            claim.read_goal(&mut cursor)?;
        }
        cursor.finish()?;
        Ok(claim)
    }

    fn read_entries(&mut self, cursor: &mut Cursor) -> Result<(), Refusal> {
        let count = cursor.count(self.form.fewest()..=256)?;
        self.entries.reserve_exact(count);
        for number in 0..count {
            let (entry, needless) = Entry::read(cursor)?;
            if needless && self.written_out.is_none() {
                self.written_out = Some(number);
            }
            self.entries.push(entry);
        }
        Ok(())
    }

    /// "A member list inside a goal still has at least one member."
    fn read_goal(&mut self, cursor: &mut Cursor) -> Result<(), Refusal> {
        let count = cursor.count(1..=24)?;
        self.members.reserve(count);
        cursor.rising(count, &mut self.members, |member| {
            may_be_member(&self.entries, member)
        })
    }

    /// The members of each goal.
    pub fn goals(&self) -> impl Iterator<Item = &[u16]> {
        let ends = self.splits.iter().copied().chain([self.members.len()]);
        let mut start = 0;
        ends.take(self.goals).map(move |end| {
            let goal = &self.members[start..end];
            start = end;
            goal
        })
    }
}

/// "72, goal count over 16 [...], judged where it is read, place its offset". T-06:
/// "72 no longer" applies to zero.
fn goal_count(cursor: &mut Cursor) -> Result<usize, Refusal> {
    let place = cursor.offset();
    match usize::from(cursor.two()?) {
        count @ 0..=GOALS => Ok(count),
        _ => Err(Refusal::new(72, place)),
    }
}

/// "Members are never name entries."
pub(crate) fn may_be_member(entries: &[Entry], number: u16) -> bool {
    entries
        .get(usize::from(number))
        .is_some_and(|entry| entry.kind != Kind::Name)
}
