//! Codes and sets of codes. "A code is 2 × entry + focus; focus 1 is in focus."
//!
//! T-03: "Members are from now on compared by formula". A member is the code of
//! the least entry of its formula, so that members are the same if their codes
//! are; "a list is read as the set of its formulas, with focus".

use crate::proof::Proof;

pub fn entry_of(code: u16) -> usize {
    usize::from(code / 2)
}

pub fn in_focus(code: u16) -> bool {
    code & 1 == 1
}

pub fn focused(entry: u16) -> u16 {
    entry * 2 + 1
}

/// The code of `entry` with the focus of `code`.
pub fn with_focus_of(entry: u16, code: u16) -> u16 {
    entry * 2 + (code & 1)
}

pub fn unfocused(entry: u16) -> u16 {
    entry * 2
}

/// Puts a code into a strictly rising list, as into a set.
pub fn insert(set: &mut Vec<u16>, code: u16) {
    if let Err(at) = set.binary_search(&code) {
        set.insert(at, code);
    }
}

/// Takes a code out of a strictly rising list.
pub fn remove(set: &mut Vec<u16>, code: u16) {
    if let Ok(at) = set.binary_search(&code) {
        set.remove(at);
    }
}

/// A code as a member, given the least entry that is the same formula for each.
pub fn member(least: &[u16], code: u16) -> u16 {
    with_focus_of(least[entry_of(code)], code)
}

/// Reads a list of codes as the set of its members, strictly rising.
pub fn members(least: &[u16], codes: impl Iterator<Item = u16>, set: &mut Vec<u16>) {
    set.clear();
    set.extend(codes.map(|code| member(least, code)));
    set.sort_unstable();
    set.dedup();
}

/// The members of every node of a proof.
pub struct Sequents {
    members: Vec<u16>,
    /// Where each node's members begin, and where the last one's end.
    bounds: Vec<usize>,
}

impl Sequents {
    pub fn read(proof: &Proof, least: &[u16]) -> Sequents {
        let mut sequents = Sequents {
            members: Vec::with_capacity(proof.codes.len()),
            bounds: Vec::with_capacity(proof.nodes.len() + 1),
        };
        let mut set = Vec::with_capacity(24);
        sequents.bounds.push(0);
        for codes in proof.sequents() {
            members(least, codes.iter().copied(), &mut set);
            sequents.members.extend_from_slice(&set);
            sequents.bounds.push(sequents.members.len());
        }
        sequents
    }

    pub fn of(&self, node: usize) -> &[u16] {
        &self.members[self.bounds[node]..self.bounds[node + 1]]
    }
}
