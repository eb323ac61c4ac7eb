//! Proofs over tables with twins, in which a code may be that of any entry that
//! stands for its formula.

use super::near_miss::near_miss;
use super::near_twin::near_twin;
use super::one_step::one_step;
use super::pairs::{accepted, in_some_form, prove, prove_by, Proved};
use super::provable::{provable, Provable};
use super::rng::Rng;
use super::step::{Flaw, FLAWS};
use super::twins::{near_twins, twins, Twins};
use crate::alike::least_alike;
use crate::bits::Bits;
use crate::check::{judge, Decoded};
use crate::claim::Kind;
use crate::draft::DraftNode;
use crate::proof::Rule;
use crate::sequent::{entry_of, focused, insert, with_focus_of};

const MEMBERS: usize = 24;

/// The bytes of a claim and a proof that uses twins.
pub fn with_twins(rng: &mut Rng) -> (Vec<u8>, Vec<u8>) {
    loop {
        let proved = over_twins(rng);
        let (claim, proof) = proved.files();
        let decoded = judge(&claim, &proof).decoded;
        if decoded.is_some_and(|decoded| !twins_used(&decoded).is_empty()) {
            return in_some_form(rng, proved);
        }
    }
}

/// A claim with twins and a proof: a good one with its codes renamed, one that is
/// found over the twins, or a single step; at times with a small change.
pub fn over_twins(rng: &mut Rng) -> Proved {
    let mut proved = match rng.below(6) {
        0..=1 => found(rng),
        2 => one_step(rng),
        _ => renamed(rng),
    };
    match rng.below(8) {
        0 => near_miss(rng, &mut proved.nodes, &proved.entries),
        1..=2 => near_twin(rng, &mut proved),
        _ => {}
    }
    proved
}

/// The pairs of entries that are the same formula and both stand in a node's
/// sequent or as its principal, no names.
pub fn twins_used(Decoded { claim, proof }: &Decoded) -> Vec<(u16, u16)> {
    let least = least_alike(&claim.entries);
    let with_principal = |rule: Rule| rule.low_bits() & 1 == 1;
    let nodes = proof.nodes.iter().filter(|node| with_principal(node.rule));
    let codes = proof.codes.iter().copied();
    let mut used = vec![false; claim.entries.len()];
    for code in codes.chain(nodes.map(|node| node.principal)) {
        if let Some(used) = used.get_mut(entry_of(code)) {
            *used = claim.entries[entry_of(code)].kind != Kind::Name;
        }
    }
    let used: Vec<usize> = (0..used.len()).filter(|&entry| used[entry]).collect();
    let below = |entry: usize| used.iter().take_while(move |&&other| other < entry);
    used.iter()
        .flat_map(|&entry| below(entry).map(move |&other| (other, entry)))
        .filter(|&(one, other)| least[one] == least[other])
        .map(|(one, other)| (one as u16, other as u16))
        .collect()
}

/// By a search that takes for the same formula what is so, or each entry for a
/// formula of its own, as in the base, or also copies that are none; or that makes
/// another mistake.
fn found(rng: &mut Rng) -> Proved {
    loop {
        let plain = provable(rng);
        let manner = rng.below(6);
        let twins = match manner {
            0 => near_twins(rng, &plain.entries),
            _ => twins(rng, &plain.entries),
        };
        let claim = claim_with_twins(rng, &plain, &twins);
        let proved = match manner {
            0 => prove_by(rng, claim, &twins.least_copies(), Flaw::None),
            1 => {
                let numbers: Vec<u16> = (0..claim.entries.len() as u16).collect();
                prove_by(rng, claim, &numbers, Flaw::None)
            }
            2 => {
                let flaw = rng.pick(&FLAWS).unwrap_or(Flaw::GivesUp);
                prove(rng, claim, flaw)
            }
            _ => prove(rng, claim, Flaw::None),
        };
        if let Some(proved) = proved {
            return proved;
        }
    }
}

fn claim_with_twins(rng: &mut Rng, plain: &Provable, twins: &Twins) -> Provable {
    let mut valid = Bits::default();
    let mut dual = vec![None; twins.entries.len()];
    for (number, copies) in twins.copies.iter().enumerate() {
        for &copy in copies {
            if plain.valid.contains(number) {
                valid.insert(copy.into());
            }
            dual[usize::from(copy)] = plain.dual[number].map(|other| twins.any(rng, other));
        }
    }
    Provable {
        entries: twins.entries.clone(),
        members: Renaming::new(rng, twins).members(rng, &plain.members),
        valid,
        dual,
    }
}

/// A proof over the plain table, its codes those of copies.
fn renamed(rng: &mut Rng) -> Proved {
    let plain = accepted(rng);
    let twins = twins(rng, &plain.entries);
    over_copies(rng, &plain, &twins)
}

/// The same claim and proof over the copies of its entries.
pub fn over_copies(rng: &mut Rng, plain: &Proved, twins: &Twins) -> Proved {
    let renaming = Renaming::new(rng, twins);
    let nodes: Vec<DraftNode> = plain
        .nodes
        .iter()
        .map(|node| renaming.node(rng, node))
        .collect();
    let members = match nodes.first() {
        Some(root) if rng.chance(2, 3) => entries_of(&root.codes),
        _ => renaming.members(rng, &plain.members),
    };
    Proved {
        entries: twins.entries.clone(),
        members,
        nodes,
    }
}

/// How codes are renamed: to one copy of each entry, now and then to any, and now
/// and then to two.
struct Renaming<'a> {
    twins: &'a Twins,
    usual: Vec<u16>,
    /// Times out of 24.
    anew: usize,
    twice: usize,
}

impl<'a> Renaming<'a> {
    fn new(rng: &mut Rng, twins: &'a Twins) -> Renaming<'a> {
        let first = rng.chance(1, 2);
        let usual = twins.copies.iter().map(|copies| match first {
            true => copies[0],
            false => rng.pick(copies).unwrap_or(copies[0]),
        });
        Renaming {
            twins,
            usual: usual.collect(),
            anew: rng.pick(&[1, 4, 24]).unwrap_or(1),
            twice: rng.pick(&[0, 1, 6]).unwrap_or(0),
        }
    }

    fn code(&self, rng: &mut Rng, plain: u16) -> u16 {
        let entry = match rng.chance(self.anew, 24) {
            true => self.twins.any(rng, plain / 2),
            false => self.usual[entry_of(plain)],
        };
        with_focus_of(entry, plain)
    }

    fn codes(&self, rng: &mut Rng, plain: &[u16]) -> Vec<u16> {
        let mut codes = Vec::with_capacity(plain.len());
        for &code in plain {
            insert(&mut codes, self.code(rng, code));
        }
        for &code in plain {
            if codes.len() < MEMBERS && rng.chance(self.twice, 24) {
                let entry = self.twins.any(rng, code / 2);
                insert(&mut codes, with_focus_of(entry, code));
            }
        }
        codes
    }

    fn node(&self, rng: &mut Rng, plain: &DraftNode) -> DraftNode {
        DraftNode {
            principal: self.code(rng, plain.principal),
            codes: self.codes(rng, &plain.codes),
            ..*plain
        }
    }

    fn members(&self, rng: &mut Rng, plain: &[u16]) -> Vec<u16> {
        let codes: Vec<u16> = plain.iter().map(|&member| focused(member)).collect();
        entries_of(&self.codes(rng, &codes))
    }
}

/// The entries of codes that all are in focus.
fn entries_of(codes: &[u16]) -> Vec<u16> {
    codes.iter().map(|code| code / 2).collect()
}
