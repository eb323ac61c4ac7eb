//! Actions for the boxes and diamonds of a table, good and unfit.

use super::rng::Rng;
use crate::check::Decoded;
use crate::claim::{Entry, Kind, ACTIONS};
use crate::proof::Rule;
use crate::sequent::entry_of;

/// The actions that a table or a model goes by: 0 alone, another one, a few, or
/// all.
pub fn some(rng: &mut Rng) -> Vec<u16> {
    match rng.below(6) {
        0 => vec![0],
        1 => vec![any(rng)],
        2..=3 => (0..rng.between(2, 3))
            .filter_map(|_| rng.pick(&[0, 1, 2, 15]))
            .collect(),
        4 => (0..rng.between(2, 5)).map(|_| any(rng)).collect(),
        _ => (0..ACTIONS as u16).collect(),
    }
}

fn any(rng: &mut Rng) -> u16 {
    rng.below(ACTIONS) as u16
}

/// The actions that a table has, those above 15 left out.
pub fn used(entries: &[Entry]) -> Vec<u16> {
    let mut used: Vec<u16> = modal(entries)
        .map(|number| entries[number].b)
        .filter(|&action| usize::from(action) < ACTIONS)
        .collect();
    used.sort_unstable();
    used.dedup();
    used
}

fn modal(entries: &[Entry]) -> impl Iterator<Item = usize> + '_ {
    (0..entries.len()).filter(|&number| entries[number].kind.is_modal())
}

/// Gives each box and diamond one of a few actions.
pub fn spread(rng: &mut Rng, entries: &mut [Entry]) {
    let actions = some(rng);
    for entry in entries.iter_mut().filter(|entry| entry.kind.is_modal()) {
        entry.b = rng.pick(&actions).unwrap_or(0);
    }
}

/// The actions of the box steps in a proof that take a diamond along.
pub fn stepped_by(Decoded { claim, proof }: &Decoded) -> Vec<u16> {
    let entry = |code: u16| claim.entries[entry_of(code)];
    let diamond = |&code: &u16| entry(code).kind == Kind::Diamond;
    let nodes = proof.nodes.iter().zip(proof.sequents());
    nodes
        .filter(|(node, _)| {
            node.rule == Rule::Box && entry_of(node.principal) < claim.entries.len()
        })
        .filter(|(_, codes)| codes.iter().any(diamond))
        .map(|(node, _)| entry(node.principal).b)
        .collect()
}

/// Another action for a box or diamond, this one or any, mostly an action that the
/// table has: its formula is then another one.
pub fn change_one(rng: &mut Rng, entries: &mut [Entry], this: Option<usize>) {
    let used = used(entries);
    let places: Vec<usize> = modal(entries).collect();
    if let Some(at) = this.or(rng.pick(&places)) {
        entries[at].b = match rng.chance(2, 3) {
            true => rng.pick(&used).unwrap_or(0),
            false => any(rng),
        };
    }
}

/// One that no entry may have.
pub fn above(rng: &mut Rng) -> u16 {
    match rng.below(4) {
        0 => 16,
        1 => rng.between(17, 31) as u16,
        2 => rng
            .pick(&[255, 256, 257, 4096, 32_768, 65_535])
            .unwrap_or(16),
        _ => rng.word() as u16 | 16,
    }
}

/// Actions above 15 and zeros written out, where a table has a box or diamond; and
/// mostly a field out of its bounds, at the same entry or at another. Answers which
/// zeros are written out.
pub fn make_unfit(rng: &mut Rng, entries: &mut [Entry]) -> Vec<usize> {
    let mut places: Vec<usize> = modal(entries).collect();
    rng.shuffle(&mut places);
    places.truncate(rng.between(1, 2));
    let mut written_out = Vec::new();
    for &at in &places {
        match rng.chance(1, 2) {
            true => entries[at].b = above(rng),
            false => {
                entries[at].b = 0;
                written_out.push(at);
            }
        }
    }
    match rng.below(3) {
        0 => {}
        1 => {
            if let Some(at) = rng.pick(&places) {
                break_bounds(rng, entries, at);
            }
        }
        _ => {
            let at = rng.below(entries.len());
            break_bounds(rng, entries, at);
        }
    }
    written_out
}

/// An operand at or above its entry, a letter above 31, or a name of none. True
/// and false have no field.
fn break_bounds(rng: &mut Rng, entries: &mut [Entry], at: usize) {
    let beyond = rng.pick(&[at, at + 1, entries.len(), 65_535]).unwrap_or(at);
    let entry = &mut entries[at];
    entry.a = match entry.kind {
        Kind::Letter | Kind::Negated => rng.between(32, 40) as u16,
        Kind::Name => at as u16,
        _ => beyond as u16,
    };
}
