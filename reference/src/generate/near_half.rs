//! Proofs to be joined that fit, nearly fit, or are damaged.

use super::actions;
use super::damage::damage;
use super::halves::{halves, Halves};
use super::near_miss::near_miss;
use super::pairs::any_proved;
use super::rng::Rng;
use super::several::{with_a_spare_member, Several};
use crate::alike::least_alike;
use crate::claim::{Entry, Kind};
use crate::draft;
use crate::join::Files;

/// An entry and the files of the two halves; one time in two nothing is wrong with them on
/// purpose.
pub fn to_be_joined(rng: &mut Rng) -> (u16, [Files; 2]) {
    let mut halves = halves(rng);
    match rng.below(40) {
        0..=1 => halves.entry = other_entry(rng, &halves),
        2..=3 => part_tables(rng, &mut halves),
        4 => std::mem::swap(&mut halves.first, &mut halves.second),
        5..=6 => entry_in_the_rest(rng, &mut halves),
        7..=8 => spare_member(rng, &mut halves),
        9..=11 => change_nodes(rng, &mut halves),
        12..=13 => *halves.in_some_order(rng).0 = any_proved(rng),
        14 => return unfit_actions(rng, halves),
        15..=18 => return damaged(rng, &halves),
        19 => return in_another_form(rng, halves),
        _ => {}
    }
    (halves.entry, halves.files())
}

/// An entry of another kind, another "A and B", or none at all.
fn other_entry(rng: &mut Rng, halves: &Halves) -> u16 {
    let entries = &halves.first.entries;
    let ands: Vec<u16> = (0..entries.len() as u16)
        .filter(|&entry| entries[usize::from(entry)].kind == Kind::And)
        .collect();
    let none = [entries.len() as u16, 255, 256, 511, 512, 32_768, 65_535];
    match rng.below(3) {
        0 => rng.pick(&none),
        1 => rng.pick(&ands),
        _ => Some(rng.below(entries.len()) as u16),
    }
    .unwrap_or(u16::MAX)
}

/// Tables that differ in an entry of no use: one more, or another kind, letter, operand or
/// action.
fn part_tables(rng: &mut Rng, halves: &mut Halves) {
    let letter = |letter| Entry::new(Kind::Letter, letter, 0);
    let first = halves.add(letter(0));
    let second = halves.add(letter(1));
    let unlike = match rng.below(6) {
        0 => return halves.in_some_order(rng).0.entries.push(letter(2)),
        1 => [Kind::True, Kind::False].map(|kind| Entry::new(kind, 0, 0)),
        2 => [2, 3].map(letter),
        3 => [first, second].map(|operand| Entry::new(Kind::Or, operand, first)),
        4 => [first, second].map(|operand| Entry::new(Kind::Or, first, operand)),
        _ => [0, 1].map(|action| Entry::new(Kind::Box, first, action)),
    };
    halves.first.entries.push(unlike[0]);
    halves.second.entries.push(unlike[1]);
}

/// "The entry is no member of the rest": the entry, or one of its formula.
fn entry_in_the_rest(rng: &mut Rng, halves: &mut Halves) {
    let least = least_alike(&halves.first.entries);
    let formula = |entry: u16| least[usize::from(entry)];
    let alike: Vec<u16> = (0..least.len() as u16)
        .filter(|&entry| formula(entry) == formula(halves.entry))
        .collect();
    let member = rng.pick(&alike).unwrap_or(halves.entry);
    halves.widen(&[member]);
}

/// One half has a member more.
fn spare_member(rng: &mut Rng, halves: &mut Halves) {
    let (half, _) = halves.in_some_order(rng);
    if let Some(other) = with_a_spare_member(rng, half) {
        *half = other;
    }
}

/// A small change to one proof, or to each.
fn change_nodes(rng: &mut Rng, halves: &mut Halves) {
    let (one, other) = halves.in_some_order(rng);
    near_miss(rng, &mut one.nodes, &one.entries);
    if rng.chance(1, 3) {
        near_miss(rng, &mut other.nodes, &other.entries);
    }
}

/// Actions that are none, in one claim.
fn unfit_actions(rng: &mut Rng, mut halves: Halves) -> (u16, [Files; 2]) {
    let mut files = halves.files();
    let at = rng.below(2);
    let half = match at {
        0 => &mut halves.first,
        _ => &mut halves.second,
    };
    let written_out = actions::make_unfit(rng, &mut half.entries);
    let written_out = |entry: usize| written_out.contains(&entry);
    files[at].claim = draft::claim_written_out(&half.entries, &half.members, written_out).bytes;
    (halves.entry, files)
}

/// One file of the four is damaged, at times a second one too.
fn damaged(rng: &mut Rng, halves: &Halves) -> (u16, [Files; 2]) {
    let mut files = halves.files();
    for _ in 0..rng.between(1, 2) {
        let at = rng.below(2);
        let half = [&halves.first, &halves.second][at];
        match rng.chance(1, 2) {
            true => files[at].claim = damage(rng, &half.claim()),
            false => files[at].proof = damage(rng, &half.proof()),
        }
    }
    (halves.entry, files)
}

/// "Another opening gets 10 or 30": one claim, one proof or both in the form of several
/// goals.
fn in_another_form(rng: &mut Rng, halves: Halves) -> (u16, [Files; 2]) {
    let mut files = halves.files();
    let at = rng.below(2);
    let several = match at {
        0 => Several::alone(halves.first),
        _ => Several::alone(halves.second),
    };
    let manner = rng.below(3);
    if manner != 0 {
        files[at].claim = several.claim().bytes;
    }
    if manner != 1 {
        files[at].proof = several.proof().bytes;
    }
    (halves.entry, files)
}
