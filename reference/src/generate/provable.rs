//! Claims that hold, with what the search should know of why they do.

use super::actions;
use super::formulas::{Builder, Scope, Shape};
use super::rng::Rng;
use crate::bits::Bits;
use crate::claim::{Entry, Kind, ACTIONS};

/// A claim with hints for the search.
#[derive(Clone)]
pub struct Provable {
    pub entries: Vec<Entry>,
    pub members: Vec<u16>,
    /// Entries true everywhere by themselves.
    pub valid: Bits,
    /// For each entry one that is its negation, if known.
    pub dual: Vec<Option<u16>>,
}

/// Some claim that holds, in one of several manners, at times with members that
/// add nothing.
pub fn provable(rng: &mut Rng) -> Provable {
    let shape = Shape {
        size: rng.between(4, 60),
        depth: rng.between(2, 6),
        letters: if rng.chance(1, 8) { 32 } else { 3 },
        wild: false,
    };
    let mut claim = match rng.below(6) {
        0 => excluded_middle(rng, shape),
        1 => with_choice(excluded_middle(rng, shape)),
        2 => greatest(rng, shape),
        3 => by_several_actions(rng, shape),
        _ => valid(rng, shape),
    };
    for _ in 0..rng.below(4) {
        let extra = rng.below(claim.entries.len()) as u16;
        let full = claim.members.len() >= 24;
        let name = claim.entries[usize::from(extra)].kind == Kind::Name;
        if !full && !name && !claim.members.contains(&extra) && rng.chance(1, 3) {
            claim.members.push(extra);
        }
    }
    claim.members.sort_unstable();
    claim
}

/// A formula built to be true everywhere.
fn valid(rng: &mut Rng, shape: Shape) -> Provable {
    let mut builder = Builder::new(rng, shape);
    let root = builder.valid(Scope::closed(), shape.depth);
    let valid = builder.valid_entries();
    // What is true everywhere is so whatever the actions are.
    let mut entries = builder.entries;
    actions::spread(rng, &mut entries);
    Provable {
        dual: vec![None; entries.len()],
        entries,
        members: vec![root],
        valid,
    }
}

/// Greatest fixpoints of boxes in one another, each naming those around it:
/// `nu X. box (X and nu Y. box (X and Y and ...))`, at times with a spare letter
/// beside each box. Their proofs have loops in loops, which leave the letters.
fn greatest(rng: &mut Rng, shape: Shape) -> Provable {
    let levels = rng.between(1, shape.depth.min(4));
    let mut entries = Vec::new();
    let names = levels as u16;
    let spare = rng.chance(2, 3);
    let per_level = if spare { 5 } else { 3 };
    let fixpoint_of = |level: u16| names + (names - level) * per_level - 1;
    for level in 0..names {
        entries.push(Entry::new(Kind::Name, fixpoint_of(level), 0));
    }
    for level in (0..names).rev() {
        let inner = match level + 1 == names {
            true => rng.below(names.into()) as u16,
            false => fixpoint_of(level + 1),
        };
        let mut pair = [rng.below(usize::from(level) + 1) as u16, inner];
        rng.shuffle(&mut pair);
        let at = entries.len() as u16;
        let boxed = |a| Entry::new(Kind::Box, a, 0);
        let both = |[a, b]: [u16; 2]| Entry::new(Kind::And, a, b);
        entries.push(both(pair));
        entries.push(boxed(at));
        if spare {
            entries.extend(beside_a_letter(rng, shape, at + 1));
        }
        entries.push(Entry::new(Kind::Nu, entries.len() as u16 - 1, 0));
    }
    actions::spread(rng, &mut entries);
    Provable {
        members: vec![(entries.len() - 1) as u16],
        dual: vec![None; entries.len()],
        valid: all_but_letters(&entries),
        entries,
    }
}

fn all_but_letters(entries: &[Entry]) -> Bits {
    let mut numbers = Bits::default();
    for (number, entry) in entries.iter().enumerate() {
        if entry.kind != Kind::Letter {
            numbers.insert(number);
        }
    }
    numbers
}

/// A letter, and the last entry or it.
fn beside_a_letter(rng: &mut Rng, shape: Shape, last: u16) -> [Entry; 2] {
    let mut pair = [last, last + 1];
    rng.shuffle(&mut pair);
    let letter = rng.below(shape.letters.into()) as u16;
    [
        Entry::new(Kind::Letter, letter, 0),
        Entry::new(Kind::Or, pair[0], pair[1]),
    ]
}

/// Any closed formula and its negation.
fn excluded_middle(rng: &mut Rng, shape: Shape) -> Provable {
    let half = Shape {
        size: shape.size / 2,
        depth: shape.depth.min(5),
        ..shape
    };
    let mut builder = Builder::new(rng, half);
    let root = builder.formula(Scope::closed(), half.depth);
    let mut plain = builder.entries;
    actions::spread(rng, &mut plain);
    with_negation(rng, &plain, root)
}

/// A letter under several steps, beside each a step by another action as a rule,
/// and its negation. On the way up a box and the diamond of its action meet
/// diamonds of others.
fn by_several_actions(rng: &mut Rng, shape: Shape) -> Provable {
    let letter = |rng: &mut Rng| rng.below(shape.letters.into()) as u16;
    let mut plain = vec![Entry::new(Kind::Letter, letter(rng), 0)];
    let step = |rng: &mut Rng, below: u16| {
        let kind = rng.pick(&[Kind::Diamond, Kind::Box]);
        let action = rng.below(ACTIONS) as u16;
        Entry::new(kind.unwrap_or(Kind::Box), below, action)
    };
    for _ in 0..rng.between(1, 5) {
        let last = plain.len() as u16 - 1;
        let beside = rng.below(plain.len()) as u16;
        plain.extend([step(rng, last), step(rng, beside)]);
        let join = rng.pick(&[Kind::Or, Kind::And]).unwrap_or(Kind::Or);
        plain.push(Entry::new(join, last + 1, last + 2));
    }
    with_negation(rng, &plain, plain.len() as u16 - 1)
}

/// A table and its negation, interleaved at random.
fn with_negation(rng: &mut Rng, plain: &[Entry], root: u16) -> Provable {
    let (ours, theirs) = interleave(rng, plain.len());
    let mut entries = vec![Entry::new(Kind::False, 0, 0); 2 * plain.len()];
    let mut dual = vec![None; entries.len()];
    for (number, entry) in plain.iter().enumerate() {
        let (one, other) = (ours[number], theirs[number]);
        let to =
            |numbers: &[u16], operand: u16| numbers.get(usize::from(operand)).copied().unwrap_or(0);
        let mut negation = entry.over(|operand| to(&theirs, operand));
        negation.kind = dual_kind(entry.kind);
        entries[usize::from(one)] = entry.over(|operand| to(&ours, operand));
        entries[usize::from(other)] = negation;
        dual[usize::from(one)] = Some(other);
        dual[usize::from(other)] = Some(one);
    }
    Provable {
        entries,
        members: [ours, theirs]
            .map(|numbers| numbers[usize::from(root)])
            .to_vec(),
        valid: Bits::default(),
        dual,
    }
}

/// The two members of an excluded middle put into one disjunction.
fn with_choice(mut claim: Provable) -> Provable {
    if let [a, b] = claim.members[..] {
        claim.members = vec![claim.entries.len() as u16];
        claim.entries.push(Entry::new(Kind::Or, a, b));
        claim.dual.push(None);
    }
    claim
}

/// Two rising lists of `count` numbers each that share out 0 to 2 × count.
fn interleave(rng: &mut Rng, count: usize) -> (Vec<u16>, Vec<u16>) {
    let (mut one, mut other) = (Vec::new(), Vec::new());
    for number in 0..2 * count as u16 {
        let first = other.len() == count || (one.len() < count && rng.chance(1, 2));
        let list = if first { &mut one } else { &mut other };
        list.push(number);
    }
    (one, other)
}

fn dual_kind(kind: Kind) -> Kind {
    match kind {
        Kind::False => Kind::True,
        Kind::True => Kind::False,
        Kind::Letter => Kind::Negated,
        Kind::Negated => Kind::Letter,
        Kind::Or => Kind::And,
        Kind::And => Kind::Or,
        Kind::Diamond => Kind::Box,
        Kind::Box => Kind::Diamond,
        Kind::Mu => Kind::Nu,
        Kind::Nu => Kind::Mu,
        Kind::Name => Kind::Name,
    }
}
