//! Proofs to be joined: an entry "A and B", and over one table two claims that hold, the
//! rest with A and the rest with B.

use super::extremes::hard_entries;
use super::near_miss::put_above;
use super::pairs::{accepted, prove, Proved};
use super::provable::{provable, Provable};
use super::renamed::over_copies;
use super::rng::Rng;
use super::several::{beside, moved};
use super::step::Flaw;
use super::twins::twins;
use crate::alike::least_alike;
use crate::claim::{Entry, Kind};
use crate::draft::DraftNode;
use crate::formula::free_names;
use crate::join::Files;
use crate::proof::Rule;
use crate::sequent::{focused, insert};

const ENTRIES: usize = 256;
const NODES: usize = 1024;
const MEMBERS: usize = 24;

/// Two claims with their proofs, and the entry that they are the halves of.
pub struct Halves {
    pub entry: u16,
    pub first: Proved,
    pub second: Proved,
}

impl Halves {
    pub fn files(&self) -> [Files; 2] {
        [&self.first, &self.second].map(|half| {
            let (claim, proof) = half.files();
            Files { claim, proof }
        })
    }

    pub fn in_some_order(&mut self, rng: &mut Rng) -> (&mut Proved, &mut Proved) {
        match rng.chance(1, 2) {
            true => (&mut self.first, &mut self.second),
            false => (&mut self.second, &mut self.first),
        }
    }

    /// One more entry at the end of both tables.
    pub fn add(&mut self, entry: Entry) -> u16 {
        self.first.entries.push(entry);
        self.second.entries.push(entry);
        (self.first.entries.len() - 1) as u16
    }

    /// Both claims with these members too, as many as there is room for.
    pub fn widen(&mut self, more: &[u16]) {
        let least = least_alike(&self.first.entries);
        for half in [&mut self.first, &mut self.second] {
            let mut goal = half.members.clone();
            for &member in more {
                if goal.len() < MEMBERS {
                    insert(&mut goal, member);
                }
            }
            weaken(half, &least, goal);
        }
    }
}

/// The proof of a goal that holds all that is proved: the others are dropped first, each
/// formula at once.
fn weaken(half: &mut Proved, least: &[u16], goal: Vec<u16>) {
    let formula = |entry: u16| least[usize::from(entry)];
    let mut kept: Vec<u16> = half.members.iter().map(|&entry| formula(entry)).collect();
    let mut codes: Vec<u16> = goal.iter().map(|&entry| focused(entry)).collect();
    let mut chain = Vec::new();
    for &member in &goal {
        if !kept.contains(&formula(member)) {
            chain.push(DraftNode::new(Rule::W, focused(member), codes.clone()));
            codes.retain(|code| formula(code / 2) != formula(member));
            kept.push(formula(member));
        }
    }
    put_above(&mut half.nodes, chain);
    half.members = goal;
}

/// Halves that are accepted and fit but for chance; one time in two over a table with
/// twins.
pub fn halves(rng: &mut Rng) -> Halves {
    let mut halves = plain_halves(rng);
    add_members(rng, &mut halves);
    if rng.chance(1, 2) {
        halves = with_twins(rng, &halves);
    }
    if rng.chance(1, 50) {
        add_nodes(rng, &mut halves);
    }
    halves
}

fn plain_halves(rng: &mut Rng) -> Halves {
    loop {
        let found = match rng.below(40) {
            0..=9 => twice(rng),
            10..=19 => of_two_claims(rng),
            20 => Some(over_hard_table(rng)),
            _ => of_one_claim(rng),
        };
        if let Some(halves) = found {
            return halves;
        }
    }
}

/// `A and A`, of a claim that has A for a member. Both halves are that claim, with its proof
/// or another; at times the second has a member more.
fn twice(rng: &mut Rng) -> Option<Halves> {
    let first = accepted(rng);
    let a = closed_member(rng, &first)?;
    let mut halves = Halves {
        entry: 0,
        second: beside(rng, &first),
        first,
    };
    halves.entry = halves.add(Entry::new(Kind::And, a, a));
    Some(halves)
}

/// A of one claim and B of another, whose table stands behind that of the first. The rest
/// is what else they have.
fn of_two_claims(rng: &mut Rng) -> Option<Halves> {
    let (mut first, mut second) = (accepted(rng), accepted(rng));
    let offset = first.entries.len() as u16;
    if first.entries.len() + second.entries.len() >= ENTRIES {
        return None;
    }
    let [a, b] = [closed_member(rng, &first)?, closed_member(rng, &second)?];
    let above = |operand: u16| operand + offset;
    let behind = second.entries.iter().map(|entry| entry.over(above));
    first.entries.extend(behind);
    second.entries = first.entries.clone();
    second
        .members
        .iter_mut()
        .for_each(|member| *member += offset);
    second.nodes = moved(second.nodes, offset);
    let b = b + offset;
    let mut rest = [&first.members[..], &second.members].concat();
    rest.retain(|member| ![a, b].contains(member));
    let mut halves = Halves {
        entry: 0,
        first,
        second,
    };
    halves.entry = halves.add(Entry::new(Kind::And, a, b));
    halves.widen(&rest);
    Some(halves)
}

/// A member in which no name is free, so that an entry above it may have it.
fn closed_member(rng: &mut Rng, proved: &Proved) -> Option<u16> {
    let free = free_names(&proved.entries);
    let closed = |&&member: &&u16| free[usize::from(member)].first().is_none();
    let members: Vec<u16> = proved.members.iter().filter(closed).copied().collect();
    rng.pick(&members)
}

/// An entry of the table of a claim that holds, whose operands may be names. The rest is
/// some of the claim's members, all or none; each half is proved anew.
fn of_one_claim(rng: &mut Rng) -> Option<Halves> {
    let claim = provable(rng);
    let kind = |entry: u16| claim.entries[usize::from(entry)].kind;
    let numbers = 0..claim.entries.len() as u16;
    let ands: Vec<u16> = numbers.filter(|&entry| kind(entry) == Kind::And).collect();
    let entry = rng.pick(&ands)?;
    let mut rest = claim.members.clone();
    rng.shuffle(&mut rest);
    rest.truncate(rng.below(claim.members.len() + 2));
    let Entry { a, b, .. } = claim.entries[usize::from(entry)];
    let mut half = |operand: u16| {
        let target = match kind(operand) {
            Kind::Name => claim.entries[usize::from(operand)].a,
            _ => operand,
        };
        let mut members = vec![target];
        rest.iter().for_each(|&member| insert(&mut members, member));
        let claim = Provable {
            members,
            ..claim.clone()
        };
        prove(rng, claim, Flaw::None)
    };
    Some(Halves {
        entry,
        first: half(a)?,
        second: half(b)?,
    })
}

/// A larger rest: mostly none or a few more members, and seldom so many that the goals
/// have 22 to 24.
fn add_members(rng: &mut Rng, halves: &mut Halves) {
    let most = halves.first.members.len().max(halves.second.members.len());
    let count = match rng.below(10) {
        0..=4 => 0,
        5..=8 => rng.between(1, 4),
        _ => rng.between(22, 24).saturating_sub(most),
    };
    for letter in 0..count as u16 {
        if rng.chance(1, 2) && halves.first.entries.len() < ENTRIES - 4 {
            let kind = rng.pick(&[Kind::Letter, Kind::Negated]);
            halves.add(Entry::new(kind.unwrap_or(Kind::Letter), letter, 0));
        }
    }
    let entries = &halves.first.entries;
    let least = least_alike(entries);
    let formula = |entry: u16| least[usize::from(entry)];
    let mut spare: Vec<u16> = (0..entries.len() as u16)
        .filter(|&entry| entries[usize::from(entry)].kind != Kind::Name)
        .filter(|&entry| formula(entry) != formula(halves.entry))
        .filter(|entry| !halves.first.members.contains(entry))
        .filter(|entry| !halves.second.members.contains(entry))
        .collect();
    rng.shuffle(&mut spare);
    spare.truncate(count);
    halves.widen(&spare);
}

/// The same over a table in which formulas stand more than once: the two claims and the
/// entry name any of the copies.
fn with_twins(rng: &mut Rng, halves: &Halves) -> Halves {
    let table = twins(rng, &halves.first.entries);
    Halves {
        entry: table.any(rng, halves.entry),
        first: over_copies(rng, &halves.first, &table),
        second: over_copies(rng, &halves.second, &table),
    }
}

/// As many nodes as may be, or just more, or all that two proofs can have, by D above the
/// roots.
fn add_nodes(rng: &mut Rng, halves: &mut Halves) {
    let counts = [halves.first.nodes.len(), halves.second.nodes.len()];
    let wanted = rng.pick(&[1023, 1024, 1024, 1025, 1025, 2049]);
    let more = wanted
        .unwrap_or(NODES)
        .saturating_sub(1 + counts[0] + counts[1]);
    let [first, second] = counts.map(|count| NODES.saturating_sub(count));
    let above_first = rng.between(more.saturating_sub(second), more.min(first));
    for (half, count) in [
        (&mut halves.first, above_first),
        (&mut halves.second, more - above_first),
    ] {
        let root = half.nodes.first().map(|root| root.codes.clone());
        let d = DraftNode::new(Rule::D, 0, root.unwrap_or_default());
        put_above(&mut half.nodes, vec![d; count]);
    }
}

/// A table hard to walk, with some of it as the rest.
fn over_hard_table(rng: &mut Rng) -> Halves {
    let mut table = hard_entries(rng);
    table.truncate(ENTRIES - 3);
    let mut rest: Vec<u16> = (0..table.len() as u16)
        .filter(|&entry| table[usize::from(entry)].kind != Kind::Name)
        .collect();
    rng.shuffle(&mut rest);
    rest.truncate(rng.below(4));
    rest.sort_unstable();
    over_table(table, &rest, [0, 1].map(|_| rng.below(9)))
}

/// `A and B` at the end of this table, whose rest is of it, and its halves, of so many nodes
/// each, or as many as their members ask for: A is true, B is true or true. The rest is
/// dropped in the end; before, one member after another leaves focus and comes back to it.
pub fn over_table(mut table: Vec<Entry>, rest: &[u16], nodes: [usize; 2]) -> Halves {
    let a = table.len() as u16;
    table.push(Entry::new(Kind::True, 0, 0));
    table.push(Entry::new(Kind::Or, a, a));
    table.push(Entry::new(Kind::And, a, a + 1));
    let least = least_alike(&table);
    let half = |target: u16, nodes: Vec<DraftNode>, count: usize| {
        let mut half = Proved {
            entries: table.clone(),
            members: vec![target],
            nodes,
        };
        weaken(&mut half, &least, [rest, &[target]].concat());
        lengthen(&mut half.nodes, count);
        half
    };
    let truth = DraftNode::new(Rule::Ax2, 0, vec![focused(a)]);
    let mut choice = DraftNode::new(Rule::Or, focused(a + 1), vec![focused(a + 1)]);
    choice.first = 1;
    Halves {
        entry: a + 2,
        first: half(a, vec![truth.clone()], nodes[0]),
        second: half(a + 1, vec![choice, truth], nodes[1]),
    }
}

/// U and F above the root, of its codes in turn, and D where one node is left.
fn lengthen(nodes: &mut Vec<DraftNode>, count: usize) {
    let Some(root) = nodes.first().map(|root| root.codes.clone()) else {
        return;
    };
    let more = count.saturating_sub(nodes.len());
    let mut chain = Vec::with_capacity(more);
    for at in (0..root.len()).cycle().take(more / 2) {
        let mut codes = root.clone();
        codes[at] -= 1;
        chain.push(DraftNode::new(Rule::U, root[at], root.clone()));
        chain.push(DraftNode::new(Rule::F, codes[at], codes));
    }
    chain.resize(more, DraftNode::new(Rule::D, 0, root));
    put_above(nodes, chain);
}
