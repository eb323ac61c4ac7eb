//! Claims and proofs at the limits of the form, and claims that take
//! exponential time where operands or rounds are walked afresh.

use super::actions;
use super::halves::over_table;
use super::near_miss::put_above;
use super::rng::Rng;
use crate::claim::{Entry, Kind};
use crate::draft::{self, DraftNode, DraftState, File};
use crate::join::Files;
use crate::proof::Rule;

/// `A or A`, or `A and A`, over and over, on one letter.
pub fn tower(kind: Kind, height: u16) -> Vec<Entry> {
    let bottom = Entry::new(Kind::Letter, 0, 0);
    let rest = (0..height).map(|below| Entry::new(kind, below, below));
    std::iter::once(bottom).chain(rest).collect()
}

/// Fixpoints of one kind in one another, the body of each a modality over the
/// next joined with a name of one further out.
pub fn nest(kind: Kind, modality: Kind, join: Kind, depth: u16) -> Vec<Entry> {
    let fixpoint = |level: u16| depth + 3 * (depth - level) - 1;
    let mut entries: Vec<Entry> = (0..depth)
        .map(|level| Entry::new(Kind::Name, fixpoint(level), 0))
        .collect();
    for level in (0..depth).rev() {
        let inner = match level + 1 == depth {
            true => level / 2,
            false => fixpoint(level + 1),
        };
        let at = entries.len() as u16;
        entries.push(Entry::new(join, level / 2, inner));
        entries.push(Entry::new(modality, at, 0));
        entries.push(Entry::new(kind, at + 1, 0));
    }
    entries
}

/// Deeper than `nest`: fixpoints and modalities only, and at the bottom the
/// names of as many fixpoints as the table has room for.
pub fn funnel(kind: Kind, modality: Kind, join: Kind, depth: u16) -> Vec<Entry> {
    let names = ((256 - 2 * depth) / 2).min(depth);
    let bottom = 2 * names - 1;
    let mut entries: Vec<Entry> = (0..names)
        .map(|name| Entry::new(Kind::Name, bottom + 2 * name + 1, 0))
        .collect();
    entries.extend((1..names).map(|name| match name {
        1 => Entry::new(join, 0, 1),
        _ => Entry::new(join, name, names + name - 2),
    }));
    for level in 0..depth {
        let at = bottom + 2 * level;
        entries.push(Entry::new(modality, at - 1, 0));
        entries.push(Entry::new(kind, at, 0));
    }
    entries
}

/// 2 to 85 fixpoints in one another, and below the innermost a chain of entries
/// in which the names of all are free.
pub fn crowd(depth: u16) -> Vec<Entry> {
    crowd_of(256, depth)
}

/// The same with so many entries, up to a third of them fixpoints.
pub fn crowd_of(count: u16, depth: u16) -> Vec<Entry> {
    let first = count - depth;
    let mut entries: Vec<Entry> = (first..count)
        .map(|fixpoint| Entry::new(Kind::Name, fixpoint, 0))
        .collect();
    entries.push(Entry::new(Kind::Or, 0, 1));
    for at in depth + 1..first {
        entries.push(match at {
            _ if at < 2 * depth - 1 => Entry::new(Kind::Or, at - 1, at - depth + 1),
            _ if at % 2 == 1 => Entry::new(Kind::Box, at - 1, 0),
            _ => Entry::new(Kind::And, at - 1, at - 2),
        });
    }
    entries[usize::from(first) - 1] = Entry::new(Kind::Box, first - 2, 0);
    entries.extend((first..count).map(|at| Entry::new(Kind::Nu, at - 1, 0)));
    entries
}

/// Fixpoints one above the other, each closed, the next one over the last.
pub fn side_by_side(count: u16) -> Vec<Entry> {
    let mut entries = vec![Entry::new(Kind::Letter, 0, 0)];
    for n in 0..count {
        let at = entries.len() as u16;
        let modality = if n % 3 == 0 { Kind::Box } else { Kind::Diamond };
        let kind = if n % 2 == 0 { Kind::Mu } else { Kind::Nu };
        entries.push(Entry::new(modality, at - 1, 0));
        entries.push(Entry::new(kind, at, 0));
    }
    entries
}

/// A table hard to walk.
pub fn hard_entries(rng: &mut Rng) -> Vec<Entry> {
    let mut entries = hard_entries_by_one(rng);
    actions::spread(rng, &mut entries);
    entries
}

fn hard_entries_by_one(rng: &mut Rng) -> Vec<Entry> {
    let one_of = |rng: &mut Rng, kinds: [Kind; 2]| kinds[rng.below(2)];
    match rng.below(4) {
        0 => tower(
            one_of(rng, [Kind::Or, Kind::And]),
            rng.between(30, 255) as u16,
        ),
        1 => nest(
            one_of(rng, [Kind::Mu, Kind::Nu]),
            one_of(rng, [Kind::Diamond, Kind::Box]),
            one_of(rng, [Kind::Or, Kind::And]),
            rng.between(10, 64) as u16,
        ),
        2 => funnel(
            one_of(rng, [Kind::Mu, Kind::Nu]),
            one_of(rng, [Kind::Diamond, Kind::Box]),
            one_of(rng, [Kind::Or, Kind::And]),
            rng.between(2, 110) as u16,
        ),
        _ => side_by_side(rng.between(10, 127) as u16),
    }
}

/// Claim and proof with some count at its limit or just beyond.
pub fn limits(rng: &mut Rng) -> (File, File) {
    match rng.below(6) {
        0 => {
            let entries = vec![Entry::new(Kind::True, 0, 0); rng.between(255, 257)];
            (draft::claim(&entries, &[0]), draft::proof(&[true_leaf(0)]))
        }
        1 => weakened(rng.between(23, 25) as u16),
        2 => chain(rng.between(1023, 1025)),
        3 => letter(rng.between(30, 33) as u16),
        4 => many_goals(rng.between(15, 17), rng.between(23, 25) as u16),
        _ => chains(rng.between(1, 16), rng.between(1023, 1025)),
    }
}

/// The longest model, of 67,013 bytes: 64 states, each with all letters, and all
/// states its successors by each action.
pub fn longest_model() -> File {
    let state = DraftState {
        letters: u32::MAX,
        successors: std::array::from_fn(|_| (0..64).collect()),
    };
    draft::action_model(&vec![state; 64])
}

fn true_leaf(entry: u16) -> DraftNode {
    DraftNode::new(Rule::Ax2, 0, vec![2 * entry + 1])
}

/// As many members as asked for, truth and letters, all but the first dropped by
/// weakening.
pub fn weakened(count: u16) -> (File, File) {
    let (entries, members, nodes) = weakening(count);
    (draft::claim(&entries, &members), draft::proof(&nodes))
}

/// So many goals of so many members, each of them that claim, one tree behind the
/// other.
pub fn many_goals(goals: usize, count: u16) -> (File, File) {
    let (entries, members, nodes) = weakening(count);
    let trees = repeated(&nodes, goals);
    let roots: Vec<u16> = (0..goals).map(|goal| (goal * nodes.len()) as u16).collect();
    let claim = draft::goal_claim(&entries, &vec![members; goals]);
    (claim, draft::goal_proof(&roots, &trees))
}

fn weakening(count: u16) -> (Vec<Entry>, Vec<u16>, Vec<DraftNode>) {
    let mut entries = vec![Entry::new(Kind::True, 0, 0)];
    entries.extend((1..count).map(|letter| Entry::new(Kind::Letter, letter, 0)));
    let members: Vec<u16> = (0..count).collect();
    let mut nodes = vec![true_leaf(0)];
    let codes: Vec<u16> = members.iter().map(|member| 2 * member + 1).collect();
    let chain = (1..count)
        .rev()
        .map(|last| {
            let left = codes[..=usize::from(last)].to_vec();
            DraftNode::new(Rule::W, 2 * last + 1, left)
        })
        .collect();
    put_above(&mut nodes, chain);
    (entries, members, nodes)
}

/// The tree so many times, its numbers counted on.
fn repeated(nodes: &[DraftNode], times: usize) -> Vec<DraftNode> {
    let mut all = Vec::with_capacity(times * nodes.len());
    for time in 0..times {
        let start = (time * nodes.len()) as u16;
        all.extend(nodes.iter().map(|node| DraftNode {
            first: start + node.first,
            second: start + node.second,
            back: start + node.back,
            ..node.clone()
        }));
    }
    all
}

/// As many nodes as asked for: D over D over an axiom.
pub fn chain(count: usize) -> (File, File) {
    let claim = draft::claim(&[Entry::new(Kind::True, 0, 0)], &[0]);
    (claim, draft::proof(&descent(count)))
}

/// As many nodes as asked for, the last of them in so many trees of one node.
pub fn chains(goals: usize, count: usize) -> (File, File) {
    let first = count - (goals - 1);
    let mut nodes = descent(first);
    nodes.resize(count, true_leaf(0));
    let others = first as u16..count as u16;
    let roots: Vec<u16> = std::iter::once(0).chain(others).collect();
    let claim = draft::goal_claim(&[Entry::new(Kind::True, 0, 0)], &vec![vec![0]; goals]);
    (claim, draft::goal_proof(&roots, &nodes))
}

fn descent(count: usize) -> Vec<DraftNode> {
    let mut nodes = vec![true_leaf(0)];
    let d = DraftNode::new(Rule::D, 0, vec![1]);
    put_above(&mut nodes, vec![d; count.saturating_sub(1)]);
    nodes
}

/// A letter and its negation.
pub fn letter(letter: u16) -> (File, File) {
    let entries = [
        Entry::new(Kind::Letter, letter, 0),
        Entry::new(Kind::Negated, letter, 0),
    ];
    let leaf = DraftNode::new(Rule::Ax1, 0, vec![1, 3]);
    (draft::claim(&entries, &[0, 1]), draft::proof(&[leaf]))
}

/// `A and B` at the end of a table of so many entries, and its halves, of so many nodes
/// each, or as many as their members ask for. The rest is so many letters.
pub fn halves(entries: u16, rest: u16, nodes: [usize; 2]) -> (u16, [Files; 2]) {
    let letter = |letter| Entry::new(Kind::Letter, letter, 0);
    let mut table: Vec<Entry> = (0..rest).map(letter).collect();
    table.extend((rest..entries - 3).map(|at| match at {
        0 => letter(31),
        _ => Entry::new(Kind::Box, at - 1, 0),
    }));
    let rest: Vec<u16> = (0..rest).collect();
    halves_over(table, &rest, nodes)
}

/// The same at the end of this table, whose rest is of it.
pub fn halves_over(table: Vec<Entry>, rest: &[u16], nodes: [usize; 2]) -> (u16, [Files; 2]) {
    let halves = over_table(table, rest, nodes);
    (halves.entry, halves.files())
}
