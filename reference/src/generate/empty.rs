//! Empty forms: claims without goals or entries, proofs without nodes, and what is
//! nearly so. T-06: "A claim without goals is accepted with a `PRF2` proof of zero
//! nodes and no roots, and only with that".

use super::damage::damage;
use super::pairs::{accepted, any_claim, wild_claim};
use super::provable::provable;
use super::rng::Rng;
use super::several::{among_others, Several};
use crate::claim::{Claim, Entry};
use crate::draft::{DraftNode, File};
use crate::goals::{Form, GOALS};
use crate::proof::Rule;
use crate::write::Records;

/// What a claim and a proof lack, by the counts that they state.
#[derive(Clone, Copy, Debug, PartialEq, Eq, PartialOrd, Ord)]
pub enum Empty {
    /// Entries, goals and nodes.
    Everything,
    /// Goals and nodes, though there are entries.
    GoalsAndNodes,
    /// Goals, though there are nodes.
    Goals,
    /// Nodes, though there are goals over some entries.
    Nodes,
    /// Entries, though there are goals.
    Entries,
    /// Entries or nodes in the form with one goal.
    OfOneGoal,
}

impl Empty {
    pub const ALL: [Empty; 6] = [
        Empty::Everything,
        Empty::GoalsAndNodes,
        Empty::Goals,
        Empty::Nodes,
        Empty::Entries,
        Empty::OfOneGoal,
    ];

    fn of(form: Form, entries: usize, goals: usize, nodes: usize) -> Option<Empty> {
        match (form, entries, goals, nodes) {
            (Form::One, 0, ..) | (Form::One, _, _, 0) => Some(Empty::OfOneGoal),
            (Form::One, ..) => None,
            (_, 0, 0, 0) => Some(Empty::Everything),
            (_, _, 0, 0) => Some(Empty::GoalsAndNodes),
            (_, _, 0, _) => Some(Empty::Goals),
            (_, 0, ..) => Some(Empty::Entries),
            (_, _, _, 0) => Some(Empty::Nodes),
            _ => None,
        }
    }

    /// Of two files in one form. A goal count is known of a claim that passes 11 to
    /// 14, and where no entries stand before it.
    pub fn of_files(claim: &[u8], proof: &[u8]) -> Option<Empty> {
        let form = Form::of_claim(claim)?;
        let entries = two(claim, 4)?;
        let goals = match (form, entries) {
            (Form::One, _) => 1,
            (_, 0) => two(claim, 6)?,
            _ => Claim::read(claim).ok()?.goals().count(),
        };
        let opened = proof.starts_with(&form.proof().letters);
        let nodes = two(proof, 4).filter(|_| opened)?;
        Empty::of(form, entries, goals, nodes)
    }

    /// Of records in one of the forms.
    pub fn of_records(records: &Records) -> Option<Empty> {
        let form = Form::from_number(records.form)?;
        let goals = records.goal_counts.len();
        Empty::of(form, records.entry_count, goals, records.node_count)
    }
}

fn two(file: &[u8], at: usize) -> Option<usize> {
    let field = file.get(at..)?.first_chunk()?;
    Some(u16::from_le_bytes(*field).into())
}

/// The bytes of a claim and a proof that lack something, in either form or in both;
/// one in three damaged.
pub fn empty_pair(rng: &mut Rng) -> (Vec<u8>, Vec<u8>) {
    let (claim, proof) = match rng.below(12) {
        0..=1 => of_one_goal(rng),
        2 => unlike_forms(rng),
        _ => files(&lacking(rng)),
    };
    damaged(rng, claim, proof)
}

/// The same in the form of several goals alone.
pub fn empty_goal_pair(rng: &mut Rng) -> (Vec<u8>, Vec<u8>) {
    let (claim, proof) = files(&lacking(rng));
    damaged(rng, claim, proof)
}

fn files(several: &Several) -> (File, File) {
    (several.claim(), several.proof())
}

fn damaged(rng: &mut Rng, claim: File, proof: File) -> (Vec<u8>, Vec<u8>) {
    match rng.below(6) {
        0 => (damage(rng, &claim), proof.bytes),
        1 => (claim.bytes, damage(rng, &proof)),
        _ => (claim.bytes, proof.bytes),
    }
}

/// A claim to be evaluated, mostly without entries and goals; else of goals over no
/// entries, or in the form with one goal.
pub fn claim_without_entries(rng: &mut Rng) -> File {
    match rng.below(6) {
        0 => of_one_goal(rng).0,
        1 => goals_without_entries(rng).claim(),
        _ => Several::NOTHING.claim(),
    }
}

/// In the form of several goals: each way of lacking something.
pub fn lacking(rng: &mut Rng) -> Several {
    match rng.below(10) {
        0..=1 => Several::NOTHING,
        2..=3 => Several {
            entries: some_entries(rng),
            ..Several::NOTHING
        },
        4..=6 => nodes_without_goals(rng),
        7..=8 => goals_without_nodes(rng),
        _ => goals_without_entries(rng),
    }
}

/// Entries are judged though no goal has one for a member: some break 20 to 23.
fn some_entries(rng: &mut Rng) -> Vec<Entry> {
    let claim = match rng.below(4) {
        0 => wild_claim(rng),
        1 => any_claim(rng, false),
        _ => provable(rng),
    };
    claim.entries
}

/// "well-formed nodes get 35": whole trees that would do for their goals, leaves,
/// child numbers that are wrong by themselves, and nodes over no entries.
fn nodes_without_goals(rng: &mut Rng) -> Several {
    let proved = accepted(rng);
    let mut several = among_others(rng, proved);
    several.goals.clear();
    several.roots.clear();
    match rng.below(5) {
        0 => {
            several.nodes.retain(|node| node.rule.children() == 0);
            several.nodes.truncate(rng.between(1, 3));
        }
        1..=2 => wrong_child(rng, &mut several.nodes),
        3 => {
            several.entries.clear();
            for node in &mut several.nodes {
                // A code of no entry is 34, before any 35.
                if rng.chance(9, 10) {
                    node.codes.clear();
                }
            }
        }
        _ => {}
    }
    several
}

/// A child that is its own parent or lies below it, that is no node, or that another
/// node has too.
fn wrong_child(rng: &mut Rng, nodes: &mut [DraftNode]) {
    let count = nodes.len();
    let parents: Vec<usize> = (0..count)
        .filter(|&at| nodes[at].rule.children() > 0)
        .collect();
    let Some(at) = rng.pick(&parents) else {
        return;
    };
    let child = match rng.below(5) {
        0 => at,
        1 => rng.below(at + 1),
        2 => count,
        3 => 65_535,
        _ => rng.below(count),
    };
    match nodes[at].rule == Rule::And && rng.chance(1, 2) {
        true => nodes[at].second = child as u16,
        false => nodes[at].first = child as u16,
    }
}

/// "Goals but zero nodes: the first root is out of range, 34 at 6, or 31 at 6 if the
/// file ends there."
fn goals_without_nodes(rng: &mut Rng) -> Several {
    let proved = accepted(rng);
    let mut several = among_others(rng, proved);
    several.nodes.clear();
    match rng.below(3) {
        0 => several.roots.clear(),
        1 => several.roots.truncate(1),
        _ => {}
    }
    several
}

/// "Zero entries with a goal: 14 at the first member, 12 if the member count is 0",
/// and 72 where there are too many.
fn goals_without_entries(rng: &mut Rng) -> Several {
    let count = match rng.below(8) {
        0 => rng.between(GOALS, GOALS + 1),
        _ => rng.between(1, 3),
    };
    let goal = |rng: &mut Rng| (0..rng.below(3) as u16).collect();
    Several {
        goals: (0..count).map(|_| goal(rng)).collect(),
        roots: (0..count as u16).collect(),
        nodes: vec![DraftNode::new(Rule::Ax1, 0, Vec::new()); rng.below(count + 1)],
        ..Several::NOTHING
    }
}

/// "`CLM1` and `PRF1` keep 12 and 32 for zero."
fn of_one_goal(rng: &mut Rng) -> (File, File) {
    let mut proved = accepted(rng);
    let lacks = rng.between(1, 3);
    if lacks & 1 != 0 {
        proved.entries.clear();
    }
    if lacks & 2 != 0 {
        proved.nodes.clear();
    }
    if rng.chance(1, 4) {
        proved.members.clear();
    }
    (proved.claim(), proved.proof())
}

/// The one half of a pair empty, in another form than the other half.
fn unlike_forms(rng: &mut Rng) -> (File, File) {
    let mut proved = accepted(rng);
    match rng.below(3) {
        0 => (proved.claim(), Several::NOTHING.proof()),
        1 => (Several::NOTHING.claim(), proved.proof()),
        _ => {
            proved.nodes.clear();
            (Several::NOTHING.claim(), proved.proof())
        }
    }
}
