//! Claims of several goals: claims of one set beside each other, over one table or
//! over their tables one after another, and the nodes of all trees numbered together.

use super::near_miss::put_above;
use super::pairs::{accepted, prove, Proved};
use super::provable::Provable;
use super::rng::Rng;
use super::step::Flaw;
use crate::alike::least_alike;
use crate::bits::Bits;
use crate::check::{check, Decoded};
use crate::claim::{Entry, Kind};
use crate::draft::{self, DraftNode, File};
use crate::goals::GOALS;
use crate::proof::{Proof, Rule};
use crate::sequent::{focused, insert};
use crate::tree::parents;

const ENTRIES: usize = 256;
const NODES: usize = 1024;
const MEMBERS: usize = 24;

/// A claim of several goals with a proof not yet laid down.
#[derive(Clone)]
pub struct Several {
    pub entries: Vec<Entry>,
    pub goals: Vec<Vec<u16>>,
    pub roots: Vec<u16>,
    pub nodes: Vec<DraftNode>,
}

impl Several {
    /// No entries and no goals, and no nodes.
    pub const NOTHING: Several = Several {
        entries: Vec::new(),
        goals: Vec::new(),
        roots: Vec::new(),
        nodes: Vec::new(),
    };

    /// One goal, whose root is node 0.
    pub fn alone(proved: Proved) -> Several {
        Several {
            entries: proved.entries,
            goals: vec![proved.members],
            roots: vec![0],
            nodes: proved.nodes,
        }
    }

    pub fn claim(&self) -> File {
        draft::goal_claim(&self.entries, &self.goals)
    }

    pub fn proof(&self) -> File {
        draft::goal_proof(&self.roots, &self.nodes)
    }

    /// Which tree each node is in, by the place of its root; none for an orphan and
    /// for what lies below one.
    pub fn trees(&self) -> Vec<Option<usize>> {
        let mut trees = vec![None; self.nodes.len()];
        for (tree, &root) in self.roots.iter().enumerate() {
            if let Some(slot) = trees.get_mut(usize::from(root)) {
                *slot = Some(tree);
            }
        }
        for (number, node) in self.nodes.iter().enumerate() {
            for child in [node.first, node.second]
                .into_iter()
                .take(node.rule.children())
            {
                let child = usize::from(child);
                if child > number && child < trees.len() && trees[child].is_none() {
                    trees[child] = trees[number];
                }
            }
        }
        trees
    }
}

/// A goal at any place among others that keep every rule; one time in four there are
/// none.
pub fn among_others(rng: &mut Rng, proved: Proved) -> Several {
    let others = match rng.chance(1, 4) {
        true => 0,
        false => some(rng),
    };
    among(rng, proved, others)
}

/// The same where there are others.
pub fn among_some(rng: &mut Rng, proved: Proved) -> Several {
    let others = some(rng);
    among(rng, proved, others)
}

fn some(rng: &mut Rng) -> usize {
    match rng.below(12) {
        0..=4 => 1,
        5..=8 => 2,
        9..=10 => rng.between(3, 5),
        _ => rng.between(6, GOALS - 1),
    }
}

/// So many others, as long as there is room.
fn among(rng: &mut Rng, proved: Proved, others: usize) -> Several {
    let (claim, proof) = proved.files();
    let good = others > 0 && check(&claim, &proof) == 0;
    let (mut entries, mut nodes) = (proved.entries.len(), proved.nodes.len());
    let mut parts = vec![proved.clone()];
    for _ in 0..others {
        let other = match rng.below(4) {
            0..=1 if good => beside(rng, &proved),
            _ if others > 5 => tiny(rng),
            _ => accepted(rng),
        };
        if other.entries != proved.entries {
            entries += other.entries.len();
        }
        nodes += other.nodes.len();
        if entries > ENTRIES || nodes > NODES {
            break;
        }
        parts.insert(rng.below(parts.len() + 1), other);
    }
    joined(rng, parts)
}

/// Another goal over the same table: the same again, with a member more, or proved
/// anew.
pub fn beside(rng: &mut Rng, proved: &Proved) -> Proved {
    let other = match rng.below(3) {
        0 => None,
        1 => with_a_spare_member(rng, proved),
        _ => {
            let claim = Provable {
                entries: proved.entries.clone(),
                members: proved.members.clone(),
                valid: Bits::default(),
                dual: vec![None; proved.entries.len()],
            };
            prove(rng, claim, Flaw::None)
        }
    };
    other.unwrap_or_else(|| proved.clone())
}

/// A member of another formula, dropped by the root.
pub fn with_a_spare_member(rng: &mut Rng, proved: &Proved) -> Option<Proved> {
    let least = least_alike(&proved.entries);
    let formula = |entry: u16| least[usize::from(entry)];
    let spare: Vec<u16> = (0..proved.entries.len() as u16)
        .filter(|&entry| proved.entries[usize::from(entry)].kind != Kind::Name)
        .filter(|&entry| {
            let mut members = proved.members.iter();
            members.all(|&member| formula(member) != formula(entry))
        })
        .collect();
    let entry = rng.pick(&spare)?;
    let mut codes = proved.nodes.first()?.codes.clone();
    insert(&mut codes, focused(entry));
    let mut other = proved.clone();
    insert(&mut other.members, entry);
    let fits = codes.len() <= MEMBERS && other.members.len() <= MEMBERS;
    let root = DraftNode::new(Rule::W, focused(entry), codes);
    put_above(&mut other.nodes, vec![root]);
    fits.then_some(other)
}

/// A truth, or a letter and its negation.
fn tiny(rng: &mut Rng) -> Proved {
    let letter = rng.below(3) as u16;
    match rng.below(2) {
        0 => Proved {
            entries: vec![Entry::new(Kind::True, 0, 0)],
            members: vec![0],
            nodes: vec![DraftNode::new(Rule::Ax2, 0, vec![1])],
        },
        _ => Proved {
            entries: vec![
                Entry::new(Kind::Letter, letter, 0),
                Entry::new(Kind::Negated, letter, 0),
            ],
            members: vec![0, 1],
            nodes: vec![DraftNode::new(Rule::Ax1, 0, vec![1, 3])],
        },
    }
}

/// The parts as the goals of one claim. Parts with the same table share it.
pub fn joined(rng: &mut Rng, parts: Vec<Proved>) -> Several {
    let mut entries: Vec<Entry> = Vec::new();
    let mut tables: Vec<(Vec<Entry>, u16)> = Vec::new();
    let (mut goals, mut trees) = (Vec::new(), Vec::new());
    for part in parts {
        let known = tables.iter().find(|(table, _)| *table == part.entries);
        let offset = known.map_or(entries.len() as u16, |&(_, offset)| offset);
        if known.is_none() {
            let moved = |operand: u16| operand.wrapping_add(offset);
            entries.extend(part.entries.iter().map(|entry| entry.over(moved)));
            tables.push((part.entries, offset));
        }
        goals.push(part.members.iter().map(|member| member + offset).collect());
        trees.push(moved(part.nodes, offset));
    }
    let (roots, nodes) = numbered(rng, trees);
    Several {
        entries,
        goals,
        roots,
        nodes,
    }
}

/// The nodes over a table that begins further up.
pub fn moved(mut nodes: Vec<DraftNode>, offset: u16) -> Vec<DraftNode> {
    let moved = |code: &mut u16| *code = code.wrapping_add(2 * offset);
    for node in &mut nodes {
        moved(&mut node.principal);
        node.codes.iter_mut().for_each(moved);
    }
    nodes
}

/// Whose node has the next number.
#[derive(Clone, Copy)]
enum Order {
    OneByOne,
    InTurn,
    Any,
}

/// The trees with one numbering, each in the order that it has, and the numbers of
/// their roots. These rise: a tree begins after the one before it has begun.
fn numbered(rng: &mut Rng, trees: Vec<Vec<DraftNode>>) -> (Vec<u16>, Vec<DraftNode>) {
    let orders = [Order::OneByOne, Order::InTurn, Order::Any, Order::Any];
    let order = rng.pick(&orders).unwrap_or(Order::Any);
    let total: usize = trees.iter().map(Vec::len).sum();
    let mut numbers = vec![Vec::new(); trees.len()];
    let mut turn = 0;
    for number in 0..total as u16 {
        let begun = numbers.iter().take_while(|n| !n.is_empty()).count();
        let open: Vec<usize> = (0..trees.len().min(begun + 1))
            .filter(|&tree| numbers[tree].len() < trees[tree].len())
            .collect();
        let tree = match order {
            Order::OneByOne => open.first().copied(),
            Order::InTurn => open.iter().copied().find(|&tree| tree >= turn),
            Order::Any => rng.pick(&open),
        };
        let tree = tree.or(open.first().copied()).unwrap_or(0);
        turn = tree + 1;
        numbers[tree].push(number);
    }
    let mut nodes = vec![DraftNode::new(Rule::Ax1, 0, Vec::new()); total];
    let mut roots = Vec::new();
    for (tree, numbers) in trees.into_iter().zip(&numbers) {
        let moved = |number: u16| {
            let known = numbers.get(usize::from(number)).copied();
            known.unwrap_or(number)
        };
        roots.push(numbers.first().copied().unwrap_or(total as u16));
        for (node, &number) in tree.into_iter().zip(numbers) {
            nodes[usize::from(number)] = DraftNode {
                first: moved(node.first),
                second: moved(node.second),
                back: moved(node.back),
                ..node
            };
        }
    }
    (roots, nodes)
}

/// For each node the root of its tree; none if the nodes are no trees.
fn tops(proof: &Proof) -> Option<Vec<usize>> {
    let parents = parents(&proof.nodes, proof.roots()).ok()?;
    let mut tops = Vec::with_capacity(proof.nodes.len());
    for node in 0..proof.nodes.len() {
        let top = parents.of(node).map_or(node, |parent| tops[parent]);
        tops.push(top);
    }
    Some(tops)
}

/// Whether the trees of a proof interleave: some node lies in another tree than that
/// of the last root up to its number.
pub fn interleaved(decoded: &Decoded) -> bool {
    tops(&decoded.proof).is_some_and(|tops| !tops.is_sorted())
}

/// A goal by itself: its claim and its tree in the form with one goal, and the number
/// that each node has in the whole proof.
pub struct Part {
    pub claim: Vec<u8>,
    pub proof: Vec<u8>,
    pub numbers: Vec<usize>,
}

/// The goals of a claim, each by itself; none if the nodes are no trees. A link that
/// leads into another tree leads nowhere.
pub fn apart(Decoded { claim, proof }: &Decoded) -> Vec<Part> {
    let Some(tops) = tops(proof) else {
        return Vec::new();
    };
    let sequents: Vec<&[u16]> = proof.sequents().collect();
    let part = |(goal, &root): (&[u16], &u16)| {
        let root = usize::from(root);
        let numbers: Vec<usize> = (root..tops.len())
            .filter(|&node| tops[node] == root)
            .collect();
        let own = |number: u16| {
            let found = numbers.binary_search(&usize::from(number));
            found.map_or(u16::MAX, |own| own as u16)
        };
        let nodes = numbers.iter().map(|&number| {
            let node = &proof.nodes[number];
            DraftNode {
                rule: node.rule,
                principal: node.principal,
                first: own(node.first),
                second: own(node.second),
                back: own(node.back),
                codes: sequents[number].to_vec(),
            }
        });
        let nodes: Vec<DraftNode> = nodes.collect();
        Part {
            claim: draft::claim(&claim.entries, goal).bytes,
            proof: draft::proof(&nodes).bytes,
            numbers,
        }
    };
    claim.goals().zip(proof.roots()).map(part).collect()
}
