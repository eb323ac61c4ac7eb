//! Joining two proofs. T-07: "Given two claims with the same entries, an accepted
//! single-goal proof of each, and an entry 'A and B', build the claim and proof of that
//! entry with the rest" (refusals 73, 74 and 70, after those of the four files).

use crate::alike::least_alike;
use crate::bits::Bits;
use crate::bytes::CLAIM;
use crate::check::{accepted, Decoded};
use crate::claim::{Claim, Entry, Kind};
use crate::goals::Form;
use crate::proof::{Node, Proof, Rule};
use crate::refusal::Refusal;
use crate::sequent::{focused, insert};
use crate::write::{lay_claim, lay_proof, room, FILE, MEMBERS, NODES};

const UNFIT: u16 = 73;
const MANY_NODES: u16 = 74;

/// The files of a claim and its proof.
#[derive(Clone, Debug, PartialEq, Eq)]
pub struct Files {
    pub claim: Vec<u8>,
    pub proof: Vec<u8>,
}

/// The lengths of both.
#[derive(Clone, Copy, Debug, PartialEq, Eq)]
pub struct Lengths {
    pub claim: usize,
    pub proof: usize,
}

/// The files of a join.
pub type Joined = Result<Files, Refusal>;

/// "Both inputs are judged first, the first before the second, by their own refusals.
/// Answers: 73 [...]; 74, after it [...]; then 70 for a short output slice. No refusal of
/// this call writes anything."
pub fn join(
    entry: u16,
    first: &Files,
    second: &Files,
    claim_out: &mut [u8],
    proof_out: &mut [u8],
) -> Result<Lengths, Refusal> {
    let first = half(first)?;
    let second = half(second)?;
    let members =
        joined_goal(entry, &first.claim, &second.claim).ok_or(Refusal::new(UNFIT, entry.into()))?;
    let proof = joined_proof(entry, &members, first.proof, second.proof)
        .ok_or(Refusal::new(MANY_NODES, 0))?;
    let entries = &first.claim.entries;
    let lengths = Lengths {
        claim: claim_length(entries, &members),
        proof: proof_length(&proof.nodes),
    };
    let claim_out = room(claim_out, lengths.claim)?;
    let proof_out = room(proof_out, lengths.proof)?;
    let goal_counts = [members.len() as u16];
    lay_claim(Form::One, entries, &goal_counts, &members, claim_out);
    lay_proof(Form::One, &[], &proof.nodes, &proof.codes, proof_out);
    Ok(lengths)
}

/// Claim length + 65,536 × proof length, or 2^32 + the packed refusal.
pub fn joined(outcome: Result<Lengths, Refusal>) -> u64 {
    match outcome {
        Ok(Lengths { claim, proof }) => claim as u64 + ((proof as u64) << 16),
        Err(refusal) => 1 << 32 | u64::from(refusal.packed()),
    }
}

impl Files {
    pub fn lengths(&self) -> Lengths {
        Lengths {
            claim: self.claim.len(),
            proof: self.proof.len(),
        }
    }

    /// These joined with the second ones, in slices with room for every file.
    pub fn join(&self, second: &Files, entry: u16) -> Joined {
        let (mut claim, mut proof) = (vec![0; FILE], vec![0; FILE]);
        let lengths = join(entry, self, second, &mut claim, &mut proof)?;
        claim.truncate(lengths.claim);
        proof.truncate(lengths.proof);
        Ok(Files { claim, proof })
    }
}

/// An accepted claim and proof "in the `CLM1` and `PRF1` forms only (another opening gets
/// 10 or 30)": the proof's goes by its claim's.
fn half(Files { claim, proof }: &Files) -> Result<Decoded, Refusal> {
    match Form::of_claim(claim) {
        Some(Form::One) => accepted(claim, proof),
        _ => Err(CLAIM.refusal()),
    }
}

/// The rest with the entry, or nothing. "73, the entry tables differ, the entry is no such
/// entry, or they don't fit". "They fit when the rest with A's target is the first goal,
/// the rest with B's is the second, the entry is no member of the rest, and 24 members
/// suffice."
fn joined_goal(entry: u16, first: &Claim, second: &Claim) -> Option<Vec<u16>> {
    let &Entry { kind, a, b } = first.entries.get(usize::from(entry))?;
    if first.entries != second.entries || kind != Kind::And {
        return None;
    }
    let least = least_alike(&first.entries);
    let goals = [first, second].map(|claim| formulas(&least, &claim.members));
    let mut rest = rest(&least, &first.members, goals[1]);
    let held = formulas(&least, &rest);
    // A name is the same formula as its fixpoint, which is its target.
    let with = |operand: u16| held.union(formulas(&least, &[operand]));
    let apart = !held.contains(least[usize::from(entry)].into());
    let fits = [with(a), with(b)] == goals && apart && rest.len() < MEMBERS;
    insert(&mut rest, entry);
    fits.then_some(rest)
}

/// "The rest is every member of the first goal, under its entry number, whose formula the
/// second goal holds too."
fn rest(least: &[u16], first: &[u16], second: Bits) -> Vec<u16> {
    let both = |&member: &u16| second.contains(least[usize::from(member)].into());
    first.iter().copied().filter(both).collect()
}

/// Entries as the set of their formulas.
fn formulas(least: &[u16], entries: &[u16]) -> Bits {
    let mut set = Bits::default();
    for &entry in entries {
        set.insert(least[usize::from(entry)].into());
    }
    set
}

/// "The new root, the first tree and the second, renumbered in that order"; nothing if
/// "more than 1,024 nodes result".
fn joined_proof(entry: u16, members: &[u16], first: Proof, second: Proof) -> Option<Proof> {
    let count = 1 + first.nodes.len() + second.nodes.len();
    if count > NODES {
        return None;
    }
    let starts = [1, 1 + first.nodes.len() as u16];
    let root = Node {
        rule: Rule::And,
        principal: focused(entry),
        first: starts[0],
        second: starts[1],
        back: 0,
        count: members.len() as u8,
    };
    let mut nodes = Vec::with_capacity(count);
    nodes.push(root);
    let mut codes: Vec<u16> = members.iter().map(|&member| focused(member)).collect();
    codes.reserve_exact(first.codes.len() + second.codes.len());
    for (tree, start) in [first, second].into_iter().zip(starts) {
        nodes.extend(tree.nodes.into_iter().map(|node| node.moved(start)));
        codes.extend(tree.codes);
    }
    Some(Proof {
        form: Form::One,
        named_roots: Vec::new(),
        nodes,
        codes,
    })
}

impl Node {
    /// The node in a tree that begins further up. "A field whose bit is not set is 0 in its
    /// record", and stays so.
    fn moved(self, start: u16) -> Node {
        let moved = |bit: u8, number: u16| match self.rule.low_bits() >> bit & 1 {
            1 => number + start,
            _ => number,
        };
        Node {
            first: moved(1, self.first),
            second: moved(2, self.second),
            back: moved(3, self.back),
            ..self
        }
    }
}

/// An opening, two counts, the entries and the members.
fn claim_length(entries: &[Entry], members: &[u16]) -> usize {
    let entries: usize = entries.iter().map(|entry| head(entry.map())).sum();
    4 + 2 + entries + 2 + 2 * members.len()
}

/// An opening, a count and the nodes, whose codes have a count before them if there are
/// some.
fn proof_length(nodes: &[Node]) -> usize {
    let length = |node: &Node| {
        let counted = usize::from(node.count > 0);
        head(node.rule.low_bits()) + counted + 2 * usize::from(node.count)
    };
    4 + 2 + nodes.iter().map(length).sum::<usize>()
}

/// A map, a kind or rule, and the map's two-byte fields.
fn head(map: u8) -> usize {
    2 + 2 * map.count_ones() as usize
}
