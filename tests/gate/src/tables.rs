//! Records to be written, as tables: the sample that document 01 begins with, one of
//! two goals, one of none, and tables with as many records of each kind as asked for.

use crate::lent::{CODES, ENTRIES, NODES};
use reference::{Decoded, EntryRecord, Form, Kind, NodeRecord, Records, Rule};

pub fn entry(kind: u8, [a, b]: [u16; 2]) -> EntryRecord {
    EntryRecord { kind, a, b }
}

/// The fields are the principal, the two children and the back link.
pub fn node(rule: u8, fields: [u16; 4], count: u8) -> NodeRecord {
    let [principal, first, second, back] = fields;
    NodeRecord {
        rule,
        principal,
        first,
        second,
        back,
        count,
    }
}

/// The records that the reference has read.
pub fn read(Decoded { claim, proof }: &Decoded) -> Records {
    let entries = claim.entries.iter().copied();
    let nodes = proof.nodes.iter().copied();
    Records {
        form: claim.form as u8,
        entries: entries.map(EntryRecord::from).collect(),
        entry_count: claim.entries.len(),
        goal_counts: claim.goals().map(|goal| goal.len() as u16).collect(),
        members: claim.members.clone(),
        nodes: nodes.map(NodeRecord::from).collect(),
        node_count: proof.nodes.len(),
        roots: proof.named_roots.clone(),
        codes: proof.codes.clone(),
    }
}

/// Slices of the least lengths, with values beyond the records that would spoil
/// any file.
pub fn filled_up(mut records: Records) -> Records {
    let entries = records.entries.len().max(ENTRIES);
    let nodes = records.nodes.len().max(NODES);
    let codes = records.codes.len().max(CODES);
    records.entries.resize(entries, entry(0xff, [0xfffe; 2]));
    records.nodes.resize(nodes, node(0xff, [0xfffd; 4], 0xfc));
    records.codes.resize(codes, 0xfffb);
    records
}

pub fn nu_of_box() -> Records {
    let claim = include_bytes!("../../../examples/nu-of-box/claim.bin");
    let proof = include_bytes!("../../../examples/nu-of-box/proof.bin");
    good_pair(claim, proof)
}

/// Nu of box, and a letter with its negation: two goals, whose trees interleave.
pub fn two_goals() -> Records {
    let claim = include_bytes!("../../../examples/two-goals/claim.bin");
    let proof = include_bytes!("../../../examples/two-goals/proof.bin");
    good_pair(claim, proof)
}

/// No entries, no goals and no nodes.
pub fn no_goals() -> Records {
    let claim = include_bytes!("../../../examples/no-goals/claim.bin");
    let proof = include_bytes!("../../../examples/no-goals/proof.bin");
    good_pair(claim, proof)
}

fn good_pair(claim: &[u8], proof: &[u8]) -> Records {
    let decoded = reference::judge(claim, proof).decoded;
    filled_up(read(&decoded.expect("a good pair")))
}

/// One goal, with the members that it is to have.
pub fn with_members(mut records: Records, members: Vec<u16>) -> Records {
    records.goal_counts = vec![members.len() as u16];
    records.members = members;
    records
}

/// So many entries, members, nodes, and codes of each node. With as many as there
/// may be, no file that can be written is longer: entry 0 has no operands below
/// it, and whatever rules make a tree of the nodes, they have no more fields.
pub fn sized(entries: usize, members: usize, nodes: usize, codes: usize) -> Records {
    let last = |count: usize, of: usize| (of - count) as u16..of as u16;
    let sequent: Vec<u16> = last(codes, 512).collect();
    filled_up(Records {
        form: Form::One as u8,
        entries: disjunctions(entries),
        entry_count: entries,
        goal_counts: vec![members as u16],
        members: last(members, 256).collect(),
        nodes: heap(nodes, codes as u8),
        node_count: nodes,
        roots: Vec::new(),
        codes: sequent.repeat(nodes),
    })
}

/// The same as so many goals, each with those members, and with the last nodes as
/// trees of their own.
pub fn sized_goals(goals: usize, sized: Records) -> Records {
    let mut records = sized;
    let first = records.node_count - (goals - 1);
    let codes = records.nodes[0].count;
    let leaf = node(Rule::Back as u8, [0, 0, 0, 65_535], codes);
    records.nodes[first..records.node_count].fill(leaf);
    records.nodes[..first].copy_from_slice(&heap(first, codes));
    let others = first as u16..records.node_count as u16;
    Records {
        form: Form::Several as u8,
        goal_counts: records.goal_counts.repeat(goals),
        members: records.members.repeat(goals),
        roots: std::iter::once(0).chain(others).collect(),
        ..records
    }
}

/// A letter, and disjunctions of it with itself.
fn disjunctions(count: usize) -> Vec<EntryRecord> {
    let mut entries = vec![entry(Kind::Letter as u8, [31, 0])];
    entries.resize(count, entry(Kind::Or as u8, [0, 0]));
    entries
}

/// The children of node i are 2i + 1 and 2i + 2.
fn heap(count: usize, codes: u8) -> Vec<NodeRecord> {
    let node = |number: usize| {
        let (first, second) = (2 * number as u16 + 1, 2 * number as u16 + 2);
        match count.saturating_sub(2 * number + 1) {
            0 => node(Rule::Back as u8, [0, 0, 0, 65_535], codes),
            1 => node(Rule::W as u8, [511, first, 0, 0], codes),
            _ => node(Rule::And as u8, [511, first, second, 0], codes),
        }
    };
    (0..count).map(node).collect()
}
