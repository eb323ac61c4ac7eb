//! The gate's calls as Rust functions, and what the tests of them share. A slice
//! is passed as a pointer and a length.

pub mod decode;
pub mod hard;
pub mod lent;
pub mod random;
pub mod stack;
pub mod tables;
pub mod vectors;

use lent::{FileSlices, Lent, LentWords, RecordSlices, Slices};
use reference::Files;

/// The gate state that each call is lent.
#[repr(C)]
#[derive(Clone, Copy, Debug, PartialEq, Eq)]
pub struct Gate {
    pub phase: u8,
    pub tag: u32,
}

impl Gate {
    pub const CLOSED: u8 = 0;
    pub const OPEN: u8 = 1;
    pub const HOLDING: u8 = 2;
}

/// "An entry's record is its kind, A and B."
#[repr(C)]
#[derive(Clone, Copy, Debug, PartialEq, Eq)]
pub struct Entry {
    pub kind: u8,
    pub a: u16,
    pub b: u16,
}

/// "a record is the rule, the four two-byte fields and the code count"
#[repr(C)]
#[derive(Clone, Copy, Debug, PartialEq, Eq)]
pub struct Node {
    pub rule: u8,
    pub principal: u16,
    pub first: u16,
    pub second: u16,
    pub back: u16,
    pub count: u8,
}

/// What is given to the writer. Beyond the counts the slices hold anything.
#[derive(Clone, Debug, PartialEq, Eq)]
pub struct Records {
    pub form: u8,
    pub entries: Vec<Entry>,
    pub entry_count: usize,
    pub goal_counts: Vec<u16>,
    pub members: Vec<u16>,
    pub nodes: Vec<Node>,
    pub node_count: usize,
    pub roots: Vec<u16>,
    pub codes: Vec<u16>,
}

impl From<&reference::Records> for Records {
    fn from(records: &reference::Records) -> Records {
        Records {
            form: records.form,
            entries: records.entries.iter().map(Entry::from).collect(),
            entry_count: records.entry_count,
            goal_counts: records.goal_counts.clone(),
            members: records.members.clone(),
            nodes: records.nodes.iter().map(Node::from).collect(),
            node_count: records.node_count,
            roots: records.roots.clone(),
            codes: records.codes.clone(),
        }
    }
}

impl From<&reference::EntryRecord> for Entry {
    fn from(entry: &reference::EntryRecord) -> Entry {
        Entry {
            kind: entry.kind,
            a: entry.a,
            b: entry.b,
        }
    }
}

impl From<&reference::NodeRecord> for Node {
    fn from(node: &reference::NodeRecord) -> Node {
        Node {
            rule: node.rule,
            principal: node.principal,
            first: node.first,
            second: node.second,
            back: node.back,
            count: node.count,
        }
    }
}

mod calls {
    use super::{Entry, Gate, Node};

    extern "C" {
        pub fn focus_check(
            claim: *const u8,
            claim_len: usize,
            proof: *const u8,
            proof_len: usize,
        ) -> u32;

        pub fn focus_open(gate: *mut Gate) -> u32;

        pub fn focus_close(gate: *mut Gate) -> u32;

        pub fn focus_take(gate: *mut Gate) -> u64;

        pub fn focus_present(
            gate: *mut Gate,
            tag: u32,
            claim: *const u8,
            claim_len: usize,
            proof: *const u8,
            proof_len: usize,
            entries: *mut Entry,
            entries_len: usize,
            nodes: *mut Node,
            nodes_len: usize,
            codes: *mut u16,
            codes_len: usize,
        ) -> u32;

        pub fn focus_evaluate(
            claim: *const u8,
            claim_len: usize,
            model: *const u8,
            model_len: usize,
            entries: *mut Entry,
            entries_len: usize,
            words: *mut u64,
            words_len: usize,
        ) -> u64;

        pub fn focus_write_claim(
            form: u8,
            entries: *const Entry,
            entries_len: usize,
            entry_count: usize,
            goal_counts: *const u16,
            goals: usize,
            members: *const u16,
            members_len: usize,
            out: *mut u8,
            out_len: usize,
        ) -> u64;

        pub fn focus_write_proof(
            form: u8,
            entries: *const Entry,
            entries_len: usize,
            entry_count: usize,
            goal_counts: *const u16,
            goals: usize,
            members: *const u16,
            members_len: usize,
            nodes: *const Node,
            nodes_len: usize,
            node_count: usize,
            roots: *const u16,
            roots_len: usize,
            codes: *const u16,
            codes_len: usize,
            out: *mut u8,
            out_len: usize,
        ) -> u64;

        pub fn focus_join(
            entry: u16,
            claim1: *const u8,
            claim1_len: usize,
            proof1: *const u8,
            proof1_len: usize,
            claim2: *const u8,
            claim2_len: usize,
            proof2: *const u8,
            proof2_len: usize,
            claim_out: *mut u8,
            claim_out_len: usize,
            proof_out: *mut u8,
            proof_out_len: usize,
        ) -> u64;
    }
}

/// The single check: 0 for accepted, or refusal × 65,536 + place.
pub fn check(claim: &[u8], proof: &[u8]) -> u32 {
    // SAFETY: the gate reads the two slices within their lengths and keeps neither.
    unsafe { calls::focus_check(claim.as_ptr(), claim.len(), proof.as_ptr(), proof.len()) }
}

pub fn open(gate: &mut Gate) -> u32 {
    // SAFETY: the gate state is lent for the call alone.
    unsafe { calls::focus_open(gate) }
}

pub fn close(gate: &mut Gate) -> u32 {
    // SAFETY: as for opening.
    unsafe { calls::focus_close(gate) }
}

/// The tag, or 2^32 + refusal × 65,536 + place.
pub fn take(gate: &mut Gate) -> u64 {
    // SAFETY: as for opening.
    unsafe { calls::focus_take(gate) }
}

pub fn present(gate: &mut Gate, tag: u32, claim: &[u8], proof: &[u8], lent: &mut Lent) -> u32 {
    present_in(gate, tag, claim, proof, &mut lent.lend())
}

/// Presenting over slices that were lent before.
pub fn present_in(
    gate: &mut Gate,
    tag: u32,
    claim: &[u8],
    proof: &[u8],
    slices: &mut Slices,
) -> u32 {
    let Slices {
        entries,
        nodes,
        codes,
    } = slices;
    // SAFETY: the gate stays within the lengths of all five slices, which do not
    // overlap, and keeps none; any number is a value of every field.
    unsafe {
        calls::focus_present(
            gate,
            tag,
            claim.as_ptr(),
            claim.len(),
            proof.as_ptr(),
            proof.len(),
            entries.as_mut_ptr(),
            entries.len(),
            nodes.as_mut_ptr(),
            nodes.len(),
            codes.as_mut_ptr(),
            codes.len(),
        )
    }
}

/// 0, or refusal × 2^32 + place.
pub fn evaluate(claim: &[u8], model: &[u8], lent: &mut LentWords) -> u64 {
    let entries = lent.entries.lend();
    let words = lent.words.lend();
    // SAFETY: as for presenting.
    unsafe {
        calls::focus_evaluate(
            claim.as_ptr(),
            claim.len(),
            model.as_ptr(),
            model.len(),
            entries.as_mut_ptr(),
            entries.len(),
            words.as_mut_ptr(),
            words.len(),
        )
    }
}

/// The length of the claim, or 2^32 + refusal × 65,536 + place.
pub fn write_claim(slices: &mut RecordSlices) -> u64 {
    // SAFETY: the gate stays within the lengths of the slices, of which the output
    // overlaps no other, and keeps none; any number is a value of every field.
    unsafe {
        calls::focus_write_claim(
            slices.form,
            slices.entries.as_ptr(),
            slices.entries.len(),
            slices.entry_count,
            slices.goal_counts.as_ptr(),
            slices.goal_counts.len(),
            slices.members.as_ptr(),
            slices.members.len(),
            slices.out.as_mut_ptr(),
            slices.out.len(),
        )
    }
}

/// The length of the proof, or 2^32 + refusal × 65,536 + place.
pub fn write_proof(slices: &mut RecordSlices) -> u64 {
    // SAFETY: as for a claim.
    unsafe {
        calls::focus_write_proof(
            slices.form,
            slices.entries.as_ptr(),
            slices.entries.len(),
            slices.entry_count,
            slices.goal_counts.as_ptr(),
            slices.goal_counts.len(),
            slices.members.as_ptr(),
            slices.members.len(),
            slices.nodes.as_ptr(),
            slices.nodes.len(),
            slices.node_count,
            slices.roots.as_ptr(),
            slices.roots.len(),
            slices.codes.as_ptr(),
            slices.codes.len(),
            slices.out.as_mut_ptr(),
            slices.out.len(),
        )
    }
}

/// Claim length + 65,536 × proof length, or 2^32 + refusal × 65,536 + place.
pub fn join(entry: u16, first: &Files, second: &Files, out: &mut FileSlices) -> u64 {
    let FileSlices { claim, proof } = out;
    // SAFETY: the gate stays within the lengths of all six slices and keeps none; the two
    // that it writes overlap no other.
    unsafe {
        calls::focus_join(
            entry,
            first.claim.as_ptr(),
            first.claim.len(),
            first.proof.as_ptr(),
            first.proof.len(),
            second.claim.as_ptr(),
            second.claim.len(),
            second.proof.as_ptr(),
            second.proof.len(),
            claim.as_mut_ptr(),
            claim.len(),
            proof.as_mut_ptr(),
            proof.len(),
        )
    }
}

/// A number from the environment: how many files, which seed.
pub fn setting(name: &str, default: u64) -> u64 {
    match std::env::var(name) {
        Ok(value) => value.parse().expect("a number"),
        Err(_) => default,
    }
}
