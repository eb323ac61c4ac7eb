//! The writer: judges the records of a claim or a proof, with the number and
//! place that a reader would give for their file, and lays its bytes down in a
//! lent slice (refusals 1, 10, 12 to 14, 72, 20 to 23, 71, 32 to 35 and 70).

use crate::bytes::{Fault, Opening};
use crate::claim::{may_be_member, Entry, Kind};
use crate::formula;
use crate::goals::{Form, GOALS};
use crate::proof::{Node, Rule};
use crate::refusal::Refusal;
use crate::tree;
use std::ops::RangeInclusive;

/// The least lengths of lent record slices, and the most that a file has of each.
const ENTRIES: usize = 256;
pub(crate) const NODES: usize = 1024;
const CODES: usize = MEMBERS * NODES;

/// The most members of a goal, and codes of a node.
pub(crate) const MEMBERS: usize = 24;

/// No file is longer: "an accepted proof never needs over 58,374 bytes", and one of
/// several goals two more for each.
pub(crate) const FILE: usize = 58_374 + 2 * GOALS;

const SHORT_SLICE: u16 = 1;
const NO_FORM: u16 = 10;
const SHORT_OUTPUT: u16 = 70;
const GOAL_COUNT: u16 = 72;

/// An entry as a caller's table holds it; each field is any number.
#[derive(Clone, Copy, Debug, PartialEq, Eq)]
pub struct EntryRecord {
    pub kind: u8,
    pub a: u16,
    pub b: u16,
}

/// A node as a caller's table holds it.
#[derive(Clone, Copy, Debug, PartialEq, Eq)]
pub struct NodeRecord {
    pub rule: u8,
    pub principal: u16,
    pub first: u16,
    pub second: u16,
    pub back: u16,
    pub count: u8,
}

/// "entry and node counts are numbers given beside the slices". T-05: "The writer is
/// from now on told the form", and it "is given a slice of the goals' member counts,
/// the members one after another in a slice". Each of them is any number.
#[derive(Clone, Copy, Debug)]
pub struct ClaimRecords<'a> {
    pub form: u8,
    pub entries: &'a [EntryRecord],
    pub entry_count: usize,
    pub goal_counts: &'a [u16],
    pub members: &'a [u16],
}

/// The codes of a node follow those of the nodes before it. In the form with one
/// goal there are no roots.
#[derive(Clone, Copy, Debug)]
pub struct ProofRecords<'a> {
    pub nodes: &'a [NodeRecord],
    pub node_count: usize,
    pub roots: &'a [u16],
    pub codes: &'a [u16],
}

/// The length of the claim's file. "No refusal of the writer writes a byte."
pub fn write_claim(claim: ClaimRecords, out: &mut [u8]) -> Result<usize, Refusal> {
    long_enough(claim.entries.len() >= ENTRIES)?;
    let form = form_of(claim)?;
    let (entries, length) = judge_claim(form, claim)?;
    let file = room(out, length)?;
    lay_claim(form, &entries, claim.goal_counts, claim.members, file);
    Ok(length)
}

/// The length of the proof's file, which is laid down "once its claim's records
/// have passed".
pub fn write_proof(
    claim: ClaimRecords,
    proof: ProofRecords,
    out: &mut [u8],
) -> Result<usize, Refusal> {
    let short = claim.entries.len() < ENTRIES;
    long_enough(!short && proof.nodes.len() >= NODES && proof.codes.len() >= CODES)?;
    let form = form_of(claim)?;
    let (entries, _) = judge_claim(form, claim)?;
    let goals = claim.goal_counts.len();
    let (nodes, length) = judge_proof(form, goals, proof, &entries)?;
    let file = room(out, length)?;
    lay_proof(form, proof.roots, &nodes, proof.codes, file);
    Ok(length)
}

/// "A call that writes files answers the length", or 2^32 + the packed refusal.
pub fn written(outcome: Result<usize, Refusal>) -> u64 {
    match outcome {
        Ok(length) => length as u64,
        Err(refusal) => 1 << 32 | u64::from(refusal.packed()),
    }
}

/// "Refusal 1 comes first".
fn long_enough(long: bool) -> Result<(), Refusal> {
    match long {
        true => Ok(()),
        false => Err(Refusal::new(SHORT_SLICE, 0)),
    }
}

/// "70, the output slice is shorter than the file, judged after the records"
pub(crate) fn room(out: &mut [u8], length: usize) -> Result<&mut [u8], Refusal> {
    out.get_mut(..length).ok_or(Refusal::new(SHORT_OUTPUT, 0))
}

/// A number that is no form is refused as an opening that is none.
fn form_of(claim: ClaimRecords) -> Result<Form, Refusal> {
    Form::from_number(claim.form).ok_or(Refusal::new(NO_FORM, 0))
}

/// The entries, and the length of their file.
fn judge_claim(form: Form, claim: ClaimRecords) -> Result<(Vec<Entry>, usize), Refusal> {
    let mut walk = Walk::after(form.claim());
    walk.count(claim.entry_count, form.records(ENTRIES), 2)?;
    let mut entries = Vec::with_capacity(claim.entry_count);
    for record in &claim.entries[..claim.entry_count] {
        let entry = record.entry().ok_or(walk.refusal(Fault::Map))?;
        walk.head(entry.map());
        entries.push(entry);
    }
    judge_goal_counts(form, claim, &mut walk)?;
    let mut rest = claim.members;
    for &count in claim.goal_counts {
        let (members, others) = rest.split_at(count.into());
        walk.count(members.len(), 1..=MEMBERS, 2)?;
        walk.rising(members, |member| may_be_member(&entries, member))?;
        rest = others;
    }
    formula::judge(&entries)?;
    Ok((entries, walk.at))
}

/// The goal count, which may be zero, and the members "in a slice as long as these
/// add up to (else 12 at the goal count, after 72)": without goals there are none. In
/// the form with one goal no goal count is read, and the one member count is the
/// length of the members' slice: what says anything else is 12 where that count
/// stands.
fn judge_goal_counts(form: Form, claim: ClaimRecords, walk: &mut Walk) -> Result<(), Refusal> {
    let (counts, members) = (claim.goal_counts, claim.members.len());
    let add_up = match form {
        Form::One => matches!(counts, &[count] if usize::from(count) == members),
        Form::Several if counts.len() <= GOALS => {
            counts
                .iter()
                .map(|&count| usize::from(count))
                .sum::<usize>()
                == members
        }
        Form::Several => return Err(Refusal::new(GOAL_COUNT, walk.at)),
    };
    if !add_up {
        return Err(walk.refusal(Fault::Count));
    }
    if form == Form::Several {
        walk.at += 2;
    }
    Ok(())
}

/// The nodes, and the length of their file.
fn judge_proof(
    form: Form,
    goals: usize,
    proof: ProofRecords,
    entries: &[Entry],
) -> Result<(Vec<Node>, usize), Refusal> {
    let mut walk = Walk::after(form.proof());
    walk.count(proof.node_count, form.records(NODES), 2)?;
    judge_roots(form, goals, proof, &mut walk)?;
    let mut nodes = Vec::with_capacity(proof.node_count);
    let mut rest = proof.codes;
    for record in &proof.nodes[..proof.node_count] {
        let node = record.node().ok_or(walk.refusal(Fault::Map))?;
        walk.head(node.rule.low_bits());
        if node.count > 0 {
            walk.count(node.count.into(), 1..=MEMBERS, 1)?;
            let (codes, others) = rest.split_at(node.count.into());
            walk.rising(codes, |code| may_be_member(entries, code / 2))?;
            rest = others;
        }
        nodes.push(node);
    }
    let roots = match form {
        Form::One => &[0],
        Form::Several => proof.roots,
    };
    tree::parents(&nodes, roots)?;
    Ok((nodes, walk.at))
}

/// "the roots in a slice as long as the goal count (else 34 where the roots begin)";
/// in the form with one goal there are none.
fn judge_roots(
    form: Form,
    goals: usize,
    proof: ProofRecords,
    walk: &mut Walk,
) -> Result<(), Refusal> {
    let wanted = match form {
        Form::One => 0,
        Form::Several => goals,
    };
    if proof.roots.len() != wanted {
        return Err(walk.refusal(Fault::Member));
    }
    walk.rising(proof.roots, |root| usize::from(root) < proof.node_count)
}

impl Form {
    /// How many entries or nodes there may be, up to so many.
    fn records(self, most: usize) -> RangeInclusive<usize> {
        self.fewest().into()..=most
    }
}

impl EntryRecord {
    /// "A value other than 0 in a field that the kind or rule lacks counts as an
    /// unfit map." A box or diamond has B, and any action stands there until the
    /// entries are judged.
    fn entry(self) -> Option<Entry> {
        let entry = Entry::new(Kind::from_byte(self.kind)?, self.a, self.b);
        fit(entry.map(), [self.a, self.b]).then_some(entry)
    }
}

impl NodeRecord {
    fn fields(self) -> [u16; 4] {
        [self.principal, self.first, self.second, self.back]
    }

    fn node(self) -> Option<Node> {
        let rule = Rule::from_byte(self.rule)?;
        fit(rule.low_bits(), self.fields()).then_some(Node {
            rule,
            principal: self.principal,
            first: self.first,
            second: self.second,
            back: self.back,
            count: self.count,
        })
    }
}

impl From<Entry> for EntryRecord {
    fn from(Entry { kind, a, b }: Entry) -> EntryRecord {
        let kind = kind as u8;
        EntryRecord { kind, a, b }
    }
}

impl From<Node> for NodeRecord {
    fn from(node: Node) -> NodeRecord {
        NodeRecord {
            rule: node.rule as u8,
            principal: node.principal,
            first: node.first,
            second: node.second,
            back: node.back,
            count: node.count,
        }
    }
}

/// Whether each field without a bit in the map is 0.
fn fit<const N: usize>(map: u8, fields: [u16; N]) -> bool {
    let lacks = |bit: usize| map >> bit & 1 == 0;
    !(0..N).any(|bit| lacks(bit) && fields[bit] != 0)
}

/// How far a file reaches, by the records that were judged so far.
struct Walk {
    number: u16,
    at: usize,
}

impl Walk {
    fn after(opening: &Opening) -> Walk {
        Walk {
            number: opening.number,
            at: opening.letters.len(),
        }
    }

    fn refusal(&self, fault: Fault) -> Refusal {
        Refusal::new(self.number + fault as u16, self.at)
    }

    /// A count, of so many bytes in the file.
    fn count(
        &mut self,
        count: usize,
        range: RangeInclusive<usize>,
        bytes: usize,
    ) -> Result<(), Refusal> {
        if !range.contains(&count) {
            return Err(self.refusal(Fault::Count));
        }
        self.at += bytes;
        Ok(())
    }

    /// A map, a kind or rule, and the map's two-byte fields.
    fn head(&mut self, map: u8) {
        self.at += 2 + 2 * map.count_ones() as usize;
    }

    /// Two-byte numbers, strictly rising and each one fit to be a member.
    fn rising(&mut self, list: &[u16], fit: impl Fn(u16) -> bool) -> Result<(), Refusal> {
        let mut last = None;
        for &member in list {
            if last.is_some_and(|last| member <= last) || !fit(member) {
                return Err(self.refusal(Fault::Member));
            }
            last = Some(member);
            self.at += 2;
        }
        Ok(())
    }
}

pub(crate) fn lay_claim(
    form: Form,
    entries: &[Entry],
    goal_counts: &[u16],
    members: &[u16],
    file: &mut [u8],
) {
    let mut pen = Pen { file, at: 0 };
    pen.put(form.claim().letters);
    pen.two(entries.len() as u16);
    for entry in entries {
        let map = entry.map();
        pen.put([map, entry.kind as u8]);
        pen.fields(map, [entry.a, entry.b]);
    }
    if form == Form::Several {
        pen.two(goal_counts.len() as u16);
    }
    let mut rest = members;
    for &count in goal_counts {
        let (members, others) = rest.split_at(count.into());
        pen.two(count);
        pen.list(members);
        rest = others;
    }
}

pub(crate) fn lay_proof(form: Form, roots: &[u16], nodes: &[Node], codes: &[u16], file: &mut [u8]) {
    let mut pen = Pen { file, at: 0 };
    let mut rest = codes;
    pen.put(form.proof().letters);
    pen.two(nodes.len() as u16);
    pen.list(roots);
    for node in nodes {
        let map = node.rule.low_bits();
        let bit = u8::from(node.count > 0) << 4;
        pen.put([map | bit, node.rule as u8]);
        pen.fields(map, [node.principal, node.first, node.second, node.back]);
        if node.count > 0 {
            let (codes, others) = rest.split_at(node.count.into());
            pen.put([node.count]);
            pen.list(codes);
            rest = others;
        }
    }
}

/// Lays bytes down one behind the other.
struct Pen<'a> {
    file: &'a mut [u8],
    at: usize,
}

impl Pen<'_> {
    fn put<const N: usize>(&mut self, bytes: [u8; N]) {
        self.file[self.at..self.at + N].copy_from_slice(&bytes);
        self.at += N;
    }

    fn two(&mut self, number: u16) {
        self.put(number.to_le_bytes());
    }

    /// The fields whose bit stands.
    fn fields<const N: usize>(&mut self, map: u8, fields: [u16; N]) {
        for (bit, field) in fields.into_iter().enumerate() {
            if map >> bit & 1 == 1 {
                self.two(field);
            }
        }
    }

    fn list(&mut self, members: &[u16]) {
        for &member in members {
            self.two(member);
        }
    }
}

/// The records of a claim and a proof, with slices long enough to be lent: what
/// lies beyond the counts says nothing.
#[derive(Clone, Debug, PartialEq, Eq)]
pub struct Records {
    pub form: u8,
    pub entries: Vec<EntryRecord>,
    pub entry_count: usize,
    pub goal_counts: Vec<u16>,
    pub members: Vec<u16>,
    pub nodes: Vec<NodeRecord>,
    pub node_count: usize,
    pub roots: Vec<u16>,
    pub codes: Vec<u16>,
}

/// A file that was laid down.
pub type Written = Result<Vec<u8>, Refusal>;

impl Records {
    pub fn claim(&self) -> ClaimRecords<'_> {
        ClaimRecords {
            form: self.form,
            entries: &self.entries,
            entry_count: self.entry_count,
            goal_counts: &self.goal_counts,
            members: &self.members,
        }
    }

    pub fn proof(&self) -> ProofRecords<'_> {
        ProofRecords {
            nodes: &self.nodes,
            node_count: self.node_count,
            roots: &self.roots,
            codes: &self.codes,
        }
    }

    pub fn write_claim(&self) -> Written {
        in_room(|out| write_claim(self.claim(), out))
    }

    pub fn write_proof(&self) -> Written {
        in_room(|out| write_proof(self.claim(), self.proof(), out))
    }
}

fn in_room(write: impl Fn(&mut [u8]) -> Result<usize, Refusal>) -> Written {
    let mut out = vec![0; FILE];
    let length = write(&mut out)?;
    out.truncate(length);
    Ok(out)
}
