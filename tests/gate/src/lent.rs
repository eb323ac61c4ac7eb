//! Slices to lend, filled with values that no decoding has, so that whatever the
//! gate writes is seen.

use crate::decode::Decoding;
use crate::{Entry, Node, Records};
use reference::GOALS;
use std::fmt::Debug;

/// The least lengths by refusal 1.
pub const ENTRIES: usize = 256;
pub const NODES: usize = 1024;
pub const CODES: usize = 24_576;
pub const WORDS: usize = 256;

/// No claim, no proof and no model is longer: of one goal, of several, and models.
pub const CLAIM_BYTES: usize = 1592;
pub const PROOF_BYTES: usize = 58_374;
pub const GOALS_CLAIM_BYTES: usize = 2344;
pub const GOALS_PROOF_BYTES: usize = PROOF_BYTES + 2 * GOALS;
pub const MODEL_BYTES: usize = 67_013;

/// The most members of a goal, and codes of a node.
pub const MEMBERS: usize = CODES / NODES;

/// The most states of a model: a word has a bit for each.
pub const STATES: usize = u64::BITS as usize;

/// No call looks further into a claim or proof (`tests/memory/lengths.c`).
pub const FILE_BYTES: usize = 1 << 16;

/// The deepest that a call's stack may go.
pub const STACK_BYTES: usize = 128 << 10;

/// How many values of the same block lie before and behind a lent slice. The
/// number is odd, so that records begin at places of the least alignment.
const GUARDS: usize = 33;

/// Room for the goal counts, members and roots of most records.
const LIST: usize = 500;

/// A value for each place, told apart from every decoded one and from that of
/// its neighbours.
pub trait Canary: Copy + Debug + PartialEq {
    fn canary(place: usize) -> Self;
}

/// No kind, rule or code count is so large.
fn large_byte(place: usize) -> u8 {
    0x80 | mixed(place, 1) as u8
}

fn mixed(place: usize, salt: u64) -> u64 {
    let mut word = (place as u64 + 1).wrapping_mul(0x9e37_79b9_7f4a_7c15) ^ salt << 56;
    word ^= word >> 29;
    word = word.wrapping_mul(0xbf58_476d_1ce4_e5b9);
    word ^ word >> 32
}

impl Canary for Entry {
    fn canary(place: usize) -> Entry {
        Entry {
            kind: large_byte(place),
            a: mixed(place, 2) as u16,
            b: mixed(place, 3) as u16,
        }
    }
}

impl Canary for Node {
    fn canary(place: usize) -> Node {
        Node {
            rule: large_byte(place),
            principal: mixed(place, 4) as u16,
            first: mixed(place, 5) as u16,
            second: mixed(place, 6) as u16,
            back: mixed(place, 7) as u16,
            count: large_byte(place + 1),
        }
    }
}

impl Canary for u16 {
    /// No code is above 511.
    fn canary(place: usize) -> u16 {
        0x8000 | mixed(place, 8) as u16
    }
}

impl Canary for u64 {
    fn canary(place: usize) -> u64 {
        mixed(place, 9)
    }
}

impl Canary for u8 {
    fn canary(place: usize) -> u8 {
        mixed(place, 10) as u8
    }
}

/// A slice of a larger block. The rest of the block is not lent.
pub struct Slice<T> {
    block: Vec<T>,
    canaries: Vec<T>,
}

impl<T: Canary> Slice<T> {
    pub fn new(length: usize) -> Slice<T> {
        let canaries: Vec<T> = (0..length + 2 * GUARDS).map(T::canary).collect();
        Slice {
            block: canaries.clone(),
            canaries,
        }
    }

    pub fn renew(&mut self) {
        self.block.copy_from_slice(&self.canaries);
    }

    pub fn lend(&mut self) -> &mut [T] {
        let end = self.block.len() - GUARDS;
        &mut self.block[GUARDS..end]
    }

    /// A slice of that length, which begins with the values.
    pub fn lend_with(&mut self, values: &[T], length: usize) -> &mut [T] {
        self.renew();
        let slice = self.lend();
        slice[..values.len()].copy_from_slice(values);
        &mut slice[..length]
    }

    /// A slice of just the values. Lists may be long, and seldom are: the block is as
    /// long as it must be, for all of it is renewed and looked at with each call.
    pub fn lend_all(&mut self, values: &[T]) -> &mut [T] {
        let room = values.len().max(LIST);
        if self.lend().len() != room {
            *self = Slice::new(room);
        }
        self.lend_with(values, values.len())
    }

    /// The slice begins with `written`; each other value of the block, lent or
    /// not, is as it was.
    pub fn assert_holds(&self, written: &[T], what: &str) {
        let end = GUARDS + written.len();
        assert!(end + GUARDS <= self.block.len(), "{what}: no room");
        let expected = [&self.canaries[..GUARDS], written, &self.canaries[end..]];
        let (before, rest) = self.block.split_at(GUARDS);
        let (begin, beyond) = rest.split_at(written.len());
        if [before, begin, beyond] == expected {
            return;
        }
        let expected = expected.concat();
        for (place, (got, expected)) in self.block.iter().zip(&expected).enumerate() {
            let place = place as isize - GUARDS as isize;
            assert_eq!(got, expected, "{what}, place {place}");
        }
    }
}

/// The slices that presenting is lent.
pub struct Lent {
    pub entries: Slice<Entry>,
    pub nodes: Slice<Node>,
    pub codes: Slice<u16>,
}

pub struct Slices<'a> {
    pub entries: &'a mut [Entry],
    pub nodes: &'a mut [Node],
    pub codes: &'a mut [u16],
}

impl Lent {
    pub fn new(entries: usize, nodes: usize, codes: usize) -> Lent {
        Lent {
            entries: Slice::new(entries),
            nodes: Slice::new(nodes),
            codes: Slice::new(codes),
        }
    }

    /// As short as may be.
    pub fn least() -> Lent {
        Lent::new(ENTRIES, NODES, CODES)
    }

    pub fn lend(&mut self) -> Slices<'_> {
        Slices {
            entries: self.entries.lend(),
            nodes: self.nodes.lend(),
            codes: self.codes.lend(),
        }
    }

    pub fn renew(&mut self) {
        self.entries.renew();
        self.nodes.renew();
        self.codes.renew();
    }

    pub fn assert_holds(&self, decoding: &Decoding, what: &str) {
        self.entries
            .assert_holds(&decoding.entries, &format!("{what}: entries"));
        self.nodes
            .assert_holds(&decoding.nodes, &format!("{what}: nodes"));
        self.codes
            .assert_holds(&decoding.codes, &format!("{what}: codes"));
    }

    pub fn assert_untouched(&self, what: &str) {
        self.assert_holds(&Decoding::default(), what);
    }
}

/// The slices that an evaluation is lent.
pub struct LentWords {
    pub entries: Slice<Entry>,
    pub words: Slice<u64>,
}

impl LentWords {
    pub fn new(entries: usize, words: usize) -> LentWords {
        LentWords {
            entries: Slice::new(entries),
            words: Slice::new(words),
        }
    }

    /// As short as may be.
    pub fn least() -> LentWords {
        LentWords::new(ENTRIES, WORDS)
    }

    pub fn renew(&mut self) {
        self.entries.renew();
        self.words.renew();
    }

    pub fn assert_holds(&self, entries: &[Entry], words: &[u64], what: &str) {
        self.entries
            .assert_holds(entries, &format!("{what}: entries"));
        self.words.assert_holds(words, &format!("{what}: words"));
    }

    pub fn assert_untouched(&self, what: &str) {
        self.assert_holds(&[], &[], what);
    }
}

/// What the writer is lent: records, which it must leave as they are, and a slice
/// for the file.
pub struct LentRecords {
    entries: Slice<Entry>,
    goal_counts: Slice<u16>,
    members: Slice<u16>,
    nodes: Slice<Node>,
    roots: Slice<u16>,
    codes: Slice<u16>,
    out: Slice<u8>,
}

pub struct RecordSlices<'a> {
    pub form: u8,
    pub entries: &'a [Entry],
    pub entry_count: usize,
    pub goal_counts: &'a [u16],
    pub members: &'a [u16],
    pub nodes: &'a [Node],
    pub node_count: usize,
    pub roots: &'a [u16],
    pub codes: &'a [u16],
    pub out: &'a mut [u8],
}

/// How much of each slice is lent; of goal counts, members and roots it is always all.
#[derive(Clone, Copy, Debug, PartialEq, Eq)]
pub struct Lengths {
    pub entries: usize,
    pub nodes: usize,
    pub codes: usize,
    pub out: usize,
}

impl Lengths {
    /// The records as they are given, where they are too few the least length, and
    /// room for every file.
    pub fn of(records: &Records) -> Lengths {
        Lengths {
            entries: records.entries.len().max(ENTRIES),
            nodes: records.nodes.len().max(NODES),
            codes: records.codes.len().max(CODES),
            out: GOALS_PROOF_BYTES,
        }
    }
}

impl Default for LentRecords {
    /// Blocks with room for longer slices than any test lends.
    fn default() -> LentRecords {
        LentRecords {
            entries: Slice::new(ENTRIES + 1000),
            goal_counts: Slice::new(LIST),
            members: Slice::new(LIST),
            nodes: Slice::new(NODES + 1000),
            roots: Slice::new(LIST),
            codes: Slice::new(CODES + 1000),
            out: Slice::new(GOALS_PROOF_BYTES + 1000),
        }
    }
}

impl LentRecords {
    /// The records from the start of each slice on, canaries beyond them and in
    /// the output slice.
    pub fn lend(&mut self, records: &Records, lengths: Lengths) -> RecordSlices<'_> {
        let Lengths {
            entries,
            nodes,
            codes,
            out,
        } = lengths;
        RecordSlices {
            form: records.form,
            entries: self.entries.lend_with(&records.entries, entries),
            entry_count: records.entry_count,
            goal_counts: self.goal_counts.lend_all(&records.goal_counts),
            members: self.members.lend_all(&records.members),
            nodes: self.nodes.lend_with(&records.nodes, nodes),
            node_count: records.node_count,
            roots: self.roots.lend_all(&records.roots),
            codes: self.codes.lend_with(&records.codes, codes),
            out: self.out.lend_with(&[], out),
        }
    }

    /// The output slice begins with the file; all else is as it was lent.
    pub fn assert_holds(&self, records: &Records, file: &[u8], what: &str) {
        self.entries
            .assert_holds(&records.entries, &format!("{what}: entries"));
        self.goal_counts
            .assert_holds(&records.goal_counts, &format!("{what}: goal counts"));
        self.members
            .assert_holds(&records.members, &format!("{what}: members"));
        self.nodes
            .assert_holds(&records.nodes, &format!("{what}: nodes"));
        self.roots
            .assert_holds(&records.roots, &format!("{what}: roots"));
        self.codes
            .assert_holds(&records.codes, &format!("{what}: codes"));
        self.out.assert_holds(file, &format!("{what}: output"));
    }
}

/// What a join is lent for its two files.
pub struct LentFiles {
    claim: Slice<u8>,
    proof: Slice<u8>,
}

pub struct FileSlices<'a> {
    pub claim: &'a mut [u8],
    pub proof: &'a mut [u8],
}

impl Default for LentFiles {
    /// Blocks with room for longer slices than any test lends.
    fn default() -> LentFiles {
        LentFiles {
            claim: Slice::new(CLAIM_BYTES + 1000),
            proof: Slice::new(PROOF_BYTES + 1000),
        }
    }
}

impl LentFiles {
    /// Slices with room for every claim and proof of one goal.
    pub const ROOM: reference::Lengths = reference::Lengths {
        claim: CLAIM_BYTES,
        proof: PROOF_BYTES,
    };

    /// Slices of these lengths with canaries in them.
    pub fn lend(&mut self, lengths: reference::Lengths) -> FileSlices<'_> {
        FileSlices {
            claim: self.claim.lend_with(&[], lengths.claim),
            proof: self.proof.lend_with(&[], lengths.proof),
        }
    }

    /// Each slice begins with its file; all else is as it was lent.
    pub fn assert_holds(&self, claim: &[u8], proof: &[u8], what: &str) {
        self.claim.assert_holds(claim, &format!("{what}: claim"));
        self.proof.assert_holds(proof, &format!("{what}: proof"));
    }
}
