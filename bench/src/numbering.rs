//! The claims whose formulas are numbered. No call does that alone: it is what a
//! check takes with a proof of one node, whose root is the claim and which is
//! refused at that node, less what it takes with an empty proof, which is refused
//! before any member is compared.

use crate::evaluations::{TYPICAL, TYPICAL_MEMBERS};
use crate::growth::Family;
use reference::draft::{self, DraftNode};
use reference::generate::extremes::{crowd, crowd_of, tower};
use reference::{Entry, Kind, Rule};

/// Microseconds.
const LIMIT: u32 = 1000;
const TYPICAL_LIMIT: u32 = 100;

pub struct Numbering {
    pub name: &'static str,
    /// What the numbering may take.
    pub limit: u32,
    pub claim: Vec<u8>,
    pub proof: Vec<u8>,
}

impl Numbering {
    fn new(name: &'static str, limit: u32, entries: &[Entry], members: &[u16]) -> Numbering {
        let codes = members.iter().map(|member| 2 * member + 1).collect();
        let numbering = Numbering {
            name,
            limit,
            claim: draft::claim(entries, members).bytes,
            proof: draft::proof(&[DraftNode::new(Rule::Ax1, 0, codes)]).bytes,
        };
        let answer = reference::check(&numbering.claim, &numbering.proof);
        assert_eq!(answer, 37 << 16, "{name}");
        numbering
    }

    /// A claim on the topmost entry.
    fn of(name: &'static str, entries: &[Entry]) -> Numbering {
        let last = entries.len() as u16 - 1;
        Numbering::new(name, LIMIT, entries, &[last])
    }
}

pub fn all() -> Vec<Numbering> {
    let letters: Vec<Entry> = (0..256)
        .map(|at| Entry::new(Kind::Letter, at % 32, 0))
        .collect();
    let once = pupils(1);
    let twice = pupils(2);
    vec![
        Numbering::of("32 names free in a chain", &crowd(32)),
        Numbering::of("64 names free in a chain", &crowd(64)),
        Numbering::of("80 names free in a chain", &crowd(80)),
        Numbering::of("12 names, a chain of one mark", &one_mark(12)),
        Numbering::of("32 names, a chain of one mark", &one_mark(32)),
        Numbering::of("256 letters", &letters),
        Numbering::of("or tower of 255", &tower(Kind::Or, 255)),
        Numbering::new("typical claim", TYPICAL_LIMIT, &once.0, &once.1),
        Numbering::new("typical claim twice", TYPICAL_LIMIT, &twice.0, &twice.1),
    ]
}

/// As `crowd`, with a chain of entries no two of which are alike and nearly all of
/// which have the gate's one mark (`mark_in` of the crate searching), so that for
/// each of them all others are gone through in vain: the worst found.
fn one_mark(depth: u16) -> Vec<Entry> {
    const MARK: u16 = 37;
    let first = 256 - depth;
    let lowest = 2 * depth - 2;
    let mut entries = crowd(depth)[..=usize::from(lowest)].to_vec();
    for at in lowest + 1..first {
        let pairs = (lowest..at)
            .rev()
            .flat_map(|a| (lowest..at).map(move |b| (a, b)));
        let fit = pairs
            .flat_map(|(a, b)| [Kind::And, Kind::Or].map(|kind| Entry::new(kind, a, b)))
            .filter(|entry| (53 * entry.kind as u16 + entry.a + 37 * entry.b) % 512 == MARK)
            .find(|entry| !entries.contains(entry));
        entries.push(fit.unwrap_or(Entry::new(Kind::Box, at - 1, 0)));
    }
    entries[usize::from(first) - 1] = Entry::new(Kind::Box, first - 2, 0);
    entries.extend((first..256).map(|at| Entry::new(Kind::Nu, at - 1, 0)));
    entries
}

/// The typical claim of so many pupils, each with entries of their own.
fn pupils(count: u16) -> (Vec<Entry>, Vec<u16>) {
    let (mut entries, mut members) = (Vec::new(), Vec::new());
    for pupil in 0..count {
        let start = pupil * TYPICAL.len() as u16;
        entries.extend(TYPICAL.map(|(kind, a, b)| match kind {
            Kind::Letter | Kind::Negated | Kind::True => Entry::new(kind, a, b),
            Kind::Or | Kind::And => Entry::new(kind, start + a, start + b),
            _ => Entry::new(kind, start + a, 0),
        }));
        members.extend(TYPICAL_MEMBERS.map(|member| start + member));
    }
    (entries, members)
}

/// Families by how many entries: those with the names of a quarter of them free in
/// a chain, so that four times as many pairs of an entry and a name come with
/// twice the entries; those without names; and typical claims.
pub fn growing() -> Vec<Family<Numbering>> {
    let counts = [32, 64, 128, 256];
    let family = |name, entries: fn(u16) -> Vec<Entry>| {
        Family::new(name, &counts, |count: u16| {
            (usize::from(count), Numbering::of(name, &entries(count)))
        })
    };
    let typical = Family::new("typical formulas", &[1, 2, 4, 8], |count| {
        let (entries, members) = pupils(count);
        let case = Numbering::new("typical formulas", LIMIT, &entries, &members);
        (entries.len(), case)
    });
    vec![
        family("formulas with names", |count| crowd_of(count, count / 4)),
        family("formulas without names", |count| tower(Kind::Or, count - 1)),
        typical,
    ]
}
