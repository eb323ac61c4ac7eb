//! The records of files that are well formed by their bytes, read off the bytes
//! here and neither by the gate nor by the reference. Nothing is judged; a file
//! that ends early is the caller's mistake.

use crate::{Entry, Node};

/// What the record slices hold after a claim and proof were decoded.
#[derive(Clone, Debug, Default, PartialEq, Eq)]
pub struct Decoding {
    pub entries: Vec<Entry>,
    pub nodes: Vec<Node>,
    pub codes: Vec<u16>,
}

pub fn decode(claim: &[u8], proof: &[u8]) -> Decoding {
    let (nodes, codes) = nodes(proof, roots(claim, proof).len());
    Decoding {
        entries: entries(claim),
        nodes,
        codes,
    }
}

/// The opening's last letter: 1 for a claim or proof of one goal, 2 for several.
pub fn form(file: &[u8]) -> u8 {
    file[3] - b'0'
}

/// After the opening and a count: a map, the kind, and the fields whose bit
/// stands; members and their counts follow.
pub fn entries(claim: &[u8]) -> Vec<Entry> {
    take_entries(&mut Rest(&claim[4..]))
}

/// What follows the entries: with several goals their count, then for each of them a
/// count and the members.
pub fn goals(claim: &[u8]) -> Vec<Vec<u16>> {
    let mut rest = Rest(&claim[4..]);
    take_entries(&mut rest);
    let goals = match form(claim) {
        2 => rest.two(),
        _ => 1,
    };
    let goal = |_| {
        let count = rest.two();
        (0..count).map(|_| rest.two()).collect()
    };
    (0..goals).map(goal).collect()
}

/// What follows the node count: with several goals as many root numbers.
pub fn roots(claim: &[u8], proof: &[u8]) -> Vec<u16> {
    let mut rest = Rest(&proof[6..]);
    let count = match form(proof) {
        2 => goals(claim).len(),
        _ => 0,
    };
    (0..count).map(|_| rest.two()).collect()
}

fn take_entries(rest: &mut Rest) -> Vec<Entry> {
    let count = rest.two();
    (0..count)
        .map(|_| {
            let (map, kind) = (rest.one(), rest.one());
            Entry {
                kind,
                a: rest.field(map, 0),
                b: rest.field(map, 1),
            }
        })
        .collect()
}

/// After the opening, a count and so many roots: a map, the rule, the fields whose bit
/// stands, and with bit 4 a count of codes and the codes.
fn nodes(proof: &[u8], roots: usize) -> (Vec<Node>, Vec<u16>) {
    let mut rest = Rest(&proof[4..]);
    let mut codes = Vec::new();
    let count = rest.two();
    rest.skip(2 * roots);
    let nodes = (0..count)
        .map(|_| {
            let (map, rule) = (rest.one(), rest.one());
            let mut node = Node {
                rule,
                principal: rest.field(map, 0),
                first: rest.field(map, 1),
                second: rest.field(map, 2),
                back: rest.field(map, 3),
                count: 0,
            };
            if map & 1 << 4 != 0 {
                node.count = rest.one();
                codes.extend((0..node.count).map(|_| rest.two()));
            }
            node
        })
        .collect();
    (nodes, codes)
}

struct Rest<'a>(&'a [u8]);

impl Rest<'_> {
    fn one(&mut self) -> u8 {
        let (&first, rest) = self.0.split_first().expect("a whole file");
        self.0 = rest;
        first
    }

    fn skip(&mut self, count: usize) {
        self.0 = &self.0[count..];
    }

    /// Little-endian.
    fn two(&mut self) -> u16 {
        let low = u16::from(self.one());
        low + 256 * u16::from(self.one())
    }

    /// "a field whose bit is not set is 0 in its record"
    fn field(&mut self, map: u8, bit: u8) -> u16 {
        match map >> bit & 1 {
            0 => 0,
            _ => self.two(),
        }
    }
}
