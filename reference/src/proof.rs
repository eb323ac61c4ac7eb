//! The proof file: roots, nodes and their sequents by their bytes (refusals 30 to
//! 34).

use crate::bytes::{Cursor, Fault};
use crate::claim::{may_be_member, Claim, Entry, Kind};
use crate::goals::Form;
use crate::refusal::Refusal;

#[derive(Clone, Copy, Debug, PartialEq, Eq)]
#[repr(u8)]
pub enum Rule {
    Ax1 = 0,
    Ax2 = 1,
    Or = 2,
    And = 3,
    Box = 4,
    Mu = 5,
    Nu = 6,
    W = 7,
    F = 8,
    U = 9,
    D = 10,
    Back = 11,
}

impl Rule {
    pub const ALL: [Rule; 12] = [
        Rule::Ax1,
        Rule::Ax2,
        Rule::Or,
        Rule::And,
        Rule::Box,
        Rule::Mu,
        Rule::Nu,
        Rule::W,
        Rule::F,
        Rule::U,
        Rule::D,
        Rule::Back,
    ];

    pub fn from_byte(byte: u8) -> Option<Rule> {
        Rule::ALL.get(usize::from(byte)).copied()
    }

    /// "Low four bits by rule": bit 0 principal, bits 1 and 2 children, bit 3
    /// back link.
    pub fn low_bits(self) -> u8 {
        match self {
            Rule::Ax1 | Rule::Ax2 => 0,
            Rule::And => 7,
            Rule::D => 2,
            Rule::Back => 8,
            _ => 3,
        }
    }

    /// How many children a node of this rule has.
    pub fn children(self) -> usize {
        (self.low_bits() >> 1 & 3).count_ones() as usize
    }

    /// The kind that rules 2 to 6 name for their principal.
    pub fn kind(self) -> Option<Kind> {
        match self {
            Rule::Or => Some(Kind::Or),
            Rule::And => Some(Kind::And),
            Rule::Box => Some(Kind::Box),
            Rule::Mu => Some(Kind::Mu),
            Rule::Nu => Some(Kind::Nu),
            _ => None,
        }
    }
}

/// "a record is the rule, the four two-byte fields and the code count; a field
/// whose bit is not set is 0 in its record"
#[derive(Clone, Copy, Debug, PartialEq, Eq)]
pub struct Node {
    pub rule: Rule,
    pub principal: u16,
    pub first: u16,
    pub second: u16,
    pub back: u16,
    pub count: u8,
}

impl Node {
    /// The child numbers, first before second.
    pub(crate) fn children(&self) -> impl Iterator<Item = usize> {
        let fields = [usize::from(self.first), usize::from(self.second)];
        fields.into_iter().take(self.rule.children())
    }
}

/// "codes follow each other in file order, from the start of their slice
/// without gaps"
#[derive(Clone, Debug, PartialEq, Eq)]
pub struct Proof {
    pub form: Form,
    /// The root numbers that the file has: none in the form with one goal.
    pub named_roots: Vec<u16>,
    pub nodes: Vec<Node>,
    pub codes: Vec<u16>,
}

impl Proof {
    /// "A pair of unlike forms gets 30", like any opening but the one that goes with
    /// the claim's.
    pub fn read(bytes: &[u8], claim: &Claim) -> Result<Proof, Refusal> {
        let mut cursor = Cursor::open(bytes, claim.form.proof())?;
        let count = cursor.count(claim.form.fewest()..=1024)?;
        let mut proof = Proof {
            form: claim.form,
            named_roots: read_roots(&mut cursor, claim, count)?,
            nodes: Vec::with_capacity(count),
            codes: Vec::with_capacity((bytes.len() / 2).min(24 * count)),
        };
        for _ in 0..count {
            proof.read_node(&mut cursor, &claim.entries)?;
        }
        cursor.finish()?;
        Ok(proof)
    }

    fn read_node(&mut self, cursor: &mut Cursor, entries: &[Entry]) -> Result<(), Refusal> {
        let place = cursor.offset();
        let map = cursor.byte()?;
        let rule = Rule::from_byte(cursor.byte()?)
            .filter(|rule| rule.low_bits() == map & !0x10)
            .ok_or(cursor.refusal(Fault::Map, place))?;
        let mut node = Node {
            rule,
            principal: cursor.two_if(map & 1 != 0)?,
            first: cursor.two_if(map & 2 != 0)?,
            second: cursor.two_if(map & 4 != 0)?,
            back: cursor.two_if(map & 8 != 0)?,
            count: 0,
        };
        if map & 0x10 != 0 {
            let count = cursor.small_count(1..=24)?;
            node.count = count as u8;
            cursor.rising(count, &mut self.codes, |code| {
                may_be_member(entries, code / 2)
            })?;
        }
        self.nodes.push(node);
        Ok(())
    }

    /// The root of each goal's tree; without goals there is none.
    pub fn roots(&self) -> &[u16] {
        match self.form {
            Form::One => &[0],
            Form::Several => &self.named_roots,
        }
    }

    /// The codes of each node, strictly rising.
    pub(crate) fn sequents(&self) -> impl Iterator<Item = &[u16]> {
        let mut rest = &self.codes[..];
        self.nodes.iter().map(move |node| {
            let (codes, others) = rest.split_at(node.count.into());
            rest = others;
            codes
        })
    }
}

/// "as many strictly rising root numbers" as there are goals; "a root list that
/// isn't rising or in range gets 34"
fn read_roots(cursor: &mut Cursor, claim: &Claim, nodes: usize) -> Result<Vec<u16>, Refusal> {
    let mut roots = Vec::new();
    if claim.form == Form::Several {
        let goals = claim.goals().count();
        cursor.rising(goals, &mut roots, |root| usize::from(root) < nodes)?;
    }
    Ok(roots)
}
