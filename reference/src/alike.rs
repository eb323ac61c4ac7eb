//! Entries that are the same formula. T-03: "each free name is replaced by its
//! fixpoint, written out, and the choice of bound names doesn't count."
//!
//! Nothing is written out, for 200 entries may have 2^200 parts. Every part of a
//! formula gets a number instead, and a part met again the one that it has. Bound
//! names do not show in parts: each is a hole, and a fixpoint tells which holes
//! of its body are its own. So two formulas are the same if their numbers are,
//! and only then. The action of a box or diamond is part of it.

use crate::bits::Bits;
use crate::claim::{Entry, Kind};
use crate::formula::free_names;
use std::collections::HashMap;
use std::hash::{BuildHasherDefault, Hasher};

/// The part that is a bound name, whichever it is.
const HOLE: u32 = 0;

/// Which holes of a part are a given name: none, or the one hole that the part
/// is. Any other number tells them for the two operands of an or or and.
const NOWHERE: u32 = 0;
const HERE: u32 = 1;

/// For each entry of a table that passed 20 to 23 the least entry that is no name
/// and the same formula.
pub fn least_alike(entries: &[Entry]) -> Vec<u16> {
    let free = free_names(entries);
    let mut parts = Parts::new(entries, &free);
    parts.bind_names();
    for number in (0..entries.len()).rev() {
        if entries[number].kind.is_fixpoint() {
            parts.write_out(number);
        }
    }
    parts.least()
}

struct Parts<'a> {
    entries: &'a [Entry],
    free: &'a [Bits],
    numbers: Numbers,
    /// Each entry's part, some of its names bound and the others written out.
    part: Vec<u32>,
    /// Which holes of its body are a fixpoint's own.
    own: Vec<u32>,
}

impl<'a> Parts<'a> {
    fn new(entries: &'a [Entry], free: &'a [Bits]) -> Parts<'a> {
        let names: usize = free.iter().map(Bits::count).sum();
        Parts {
            entries,
            free,
            numbers: Numbers::with_room_for(entries.len() + 2 * names),
            part: vec![HOLE; entries.len()],
            own: vec![NOWHERE; entries.len()],
        }
    }

    /// Every entry's part with all its names bound.
    fn bind_names(&mut self) {
        let mut holes = vec![NOWHERE; self.entries.len()];
        for number in 0..self.entries.len() {
            if self.entries[number].kind.is_fixpoint() {
                self.own[number] = self.own_holes(number, &mut holes);
            }
            self.part[number] = self.part_of(number);
        }
    }

    /// Which holes of its body are a fixpoint's own; `holes` is room to tell it
    /// for the entries between, and is left as it was.
    fn own_holes(&mut self, fixpoint: usize, holes: &mut [u32]) -> u32 {
        for number in 0..fixpoint {
            if self.free[number].contains(fixpoint) {
                let Entry { kind, a, b } = self.entries[number];
                let (a, b) = (usize::from(a), usize::from(b));
                holes[number] = match kind {
                    Kind::Name => HERE,
                    Kind::Or | Kind::And => self.numbers.of(Kind::Name, holes[a], holes[b]),
                    _ => holes[a],
                };
            }
        }
        let own = holes[usize::from(self.entries[fixpoint].a)];
        holes[..fixpoint].fill(NOWHERE);
        own
    }

    /// "Each free name of an entry must lie above that entry." So inside the
    /// formula of an entry the names of fixpoints up to that entry are bound, and
    /// those of higher ones written out. Gone through from the highest entry
    /// down, a fixpoint has all its names written out before it is to be so
    /// itself.
    fn write_out(&mut self, fixpoint: usize) {
        for number in 0..fixpoint {
            if self.free[number].contains(fixpoint) {
                self.part[number] = match self.entries[number].kind {
                    Kind::Name => self.part[fixpoint],
                    _ => self.part_of(number),
                };
            }
        }
    }

    /// An entry's part, of those of its operands; a name's when it is bound.
    fn part_of(&mut self, number: usize) -> u32 {
        let Entry { kind, a, b } = self.entries[number];
        let part = |operand: u16| self.part[usize::from(operand)];
        let (a, b) = match kind {
            Kind::Name => return HOLE,
            Kind::False | Kind::True | Kind::Letter | Kind::Negated => (a.into(), 0),
            Kind::Or | Kind::And => (part(a), part(b)),
            Kind::Diamond | Kind::Box => (part(a), b.into()),
            Kind::Mu | Kind::Nu => (part(a), self.own[number]),
        };
        self.numbers.of(kind, a, b)
    }

    /// The least entry of each entry's part, once all names are written out.
    fn least(&self) -> Vec<u16> {
        let mut least = vec![0; self.numbers.end()];
        for (number, entry) in self.entries.iter().enumerate().rev() {
            if entry.kind != Kind::Name {
                least[self.part[number] as usize] = number as u16;
            }
        }
        self.part.iter().map(|&part| least[part as usize]).collect()
    }
}

/// The numbers given: to parts by their kind, and under the kind of a name to its
/// holes in two operands.
struct Numbers(HashMap<u64, u32, BuildHasherDefault<Spread>>);

impl Numbers {
    fn with_room_for(count: usize) -> Numbers {
        let spread = BuildHasherDefault::default();
        Numbers(HashMap::with_capacity_and_hasher(count, spread))
    }

    /// A table has at most 256 parts for each of its entries, and as many holes:
    /// four bits for the kind and 28 for a number are enough.
    fn of(&mut self, kind: Kind, a: u32, b: u32) -> u32 {
        let key = u64::from(a) << 32 | u64::from(b) << 4 | kind as u64;
        let next = self.end() as u32;
        *self.0.entry(key).or_insert(next)
    }

    /// One more than the last number given.
    fn end(&self) -> usize {
        self.0.len() + 1 + HERE as usize
    }
}

/// A hash of one word.
#[derive(Default)]
struct Spread(u64);

impl Hasher for Spread {
    fn write_u64(&mut self, word: u64) {
        let spread = (word ^ word >> 32).wrapping_mul(0x9e37_79b9_7f4a_7c15);
        self.0 = spread ^ spread >> 32;
    }

    fn write(&mut self, bytes: &[u8]) {
        for &byte in bytes {
            self.write_u64(self.0 ^ u64::from(byte));
        }
    }

    fn finish(&self) -> u64 {
        self.0
    }
}
