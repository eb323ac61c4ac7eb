//! Tables in which formulas stand more than once: a plain table, copies of some
//! of its entries with bound names of their own, and all of them in a new order.

use super::rng::Rng;
use crate::bits::Bits;
use crate::claim::{Entry, Kind};
use crate::formula::{free_names, judge};

const ENTRIES: usize = 256;

/// A table with twins.
pub struct Twins {
    pub entries: Vec<Entry>,
    /// For each entry of the plain table those that stand for it. All of them
    /// are the same formula, but for a few that nearly are.
    pub copies: Vec<Vec<u16>>,
}

impl Twins {
    /// An entry that stands for that one of the plain table.
    pub fn any(&self, rng: &mut Rng, plain: u16) -> u16 {
        let copies = &self.copies[usize::from(plain)];
        rng.pick(copies).unwrap_or_default()
    }

    /// For each entry the least that stands for the same one of the plain table.
    pub fn least_copies(&self) -> Vec<u16> {
        let mut least = vec![0; self.entries.len()];
        for copies in &self.copies {
            let first = copies.iter().copied().min().unwrap_or_default();
            copies
                .iter()
                .for_each(|&copy| least[usize::from(copy)] = first);
        }
        least
    }
}

/// Entries stand twice, operands are drawn from either copy, and some entries
/// stand once more with their free names written out. Seldom there is a mistake.
pub fn twins(rng: &mut Rng, plain: &[Entry]) -> Twins {
    let mistakes = usize::from(rng.chance(1, 6));
    with_mistakes(rng, plain, mistakes)
}

/// The same with mistakes in it, where there is room for some.
pub fn near_twins(rng: &mut Rng, plain: &[Entry]) -> Twins {
    let mistakes = rng.between(1, 3);
    with_mistakes(rng, plain, mistakes)
}

fn with_mistakes(rng: &mut Rng, plain: &[Entry], mistakes: usize) -> Twins {
    let free = free_names(plain);
    let mut draft = Draft::new(plain, &free);
    if 2 * plain.len() <= ENTRIES {
        draft.double(rng);
    }
    for _ in 0..rng.below(4) {
        draft.write_out(rng);
    }
    for _ in 0..mistakes {
        draft.mistake(rng);
    }
    let order = draft.order(rng);
    draft.laid_out(&order.unwrap_or_else(|| (0..draft.entries.len() as u16).collect()))
}

/// A table whose operands need not lie below their entries yet.
#[derive(Clone)]
struct Draft<'a> {
    plain: &'a [Entry],
    /// The free names of the plain entries.
    free: &'a [Bits],
    entries: Vec<Entry>,
    copies: Vec<Vec<u16>>,
}

impl<'a> Draft<'a> {
    fn new(plain: &'a [Entry], free: &'a [Bits]) -> Draft<'a> {
        Draft {
            plain,
            free,
            entries: plain.to_vec(),
            copies: (0..plain.len() as u16).map(|number| vec![number]).collect(),
        }
    }

    fn add(&mut self, plain: usize) -> usize {
        self.entries.push(self.plain[plain]);
        self.copies[plain].push((self.entries.len() - 1) as u16);
        self.entries.len() - 1
    }

    /// Second copies of some entries, all operands drawn from either copy or each
    /// from its own.
    fn double(&mut self, rng: &mut Rng) {
        let doubled = self.to_be_doubled(rng);
        for number in doubled.iter() {
            self.add(number);
        }
        let mixed = rng.chance(2, 3);
        for (number, entry) in self.plain.iter().enumerate() {
            for copy in 0..self.copies[number].len() {
                let drawn = entry.over(|operand| match entry.kind {
                    Kind::Name => self.copy(copy, operand),
                    _ => self.operand(rng, doubled, copy, operand, mixed),
                });
                self.entries[usize::from(self.copies[number][copy])] = drawn;
            }
        }
    }

    /// A fixpoint with a second copy has names of its own there, and so has all
    /// that lies between.
    fn to_be_doubled(&self, rng: &mut Rng) -> Bits {
        let share = rng.between(1, 6);
        let mut doubled = Bits::default();
        for number in (0..self.plain.len()).rev() {
            let named = self.free[number].intersection(doubled);
            if named.first().is_some() || rng.chance(share, 6) {
                doubled.insert(number);
            }
        }
        doubled
    }

    /// That copy of an entry, or the one there is.
    fn copy(&self, copy: usize, plain: u16) -> u16 {
        let copies = &self.copies[usize::from(plain)];
        copies.get(copy).copied().unwrap_or(plain)
    }

    /// An operand from either copy, unless it has a name that only one may have.
    fn operand(&self, rng: &mut Rng, doubled: Bits, copy: usize, plain: u16, mixed: bool) -> u16 {
        let named = self.free[usize::from(plain)].intersection(doubled);
        match mixed && named.first().is_none() {
            true => rng.pick(&self.copies[usize::from(plain)]).unwrap_or(plain),
            false => self.copy(copy, plain),
        }
    }

    /// One more copy of an entry with free names, its fixpoints in their place.
    fn write_out(&mut self, rng: &mut Rng) {
        let open: Vec<usize> = (0..self.plain.len())
            .filter(|&number| self.plain[number].kind != Kind::Name)
            .filter(|&number| self.free[number].first().is_some())
            .collect();
        let Some(root) = rng.pick(&open) else {
            return;
        };
        let mut draft = self.clone();
        draft.written_out(rng, root);
        if draft.entries.len() <= ENTRIES {
            *self = draft;
        }
    }

    /// A closed entry of this formula: a copy, unless there is one.
    fn written_out(&mut self, rng: &mut Rng, plain: usize) -> u16 {
        self.copied(rng, plain, &mut vec![None; self.plain.len()])
    }

    /// An entry as part of a copy. The names of fixpoints that are not part of it
    /// are written out; `made` tells what is.
    fn copied(&mut self, rng: &mut Rng, plain: usize, made: &mut [Option<u16>]) -> u16 {
        let Entry { kind, a, b } = self.plain[plain];
        if let Some(number) = made[plain] {
            return number;
        }
        if self.free[plain].first().is_none() {
            return rng.pick(&self.copies[plain]).unwrap_or(plain as u16);
        }
        if kind == Kind::Name && made[usize::from(a)].is_none() {
            return self.written_out(rng, a.into());
        }
        let number = self.add(plain);
        made[plain] = Some(number as u16);
        if self.entries.len() <= ENTRIES {
            self.entries[number].a = self.copied(rng, a.into(), made);
        }
        if self.entries.len() <= ENTRIES && kind.map() == 3 {
            self.entries[number].b = self.copied(rng, b.into(), made);
        }
        number as u16
    }

    /// One entry that is not as it should be in a copy: an operand from the copy
    /// with the other names, two operands exchanged, another letter or action, or
    /// the name of another fixpoint. What would make the table ill-formed is left.
    fn mistake(&mut self, rng: &mut Rng) {
        let at = rng.below(self.entries.len());
        let before = self.entries[at];
        let Entry { kind, a, b } = before;
        self.entries[at] = match kind {
            Kind::False | Kind::True => return,
            Kind::Name => Entry::new(kind, self.other_fixpoint(rng, a), b),
            Kind::Letter | Kind::Negated => Entry::new(kind, a ^ 1, b),
            Kind::Or | Kind::And if rng.chance(1, 2) => Entry::new(kind, b, a),
            Kind::Diamond | Kind::Box if rng.chance(1, 2) => Entry::new(kind, a, b ^ 1),
            _ => Entry::new(kind, self.other_copy(rng, a), b),
        };
        let well_formed = self
            .order(rng)
            .is_some_and(|order| judge(&self.laid_out(&order).entries).is_ok());
        if !well_formed {
            self.entries[at] = before;
        }
    }

    fn other_fixpoint(&self, rng: &mut Rng, number: u16) -> u16 {
        let kind = self.entries[usize::from(number)].kind;
        let alike: Vec<u16> = (0..self.entries.len() as u16)
            .filter(|&other| self.entries[usize::from(other)].kind == kind)
            .collect();
        rng.pick(&alike).unwrap_or(number)
    }

    fn other_copy(&self, rng: &mut Rng, number: u16) -> u16 {
        let copies = self.copies.iter().find(|copies| copies.contains(&number));
        copies.and_then(|copies| rng.pick(copies)).unwrap_or(number)
    }

    /// The entries in an order in which operands come before what they are
    /// operands of, and each entry before the fixpoints of its free names.
    fn order(&self, rng: &mut Rng) -> Option<Vec<u16>> {
        let mut earlier = self.operands();
        for (number, free) in self.free_in_draft().iter().enumerate() {
            free.iter().for_each(|name| earlier[name].insert(number));
        }
        let mut placed = Bits::default();
        let mut order = Vec::with_capacity(earlier.len());
        while order.len() < earlier.len() {
            let ready: Vec<usize> = (0..earlier.len())
                .filter(|&number| !placed.contains(number) && earlier[number].is_subset(&placed))
                .collect();
            let next = rng.pick(&ready)?;
            placed.insert(next);
            order.push(next as u16);
        }
        Some(order)
    }

    fn operands(&self) -> Vec<Bits> {
        let operands = |entry: &Entry| match entry.kind {
            Kind::Or | Kind::And => Bits::one(entry.a.into()).union(Bits::one(entry.b.into())),
            Kind::Diamond | Kind::Box | Kind::Mu | Kind::Nu => Bits::one(entry.a.into()),
            _ => Bits::default(),
        };
        self.entries.iter().map(operands).collect()
    }

    /// Free names where operands stand anywhere: in rounds, until none is new.
    fn free_in_draft(&self) -> Vec<Bits> {
        let operands = self.operands();
        let mut free = vec![Bits::default(); self.entries.len()];
        loop {
            let before = free.clone();
            for (number, entry) in self.entries.iter().enumerate() {
                let below = operands[number].iter().map(|operand| free[operand]);
                free[number] = match entry.kind {
                    Kind::Name => Bits::one(entry.a.into()),
                    _ => below.fold(Bits::default(), Bits::union),
                };
                free[number].remove(number);
            }
            if free == before {
                return free;
            }
        }
    }

    fn laid_out(&self, order: &[u16]) -> Twins {
        let mut number = vec![0; self.entries.len()];
        for (at, &entry) in order.iter().enumerate() {
            number[usize::from(entry)] = at as u16;
        }
        let moved = |operand: u16| number[usize::from(operand)];
        let all_moved = |copies: &Vec<u16>| copies.iter().map(|&copy| moved(copy)).collect();
        let entries = order.iter().map(|&at| self.entries[usize::from(at)]);
        let entries = entries.map(|entry| entry.over(moved));
        Twins {
            entries: entries.collect(),
            copies: self.copies.iter().map(all_moved).collect(),
        }
    }
}
