//! Random entry tables. Formulas are built operands first; a name is patched
//! with its fixpoint's number once that fixpoint is laid down.

use super::rng::Rng;
use crate::bits::Bits;
use crate::claim::{Entry, Kind};

/// How a table is grown.
#[derive(Clone, Copy)]
pub struct Shape {
    /// No operators are added beyond this many entries.
    pub size: usize,
    pub depth: usize,
    pub letters: u16,
    /// Now and then breaks scope, alternation or guardedness.
    pub wild: bool,
}

/// What may be named at a place. Fixpoints are known by the order in which
/// they were begun, for their entry numbers come later.
#[derive(Clone, Copy)]
pub struct Scope {
    kind: Kind,
    visible: Bits,
    guarded: Bits,
}

impl Scope {
    pub fn closed() -> Scope {
        Scope {
            kind: Kind::Nu,
            visible: Bits::default(),
            guarded: Bits::default(),
        }
    }

    fn under_modality(self) -> Scope {
        Scope {
            guarded: self.visible,
            ..self
        }
    }

    /// Alternation-freeness: a fixpoint sees names of its own kind only.
    fn under_fixpoint(self, kind: Kind, fixpoint: usize, wild: bool) -> Scope {
        let mut scope = if kind == self.kind || wild {
            self
        } else {
            Scope::closed()
        };
        scope.kind = kind;
        scope.visible.insert(fixpoint);
        scope
    }
}

/// What is known of an entry laid down.
#[derive(Clone, Copy)]
struct Known {
    free: Bits,
    bare: Bits,
    valid: bool,
}

pub struct Builder<'a> {
    rng: &'a mut Rng,
    shape: Shape,
    pub entries: Vec<Entry>,
    known: Vec<Known>,
    /// The name entries of each fixpoint begun.
    names: Vec<Vec<usize>>,
}

impl<'a> Builder<'a> {
    pub fn new(rng: &'a mut Rng, shape: Shape) -> Builder<'a> {
        Builder {
            rng,
            shape,
            entries: Vec::new(),
            known: Vec::new(),
            names: Vec::new(),
        }
    }

    /// Entries that are true at every state of every model.
    pub fn valid_entries(&self) -> Bits {
        let mut valid = Bits::default();
        for (number, known) in self.known.iter().enumerate() {
            if known.valid {
                valid.insert(number);
            }
        }
        valid
    }

    /// Any formula.
    pub fn formula(&mut self, scope: Scope, depth: usize) -> u16 {
        if let Some(entry) = self.reuse(scope, false) {
            return entry;
        }
        if depth == 0 || self.entries.len() >= self.shape.size {
            return self.leaf(scope);
        }
        match self.rng.below(12) {
            0 => self.leaf(scope),
            1..=2 => self.binary(Kind::Or, scope, depth),
            3..=4 => self.binary(Kind::And, scope, depth),
            5..=6 => self.modal(Kind::Diamond, scope, depth),
            7..=8 => self.modal(Kind::Box, scope, depth),
            9 => self.fixpoint(Kind::Mu, scope, depth, false),
            10 => self.fixpoint(Kind::Nu, scope, depth, false),
            _ => {
                let kind = scope.kind;
                self.fixpoint(kind, scope, depth, false)
            }
        }
    }

    /// A formula true at every state, names of nu in scope taken as true: true
    /// itself, a letter or its negation, conjunctions, boxes and greatest
    /// fixpoints of such, and disjunctions with one such.
    pub fn valid(&mut self, scope: Scope, depth: usize) -> u16 {
        if let Some(entry) = self.reuse(scope, true) {
            return entry;
        }
        if depth == 0 || self.entries.len() >= self.shape.size {
            return self.valid_leaf(scope);
        }
        let entry = match self.rng.below(12) {
            0 => return self.valid_leaf(scope),
            1 => {
                let (a, b) = (self.valid(scope, depth - 1), self.formula(scope, depth - 1));
                self.add_binary(Kind::Or, a, b)
            }
            2 => {
                let (a, b) = (self.formula(scope, depth - 1), self.valid(scope, depth - 1));
                self.add_binary(Kind::Or, a, b)
            }
            3..=5 => {
                let (a, b) = (self.valid(scope, depth - 1), self.valid(scope, depth - 1));
                self.add_binary(Kind::And, a, b)
            }
            6..=8 => {
                let a = self.valid(scope.under_modality(), depth - 1);
                self.add_modal(Kind::Box, a)
            }
            9..=10 => self.fixpoint(Kind::Nu, scope, depth, true),
            _ => self.fixpoint(Kind::Mu, scope, depth, true),
        };
        self.mark_valid(entry)
    }

    fn valid_leaf(&mut self, scope: Scope) -> u16 {
        let names = scope.visible.intersection(scope.guarded);
        if scope.kind == Kind::Nu && names.first().is_some() && self.rng.chance(5, 6) {
            return self.name(names);
        }
        let entry = if self.rng.chance(1, 2) {
            self.add(
                Entry::new(Kind::True, 0, 0),
                Bits::default(),
                Bits::default(),
            )
        } else {
            let letter = self.rng.below(self.shape.letters.into()) as u16;
            let mut pair = [Kind::Letter, Kind::Negated];
            self.rng.shuffle(&mut pair);
            let [a, b] = pair.map(|kind| self.literal(kind, letter));
            self.add_binary(Kind::Or, a, b)
        };
        self.mark_valid(entry)
    }

    fn mark_valid(&mut self, entry: u16) -> u16 {
        self.known[usize::from(entry)].valid = true;
        entry
    }

    /// Now and then an operand that is there already: entries form a graph.
    fn reuse(&mut self, scope: Scope, valid: bool) -> Option<u16> {
        if self.entries.is_empty() || !self.rng.chance(1, 6) {
            return None;
        }
        let at = self.rng.below(self.entries.len());
        let known = self.known[at];
        let fits = known.free.is_subset(&scope.visible) && known.bare.is_subset(&scope.guarded);
        ((fits || self.breaks()) && (known.valid || !valid)).then_some(at as u16)
    }

    fn breaks(&mut self) -> bool {
        self.shape.wild && self.rng.chance(1, 4)
    }

    fn leaf(&mut self, scope: Scope) -> u16 {
        let names = if self.breaks() {
            scope.visible
        } else {
            scope.visible.intersection(scope.guarded)
        };
        if names.first().is_some() && self.rng.chance(3, 5) {
            return self.name(names);
        }
        match self.rng.below(10) {
            0 => self.add(
                Entry::new(Kind::False, 0, 0),
                Bits::default(),
                Bits::default(),
            ),
            1 => self.add(
                Entry::new(Kind::True, 0, 0),
                Bits::default(),
                Bits::default(),
            ),
            n => {
                let kind = if n % 2 == 0 {
                    Kind::Letter
                } else {
                    Kind::Negated
                };
                let letter = self.rng.below(self.shape.letters.into()) as u16;
                self.literal(kind, letter)
            }
        }
    }

    fn literal(&mut self, kind: Kind, letter: u16) -> u16 {
        self.add(
            Entry::new(kind, letter, 0),
            Bits::default(),
            Bits::default(),
        )
    }

    fn name(&mut self, fixpoints: Bits) -> u16 {
        let open: Vec<usize> = fixpoints.iter().collect();
        let fixpoint = self.rng.pick(&open).unwrap_or_default();
        let entry = self.add(
            Entry::new(Kind::Name, 0, 0),
            Bits::one(fixpoint),
            Bits::one(fixpoint),
        );
        self.names[fixpoint].push(entry.into());
        entry
    }

    fn binary(&mut self, kind: Kind, scope: Scope, depth: usize) -> u16 {
        let a = self.formula(scope, depth - 1);
        let b = self.formula(scope, depth - 1);
        self.add_binary(kind, a, b)
    }

    fn add_binary(&mut self, kind: Kind, a: u16, b: u16) -> u16 {
        let (x, y) = (self.known[usize::from(a)], self.known[usize::from(b)]);
        self.add(
            Entry::new(kind, a, b),
            x.free.union(y.free),
            x.bare.union(y.bare),
        )
    }

    fn modal(&mut self, kind: Kind, scope: Scope, depth: usize) -> u16 {
        let a = self.formula(scope.under_modality(), depth - 1);
        self.add_modal(kind, a)
    }

    fn add_modal(&mut self, kind: Kind, a: u16) -> u16 {
        let free = self.known[usize::from(a)].free;
        self.add(Entry::new(kind, a, 0), free, Bits::default())
    }

    fn fixpoint(&mut self, kind: Kind, scope: Scope, depth: usize, valid: bool) -> u16 {
        let fixpoint = self.names.len();
        if fixpoint >= 256 {
            return self.leaf(scope);
        }
        self.names.push(Vec::new());
        let wild = self.shape.wild && self.rng.chance(1, 2);
        let scope = scope.under_fixpoint(kind, fixpoint, wild);
        let body = if valid {
            self.valid(scope, depth - 1)
        } else {
            self.formula(scope, depth - 1)
        };
        let mut known = self.known[usize::from(body)];
        known.free.remove(fixpoint);
        known.bare.remove(fixpoint);
        let entry = self.add(Entry::new(kind, body, 0), known.free, known.bare);
        for &name in &self.names[fixpoint] {
            self.entries[name].a = entry;
        }
        entry
    }

    fn add(&mut self, entry: Entry, free: Bits, bare: Bits) -> u16 {
        self.entries.push(entry);
        self.known.push(Known {
            free,
            bare,
            valid: false,
        });
        (self.entries.len() - 1) as u16
    }
}
