//! The meaning of every entry in a model.
//!
//! Each entry is one equation over words: an operator applied to its operands'
//! words, a fixpoint equal to its body, a name equal to its fixpoint. Entries
//! that depend on each other form a block. By alternation-freeness the
//! fixpoints of a block are of one kind, and nested fixpoints of one kind equal
//! the simultaneous one, so a block of mu is solved upwards from no state and a
//! block of nu downwards from all states. Within a block a word changes at most
//! 64 times and only its users are computed again: the whole is polynomial.

use crate::bits::Bits;
use crate::claim::{Entry, Kind, ACTIONS};
use crate::model::Model;

/// One word per entry, each entry by itself. The entries have passed 20 to 23.
pub fn meanings(entries: &[Entry], model: &Model) -> Vec<u64> {
    let mut solver = Solver {
        entries,
        model,
        all: model.all(),
        tables: model.tables(),
        users: users(entries),
        words: vec![0; entries.len()],
    };
    for block in Blocks::of(entries) {
        solver.solve(&block);
    }
    solver.words
}

/// The actions of boxes and diamonds, bit n for action n.
pub fn actions(entries: &[Entry]) -> u16 {
    let modal = entries.iter().filter(|entry| entry.kind.is_modal());
    modal.fold(0, |actions, entry| actions | 1 << entry.b)
}

/// What an entry's word is computed from.
fn sources(entry: &Entry) -> impl Iterator<Item = usize> {
    let count = match entry.kind {
        Kind::False | Kind::True | Kind::Letter | Kind::Negated => 0,
        Kind::Or | Kind::And => 2,
        _ => 1,
    };
    [entry.a.into(), entry.b.into()].into_iter().take(count)
}

fn users(entries: &[Entry]) -> Vec<Bits> {
    let mut users = vec![Bits::default(); entries.len()];
    for (number, entry) in entries.iter().enumerate() {
        for source in sources(entry) {
            users[source].insert(number);
        }
    }
    users
}

struct Solver<'a> {
    entries: &'a [Entry],
    model: &'a Model,
    all: u64,
    /// The rows of each action.
    tables: [&'a [u64]; ACTIONS],
    users: Vec<Bits>,
    words: Vec<u64>,
}

impl Solver<'_> {
    fn solve(&mut self, block: &[usize]) {
        if let &[entry] = block {
            self.words[entry] = self.compute(entry);
            return;
        }
        let nu = block.iter().any(|&e| self.entries[e].kind == Kind::Nu);
        let start = if nu { self.all } else { 0 };
        let mut members = Bits::default();
        for &entry in block {
            self.words[entry] = start;
            members.insert(entry);
        }
        let mut waiting = members;
        while let Some(entry) = waiting.first() {
            waiting.remove(entry);
            let word = self.compute(entry);
            if word != self.words[entry] {
                self.words[entry] = word;
                waiting = waiting.union(self.users[entry].intersection(members));
            }
        }
    }

    fn compute(&self, number: usize) -> u64 {
        let Entry { kind, a, b } = self.entries[number];
        let word = |operand: u16| self.words[usize::from(operand)];
        let letter = |letter: u16| self.model.valuation[usize::from(letter)];
        match kind {
            Kind::False => 0,
            Kind::True => self.all,
            Kind::Letter => letter(a),
            Kind::Negated => self.all & !letter(a),
            Kind::Or => word(a) | word(b),
            Kind::And => word(a) & word(b),
            Kind::Diamond => self.diamond(b, word(a)),
            // "a box is true where no successor exists"
            Kind::Box => self.all & !self.diamond(b, !word(a)),
            Kind::Mu | Kind::Nu | Kind::Name => word(a),
        }
    }

    /// The states with some successor by an action in `set`.
    fn diamond(&self, action: u16, set: u64) -> u64 {
        let rows = self.tables[usize::from(action)].iter().enumerate();
        rows.fold(0, |word, (state, row)| {
            word | u64::from(row & set != 0) << state
        })
    }
}

/// Tarjan's strongly connected components: every block comes after the blocks
/// it depends on. An entry never depends on itself directly, for operands lie
/// below it and a name's fixpoint above.
struct Blocks<'a> {
    entries: &'a [Entry],
    /// When each entry was first met, counted from 1; 0 before.
    met: Vec<usize>,
    /// The earliest open entry known to be reached from each.
    low: Vec<usize>,
    open: Vec<usize>,
    is_open: Bits,
    count: usize,
    found: Vec<Vec<usize>>,
}

impl Blocks<'_> {
    fn of(entries: &[Entry]) -> Vec<Vec<usize>> {
        let mut blocks = Blocks {
            entries,
            met: vec![0; entries.len()],
            low: vec![0; entries.len()],
            open: Vec::new(),
            is_open: Bits::default(),
            count: 0,
            found: Vec::new(),
        };
        for entry in 0..entries.len() {
            if blocks.met[entry] == 0 {
                blocks.visit(entry);
            }
        }
        blocks.found
    }

    /// At most as deep as there are entries.
    fn visit(&mut self, entry: usize) {
        self.count += 1;
        self.met[entry] = self.count;
        self.low[entry] = self.count;
        self.open.push(entry);
        self.is_open.insert(entry);
        for source in sources(&self.entries[entry]) {
            if self.met[source] == 0 {
                self.visit(source);
                self.low[entry] = self.low[entry].min(self.low[source]);
            } else if self.is_open.contains(source) {
                self.low[entry] = self.low[entry].min(self.met[source]);
            }
        }
        if self.low[entry] == self.met[entry] {
            self.close(entry);
        }
    }

    fn close(&mut self, head: usize) {
        let mut block = Vec::new();
        while let Some(entry) = self.open.pop() {
            self.is_open.remove(entry);
            block.push(entry);
            if entry == head {
                break;
            }
        }
        self.found.push(block);
    }
}
