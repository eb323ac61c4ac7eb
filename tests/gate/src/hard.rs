//! Claims and models on which fixpoints need many rounds, one after another: more
//! than there are states, for an evaluator that settles several fixpoints at
//! once, and most of the time of one that goes over a whole table in each round.

use reference::draft::{self, DraftState};
use reference::{Entry, Kind};

/// A claim on the topmost entry.
pub fn claim(entries: &[Entry]) -> Vec<u8> {
    let last = entries.len() as u16 - 1;
    draft::claim(entries, &[last]).bytes
}

/// A model by the letters of each state and by which state leads to which.
pub fn model(
    states: usize,
    letters: impl Fn(usize) -> u32,
    leads: impl Fn(usize, usize) -> bool,
) -> Vec<u8> {
    let state = |state| {
        DraftState::new(
            letters(state),
            successors(states, |next| leads(state, next)),
        )
    };
    draft::model(&(0..states).map(state).collect::<Vec<_>>()).bytes
}

/// The same by action.
pub fn action_model(
    states: usize,
    letters: impl Fn(usize) -> u32,
    leads: impl Fn(usize, usize, usize) -> bool,
) -> Vec<u8> {
    let list = |action, state| successors(states, |next| leads(action, state, next));
    let state = |state: usize| DraftState {
        letters: letters(state),
        successors: std::array::from_fn(|action| list(action, state)),
    };
    draft::action_model(&(0..states).map(state).collect::<Vec<_>>()).bytes
}

fn successors(states: usize, leads: impl Fn(usize) -> bool) -> Vec<u8> {
    let found = (0..states).filter(|&next| leads(next));
    found.map(|next| next as u8).collect()
}

/// A table whose names are laid down before their fixpoints.
#[derive(Default)]
struct Table(Vec<Entry>);

impl Table {
    fn put(&mut self, kind: Kind, a: u16, b: u16) -> u16 {
        self.0.push(Entry::new(kind, a, b));
        self.0.len() as u16 - 1
    }

    /// As many names, each still without its fixpoint.
    fn names(&mut self, count: u16) -> Vec<u16> {
        (0..count).map(|_| self.put(Kind::Name, 0, 0)).collect()
    }

    /// A fixpoint that a name was laid down for.
    fn bind(&mut self, kind: Kind, body: u16, name: u16) -> u16 {
        let fixpoint = self.put(kind, body, 0);
        self.0[usize::from(name)].a = fixpoint;
        fixpoint
    }
}

/// Fixpoints that start one after the other on a path: the first spreads from
/// one end to the other, and each further one, mu X. (end and the one before) or
/// diamond X, starts at that end once it has arrived there, back the other way.
/// None lies in another's body, so all but the first have a free name. Diamonds
/// over a name, `padding` of them, are work in each round. For nu all is dual.
pub fn relay(kind: Kind, fixpoints: u16, padding: u16) -> Vec<Entry> {
    let (letter, meet, join, modality) = match kind {
        Kind::Nu => (Kind::Negated, Kind::Or, Kind::And, Kind::Box),
        _ => (Kind::Letter, Kind::And, Kind::Or, Kind::Diamond),
    };
    let mut table = Table::default();
    let ends = [table.put(letter, 0, 0), table.put(letter, 1, 0)];
    let names = table.names(fixpoints);
    for _ in 0..padding {
        let below = table.0.len() as u16 - 1;
        table.put(modality, below, 0);
    }
    // The last to start lies lowest: the name of the one before lies below it.
    for (number, &name) in names.iter().enumerate().rev() {
        let end = ends[number % 2];
        let start = match number {
            0 => end,
            _ => table.put(meet, end, names[number - 1]),
        };
        let spread = table.put(modality, name, 0);
        let body = table.put(join, start, spread);
        table.bind(kind, body, name);
    }
    table.0
}

/// The path for `relay`: letter 0 at one end, letter 1 at the other, and each
/// state with its neighbours as successors.
pub fn path(states: usize) -> Vec<u8> {
    let ends = |state| u32::from(state == 0) | u32::from(state + 1 == states) << 1;
    model(states, ends, |state, next| state.abs_diff(next) == 1)
}

/// mu in mu, `depth` of them, and through all of them one state's turn after the
/// other: down by names, a round for each level, and up again by boxes, which
/// takes no round. Level i is mu X. (the name of level i-1) or box (level i+1);
/// at the bottom a turn changes from the state that it went down on (letter 1) to
/// the one that it comes up on (letter 2), at the top to the next state.
pub fn snake(depth: u16) -> Vec<Entry> {
    let mut table = Table::default();
    let [first, down, up] = [0, 1, 2].map(|letter| table.put(Kind::Letter, letter, 0));
    let names = table.names(depth);
    let mut level = 0;
    for (number, &name) in names.iter().enumerate().rev() {
        let bottom = number + 1 == names.len();
        let inner = match bottom {
            true => turn(&mut table, up, name),
            false => table.put(Kind::Box, level, 0),
        };
        let body = match number {
            0 => {
                let next = turn(&mut table, down, name);
                let start = table.put(Kind::Or, first, next);
                table.put(Kind::Or, start, inner)
            }
            _ => table.put(Kind::Or, names[number - 1], inner),
        };
        level = table.bind(Kind::Mu, body, name);
    }
    table.0
}

/// Where the letter is and a successor has the name.
fn turn(table: &mut Table, letter: u16, name: u16) -> u16 {
    let step = table.put(Kind::Diamond, name, 0);
    table.put(Kind::And, letter, step)
}

/// The model for `snake`: 31 turns of two states each, and a last state at which
/// nothing is ever true, so that no box is true before its time.
pub fn turns() -> Vec<u8> {
    const LAST: usize = 62;
    let letters = |state| match state {
        LAST => 0,
        0 => 1 | 2,
        _ => [2, 4][state % 2],
    };
    model(LAST + 1, letters, |state, next| match state {
        LAST => next == LAST,
        _ if state % 2 == 0 => next == LAST || next + 1 == state,
        _ => next == state || next + 1 == state,
    })
}

/// Closed fixpoints beside each other, mu X. letter 0 or diamond X: on a path each
/// of them takes as many rounds as there are states.
pub fn apart(fixpoints: u16) -> Vec<Entry> {
    let mut table = Table::default();
    let letter = table.put(Kind::Letter, 0, 0);
    for _ in 0..fixpoints {
        let name = table.put(Kind::Name, 0, 0);
        let spread = table.put(Kind::Diamond, name, 0);
        let body = table.put(Kind::Or, letter, spread);
        table.bind(Kind::Mu, body, name);
    }
    table.0
}

/// Fixpoints of one kind in one another, each with its own name and that of one
/// further out under a modality, and beside them a closed fixpoint of the other
/// kind: mu X. diamond (level below or X) or (closed and box (name further out)),
/// where the closed one is nu Y. letter and box Y. For nu all is dual.
pub fn mixed(kind: Kind, depth: u16) -> Vec<Entry> {
    let (other, meet, join, modality, guard) = match kind {
        Kind::Nu => (Kind::Mu, Kind::Or, Kind::And, Kind::Box, Kind::Diamond),
        _ => (Kind::Nu, Kind::And, Kind::Or, Kind::Diamond, Kind::Box),
    };
    let mut table = Table::default();
    let names = table.names(depth);
    let mut level = names[names.len() - 1];
    for (number, &name) in names.iter().enumerate().rev() {
        let letter = table.put(Kind::Letter, number as u16 % 4, 0);
        let own = table.put(Kind::Name, 0, 0);
        let step = table.put(guard, own, 0);
        let body = table.put(meet, letter, step);
        let closed = table.bind(other, body, own);
        let outer = table.put(guard, names[number / 2], 0);
        let beside = table.put(meet, closed, outer);
        let inner = table.put(join, level, name);
        let spread = table.put(modality, inner, 0);
        let body = table.put(join, spread, beside);
        level = table.bind(kind, body, name);
    }
    table.0
}
