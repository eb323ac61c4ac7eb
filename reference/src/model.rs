//! The model file (refusals 60 to 64): states, letters, and successors by action.

use crate::bytes::{Cursor, Fault, ACTION_MODEL, MODEL};
use crate::claim::ACTIONS;
use crate::refusal::Refusal;

#[derive(Clone, Debug, PartialEq, Eq)]
pub struct Model {
    states: usize,
    /// Tables of a row for each state: row s has bit t for each successor t of
    /// state s. There is one for each action that has successors, of those that
    /// were asked for.
    rows: Vec<u64>,
    /// Which of the tables is that of each action.
    tables: [Option<u8>; ACTIONS],
    /// Word p has bit s where state s has letter p.
    pub valuation: [u64; 32],
}

impl Model {
    pub fn read(bytes: &[u8]) -> Result<Model, Refusal> {
        Model::read_for(bytes, u16::MAX)
    }

    /// The same, with the successors by these actions alone: bit n for action n.
    pub fn read_for(bytes: &[u8], wanted: u16) -> Result<Model, Refusal> {
        let by_action = bytes.starts_with(&ACTION_MODEL.letters);
        let opening = if by_action { &ACTION_MODEL } else { &MODEL };
        let mut cursor = Cursor::open(bytes, opening)?;
        let states = cursor.small_count(1..=64)?;
        let mut model = Model {
            states,
            rows: Vec::with_capacity(states),
            tables: [None; ACTIONS],
            valuation: [0; 32],
        };
        for state in 0..states {
            model.read_state(&mut cursor, state, by_action, wanted)?;
        }
        cursor.finish()?;
        Ok(model)
    }

    fn read_state(
        &mut self,
        cursor: &mut Cursor,
        state: usize,
        by_action: bool,
        wanted: u16,
    ) -> Result<(), Refusal> {
        let place = cursor.offset();
        let map = cursor.byte()?;
        if map > 3 {
            return Err(cursor.refusal(Fault::Map, place));
        }
        if map & 1 != 0 {
            let mask = cursor.four()?;
            if mask == 0 {
                return Err(cursor.refusal(Fault::Map, place));
            }
            for (letter, word) in self.valuation.iter_mut().enumerate() {
                *word |= u64::from(mask >> letter & 1) << state;
            }
        }
        if map & 2 != 0 {
            let mut actions = read_actions(cursor, by_action, place)?;
            while actions != 0 {
                let action = actions.trailing_zeros() as usize;
                actions &= actions - 1;
                let row = read_successors(cursor, self.states, place)?;
                if wanted >> action & 1 == 1 {
                    self.put(action, state, row);
                }
            }
        }
        Ok(())
    }

    fn put(&mut self, action: usize, state: usize, row: u64) {
        let table = *self.tables[action].get_or_insert_with(|| {
            let end = self.rows.len();
            self.rows.resize(end + self.states, 0);
            (end / self.states) as u8
        });
        self.rows[usize::from(table) * self.states + state] = row;
    }

    pub fn states(&self) -> usize {
        self.states
    }

    /// The successors of a state by an action, bit t for state t.
    pub fn successors(&self, action: u16, state: usize) -> u64 {
        let rows = self.tables()[usize::from(action)];
        rows.get(state).copied().unwrap_or(0)
    }

    /// The rows of each action; none where it has no successors.
    pub fn tables(&self) -> [&[u64]; ACTIONS] {
        self.tables.map(|table| match table {
            Some(table) => &self.rows[usize::from(table) * self.states..][..self.states],
            None => &[],
        })
    }

    /// The set of all states; bits past the last state are zero.
    pub fn all(&self) -> u64 {
        match self.states {
            64.. => u64::MAX,
            states => (1 << states) - 1,
        }
    }
}

/// "a two-byte map of actions (bit n for action n) in place of the list", or the
/// one list of action 0. "an empty map of actions, like a zero count, gets 63 at
/// the state's bit map"
fn read_actions(cursor: &mut Cursor, by_action: bool, place: usize) -> Result<u16, Refusal> {
    let actions = if by_action { cursor.two()? } else { 1 };
    if actions == 0 {
        return Err(cursor.refusal(Fault::Map, place));
    }
    Ok(actions)
}

/// A count, and a row of so many successors, "strictly rising" and below the state
/// count.
fn read_successors(cursor: &mut Cursor, states: usize, place: usize) -> Result<u64, Refusal> {
    let count = usize::from(cursor.byte()?);
    if count == 0 {
        return Err(cursor.refusal(Fault::Map, place));
    }
    let start = cursor.offset();
    let list = cursor.up_to(count);
    let mut row: u64 = 0;
    for (at, &successor) in list.iter().enumerate() {
        if usize::from(successor) >= states || row >> successor != 0 {
            return Err(cursor.refusal(Fault::Member, start + at));
        }
        row |= 1 << successor;
    }
    if list.len() < count {
        return Err(cursor.ends());
    }
    Ok(row)
}
