//! Lays down claim, proof and model files without judging them, and remembers
//! where the fields lie, so that the generator can damage them on purpose.

use crate::bytes::{Opening, ACTION_MODEL, MODEL};
use crate::claim::{Entry, ACTIONS};
use crate::goals::Form;
use crate::proof::Rule;

#[derive(Clone, Copy, Debug, PartialEq, Eq)]
pub enum Mark {
    Map,
    /// A state's map of actions.
    Actions,
    /// A claim's goal count.
    Goals,
    Count,
    Field,
    Member,
    /// A root number.
    Root,
}

/// A file's bytes, with the offset and width of every field.
#[derive(Clone, Debug, Default)]
pub struct File {
    pub bytes: Vec<u8>,
    pub marks: Vec<(Mark, usize, usize)>,
}

impl File {
    fn new(opening: &Opening) -> File {
        File {
            bytes: opening.letters.to_vec(),
            marks: Vec::new(),
        }
    }

    pub fn has(&self, mark: Mark) -> bool {
        self.marks.iter().any(|&(other, ..)| other == mark)
    }

    fn put(&mut self, mark: Mark, field: &[u8]) {
        self.marks.push((mark, self.bytes.len(), field.len()));
        self.bytes.extend_from_slice(field);
    }

    fn put_map(&mut self, map: u8, kind: u8) {
        self.put(Mark::Map, &[map]);
        self.bytes.push(kind);
    }

    fn put_two(&mut self, mark: Mark, field: usize) {
        self.put(mark, &(field as u16).to_le_bytes());
    }

    fn put_list(&mut self, mark: Mark, list: &[u16]) {
        for &number in list {
            self.put_two(mark, number.into());
        }
    }

    /// A count and a list for each action that has successors.
    fn put_successors(&mut self, lists: &[Vec<u8>]) {
        for list in lists.iter().filter(|list| !list.is_empty()) {
            self.put(Mark::Count, &[list.len() as u8]);
            for &successor in list {
                self.put(Mark::Member, &[successor]);
            }
        }
    }
}

/// The claim opened by `CLM1`.
pub fn claim(entries: &[Entry], members: &[u16]) -> File {
    claim_written_out(entries, members, |_| false)
}

/// The same with "a 0 written out in B" of these boxes and diamonds.
pub fn claim_written_out(
    entries: &[Entry],
    members: &[u16],
    written_out: impl Fn(usize) -> bool,
) -> File {
    let mut file = File::new(Form::One.claim());
    put_entries(&mut file, entries, written_out);
    put_goal(&mut file, members);
    file
}

/// The claim opened by `CLM2`.
pub fn goal_claim(entries: &[Entry], goals: &[Vec<u16>]) -> File {
    goal_claim_written_out(entries, goals, |_| false)
}

/// The same with zeros written out.
pub fn goal_claim_written_out(
    entries: &[Entry],
    goals: &[Vec<u16>],
    written_out: impl Fn(usize) -> bool,
) -> File {
    let mut file = File::new(Form::Several.claim());
    put_entries(&mut file, entries, written_out);
    file.put_two(Mark::Goals, goals.len());
    for members in goals {
        put_goal(&mut file, members);
    }
    file
}

fn put_entries(file: &mut File, entries: &[Entry], written_out: impl Fn(usize) -> bool) {
    file.put_two(Mark::Count, entries.len());
    for (number, entry) in entries.iter().enumerate() {
        let map = match entry.kind.is_modal() && written_out(number) {
            true => 3,
            false => entry.map(),
        };
        file.put_map(map, entry.kind as u8);
        for field in [entry.a, entry.b]
            .into_iter()
            .take(map.count_ones() as usize)
        {
            file.put_two(Mark::Field, field.into());
        }
    }
}

fn put_goal(file: &mut File, members: &[u16]) {
    file.put_two(Mark::Count, members.len());
    file.put_list(Mark::Member, members);
}

/// A node before it is laid down; fields its rule lacks are ignored.
#[derive(Clone, Debug, PartialEq, Eq)]
pub struct DraftNode {
    pub rule: Rule,
    pub principal: u16,
    pub first: u16,
    pub second: u16,
    pub back: u16,
    pub codes: Vec<u16>,
}

impl DraftNode {
    pub fn new(rule: Rule, principal: u16, codes: Vec<u16>) -> DraftNode {
        DraftNode {
            rule,
            principal,
            first: 0,
            second: 0,
            back: 0,
            codes,
        }
    }
}

/// The proof opened by `PRF1`.
pub fn proof(nodes: &[DraftNode]) -> File {
    let mut file = File::new(Form::One.proof());
    file.put_two(Mark::Count, nodes.len());
    put_nodes(&mut file, nodes);
    file
}

/// The proof opened by `PRF2`.
pub fn goal_proof(roots: &[u16], nodes: &[DraftNode]) -> File {
    let mut file = File::new(Form::Several.proof());
    file.put_two(Mark::Count, nodes.len());
    file.put_list(Mark::Root, roots);
    put_nodes(&mut file, nodes);
    file
}

fn put_nodes(file: &mut File, nodes: &[DraftNode]) {
    for node in nodes {
        let low = node.rule.low_bits();
        let map = low | u8::from(!node.codes.is_empty()) << 4;
        file.put_map(map, node.rule as u8);
        let fields = [node.principal, node.first, node.second, node.back];
        for (bit, field) in fields.into_iter().enumerate() {
            if low >> bit & 1 == 1 {
                file.put_two(Mark::Field, field.into());
            }
        }
        if !node.codes.is_empty() {
            file.put(Mark::Count, &[node.codes.len() as u8]);
            file.put_list(Mark::Member, &node.codes);
        }
    }
}

/// A state before it is laid down; an empty list or mask has no field.
#[derive(Clone, Debug, Default, PartialEq, Eq)]
pub struct DraftState {
    pub letters: u32,
    /// The successors by each action.
    pub successors: [Vec<u8>; ACTIONS],
}

impl DraftState {
    /// With successors by action 0 alone.
    pub fn new(letters: u32, successors: Vec<u8>) -> DraftState {
        let mut state = DraftState {
            letters,
            ..DraftState::default()
        };
        state.successors[0] = successors;
        state
    }

    /// "bit n for action n"
    fn actions(&self) -> u16 {
        let lists = self.successors.iter().enumerate();
        lists.fold(0, |map, (action, list)| {
            map | u16::from(!list.is_empty()) << action
        })
    }
}

/// The model opened by `MDL1`, with the successors by action 0.
pub fn model(states: &[DraftState]) -> File {
    model_of(states, &MODEL, |file, state| {
        file.put_successors(&state.successors[..1])
    })
}

/// The model opened by `MDL2`, with all of them.
pub fn action_model(states: &[DraftState]) -> File {
    model_of(states, &ACTION_MODEL, |file, state| match state.actions() {
        0 => {}
        actions => {
            file.put_two(Mark::Actions, actions.into());
            file.put_successors(&state.successors);
        }
    })
}

/// What follows a state's letters is put down by the function, if anything.
fn model_of(
    states: &[DraftState],
    opening: &Opening,
    put_successors: impl Fn(&mut File, &DraftState),
) -> File {
    let mut file = File::new(opening);
    file.put(Mark::Count, &[states.len() as u8]);
    for state in states {
        let map = file.bytes.len();
        file.put(Mark::Map, &[u8::from(state.letters != 0)]);
        if state.letters != 0 {
            file.put(Mark::Field, &state.letters.to_le_bytes());
        }
        let before = file.bytes.len();
        put_successors(&mut file, state);
        file.bytes[map] |= u8::from(file.bytes.len() > before) << 1;
    }
    file
}
