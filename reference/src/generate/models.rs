//! Random models in both forms: dense and sparse, and of a few set shapes, one for
//! each action.

use super::actions;
use super::rng::Rng;
use crate::claim::{Entry, ACTIONS};
use crate::draft::{self, DraftState, File};

/// A model of up to 64 states.
pub fn model(rng: &mut Rng) -> File {
    let actions = actions::some(rng);
    let count = state_count(rng);
    laid_down(rng, count, &actions)
}

/// A model for a table, mostly with successors by the actions that it has.
pub fn model_for(rng: &mut Rng, entries: &[Entry]) -> File {
    let count = state_count(rng);
    model_of(rng, count, entries)
}

/// The same of so many states.
pub fn model_of(rng: &mut Rng, count: usize, entries: &[Entry]) -> File {
    let mut actions = actions::used(entries);
    if actions.is_empty() || rng.chance(1, 4) {
        actions.extend(actions::some(rng));
    }
    laid_down(rng, count, &actions)
}

/// One model in three has the form that knows action 0 alone.
fn laid_down(rng: &mut Rng, count: usize, actions: &[u16]) -> File {
    match rng.below(3) {
        0 => draft::model(&states(rng, count, &[0])),
        _ => draft::action_model(&states(rng, count, actions)),
    }
}

fn state_count(rng: &mut Rng) -> usize {
    match rng.below(8) {
        0 => 1,
        1 => 64,
        2 => 63,
        3 => rng.between(1, 64),
        _ => rng.between(2, 9),
    }
}

/// States with successors by these actions.
pub fn states(rng: &mut Rng, count: usize, actions: &[u16]) -> Vec<DraftState> {
    let letters = if rng.chance(1, 4) { u32::MAX } else { 7 };
    let mut shapes = [None; ACTIONS];
    for &action in actions {
        shapes[usize::from(action)] = Some(rng.below(7));
    }
    (0..count)
        .map(|state| DraftState {
            letters: rng.word() as u32 & letters,
            successors: shapes.map(|shape| match shape {
                Some(shape) => successors(rng, shape, state, count),
                None => Vec::new(),
            }),
        })
        .collect()
}

fn successors(rng: &mut Rng, shape: usize, state: usize, count: usize) -> Vec<u8> {
    let all = 0..count as u8;
    match shape {
        0 => Vec::new(),
        1 => all.collect(),
        2 => vec![((state + 1) % count) as u8],
        3 => all.skip(state + 1).take(1).collect(),
        4 => all.filter(|_| rng.chance(1, 2)).collect(),
        5 => all.filter(|_| rng.chance(2, count)).collect(),
        _ => all.skip(state + 1).filter(|_| rng.chance(1, 3)).collect(),
    }
}
