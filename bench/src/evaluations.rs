//! The claims and models that are evaluated.

use crate::growth::Family;
use gate_tests::hard;
use reference::generate::{extremes, Rng};
use reference::{draft, Entry, Kind, ACTIONS};

const STATES: usize = 64;

pub struct Evaluation {
    pub name: String,
    pub claim: Vec<u8>,
    pub model: Vec<u8>,
}

impl Evaluation {
    fn new(name: impl Into<String>, entries: &[Entry], model: &[u8]) -> Evaluation {
        Evaluation {
            name: name.into(),
            claim: hard::claim(entries),
            model: model.to_vec(),
        }
    }
}

pub fn all() -> Vec<Evaluation> {
    let (random, complete, sparse) = (graph(3), graph(STATES), graph(1));
    let (path, descent, turns) = (hard::path(STATES), descent(), hard::turns());
    let tower = extremes::tower(Kind::Or, 250);
    let nested = extremes::funnel(Kind::Mu, Kind::Box, Kind::And, 80);
    let beside = extremes::side_by_side(120);
    let (mixed_mu, mixed_nu) = (hard::mixed(Kind::Mu, 21), hard::mixed(Kind::Nu, 21));
    let in_a_row = hard::relay(Kind::Mu, 50, 0);
    let padded = hard::relay(Kind::Nu, 40, 50);
    let one = typical_by(&[5]);
    let all = typical_by(&ALL_ACTIONS);
    vec![
        typical("typical claim, random graph", &random),
        typical("typical claim, complete graph", &complete),
        by("typical, 1 action, random graph", &one, &graphs(3, &[5])),
        by(
            "typical, 1 action, complete graph",
            &one,
            &graphs(STATES, &[5]),
        ),
        by(
            "typical, 16 actions, random graphs",
            &all,
            &graphs(3, &ALL_ACTIONS),
        ),
        by(
            "typical, 16 actions, complete",
            &all,
            &graphs(STATES, &ALL_ACTIONS),
        ),
        by(
            "typical, 1 of 16 actions, complete",
            &one,
            &graphs(STATES, &ALL_ACTIONS),
        ),
        Evaluation::new("or tower of 250, random graph", &tower, &random),
        Evaluation::new("80 nested mu, random graph", &nested, &random),
        Evaluation::new("80 nested mu, state by state", &nested, &descent),
        Evaluation::new("120 side by side, random graph", &beside, &random),
        Evaluation::new("63 apart, state by state", &hard::apart(63), &path),
        Evaluation::new("21 mixed mu, sparse graph", &mixed_mu, &sparse),
        Evaluation::new("21 mixed nu, state by state", &mixed_nu, &path),
        Evaluation::new("60 nested mu in turns", &hard::snake(60), &turns),
        Evaluation::new("50 mu in a row", &in_a_row, &path),
        Evaluation::new("40 nu in a row, 50 boxes beside", &padded, &path),
    ]
}

/// Families by how many fixpoints, up to as many as a table has room for. The first
/// needs hardly more rounds where it is deeper; the others need some more for every
/// fixpoint.
pub fn growing() -> Vec<Family<Evaluation>> {
    let family = |name, counts: [u16; 4], entries: fn(u16) -> Vec<Entry>, model: Vec<u8>| {
        Family::new(name, &counts, |count| {
            let case = Evaluation::new(name, &entries(count), &model);
            (usize::from(count), case)
        })
    };
    let nested = |depth| extremes::funnel(Kind::Mu, Kind::Box, Kind::And, depth);
    let in_a_row = |count| hard::relay(Kind::Mu, count, 0);
    vec![
        family("nested mu", [10, 20, 40, 80], nested, descent()),
        family(
            "nested mu in turns",
            [10, 20, 40, 60],
            hard::snake,
            hard::turns(),
        ),
        family(
            "mu in a row",
            [10, 20, 40, 50],
            in_a_row,
            hard::path(STATES),
        ),
    ]
}

/// What a mount's claim is like: whatever is asked for (letter 0) is reached on
/// every way (letter 1), rest (letter 2) can be reached, and the stop (letter 3)
/// is never met.
pub const TYPICAL: [(Kind, u16, u16); 24] = [
    (Kind::Name, 13, 0),
    (Kind::Name, 9, 0),
    (Kind::Negated, 0, 0),
    (Kind::Letter, 1, 0),
    (Kind::True, 0, 0),
    (Kind::Diamond, 4, 0),
    (Kind::Box, 1, 0),
    (Kind::And, 5, 6),
    (Kind::Or, 3, 7),
    (Kind::Mu, 8, 0),
    (Kind::Or, 2, 9),
    (Kind::Box, 0, 0),
    (Kind::And, 10, 11),
    (Kind::Nu, 12, 0),
    (Kind::Name, 18, 0),
    (Kind::Letter, 2, 0),
    (Kind::Diamond, 14, 0),
    (Kind::Or, 15, 16),
    (Kind::Mu, 17, 0),
    (Kind::Name, 23, 0),
    (Kind::Negated, 3, 0),
    (Kind::Box, 19, 0),
    (Kind::And, 20, 21),
    (Kind::Nu, 22, 0),
];

pub const TYPICAL_MEMBERS: [u16; 3] = [13, 18, 23];

fn typical(name: &str, model: &[u8]) -> Evaluation {
    let entries = TYPICAL.map(|(kind, a, b)| Entry::new(kind, a, b));
    Evaluation {
        name: name.to_string(),
        claim: draft::claim(&entries, &TYPICAL_MEMBERS).bytes,
        model: model.to_vec(),
    }
}

const ALL_ACTIONS: [u16; ACTIONS] = [0, 1, 2, 3, 4, 5, 6, 7, 8, 9, 10, 11, 12, 13, 14, 15];

type Claim = (Vec<Entry>, Vec<u16>);

/// The typical claim with each of its steps by any of these actions: a box of all of
/// them, a diamond of some.
fn typical_by(actions: &[u16]) -> Claim {
    // Where each entry's formula stands, names before their fixpoints.
    let mut place: Vec<u16> = Vec::new();
    let mut next = 0;
    for (kind, ..) in TYPICAL {
        next += match kind {
            Kind::Diamond | Kind::Box => 2 * actions.len() as u16 - 1,
            _ => 1,
        };
        place.push(next - 1);
    }
    let at = |entry: u16| place[usize::from(entry)];
    let mut entries = Vec::new();
    for (kind, a, b) in TYPICAL {
        match kind {
            Kind::Diamond => by_any(&mut entries, kind, Kind::Or, at(a), actions),
            Kind::Box => by_any(&mut entries, kind, Kind::And, at(a), actions),
            Kind::Or | Kind::And => entries.push(Entry::new(kind, at(a), at(b))),
            Kind::Mu | Kind::Nu | Kind::Name => entries.push(Entry::new(kind, at(a), 0)),
            _ => entries.push(Entry::new(kind, a, b)),
        }
    }
    (entries, TYPICAL_MEMBERS.map(at).to_vec())
}

/// A step by each action, joined.
fn by_any(entries: &mut Vec<Entry>, kind: Kind, join: Kind, operand: u16, actions: &[u16]) {
    for (number, &action) in actions.iter().enumerate() {
        let before = entries.len() as u16;
        entries.push(Entry::new(kind, operand, action));
        if number > 0 {
            entries.push(Entry::new(join, before - 1, before));
        }
    }
}

fn by(name: &str, (entries, members): &Claim, model: &[u8]) -> Evaluation {
    Evaluation {
        name: name.to_string(),
        claim: draft::claim(entries, members).bytes,
        model: model.to_vec(),
    }
}

/// A random graph with that many successors for each state on average, and
/// letters that are rarer the higher they are.
fn graph(successors: usize) -> Vec<u8> {
    let mut rng = Rng::new(64);
    let (letters, leads) = (letters(&mut rng), leads(&mut rng, successors));
    hard::model(
        STATES,
        |state| letters[state],
        |state, next| leads[state][next],
    )
}

/// Such a graph for each of these actions.
fn graphs(successors: usize, actions: &[u16]) -> Vec<u8> {
    let mut rng = Rng::new(64);
    let letters = letters(&mut rng);
    let graphs: Vec<_> = (0..ACTIONS as u16)
        .map(|action| {
            actions
                .contains(&action)
                .then(|| leads(&mut rng, successors))
        })
        .collect();
    hard::action_model(
        STATES,
        |state| letters[state],
        |action, state, next| {
            graphs[action]
                .as_ref()
                .is_some_and(|leads| leads[state][next])
        },
    )
}

fn letters(rng: &mut Rng) -> Vec<u32> {
    let letter = |rng: &mut Rng, p: usize| u32::from(rng.chance(1, 2 + 2 * p)) << p;
    (0..STATES)
        .map(|_| (0..4).fold(0, |mask, p| mask | letter(rng, p)))
        .collect()
}

fn leads(rng: &mut Rng, successors: usize) -> Vec<Vec<bool>> {
    let row = |rng: &mut Rng| {
        (0..STATES)
            .map(|_| rng.chance(successors, STATES))
            .collect()
    };
    (0..STATES).map(|_| row(rng)).collect()
}

/// Each state leads to all below it, so that boxes become true one by one.
fn descent() -> Vec<u8> {
    hard::model(STATES, |_| 0, |state, next| next < state)
}
