//! A checker and evaluator for claims, Focus proofs and finite models, a writer of
//! claims and proofs, and a join of two proofs, written from the specification alone.
//! It is the independent judge for the real gate: plain Rust, no dependencies, no
//! shared definitions.
//!
//! The layers, from the bytes up:
//! * `goals` has the forms of claims and proofs, with one goal and with several;
//! * `bytes`, `claim`, `proof`, `model` read files (refusals 10–14, 72, 30–34, 60–64);
//! * `formula` judges entries (20–23, 71), `tree` child numbers (35);
//! * `alike` tells which entries are the same formula, `sequent` reads codes by it;
//! * `rules` and `loops` judge a decoded proof (36–39);
//! * `evaluate` gives each entry its meaning in a model;
//! * `write` judges records by the same numbers and lays files down (70);
//! * `join` makes one claim and proof of two (73, 74);
//! * `check` and `gate` are the calls, `corpus` and `generate` serve the tests.

mod alike;
mod bits;
mod bytes;
mod check;
mod claim;
mod evaluate;
mod formula;
mod gate;
mod goals;
mod join;
mod loops;
mod model;
mod proof;
mod refusal;
mod rules;
mod sequent;
mod tree;
mod write;

pub mod corpus;
pub mod draft;
pub mod generate;

pub use alike::least_alike;
pub use check::{check, evaluate, judge, Decoded, Judgement};
pub use claim::{Claim, Entry, Kind, ACTIONS};
pub use gate::Gate;
pub use goals::{Form, GOALS};
pub use join::{join, joined, Files, Joined, Lengths};
pub use model::Model;
pub use proof::{Node, Proof, Rule};
pub use refusal::{answer_wide, describe, describe_wide, Refusal};
pub use write::{
    write_claim, write_proof, written, ClaimRecords, EntryRecord, NodeRecord, ProofRecords,
    Records, Written,
};
