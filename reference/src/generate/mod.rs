//! A deterministic generator of inputs: claims with proofs, claims with models,
//! records to be written and proofs to be joined, good, nearly good and damaged. The
//! same seed gives the same inputs.

mod actions;
mod damage;
mod empty;
mod formulas;
mod halves;
mod models;
mod near_goal;
mod near_half;
mod near_miss;
mod near_twin;
mod number;
mod one_step;
mod pairs;
mod paths;
mod provable;
mod records;
mod renamed;
mod rng;
mod search;
mod several;
mod step;
mod tally;
mod twins;

pub mod extremes;

pub use actions::stepped_by;
pub use empty::Empty;
pub use paths::{leaves_focus, loop_paths};
pub use renamed::twins_used;
pub use rng::Rng;
pub use several::{apart, interleaved, Part};
pub use tally::Tally;

use crate::check::{check, evaluate};
use crate::claim::Entry;
use crate::corpus::{CheckRecord, EvalRecord, JoinRecord, WriteRecord};
use crate::goals::Form;
use crate::refusal::answer_wide;

/// An endless run of claims and proofs with the reference's answers, in both forms; one
/// in fifteen lacks entries, goals or nodes.
pub fn checks(seed: u64) -> impl Iterator<Item = CheckRecord> {
    inputs(seed, |rng| check_record(pairs::check_pair(rng)))
}

/// The same with a loop in each proof that has rule 9 on its path.
pub fn loops_leaving_focus(seed: u64) -> impl Iterator<Item = CheckRecord> {
    inputs(seed, |rng| check_record(pairs::loop_leaving_focus(rng)))
}

/// The same with twins in each proof: two entries of one formula, each the entry
/// of some code or principal.
pub fn twins(seed: u64) -> impl Iterator<Item = CheckRecord> {
    inputs(seed, |rng| check_record(renamed::with_twins(rng)))
}

/// The same in the form of several goals alone, mostly with two at least.
pub fn goals(seed: u64) -> impl Iterator<Item = CheckRecord> {
    inputs(seed, |rng| check_record(pairs::goal_pair(rng)))
}

fn check_record((claim, proof): (Vec<u8>, Vec<u8>)) -> CheckRecord {
    let answer = check(&claim, &proof);
    CheckRecord {
        claim,
        proof,
        answer,
    }
}

/// An endless run of claims and models with the reference's answers.
pub fn evals(seed: u64) -> impl Iterator<Item = EvalRecord> {
    inputs(seed, |rng| {
        let (claim, model) = pairs::eval_pair(rng);
        let outcome = evaluate(&claim, &model);
        EvalRecord {
            claim,
            model,
            answer: answer_wide(&outcome),
            words: outcome.unwrap_or_default(),
        }
    })
}

/// An endless run of records to be written with the reference's answers.
pub fn writes(seed: u64) -> impl Iterator<Item = WriteRecord> {
    inputs(seed, |rng| {
        let records = records::records(rng);
        WriteRecord {
            claim: records.write_claim(),
            proof: records.write_proof(),
            records,
        }
    })
}

/// An endless run of proofs to be joined with what the reference makes of them.
pub fn joins(seed: u64) -> impl Iterator<Item = JoinRecord> {
    inputs(seed, |rng| {
        let (entry, [first, second]) = near_half::to_be_joined(rng);
        JoinRecord {
            joined: first.join(&second, entry),
            first,
            second,
            entry,
        }
    })
}

/// Claims and proofs that keep every rule by construction, in both forms.
pub fn accepted(seed: u64) -> impl Iterator<Item = (Vec<u8>, Vec<u8>)> {
    inputs(seed, |rng| {
        let proved = pairs::accepted(rng);
        pairs::in_some_form(rng, proved)
    })
}

/// The same in one of the forms.
pub fn accepted_in(form: Form, seed: u64) -> impl Iterator<Item = (Vec<u8>, Vec<u8>)> {
    accepted(seed).filter(move |(claim, _)| Form::of_claim(claim) == Some(form))
}

/// Well-formed models of at most 64 states, in both forms.
pub fn models(seed: u64) -> impl Iterator<Item = Vec<u8>> {
    inputs(seed, |rng| models::model(rng).bytes)
}

/// Well-formed small claims, with models of at most `states` states.
pub fn small_evals(seed: u64, states: usize) -> impl Iterator<Item = (Vec<u8>, Vec<u8>)> {
    inputs(seed, move |rng| pairs::small_eval_pair(rng, states))
}

/// Well-formed small tables in which formulas stand more than once.
pub fn small_twins(seed: u64) -> impl Iterator<Item = Vec<Entry>> {
    inputs(seed, |rng| {
        let plain = pairs::small_entries(rng);
        twins::twins(rng, &plain).entries
    })
}

fn inputs<T>(seed: u64, make: impl Fn(&mut Rng) -> T) -> impl Iterator<Item = T> {
    let mut rng = Rng::new(seed);
    std::iter::repeat_with(move || make(&mut rng))
}
