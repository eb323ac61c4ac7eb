//! The records that are written.

use gate_tests::tables::{nu_of_box, sized, sized_goals};
use reference::Records;

#[derive(Clone, Copy, PartialEq, Eq)]
pub enum Call {
    Claim,
    Proof,
}

pub struct Writing {
    pub name: &'static str,
    pub call: Call,
    pub records: Records,
}

pub fn all() -> Vec<Writing> {
    let writing = |name, call, records: &Records| Writing {
        name,
        call,
        records: records.clone(),
    };
    let (largest, small) = (sized(256, 24, 1024, 24), nu_of_box());
    let goals = sized_goals(16, largest.clone());
    vec![
        writing("write the largest claim", Call::Claim, &largest),
        writing("write the largest proof", Call::Proof, &largest),
        writing("write the largest claim, 16 goals", Call::Claim, &goals),
        writing("write the largest proof, 16 goals", Call::Proof, &goals),
        writing("write a small claim", Call::Claim, &small),
        writing("write a small proof", Call::Proof, &small),
    ]
}
