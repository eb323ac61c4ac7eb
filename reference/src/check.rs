//! The calls without a gate: the single check and the evaluation.

use crate::claim::Claim;
use crate::evaluate::{actions, meanings};
use crate::formula;
use crate::model::Model;
use crate::proof::Proof;
use crate::refusal::{answer, Refusal};
use crate::rules;

/// A claim and proof as read from their bytes.
#[derive(Clone, Debug, PartialEq, Eq)]
pub struct Decoded {
    pub claim: Claim,
    pub proof: Proof,
}

/// A verdict with the records that go with it: "Refusals 1 to 34 ... write
/// nothing to lent slices", nor do 71 and 72. "With 35 to 39, with acceptance ...
/// record slices hold the whole decoding".
#[derive(Clone, Debug, PartialEq, Eq)]
pub struct Judgement {
    pub verdict: Result<(), Refusal>,
    pub decoded: Option<Decoded>,
}

impl Judgement {
    pub(crate) fn refused(refusal: Refusal) -> Judgement {
        Judgement {
            verdict: Err(refusal),
            decoded: None,
        }
    }

    /// 0 for accepted, or refusal × 65,536 + place.
    pub fn answer(&self) -> u32 {
        answer(&self.verdict)
    }
}

/// Judges a claim and proof and keeps their records.
pub fn judge(claim: &[u8], proof: &[u8]) -> Judgement {
    match decode(claim, proof) {
        Err(refusal) => Judgement::refused(refusal),
        Ok(decoded) => Judgement {
            verdict: rules::judge(&decoded.claim, &decoded.proof),
            decoded: Some(decoded),
        },
    }
}

/// The single-check call: "answers 0 for accepted, or refusal × 65,536 + place".
pub fn check(claim: &[u8], proof: &[u8]) -> u32 {
    answer(&accepted(claim, proof))
}

/// The records of a claim and proof that are accepted.
pub(crate) fn accepted(claim: &[u8], proof: &[u8]) -> Result<Decoded, Refusal> {
    let decoded = decode(claim, proof)?;
    rules::judge(&decoded.claim, &decoded.proof)?;
    Ok(decoded)
}

/// One word per entry, "bit s for state s".
pub fn evaluate(claim: &[u8], model: &[u8]) -> Result<Vec<u64>, Refusal> {
    let claim = read_claim(claim)?;
    let model = Model::read_for(model, actions(&claim.entries))?;
    Ok(meanings(&claim.entries, &model))
}

/// "the claim by bytes; 20 over all entries [with 71]; 21, 22, 23 entry by entry;
/// then proof or model by bytes"
fn decode(claim: &[u8], proof: &[u8]) -> Result<Decoded, Refusal> {
    let claim = read_claim(claim)?;
    let proof = Proof::read(proof, &claim)?;
    Ok(Decoded { claim, proof })
}

fn read_claim(bytes: &[u8]) -> Result<Claim, Refusal> {
    let claim = Claim::read(bytes)?;
    formula::judge_read(&claim)?;
    Ok(claim)
}
