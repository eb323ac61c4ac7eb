//! The gate and its permit (refusals 50 to 53).

use crate::check::{judge, Judgement};
use crate::refusal::Refusal;

const CLOSED: u16 = 50;
const HELD: u16 = 51;
const NONE_HELD: u16 = 52;
const NOT_CLOSED: u16 = 53;

/// "States: closed, open, holding a 32-bit tag. ... It starts closed."
#[derive(Clone, Copy, Debug, Default, PartialEq, Eq)]
pub enum Gate {
    #[default]
    Closed,
    Open,
    Holding(u32),
}

impl Gate {
    pub fn open(&mut self) -> Result<(), Refusal> {
        match self {
            Gate::Closed => {
                *self = Gate::Open;
                Ok(())
            }
            Gate::Open | Gate::Holding(_) => Err(Refusal::new(NOT_CLOSED, 0)),
        }
    }

    /// "presenting a tag, claim and proof (on acceptance it holds that tag)"
    pub fn present(&mut self, tag: u32, claim: &[u8], proof: &[u8]) -> Judgement {
        match self {
            Gate::Closed => Judgement::refused(Refusal::new(CLOSED, 0)),
            Gate::Holding(_) => Judgement::refused(Refusal::new(HELD, 0)),
            Gate::Open => {
                let judgement = judge(claim, proof);
                if judgement.verdict.is_ok() {
                    *self = Gate::Holding(tag);
                }
                judgement
            }
        }
    }

    /// "taking the permit (answers the tag, leaves open)"
    pub fn take(&mut self) -> Result<u32, Refusal> {
        match *self {
            Gate::Closed => Err(Refusal::new(CLOSED, 0)),
            Gate::Open => Err(Refusal::new(NONE_HELD, 0)),
            Gate::Holding(tag) => {
                *self = Gate::Open;
                Ok(tag)
            }
        }
    }

    /// "closing (drops any permit)"
    pub fn close(&mut self) -> Result<(), Refusal> {
        match self {
            Gate::Closed => Err(Refusal::new(CLOSED, 0)),
            Gate::Open | Gate::Holding(_) => {
                *self = Gate::Closed;
                Ok(())
            }
        }
    }
}
