//! Each call in each state of the gate: answer and state against a table from
//! document 01, "The gate" and "What the state earns".

use gate_tests::lent::{Lent, CODES, ENTRIES, NODES};
use gate_tests::{close, decode, open, present, take, vectors, Gate};
use reference::corpus::CheckRecord;
use reference::generate::{Empty, Rng};
use reference::{Form, Refusal};

const TAGS: [u32; 3] = [0, 7, u32::MAX];

#[derive(Clone, Copy, Debug, PartialEq, Eq)]
enum Call {
    Opening,
    Closing,
    Taking,
    /// A pair that is accepted.
    PresentingGood,
    /// A pair of several goals that is accepted.
    PresentingGoals,
    /// A pair without entries, goals and nodes, which is accepted.
    PresentingNothing,
    /// A pair that earns 38 at 3.
    PresentingBad,
    /// A claim with an action that is none, 71 at 1, beside any proof.
    PresentingUnfit,
    /// A claim of more goals than there may be, 72 at 16, beside any proof.
    PresentingMany,
    /// A pair that is accepted, and every slice too short by one.
    PresentingShort,
}

#[derive(Clone, Copy, Debug)]
enum Answer {
    Done,
    Refused(u32),
    /// Taking answers the tag that was held.
    HeldTag,
}

#[derive(Clone, Copy, Debug)]
enum After {
    /// Phase and tag as they were.
    Kept,
    /// This phase, and tag 0.
    Moved(u8),
    /// Holding the tag that was presented.
    Holding,
}

use After::{Holding, Kept, Moved};
use Answer::{Done, HeldTag, Refused};
use Call::{Closing, Opening, Taking};
use Call::{PresentingBad, PresentingGoals, PresentingGood};
use Call::{PresentingMany, PresentingNothing, PresentingShort, PresentingUnfit};

const BAD: u32 = 38 << 16 | 3;
const UNFIT: u32 = 71 << 16 | 1;
const MANY: u32 = 72 << 16 | 16;
const SHORT: u32 = 1 << 16;
const IS_CLOSED: u32 = 50 << 16;
const HELD: u32 = 51 << 16;
const NONE_HELD: u32 = 52 << 16;
const NOT_CLOSED: u32 = 53 << 16;

/// A phase that is none of the three reads as closed.
const NO_PHASES: [u8; 2] = [3, 255];

/// "50 closed (presenting, taking, closing); 51 permit held (presenting); 52 none
/// held while open (taking); 53 not closed (opening)", all of them "before any of
/// the above".
const TABLE: [(Call, u8, Answer, After); 30] = [
    (Opening, Gate::CLOSED, Done, Moved(Gate::OPEN)),
    (Opening, Gate::OPEN, Refused(NOT_CLOSED), Kept),
    (Opening, Gate::HOLDING, Refused(NOT_CLOSED), Kept),
    (Closing, Gate::CLOSED, Refused(IS_CLOSED), Kept),
    (Closing, Gate::OPEN, Done, Moved(Gate::CLOSED)),
    (Closing, Gate::HOLDING, Done, Moved(Gate::CLOSED)),
    (Taking, Gate::CLOSED, Refused(IS_CLOSED), Kept),
    (Taking, Gate::OPEN, Refused(NONE_HELD), Kept),
    (Taking, Gate::HOLDING, HeldTag, Moved(Gate::OPEN)),
    (PresentingGood, Gate::CLOSED, Refused(IS_CLOSED), Kept),
    (PresentingGood, Gate::OPEN, Done, Holding),
    (PresentingGood, Gate::HOLDING, Refused(HELD), Kept),
    (PresentingGoals, Gate::CLOSED, Refused(IS_CLOSED), Kept),
    (PresentingGoals, Gate::OPEN, Done, Holding),
    (PresentingGoals, Gate::HOLDING, Refused(HELD), Kept),
    (PresentingNothing, Gate::CLOSED, Refused(IS_CLOSED), Kept),
    (PresentingNothing, Gate::OPEN, Done, Holding),
    (PresentingNothing, Gate::HOLDING, Refused(HELD), Kept),
    (PresentingBad, Gate::CLOSED, Refused(IS_CLOSED), Kept),
    (PresentingBad, Gate::OPEN, Refused(BAD), Kept),
    (PresentingBad, Gate::HOLDING, Refused(HELD), Kept),
    (PresentingUnfit, Gate::CLOSED, Refused(IS_CLOSED), Kept),
    (PresentingUnfit, Gate::OPEN, Refused(UNFIT), Kept),
    (PresentingUnfit, Gate::HOLDING, Refused(HELD), Kept),
    (PresentingMany, Gate::CLOSED, Refused(IS_CLOSED), Kept),
    (PresentingMany, Gate::OPEN, Refused(MANY), Kept),
    (PresentingMany, Gate::HOLDING, Refused(HELD), Kept),
    (PresentingShort, Gate::CLOSED, Refused(IS_CLOSED), Kept),
    (PresentingShort, Gate::OPEN, Refused(SHORT), Kept),
    (PresentingShort, Gate::HOLDING, Refused(HELD), Kept),
];

/// What taking answers where it refuses.
fn refused_permit(refusal: u32) -> u64 {
    (1 << 32) + u64::from(refusal)
}

type Pair = (Vec<u8>, Vec<u8>);

struct Files {
    good: Pair,
    goals: Pair,
    nothing: Pair,
    bad: Pair,
    unfit: Pair,
    many: Pair,
    least: Lent,
    short: Lent,
}

impl Files {
    fn new() -> Files {
        let records = vectors::checks();
        let with = |fits: &dyn Fn(&CheckRecord) -> bool| {
            let found = records.iter().find(|record| fits(record));
            let found = found.expect("the vectors have one");
            (found.claim.clone(), found.proof.clone())
        };
        let several = |record: &CheckRecord| decode::goals(&record.claim).len() > 1;
        let lacks_all = |record: &CheckRecord| {
            Empty::of_files(&record.claim, &record.proof) == Some(Empty::Everything)
        };
        Files {
            good: with(&|record| record.answer == 0 && record.form() == Some(Form::One)),
            goals: with(&|record| record.answer == 0 && several(record)),
            nothing: with(&|record| record.answer == 0 && lacks_all(record)),
            bad: with(&|record| record.answer == BAD),
            unfit: with(&|record| record.answer == UNFIT),
            many: with(&|record| record.answer == MANY),
            least: Lent::least(),
            short: Lent::new(ENTRIES - 1, NODES - 1, CODES - 1),
        }
    }

    /// What a presentation presents.
    fn pair(&self, call: Call) -> &Pair {
        match call {
            PresentingGoals => &self.goals,
            PresentingNothing => &self.nothing,
            PresentingBad => &self.bad,
            PresentingUnfit => &self.unfit,
            PresentingMany => &self.many,
            _ => &self.good,
        }
    }

    /// The answer as taking gives it, for all calls.
    fn make(&mut self, call: Call, gate: &mut Gate, tag: u32) -> u64 {
        let (claim, proof) = self.pair(call).clone();
        match call {
            Opening => open(gate).into(),
            Closing => close(gate).into(),
            Taking => take(gate),
            PresentingShort => present(gate, tag, &claim, &proof, &mut self.short).into(),
            _ => present(gate, tag, &claim, &proof, &mut self.least).into(),
        }
    }
}

fn assert_row(files: &mut Files, row: (Call, u8, Answer, After), phase: u8, tag: u32, given: u32) {
    let (call, _, answer, after) = row;
    let before = Gate { phase, tag };
    let mut gate = before;
    let got = files.make(call, &mut gate, given);
    let expected = match answer {
        Done => 0,
        Refused(refusal) if call == Taking => refused_permit(refusal),
        Refused(refusal) => refusal.into(),
        HeldTag => tag.into(),
    };
    assert_eq!(got, expected, "{call:?} {given} on {before:?}");
    let state = match after {
        Kept => before,
        Moved(phase) => Gate { phase, tag: 0 },
        Holding => Gate {
            phase: Gate::HOLDING,
            tag: given,
        },
    };
    assert_eq!(gate, state, "{call:?} {given} on {before:?}");
}

#[test]
fn every_call_in_every_state() {
    let mut files = Files::new();
    let mut rows = 0;
    for row in TABLE {
        let phases = match row.1 {
            Gate::CLOSED => [&[Gate::CLOSED][..], &NO_PHASES].concat(),
            phase => vec![phase],
        };
        for phase in phases {
            for tag in TAGS {
                for given in TAGS {
                    assert_row(&mut files, row, phase, tag, given);
                    rows += 1;
                }
            }
        }
    }
    println!("gate: {rows} calls on lent states answer and leave what they must");
}

/// All other numbers are no phase either.
#[test]
fn every_number_that_is_no_phase_reads_as_closed() {
    let mut files = Files::new();
    for phase in 3..=255 {
        for row in TABLE.into_iter().filter(|row| row.1 == Gate::CLOSED) {
            assert_row(&mut files, row, phase, 7, 9);
        }
    }
}

/// "Taking twice: tag, then 52."
#[test]
fn taking_twice() {
    for tag in TAGS {
        let mut gate = Gate {
            phase: Gate::HOLDING,
            tag,
        };
        let open = Gate {
            phase: Gate::OPEN,
            tag: 0,
        };
        assert_eq!((take(&mut gate), gate), (tag.into(), open));
        assert_eq!((take(&mut gate), gate), (refused_permit(NONE_HELD), open));
    }
}

/// One gate from closed to closed again, as a loader uses it.
#[test]
fn a_permit_from_opening_to_closing() {
    let mut files = Files::new();
    for tag in TAGS {
        let mut gate = Gate {
            phase: Gate::CLOSED,
            tag: 0,
        };
        let mut then = |call, tag| files.make(call, &mut gate, tag);
        assert_eq!(then(PresentingGood, tag), IS_CLOSED.into());
        assert_eq!(then(Opening, 0), 0);
        assert_eq!(then(PresentingShort, 1), SHORT.into());
        assert_eq!(then(PresentingBad, 2), BAD.into());
        assert_eq!(then(PresentingUnfit, 3), UNFIT.into());
        assert_eq!(then(PresentingMany, 4), MANY.into());
        assert_eq!(then(Taking, 0), refused_permit(NONE_HELD));
        assert_eq!(then(PresentingGood, tag), 0);
        assert_eq!(then(PresentingGood, 5), HELD.into());
        assert_eq!(then(Opening, 0), NOT_CLOSED.into());
        assert_eq!(then(Taking, 0), tag.into());
        assert_eq!(then(Taking, 0), refused_permit(NONE_HELD));
        assert_eq!(then(PresentingGoals, tag), 0);
        assert_eq!(then(Taking, 0), tag.into());
        assert_eq!(then(PresentingNothing, tag), 0);
        assert_eq!(then(Taking, 0), tag.into());
        assert_eq!(then(PresentingGood, tag), 0);
        assert_eq!(then(Closing, 0), 0);
        assert_eq!(then(Taking, 0), refused_permit(IS_CLOSED));
        assert_eq!(then(Closing, 0), IS_CLOSED.into());
        assert_eq!(then(Opening, 0), 0);
        assert_eq!(then(Taking, 0), refused_permit(NONE_HELD));
        assert_eq!(then(Closing, 0), 0);
    }
}

/// What the reference's gate would hold of a lent state.
fn shown(gate: Gate) -> reference::Gate {
    match gate.phase {
        Gate::OPEN => reference::Gate::Open,
        Gate::HOLDING => reference::Gate::Holding(gate.tag),
        _ => reference::Gate::Closed,
    }
}

const RANDOM_CALLS: [Call; 7] = [
    Opening,
    Closing,
    Taking,
    PresentingGood,
    PresentingGoals,
    PresentingNothing,
    PresentingBad,
];

/// Random calls on two gates at once, so that a call that works on anything but
/// the state it is lent is found out.
#[test]
fn random_calls_agree_with_the_reference() {
    let mut files = Files::new();
    let mut rng = Rng::new(gate_tests::setting("GATE_SEED", 1));
    let closed = Gate {
        phase: Gate::CLOSED,
        tag: 0,
    };
    let mut gates = [(closed, reference::Gate::Closed); 2];
    let mut granted = 0;
    for _ in 0..20_000 {
        let (gate, model) = &mut gates[rng.below(2)];
        let call = rng.pick(&RANDOM_CALLS).unwrap_or(Opening);
        let tag = rng.word() as u32;
        let number = |outcome: Result<(), Refusal>| outcome.map_or_else(Refusal::packed, |()| 0);
        let expected = match call {
            Opening => number(model.open()).into(),
            Closing => number(model.close()).into(),
            Taking => match model.take() {
                Ok(tag) => u64::from(tag),
                Err(refusal) => refused_permit(refusal.packed()),
            },
            _ => {
                let (claim, proof) = files.pair(call);
                model.present(tag, claim, proof).answer().into()
            }
        };
        granted += u64::from(call == Taking && expected >> 32 == 0);
        assert_eq!(files.make(call, gate, tag), expected, "{call:?}");
        for (gate, model) in &gates {
            assert_eq!(shown(*gate), *model, "after {call:?}");
        }
    }
    assert!(granted > 300, "only {granted} permits were taken");
}
