//! Each call of the gate in each of its states.

use reference::{check, generate, judge, Gate, Refusal};

fn state_refusal<T>(number: u16) -> Result<T, Refusal> {
    Err(Refusal { number, place: 0 })
}

fn good() -> (Vec<u8>, Vec<u8>) {
    generate::accepted(1).next().expect("the run is endless")
}

#[test]
fn starts_closed() {
    assert_eq!(Gate::default(), Gate::Closed);
}

#[test]
fn closed_refuses_all_but_opening() {
    let (claim, proof) = good();
    let mut gate = Gate::Closed;
    let judgement = gate.present(7, &claim, &proof);
    assert_eq!(judgement.verdict, state_refusal(50));
    assert_eq!(judgement.decoded, None);
    assert_eq!(gate.take(), state_refusal(50));
    assert_eq!(gate.close(), state_refusal(50));
    assert_eq!(gate, Gate::Closed);
    assert_eq!(gate.open(), Ok(()));
    assert_eq!(gate, Gate::Open);
}

#[test]
fn open_holds_what_is_accepted() {
    let (claim, proof) = good();
    let mut gate = Gate::Open;
    assert_eq!(gate.open(), state_refusal(53));
    assert_eq!(gate.take(), state_refusal(52));
    assert_eq!(gate, Gate::Open);
    assert_eq!(gate.present(7, &claim, &proof).answer(), 0);
    assert_eq!(gate, Gate::Holding(7));
    let mut gate = Gate::Open;
    assert_eq!(gate.close(), Ok(()));
    assert_eq!(gate, Gate::Closed);
}

#[test]
fn holding_refuses_another_tag() {
    let (claim, proof) = good();
    let mut gate = Gate::Holding(7);
    assert_eq!(gate.open(), state_refusal(53));
    assert_eq!(gate.present(8, &claim, &proof).verdict, state_refusal(51));
    assert_eq!(gate.present(8, b"", b"").verdict, state_refusal(51));
    assert_eq!(gate, Gate::Holding(7));
    assert_eq!(gate.close(), Ok(()));
    assert_eq!(gate, Gate::Closed);
}

#[test]
fn taking_twice() {
    for tag in [0, 7, u32::MAX] {
        let mut gate = Gate::Holding(tag);
        assert_eq!(gate.take(), Ok(tag));
        assert_eq!(gate, Gate::Open);
        assert_eq!(gate.take(), state_refusal(52));
        assert_eq!(gate, Gate::Open);
    }
}

/// "No input refusal alters the gate state", and presenting says what the
/// single check says.
#[test]
fn presenting_agrees_with_the_single_check() {
    for (tag, record) in (0..).zip(generate::checks(11).take(3000)) {
        let mut gate = Gate::Open;
        let judgement = gate.present(tag, &record.claim, &record.proof);
        assert_eq!(judgement.answer(), check(&record.claim, &record.proof));
        assert_eq!(judgement, judge(&record.claim, &record.proof));
        let after = match judgement.verdict {
            Ok(()) => Gate::Holding(tag),
            Err(_) => Gate::Open,
        };
        assert_eq!(gate, after);
        let number = judgement.answer() >> 16;
        let decoded = matches!(number, 0 | 35..=39);
        assert_eq!(judgement.decoded.is_some(), decoded);
    }
}
