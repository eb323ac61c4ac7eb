//! Presenting, over the vectors and over generated files: the answer, the gate
//! state and every place of the lent slices.

use gate_tests::decode::{self, decode, Decoding};
use gate_tests::lent::{Lent, CODES, ENTRIES, NODES};
use gate_tests::{present, setting, vectors, Gate};
use reference::corpus::CheckRecord;
use reference::{describe, generate, Form};
use std::collections::BTreeMap;

/// "Refusals 1 to 34 ... write nothing to lent slices", nor do 71 and 72. "With 35 to
/// 39, with acceptance ... record slices hold the whole decoding".
fn is_decoded(record: &CheckRecord) -> bool {
    matches!(record.number(), 0 | 35..=39)
}

/// That of files without entries and nodes is empty, and nothing is written either.
fn decoding_left(record: &CheckRecord) -> Decoding {
    match is_decoded(record) {
        true => decode(&record.claim, &record.proof),
        false => Decoding::default(),
    }
}

/// "on acceptance it holds that tag"; "No input refusal alters the gate state".
fn state_left(before: Gate, answer: u32, tag: u32) -> Gate {
    match answer {
        0 => Gate {
            phase: Gate::HOLDING,
            tag,
        },
        _ => before,
    }
}

/// Tags spread over all 32 bits.
fn tag_of(index: usize) -> u32 {
    (index as u32).wrapping_mul(0x9e37_79b9)
}

/// Presents on an open gate; an open gate's tag means nothing, and is kept where
/// nothing is accepted.
fn assert_presented(record: &CheckRecord, index: usize, lent: &mut Lent, what: &str) {
    let before = Gate {
        phase: Gate::OPEN,
        tag: tag_of(index + 1),
    };
    let mut gate = before;
    lent.renew();
    let got = present(&mut gate, tag_of(index), &record.claim, &record.proof, lent);
    assert_eq!(describe(got), describe(record.answer), "{what}");
    assert_eq!(gate, state_left(before, got, tag_of(index)), "{what}");
    lent.assert_holds(&decoding_left(record), what);
}

#[test]
fn every_check_record_in_slices_of_the_least_lengths() {
    let mut lent = Lent::least();
    let (mut decoded, mut empty) = (0, 0);
    let records = vectors::checks();
    for (index, record) in records.iter().enumerate() {
        assert_presented(record, index, &mut lent, &format!("check record {index}"));
        decoded += u64::from(is_decoded(record));
        empty += u64::from(is_decoded(record) && decoding_left(record) == Decoding::default());
    }
    assert!(decoded > 1000, "only {decoded} records are decoded");
    assert!(empty > 30, "only {empty} of them are empty");
    let presented = records.len();
    println!(
        "gate: {presented} check records presented, {decoded} decoded into lent slices, {empty} of \
         them empty"
    );
}

#[test]
fn every_check_record_in_longer_slices() {
    let records = vectors::checks();
    for (entries, nodes, codes) in [(1, 1, 1), (300, 0, 0), (0, 777, 0), (0, 0, 9000)] {
        let mut lent = Lent::new(ENTRIES + entries, NODES + nodes, CODES + codes);
        for (index, record) in records.iter().enumerate() {
            let what = format!("check record {index}, {entries}, {nodes} and {codes} more");
            assert_presented(record, index, &mut lent, &what);
        }
    }
}

/// Slices that hold what one pair left are lent for the next.
#[test]
fn what_stood_in_the_slices_does_not_count() {
    let mut lent = Lent::least();
    for (index, record) in vectors::checks().iter().enumerate() {
        let mut gate = Gate {
            phase: Gate::OPEN,
            tag: 0,
        };
        let got = present(&mut gate, 7, &record.claim, &record.proof, &mut lent);
        assert_eq!(
            describe(got),
            describe(record.answer),
            "check record {index}"
        );
        let decoding = decoding_left(record);
        if is_decoded(record) {
            let Lent {
                entries,
                nodes,
                codes,
            } = &mut lent;
            assert!(entries.lend().starts_with(&decoding.entries));
            assert!(nodes.lend().starts_with(&decoding.nodes));
            assert!(codes.lend().starts_with(&decoding.codes));
        }
    }
}

/// 50 and 51 come before the files and before refusal 1.
#[test]
fn a_gate_that_is_not_open_looks_at_nothing() {
    let mut all = [Lent::least(), Lent::new(0, 0, 0)];
    for (index, record) in vectors::checks().iter().enumerate() {
        for (phase, refusal) in [(0, 50), (3, 50), (255, 50), (2, 51)] {
            for lent in &mut all {
                let before = Gate {
                    phase,
                    tag: tag_of(index),
                };
                let mut gate = before;
                let got = present(&mut gate, 7, &record.claim, &record.proof, lent);
                assert_eq!((got, gate), (refusal << 16, before), "check record {index}");
            }
        }
    }
    // No call may write, so that it is enough to look once.
    for lent in &all {
        lent.assert_untouched("not open");
    }
}

/// One record for each answer's number, the largest of its kind.
fn of_every_number(records: &[CheckRecord]) -> Vec<&CheckRecord> {
    let mut found: BTreeMap<u32, &CheckRecord> = BTreeMap::new();
    for record in records {
        let kept = found.entry(record.number()).or_insert(record);
        if record.claim.len() + record.proof.len() > kept.claim.len() + kept.proof.len() {
            *kept = record;
        }
    }
    found.into_values().collect()
}

/// "1: a lent slice under 256 entries, 1,024 nodes, 24,576 codes", before
/// anything of the files.
#[test]
fn a_short_slice_earns_1_and_is_not_written() {
    let records = vectors::checks();
    let chosen = of_every_number(&records);
    assert_eq!(chosen.len(), 22, "0, 10 to 14, 20 to 23, 30 to 39, 71, 72");
    let before = Gate {
        phase: Gate::OPEN,
        tag: 9,
    };
    for lengths in [
        (255, NODES, CODES),
        (ENTRIES, 1023, CODES),
        (ENTRIES, NODES, 24_575),
        (0, NODES, CODES),
        (ENTRIES, 0, CODES),
        (ENTRIES, NODES, 0),
        (255, 1023, 24_575),
        (0, 0, 0),
        (255, 5000, 50_000),
        (5000, 1023, 50_000),
        (5000, 5000, 24_575),
    ] {
        let mut lent = Lent::new(lengths.0, lengths.1, lengths.2);
        for record in &chosen {
            let mut gate = before;
            let got = present(&mut gate, 7, &record.claim, &record.proof, &mut lent);
            let what = format!("{lengths:?}, else {}", describe(record.answer));
            assert_eq!(describe(got), "refuse 1 at 0", "{what}");
            assert_eq!(gate, before, "{what}");
            lent.assert_untouched(&what);
        }
    }
}

/// The reference's own decoding, made another way, has the same records.
#[test]
fn the_decoding_is_the_reference_s() {
    for record in vectors::checks() {
        let judged = reference::judge(&record.claim, &record.proof).decoded;
        let decoding = decoding_left(&record);
        assert_eq!(judged.is_some(), is_decoded(&record));
        let Some(judged) = judged else { continue };
        let entries = judged.claim.entries.iter();
        let entries: Vec<_> = entries.map(|e| (e.kind as u8, e.a, e.b)).collect();
        let own = decoding.entries.iter();
        assert_eq!(entries, own.map(|e| (e.kind, e.a, e.b)).collect::<Vec<_>>());
        let links = |n: &reference::Node| [n.principal, n.first, n.second, n.back];
        let nodes = judged.proof.nodes.iter();
        let nodes: Vec<_> = nodes.map(|n| (n.rule as u8, links(n), n.count)).collect();
        let links = |n: &gate_tests::Node| [n.principal, n.first, n.second, n.back];
        let own = decoding.nodes.iter();
        let own: Vec<_> = own.map(|n| (n.rule, links(n), n.count)).collect();
        assert_eq!(nodes, own);
        assert_eq!(judged.proof.codes, decoding.codes);
        let goals: Vec<_> = judged.claim.goals().map(<[u16]>::to_vec).collect();
        assert_eq!(goals, decode::goals(&record.claim));
        let roots = decode::roots(&record.claim, &record.proof);
        assert_eq!(judged.proof.named_roots, roots);
    }
}

/// Random and damaged files; `GATE_FILES` sets how many, `GATE_SEED` the seed.
#[test]
fn generated_files_present_alike() {
    let files = setting("GATE_FILES", 20_000);
    let mut lent = Lent::least();
    let (mut decoded, mut goals) = (0, 0);
    let records = generate::checks(setting("GATE_SEED", 1) + 1);
    for (index, record) in records.take(files as usize).enumerate() {
        assert_presented(
            &record,
            index,
            &mut lent,
            &format!("generated pair {index}"),
        );
        let left = is_decoded(&record);
        decoded += u64::from(left);
        goals += u64::from(left && record.form() == Some(Form::Several));
    }
    assert!(decoded * 4 > files, "only {decoded} of {files} are decoded");
    assert!(goals * 5 > files, "only {goals} of several goals");
    println!(
        "gate: {files} generated pairs presented, {decoded} decoded into lent slices, {goals} of \
         several goals"
    );
}

/// No entries, goals and nodes: a permit for it, and nothing written. Slices under their
/// lengths get 1 all the same.
#[test]
fn nothing_is_presented() {
    let record = CheckRecord {
        claim: b"CLM2\0\0\0\0".to_vec(),
        proof: b"PRF2\0\0".to_vec(),
        answer: 0,
    };
    let mut lent = Lent::least();
    assert_presented(&record, 3, &mut lent, "nothing");
    lent.assert_untouched("nothing");
    for lengths in [
        (255, NODES, CODES),
        (ENTRIES, 1023, CODES),
        (ENTRIES, NODES, 24_575),
        (0, 0, 0),
    ] {
        let mut lent = Lent::new(lengths.0, lengths.1, lengths.2);
        let before = Gate {
            phase: Gate::OPEN,
            tag: 9,
        };
        let mut gate = before;
        let got = present(&mut gate, 7, &record.claim, &record.proof, &mut lent);
        assert_eq!((describe(got).as_str(), gate), ("refuse 1 at 0", before));
        lent.assert_untouched("nothing, in short slices");
    }
}
