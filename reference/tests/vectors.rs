//! Every record of the vectors.

use reference::corpus::{self, EvalRecord};
use reference::{check, describe, evaluate, Refusal};
use std::path::Path;

fn vectors(file: &str) -> Vec<u8> {
    let folder = Path::new(env!("CARGO_MANIFEST_DIR")).join("../tests/vectors");
    std::fs::read(folder.join(file)).expect("the vectors lie beside the reference")
}

#[test]
fn every_check_agrees() {
    let files = [
        ("base/check.bin", 3551),
        ("t02/check.bin", 1527),
        ("t03/check.bin", 1534),
        ("t04/check.bin", 1435),
        ("t05/check.bin", 1506),
        ("t06/check.bin", 966),
    ];
    for (file, count) in files {
        let checks = corpus::read_checks(&vectors(file)).expect("whole records");
        assert_eq!(checks.len(), count, "{file}");
        for (index, record) in checks.iter().enumerate() {
            let got = check(&record.claim, &record.proof);
            let (got, expected) = (describe(got), describe(record.answer));
            assert_eq!(got, expected, "{file}, record {index}");
        }
        println!("vectors: {count} check records of {file} agree");
    }
}

fn assert_evaluated(file: &str, evals: &[EvalRecord], count: usize) {
    assert_eq!(evals.len(), count, "{file}");
    for (index, record) in evals.iter().enumerate() {
        let got = evaluate(&record.claim, &record.model);
        let expected = match Refusal::unpack_wide(record.answer) {
            None => Ok(record.words.clone()),
            Some(refusal) => Err(refusal),
        };
        assert_eq!(got, expected, "{file}, record {index}");
    }
    println!("vectors: {count} evaluations of {file} agree");
}

#[test]
fn every_evaluation_agrees() {
    let file = "base/eval.bin";
    let evals = corpus::read_narrow_evals(&vectors(file)).expect("whole records");
    assert_evaluated(file, &evals, 519);
    let file = "t04/eval.bin";
    let evals = corpus::read_evals(&vectors(file)).expect("whole records");
    assert_evaluated(file, &evals, 399);
    let far = |record: &&EvalRecord| record.answer as u32 > 65_535;
    assert_eq!(evals.iter().filter(far).count(), 10);
    for (file, count) in [("t05/eval.bin", 356), ("t06/eval.bin", 274)] {
        let evals = corpus::read_evals(&vectors(file)).expect("whole records");
        assert_evaluated(file, &evals, count);
    }
}

#[test]
fn every_record_to_be_written_agrees() {
    for (file, count) in [
        ("t01/write.bin", 640),
        ("t04/write.bin", 337),
        ("t05/write.bin", 598),
        ("t06/write.bin", 240),
    ] {
        let writes = corpus::read_writes(&vectors(file)).expect("whole records");
        assert_eq!(writes.len(), count, "{file}");
        for (index, record) in writes.iter().enumerate() {
            let got = record.records.write_claim();
            assert_eq!(got, record.claim, "{file}, record {index}: claim");
            let got = record.records.write_proof();
            assert_eq!(got, record.proof, "{file}, record {index}: proof");
        }
        println!("vectors: {count} records to be written of {file} agree");
    }
}

#[test]
fn every_join_agrees() {
    let joins = corpus::read_joins(&vectors("t07/join.bin")).expect("whole records");
    assert_eq!(joins.len(), 300);
    for (index, record) in joins.iter().enumerate() {
        let got = record.first.join(&record.second, record.entry);
        assert_eq!(got, record.joined, "t07/join.bin, record {index}");
    }
    println!("vectors: {} joins of t07/join.bin agree", joins.len());
}
