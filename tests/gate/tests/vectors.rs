//! Every record of the check vectors, through the single check.

use gate_tests::vectors;
use reference::describe;

#[test]
fn every_check_record_agrees() {
    let records = vectors::checks();
    for (index, record) in records.iter().enumerate() {
        let got = gate_tests::check(&record.claim, &record.proof);
        assert_eq!(
            describe(got),
            describe(record.answer),
            "check record {index}"
        );
    }
    println!("gate: {} check records agree", records.len());
}
