//! How deep the calls go into their stacks, over the vectors and over the claim that an
//! evaluation goes deepest into: never as deep as the header says that there must be room.

use gate_tests::lent::{Lengths, Lent, LentFiles, LentRecords, LentWords, STACK_BYTES};
use gate_tests::{check, evaluate, join, present_in, write_claim, write_proof};
use gate_tests::{hard, stack, vectors, Gate, Records};
use reference::generate::extremes;
use reference::Kind;

fn assert_within(bytes: usize, what: &str) {
    println!("{what}: {bytes} bytes of stack");
    assert!(bytes < STACK_BYTES, "{what}: {bytes} bytes of stack");
}

#[test]
fn checking() {
    let records = vectors::checks();
    let deepest = stack::deepest(|| {
        for record in &records {
            check(&record.claim, &record.proof);
        }
    });
    assert_within(deepest, "checking");
}

/// The deepest of all: much less, and the header would ask for too much.
#[test]
fn presenting() {
    let records = vectors::checks();
    let mut lent = Lent::least();
    let mut slices = lent.lend();
    let deepest = stack::deepest(|| {
        for record in &records {
            let mut gate = Gate {
                phase: Gate::OPEN,
                tag: 0,
            };
            present_in(&mut gate, 7, &record.claim, &record.proof, &mut slices);
        }
    });
    assert_within(deepest, "presenting");
    assert!(deepest > STACK_BYTES / 2, "{deepest} bytes of stack");
}

#[test]
fn evaluating() {
    let records = vectors::evals();
    let mut lent = LentWords::least();
    let deepest = stack::deepest(|| {
        for record in &records {
            evaluate(&record.claim, &record.model, &mut lent);
        }
    });
    assert_within(deepest, "evaluating the vectors");
    // It goes from an entry to its operands, so down the whole table here.
    let claim = hard::claim(&extremes::tower(Kind::Or, 255));
    let model = extremes::longest_model().bytes;
    let tower = stack::deepest(|| {
        evaluate(&claim, &model, &mut lent);
    });
    assert_within(tower, "evaluating a tower");
    assert!(tower > deepest, "no deeper than the vectors");
}

#[test]
fn writing() {
    let mut lent = LentRecords::default();
    let deepest = vectors::writes().into_iter().map(|record| {
        let records = Records::from(&record.records);
        let mut slices = lent.lend(&records, Lengths::of(&records));
        stack::deepest(|| {
            write_claim(&mut slices);
            write_proof(&mut slices);
        })
    });
    assert_within(deepest.max().expect("records"), "writing");
}

#[test]
fn joining() {
    let records = vectors::joins();
    let mut lent = LentFiles::default();
    let mut slices = lent.lend(LentFiles::ROOM);
    let deepest = stack::deepest(|| {
        for record in &records {
            join(record.entry, &record.first, &record.second, &mut slices);
        }
    });
    assert_within(deepest, "joining");
}
