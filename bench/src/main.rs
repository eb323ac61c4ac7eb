//! The gate against the reference on the same files, interleaved in one process.
//! Prints medians and their ratio, how they grow with a case's size, then the gate's
//! deepest stack and its sizes. Given a call, a case and a number, it only makes that
//! call so many times, for a counter of instructions (`instructions.sh`).

mod cases;
mod evaluations;
mod growth;
mod joinings;
mod numbering;
mod size;
mod timing;
mod writings;

use cases::Case;
use evaluations::Evaluation;
use gate_tests::lent::GOALS_PROOF_BYTES;
use gate_tests::lent::{FileSlices, Lengths, Lent, LentFiles, LentRecords, LentWords};
use gate_tests::lent::{RecordSlices, Slices};
use gate_tests::{stack, Gate, Records};
use joinings::Joining;
use numbering::Numbering;
use std::hint::black_box;
use timing::Row;
use writings::{Call, Writing};

fn main() {
    let arguments: Vec<String> = std::env::args().skip(1).collect();
    match &arguments[..] {
        [] => print_all(),
        [call, case, times] => repeat(call, case, times.parse().expect("a number")),
        _ => eprintln!("usage: gate-bench [CALL CASE TIMES]"),
    }
}

fn print_all() {
    head("check");
    for case in cases::checks() {
        println!("{:<34} {}", case.name, checked(&case));
    }
    head("present, reference: check");
    for case in cases::checks() {
        println!("{:<34} {}", case.name, presented(&case));
    }
    head("evaluate");
    for case in evaluations::all() {
        println!("{:<34} {}", case.name, evaluated(&case));
    }
    head("write");
    for case in writings::all() {
        println!("{:<34} {}", case.name, written(&case));
    }
    head("join");
    for case in joinings::all() {
        println!("{:<34} {}", case.name, joined(&case));
    }
    head("number formulas, by check");
    for case in numbering::all() {
        let (whole, numbered) = numbered(&case);
        println!("{:<34} {whole}", case.name);
        let limit = format!("  numbering, limit {} µs", case.limit);
        println!("{limit:<34} {numbered}");
    }
    print_growth();
    println!();
    stacks();
    size::print();
}

fn print_growth() {
    for family in cases::growing() {
        head(&format!("growth, {}", family.name));
        family.print(checked);
    }
    for family in numbering::growing() {
        head(&format!("growth, {}", family.name));
        family.print(|case| numbered(case).1);
    }
    for family in evaluations::growing() {
        head(&format!("growth, {}", family.name));
        family.print(evaluated);
    }
}

fn head(what: &str) {
    println!();
    println!(
        "{what:<34} {:>12} {:>12} {:>7}",
        "gate", "reference", "ratio"
    );
}

fn checked(case: &Case) -> Row {
    timing::side_by_side(
        || gate_tests::check(&case.claim, &case.proof),
        || reference::check(&case.claim, &case.proof),
    )
}

/// The check of a claim whose formulas are numbered, and the numbering alone.
fn numbered(case: &Numbering) -> (Row, Row) {
    let Numbering { claim, proof, .. } = case;
    let whole = timing::side_by_side(
        || gate_tests::check(claim, proof),
        || reference::check(claim, proof),
    );
    let before = timing::side_by_side(
        || gate_tests::check(claim, b""),
        || reference::check(claim, b""),
    );
    let numbered = whole.less(&before);
    (whole, numbered)
}

/// An open gate for each call: a gate that holds a permit would refuse at once. It is
/// copied whole, as it would lie in a loader's memory.
const OPENED: Gate = Gate {
    phase: Gate::OPEN,
    tag: 0,
};

fn present(case: &Case, slices: &mut Slices) -> u32 {
    let mut gate = black_box(OPENED);
    gate_tests::present_in(&mut gate, 7, &case.claim, &case.proof, slices)
}

fn presented(case: &Case) -> Row {
    let mut lent = Lent::least();
    let mut slices = lent.lend();
    timing::side_by_side(
        || present(case, &mut slices),
        || reference::check(&case.claim, &case.proof),
    )
}

/// The words are compared once, before any time is taken.
fn evaluated(case: &Evaluation) -> Row {
    let Evaluation { name, claim, model } = case;
    let mut lent = LentWords::least();
    let words = reference::evaluate(claim, model).expect("a well-formed claim and model");
    assert_eq!(gate_tests::evaluate(claim, model, &mut lent), 0);
    assert!(lent.words.lend().starts_with(&words), "{name}");
    timing::side_by_side(
        || gate_tests::evaluate(claim, model, &mut lent),
        || reference::answer_wide(&black_box(reference::evaluate(claim, model))),
    )
}

fn write(call: Call, slices: &mut RecordSlices) -> u64 {
    match call {
        Call::Claim => gate_tests::write_claim(slices),
        Call::Proof => gate_tests::write_proof(slices),
    }
}

fn write_by_reference(case: &Writing, out: &mut [u8]) -> u64 {
    let (claim, proof) = (case.records.claim(), case.records.proof());
    reference::written(match case.call {
        Call::Claim => reference::write_claim(claim, out),
        Call::Proof => reference::write_proof(claim, proof, out),
    })
}

/// The bytes are compared once, before any time is taken.
fn written(case: &Writing) -> Row {
    let records = Records::from(&case.records);
    let mut lent = LentRecords::default();
    let mut slices = lent.lend(&records, Lengths::of(&records));
    let mut out = vec![0; GOALS_PROOF_BYTES];
    let length = write(case.call, &mut slices) as usize;
    assert_eq!(write_by_reference(case, &mut out), length as u64);
    assert_eq!(slices.out[..length], out[..length], "{}", case.name);
    timing::side_by_side(
        || write(case.call, &mut slices),
        || write_by_reference(case, &mut out),
    )
}

fn join(case: &Joining, out: &mut FileSlices) -> u64 {
    gate_tests::join(case.entry, &case.first, &case.second, out)
}

/// The bytes are compared once, before any time is taken.
fn joined(case: &Joining) -> Row {
    let Joining {
        name,
        entry,
        first,
        second,
    } = case;
    let mut lent = LentFiles::default();
    let mut slices = lent.lend(LentFiles::ROOM);
    let files = first.join(second, *entry).expect("halves that fit");
    let answer = reference::joined(Ok(files.lengths()));
    assert_eq!(join(case, &mut slices), answer, "{name}");
    assert!(slices.claim.starts_with(&files.claim), "{name}");
    assert!(slices.proof.starts_with(&files.proof), "{name}");
    let mut claim = vec![0; LentFiles::ROOM.claim];
    let mut proof = vec![0; LentFiles::ROOM.proof];
    timing::side_by_side(
        || join(case, &mut slices),
        || {
            let outcome = reference::join(*entry, first, second, &mut claim, &mut proof);
            reference::joined(outcome)
        },
    )
}

fn stacks() {
    for case in cases::checks() {
        let bytes = stack::deepest(|| {
            gate_tests::check(&case.claim, &case.proof);
        });
        print_stack("check", case.name, bytes);
    }
    for case in numbering::all() {
        let bytes = stack::deepest(|| {
            gate_tests::check(&case.claim, &case.proof);
        });
        print_stack("check", case.name, bytes);
    }
    let mut lent = Lent::least();
    for case in cases::checks() {
        let mut slices = lent.lend();
        let bytes = stack::deepest(|| {
            present(&case, &mut slices);
        });
        print_stack("present", case.name, bytes);
    }
    other_stacks();
}

/// Those of evaluating, writing and joining.
fn other_stacks() {
    let mut lent = LentWords::least();
    for case in evaluations::all() {
        let bytes = stack::deepest(|| {
            gate_tests::evaluate(&case.claim, &case.model, &mut lent);
        });
        print_stack("evaluate", &case.name, bytes);
    }
    let mut lent = LentRecords::default();
    for case in writings::all() {
        let records = Records::from(&case.records);
        let mut slices = lent.lend(&records, Lengths::of(&records));
        let bytes = stack::deepest(|| {
            write(case.call, &mut slices);
        });
        print_stack("write", case.name, bytes);
    }
    let mut lent = LentFiles::default();
    for case in joinings::all() {
        let mut slices = lent.lend(LentFiles::ROOM);
        let bytes = stack::deepest(|| {
            join(&case, &mut slices);
        });
        print_stack("join", case.name, bytes);
    }
}

fn print_stack(call: &str, name: &str, bytes: usize) {
    println!("deepest stack, {call:<8} {name:<34} {bytes:>8} bytes");
}

fn repeat(call: &str, name: &str, times: usize) {
    match call {
        "write" | "reference write" => repeat_write(call, name, times),
        _ => repeat_check(call, name, times),
    }
}

fn repeat_check(call: &str, name: &str, times: usize) {
    let cases = cases::checks();
    let case = cases.iter().find(|case| case.name == name);
    let case = case.expect("a case of check");
    let mut lent = Lent::least();
    let mut slices = lent.lend();
    for _ in 0..times {
        black_box(match call {
            "check" => gate_tests::check(&case.claim, &case.proof),
            "present" => present(case, &mut slices),
            "reference" => reference::check(&case.claim, &case.proof),
            _ => panic!("no such call"),
        });
    }
}

fn repeat_write(call: &str, name: &str, times: usize) {
    let cases = writings::all();
    let case = cases.iter().find(|case| case.name == name);
    let case = case.expect("a case of write");
    let records = Records::from(&case.records);
    let mut lent = LentRecords::default();
    let mut slices = lent.lend(&records, Lengths::of(&records));
    let mut out = vec![0; GOALS_PROOF_BYTES];
    for _ in 0..times {
        black_box(match call {
            "write" => write(case.call, &mut slices),
            _ => write_by_reference(case, &mut out),
        });
    }
}
