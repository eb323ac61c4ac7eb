//! The commands of the program. Each answers a text for the output and whether
//! all is good, or a failure for the error output.

use reference::corpus::{self, CheckRecord, Damaged, EvalRecord};
use reference::generate::{self, Tally};
use reference::{check, describe, evaluate, Form, Joined, Refusal, Written};
use std::fmt::Write;

pub const USAGE: &str = "usage:
  reference check FILE                      run a corpus of claims and proofs
  reference eval FILE                       run a corpus of claims and models
  reference eval-narrow FILE                the same with answers of 32 bits
  reference write FILE                      run a corpus of records to be written
  reference join FILE                       run a corpus of pairs to be joined
  reference verdict CLAIM PROOF             judge one claim and proof
  reference generate check SEED COUNT FILE  write a corpus of claims and proofs
  reference generate eval SEED COUNT FILE   write a corpus of claims and models";

/// How many mismatches are shown.
const SHOWN: usize = 10;

pub struct Report {
    pub text: String,
    pub good: bool,
}

pub struct Failure(pub String);

type Outcome = Result<Report, Failure>;

pub fn run_checks(file: &str) -> Outcome {
    let records = corpus::read_checks(&read(file)?).map_err(|damage| about(file, damage))?;
    Ok(compare(&records, |record| {
        let got = check(&record.claim, &record.proof);
        (got != record.answer).then(|| mismatch(describe(record.answer), describe(got)))
    }))
}

pub fn run_evals(file: &str) -> Outcome {
    compare_evals(file, corpus::read_evals(&read(file)?))
}

pub fn run_narrow_evals(file: &str) -> Outcome {
    compare_evals(file, corpus::read_narrow_evals(&read(file)?))
}

fn compare_evals(file: &str, records: Result<Vec<EvalRecord>, Damaged>) -> Outcome {
    let records = records.map_err(|damage| about(file, damage))?;
    Ok(compare(&records, |record| {
        let got = evaluate(&record.claim, &record.model);
        let expected = match Refusal::unpack_wide(record.answer) {
            None => Ok(record.words.clone()),
            Some(refusal) => Err(refusal),
        };
        (got != expected).then(|| mismatch(show_words(&expected), show_words(&got)))
    }))
}

pub fn run_writes(file: &str) -> Outcome {
    let records = corpus::read_writes(&read(file)?).map_err(|damage| about(file, damage))?;
    Ok(compare(&records, |record| {
        let got = [record.records.write_claim(), record.records.write_proof()];
        let expected = [record.claim.clone(), record.proof.clone()];
        (got != expected).then(|| mismatch(show_files(&expected), show_files(&got)))
    }))
}

pub fn run_joins(file: &str) -> Outcome {
    let records = corpus::read_joins(&read(file)?).map_err(|damage| about(file, damage))?;
    Ok(compare(&records, |record| {
        let got = record.first.join(&record.second, record.entry);
        (got != record.joined).then(|| mismatch(show_joined(&record.joined), show_joined(&got)))
    }))
}

pub fn verdict(claim: &str, proof: &str) -> Outcome {
    let answer = check(&read(claim)?, &read(proof)?);
    Ok(Report {
        text: format!("{}\n", describe(answer)),
        good: true,
    })
}

pub fn generate_checks(seed: &str, count: &str, file: &str) -> Outcome {
    let records: Vec<CheckRecord> = generate::checks(number(seed)?)
        .take(number(count)? as usize)
        .collect();
    write(file, &corpus::write_checks(&records))?;
    let mut report = tally(records.iter().map(CheckRecord::number));
    let several = |record: &&CheckRecord| record.form() == Some(Form::Several);
    let goals = records.iter().filter(several).count();
    let _ = writeln!(report.text, "of several goals {goals:4}");
    Ok(report)
}

pub fn generate_evals(seed: &str, count: &str, file: &str) -> Outcome {
    let records: Vec<EvalRecord> = generate::evals(number(seed)?)
        .take(number(count)? as usize)
        .collect();
    write(file, &corpus::write_evals(&records))?;
    Ok(tally(records.iter().map(EvalRecord::number)))
}

fn compare<T>(records: &[T], mismatch: impl Fn(&T) -> Option<String>) -> Report {
    let mut text = String::new();
    let mut failed = 0;
    for (index, record) in records.iter().enumerate() {
        if let Some(line) = mismatch(record) {
            failed += 1;
            if failed <= SHOWN {
                let _ = writeln!(text, "record {index}: {line}");
            }
        }
    }
    let passed = records.len() - failed;
    let _ = writeln!(text, "{passed} passed, {failed} failed");
    Report {
        text,
        good: failed == 0,
    }
}

fn mismatch(expected: String, got: String) -> String {
    format!("expected {expected}, got {got}")
}

fn show_words(outcome: &Result<Vec<u64>, Refusal>) -> String {
    match outcome {
        Err(refusal) => refusal.to_string(),
        Ok(words) => {
            let words: Vec<String> = words.iter().map(|word| format!("{word:x}")).collect();
            format!("words [{}]", words.join(" "))
        }
    }
}

fn show_files(files: &[Written; 2]) -> String {
    let shown = files.each_ref().map(|file| match file {
        Err(refusal) => refusal.to_string(),
        Ok(bytes) => show_bytes(bytes),
    });
    shown.join(" and ")
}

fn show_joined(joined: &Joined) -> String {
    match joined {
        Err(refusal) => refusal.to_string(),
        Ok(files) => [&files.claim, &files.proof]
            .map(|file| show_bytes(file))
            .join(" and "),
    }
}

fn show_bytes(bytes: &[u8]) -> String {
    format!("{} bytes {bytes:02x?}", bytes.len())
}

/// The share of each outcome in a generated corpus.
fn tally(numbers: impl Iterator<Item = u32>) -> Report {
    Report {
        text: Tally::of(numbers).to_string(),
        good: true,
    }
}

fn number(text: &str) -> Result<u64, Failure> {
    text.parse()
        .map_err(|_| Failure(format!("not a number: {text}\n{USAGE}")))
}

fn read(file: &str) -> Result<Vec<u8>, Failure> {
    std::fs::read(file).map_err(|error| about(file, error))
}

fn write(file: &str, bytes: &[u8]) -> Result<(), Failure> {
    std::fs::write(file, bytes).map_err(|error| about(file, error))
}

fn about(file: &str, error: impl std::fmt::Display) -> Failure {
    Failure(format!("{file}: {error}"))
}
