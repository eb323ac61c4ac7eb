//! The program's output and exit status.

use reference::{corpus, generate};
use std::path::PathBuf;
use std::process::Command;

/// A file of this name for the tests alone.
fn file(name: &str) -> PathBuf {
    PathBuf::from(env!("CARGO_TARGET_TMPDIR")).join(name)
}

fn written(name: &str, bytes: &[u8]) -> String {
    let path = file(name);
    std::fs::write(&path, bytes).expect("the folder for tests can be written");
    path.display().to_string()
}

/// Runs the program; its output and exit status.
fn run(args: &[&str]) -> (String, Option<i32>) {
    let program = Command::new(env!("CARGO_BIN_EXE_reference"))
        .args(args)
        .output()
        .expect("the program runs");
    let text = String::from_utf8(program.stdout).expect("plain text");
    (text, program.status.code())
}

#[test]
fn a_verdict_is_one_line() {
    let (claim, proof) = generate::accepted(1).next().expect("the run is endless");
    let (claim_file, proof_file) = (written("claim.bin", &claim), written("proof.bin", &proof));
    let verdict = run(&["verdict", &claim_file, &proof_file]);
    assert_eq!(verdict, ("accept\n".to_string(), Some(0)));
    let swapped = run(&["verdict", &proof_file, &claim_file]);
    assert_eq!(swapped, ("refuse 10 at 0\n".to_string(), Some(0)));
}

#[test]
fn a_generated_corpus_passes() {
    for form in ["check", "eval"] {
        let path = file(form).display().to_string();
        assert_eq!(run(&["generate", form, "5", "300", &path]).1, Some(0));
        let passed = run(&[form, &path]);
        assert_eq!(passed, ("300 passed, 0 failed\n".to_string(), Some(0)));
    }
}

#[test]
fn vectors_pass() {
    let folder = concat!(env!("CARGO_MANIFEST_DIR"), "/../tests/vectors");
    for (form, file, count) in [
        ("write", "t01/write.bin", 640),
        ("eval-narrow", "base/eval.bin", 519),
        ("eval", "t04/eval.bin", 399),
        ("check", "t05/check.bin", 1506),
        ("write", "t05/write.bin", 598),
        ("check", "t06/check.bin", 966),
        ("eval", "t06/eval.bin", 274),
        ("write", "t06/write.bin", 240),
        ("join", "t07/join.bin", 300),
    ] {
        let passed = run(&[form, &format!("{folder}/{file}")]);
        assert_eq!(passed, (format!("{count} passed, 0 failed\n"), Some(0)));
    }
}

#[test]
fn mismatches_are_shown() {
    let mut records: Vec<_> = generate::checks(1).take(50).collect();
    for record in records.iter_mut().skip(20) {
        record.answer = 39 << 16 | 1023;
    }
    let path = written("wrong.bin", &corpus::write_checks(&records));
    let (text, status) = run(&["check", &path]);
    let lines: Vec<&str> = text.lines().collect();
    assert_eq!(lines.len(), 11);
    assert!(lines[0].starts_with("record 20: expected refuse 39 at 1023, got "));
    assert_eq!(lines[10], "20 passed, 30 failed");
    assert_eq!(status, Some(1));
}

#[test]
fn damaged_and_missing_files_are_errors() {
    let cut = written("cut.bin", &[9, 0, 0, 0, 1]);
    for args in [
        &["check", &cut][..],
        &["eval", &cut],
        &["eval-narrow", &cut],
        &["write", &cut],
        &["join", &cut],
        &["check", "no such file"],
        &["generate", "check", "one", "2", &cut],
        &["verdict"],
        &[],
    ] {
        assert_eq!(run(args), (String::new(), Some(2)));
    }
}
