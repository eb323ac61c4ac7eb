//! Runs corpora, gives single verdicts and writes generated corpora.

mod commands;

use commands::{Failure, USAGE};
use std::io::Write;
use std::process::ExitCode;

fn main() -> ExitCode {
    let args: Vec<String> = std::env::args().skip(1).collect();
    let args: Vec<&str> = args.iter().map(String::as_str).collect();
    let outcome = match args[..] {
        ["check", file] => commands::run_checks(file),
        ["eval", file] => commands::run_evals(file),
        ["eval-narrow", file] => commands::run_narrow_evals(file),
        ["write", file] => commands::run_writes(file),
        ["join", file] => commands::run_joins(file),
        ["verdict", claim, proof] => commands::verdict(claim, proof),
        ["generate", "check", seed, count, file] => commands::generate_checks(seed, count, file),
        ["generate", "eval", seed, count, file] => commands::generate_evals(seed, count, file),
        _ => Err(Failure(USAGE.to_string())),
    };
    match outcome {
        Ok(report) => match std::io::stdout().write_all(report.text.as_bytes()) {
            Ok(()) if report.good => ExitCode::SUCCESS,
            Ok(()) => ExitCode::from(1),
            Err(_) => ExitCode::from(2),
        },
        Err(Failure(message)) => {
            let _ = writeln!(std::io::stderr(), "{message}");
            ExitCode::from(2)
        }
    }
}
