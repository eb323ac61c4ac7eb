//! The single check called from Rust, with no crate but the standard library.
//! Build it from the root of the repository, after `rt lib` in crates/gate:
//!
//!     rustc --edition 2021 -O examples/caller/caller.rs -C link-arg=crates/gate/out/libgate.a -o caller
//!     ./caller examples/nu-of-box/claim.bin examples/nu-of-box/proof.bin

use std::process::ExitCode;

extern "C" {
    fn focus_check(claim: *const u8, claim_len: usize, proof: *const u8, proof_len: usize) -> u32;
}

/// What the gate says of two files: nothing, or a refusal's number and its place.
fn check(claim: &[u8], proof: &[u8]) -> Result<(), (u32, u32)> {
    // The slices are whole and are not written while the call runs: all that the call asks.
    match unsafe { focus_check(claim.as_ptr(), claim.len(), proof.as_ptr(), proof.len()) } {
        0 => Ok(()),
        answer => Err((answer >> 16, answer & 0xffff)),
    }
}

fn main() -> ExitCode {
    let paths: Vec<String> = std::env::args().skip(1).collect();
    let [claim, proof] = paths.as_slice() else {
        eprintln!("usage: caller CLAIM PROOF");
        return ExitCode::from(2);
    };
    let read = |path: &String| std::fs::read(path).map_err(|error| eprintln!("{path}: {error}"));
    let (Ok(claim), Ok(proof)) = (read(claim), read(proof)) else {
        return ExitCode::from(2);
    };
    match check(&claim, &proof) {
        Ok(()) => {
            println!("accept");
            ExitCode::SUCCESS
        }
        Err((number, place)) => {
            println!("refuse {number} at {place}");
            ExitCode::FAILURE
        }
    }
}
