//! Code and constants of the gate's archive, by the `size` program.

use std::path::Path;
use std::process::Command;

pub fn print() {
    let archive = Path::new(env!("CARGO_MANIFEST_DIR")).join("../crates/gate/out/libgate.a");
    match Command::new("size").arg("-A").arg(&archive).output() {
        Ok(output) => {
            let text = String::from_utf8_lossy(&output.stdout);
            println!(".text   {:>8} bytes", total(&text, ".text"));
            println!(".rodata {:>8} bytes", total(&text, ".rodata"));
        }
        Err(error) => println!("sizes not known: the program `size` did not run ({error})"),
    }
}

fn total(listing: &str, section: &str) -> u64 {
    let rows = listing.lines().filter(|line| line.starts_with(section));
    rows.filter_map(|line| line.split_whitespace().nth(1)?.parse::<u64>().ok())
        .sum()
}
