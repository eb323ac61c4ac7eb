//! Links the archive that `rt lib` in crates/gate writes.

use std::path::PathBuf;

fn main() {
    let root =
        PathBuf::from(std::env::var("CARGO_MANIFEST_DIR").expect("cargo sets it")).join("../..");
    let folder = root.join("crates/gate/out");
    println!(
        "cargo:rerun-if-changed={}",
        folder.join("libgate.a").display()
    );
    println!("cargo:rustc-link-search=native={}", folder.display());
    println!("cargo:rustc-link-lib=static=gate");
}
