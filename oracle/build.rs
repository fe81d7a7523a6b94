//! Finds the Rust source, and tells the program where it is.

use std::path::Path;

#[path = "build/source.rs"]
mod source;

fn main() {
    let root = Path::new(env!("CARGO_MANIFEST_DIR")).parent().expect("a folder in the repository");
    if let Some(found) = source::find(root) {
        println!("cargo::rustc-env=BINARY_RS={}", found.display());
    }
}
