//! Finds the proved archive and links it.

use std::env;
use std::path::PathBuf;

fn main() {
    println!("cargo::rerun-if-env-changed=PEMZHULAQ_LIB_DIR");
    let root = PathBuf::from(env::var_os("CARGO_MANIFEST_DIR").expect("set by cargo"));
    let folder = match env::var_os("PEMZHULAQ_LIB_DIR") {
        Some(folder) => root.join(folder),
        None => root.join("../target/staticlib"),
    };
    let archive = folder.join("libpemzhulaq.a");
    println!("cargo::rerun-if-changed={}", archive.display());
    if !archive.is_file() {
        println!(
            "cargo::error={} is missing: make it with `tools/archive.sh` in the repository's root, or set PEMZHULAQ_LIB_DIR to its folder",
            archive.display()
        );
        return;
    }
    println!("cargo::rustc-link-search=native={}", folder.display());
    println!("cargo::rustc-link-lib=static=pemzhulaq");
    println!("cargo::rustc-env=PEMZHULAQ_ARCHIVE={}", archive.display());
}
