//! Finds the Rust source, and the archive that `tools/archive.sh` builds, which it links.

use std::path::{Path, PathBuf};
use std::process::Command;

#[path = "../build/source.rs"]
mod source;

const NAME: &str = "libpemzhulaq.a";
/// Names the folder of the archive.
const SETTING: &str = "PEMZHULAQ_LIB_DIR";

fn main() {
    println!("cargo::rustc-env=RUSTC_VERSION={}", compiler().unwrap_or_default());
    let here = Path::new(env!("CARGO_MANIFEST_DIR"));
    let root = here.ancestors().nth(2).expect("a folder in the repository");
    source::find(root);
    link(root);
}

fn link(root: &Path) {
    println!("cargo::rerun-if-env-changed={SETTING}");
    let folder =
        std::env::var_os(SETTING).map_or_else(|| root.join("target/staticlib"), PathBuf::from);
    let archive = folder.join(NAME);
    println!("cargo::rerun-if-changed={}", archive.display());
    if archive.is_file() {
        println!("cargo::rustc-link-search=native={}", folder.display());
        println!("cargo::rustc-link-lib=static=pemzhulaq");
    } else {
        println!(
            "cargo::error=no {}: run `tools/archive.sh` in the root of the repository, \
             or set {SETTING} to the folder of {NAME}",
            archive.display()
        );
    }
}

fn compiler() -> Option<String> {
    let output = Command::new(std::env::var_os("RUSTC")?).arg("--version").output().ok()?;
    Some(String::from_utf8(output.stdout).ok()?.trim().to_string())
}
