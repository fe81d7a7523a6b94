//! Finds the Rust source, `binary.rs`, for the build scripts of the oracle and of its driver.
//! It is compiled where it stands: the build folder gets a few lines that name it.

use std::path::{Path, PathBuf};

/// Names the source, or a folder that has it.
const SETTING: &str = "PEMZHULAQ_SOURCE";
/// What the source may be called in a folder: itself, in its crate, and beside the repository.
const NAMES: [&str; 3] =
    ["binary.rs", "src/type_coercion/binary.rs", "src--src--type_coercion--binary.rs.txt"];
/// The length of the source and its checksum (FNV-1a), which tell another version.
const LENGTH: usize = 85703;
const CHECKSUM: u64 = 0xfcc7_7822_e2fa_4481;

/// Where the source is; `source.rs` in the build folder has it as the module `binary`. Where there
/// is none, the build ends with one line that says what is wanted.
pub fn find(root: &Path) -> Option<PathBuf> {
    println!("cargo::rerun-if-env-changed={SETTING}");
    let set = std::env::var_os(SETTING).filter(|value| !value.is_empty());
    let beside = || root.with_file_name("shared").join("docs/src");
    let place = std::path::absolute(set.map_or_else(beside, PathBuf::from)).ok()?;
    let in_folder = NAMES.map(|name| place.join(name));
    let Some(found) = in_folder.iter().chain([&place]).find(|path| path.is_file()) else {
        println!(
            "cargo::error=no Rust source at {}: set {SETTING} to the file \
             src/type_coercion/binary.rs of the crate datafusion-expr-common 55.2.0 (Apache-2.0, \
             in the registry of Rust crates), or to a folder that has it",
            place.display()
        );
        return None;
    };
    println!("cargo::rerun-if-changed={}", found.display());
    warn_of_another(found);
    let module = format!("#[path = {found:?}]\n#[allow(warnings)]\nmod binary;\n");
    let folder = std::env::var_os("OUT_DIR").expect("cargo gives a build script a folder");
    std::fs::write(Path::new(&folder).join("source.rs"), module).expect("a folder to write to");
    Some(found.clone())
}

/// Says so where the file is not the source of the version that the port follows.
fn warn_of_another(found: &Path) {
    let bytes = std::fs::read(found).unwrap_or_default();
    let step = |sum: u64, byte: &u8| (sum ^ u64::from(*byte)).wrapping_mul(0x100_0000_01b3);
    let checksum = bytes.iter().fold(0xcbf2_9ce4_8422_2325, step);
    if (bytes.len(), checksum) != (LENGTH, CHECKSUM) {
        println!(
            "cargo::warning={} is not the file of datafusion-expr-common 55.2.0: it has {} bytes \
             and the checksum {checksum:016x}, not {LENGTH} and {CHECKSUM:016x}",
            found.display(),
            bytes.len()
        );
    }
}
