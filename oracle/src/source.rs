//! The source itself, compiled byte for byte where the build script found it. With
//! `--cfg mutant` it is the edited copy that `oracle mutants` leaves in the build folder.

#[cfg(not(mutant))]
include!(concat!(env!("OUT_DIR"), "/source.rs"));

#[cfg(mutant)]
#[path = "../target/mutants/binary.rs"]
#[allow(warnings)]
#[rustfmt::skip]
mod binary;

pub use binary::{comparison_coercion, type_union_coercion, type_union_resolution};
