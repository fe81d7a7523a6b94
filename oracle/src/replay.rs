//! The part of the oracle that a mutant needs: it runs the stored list and no more.
//! Built by `oracle mutants`, not by cargo.

extern crate self as arrow;
extern crate self as datafusion_common;
extern crate self as itertools;
use standin::names::*;

#[path = "../target/mutants/call.rs"]
mod call;
#[path = "../target/mutants/sheet.rs"]
mod sheet;
mod source;
mod stack;
mod standin;
mod stored;

fn main() -> std::process::ExitCode {
    stack::run(|| {
        let path = std::env::args().nth(1).expect("the stored list");
        stored::replay(&path)
    })
}
