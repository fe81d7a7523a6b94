//! The driver: the archive of the port and the Rust source in one process.

// The source names its crates from the root; the stand-ins answer to those names.
extern crate self as arrow;
extern crate self as datafusion_common;
extern crate self as itertools;
#[allow(unused_imports)]
use standin::names::*;

/// The oracle's own modules, of which the driver uses a part.
macro_rules! of_the_oracle {
    ($($path:literal $name:ident)*) => {
        $(#[allow(dead_code)] #[path = $path] mod $name;)*
    };
}

of_the_oracle! {
    "../../src/book.rs" book
    "../../src/call.rs" call
    "../../src/damage.rs" damage
    "../../src/families.rs" families
    "../../src/generator.rs" generator
    "../../src/make.rs" make
    "../../src/readings.rs" readings
    "../../src/rng.rs" rng
    "../../src/sheet.rs" sheet
    "../../src/source.rs" source
    "../../src/stack.rs" stack
    "../../src/standin/mod.rs" standin
    "../../src/stored.rs" stored
}

mod bench;
mod candidates;
mod cases;
mod commands;
mod compare;
mod counts;
mod document;
mod growth;
mod hard;
mod inputs;
mod ladders;
mod largest;
mod lent;
mod measure;
mod notation;
mod options;
mod ours;
mod plot;
mod rust;
mod selftest;
mod shrink;
mod spoil;
mod worst;

fn main() -> std::process::ExitCode {
    stack::run(commands::run)
}
