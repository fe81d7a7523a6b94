//! The oracle: the Rust source runs, unchanged, over sheets.

// The source names its crates from the root; the stand-ins answer to those names.
extern crate self as arrow;
extern crate self as datafusion_common;
extern crate self as itertools;
#[allow(unused_imports)]
use standin::names::*;

mod book;
mod call;
mod commands;
mod damage;
mod examples;
mod families;
mod generator;
mod make;
mod mutants;
mod plain;
mod readings;
mod rng;
mod rules;
mod selftest;
mod sheet;
mod source;
mod stack;
mod standin;
mod stored;
mod traps;
mod vectors;

fn main() -> std::process::ExitCode {
    stack::run(commands::run)
}
