//! The commands of the program.

use crate::options::{wrong, Options};
use crate::{bench, compare, growth, selftest, worst};
use std::io;

const USAGE: &str = "usage: driver COMMAND
  compare [--seed S] [--cases N] [--seconds B] [--threads T] [--write]
                      the port against the source, answer and every byte of what is lent
  compare --spoil WORD
                      the same with a mistake in the port's answers, which must be seen:
                      number refusal output later work rest touched sheet question
  bench [--rounds N] [--only WORD] [--write]
                      the table of times
  growth [--rounds N] [--write]
                      time against sheet size
  worst [--rounds N] [--most-k K] [--only WORD] [--all] [--write]
                      the slowest calls known, against the check of a largest sheet;
                      fails where one takes over 100 times as long
  worst --show [--only WORD]
                      the hard sheets with WORD in their names, as lines for `oracle answer`
  selftest            the driver's own tests: each spoil is seen, the Rust side is right
  repeat [--only WORD] [--count N] [--side ours|rust|source] [--hard]
                      the calls of the classes (of `worst`, with --hard) with WORD in their
                      name, for a profiler
--write puts the figures into docs/";

/// Runs the command of the arguments; false where a check fails.
pub fn run() -> io::Result<bool> {
    let words: Vec<String> = std::env::args().skip(1).collect();
    let Some((command, rest)) = words.split_first() else { return Err(wrong(USAGE)) };
    match command.as_str() {
        "compare" => compare::run(&Options::read(rest, &compare::OPTIONS)?),
        "bench" => bench::run(&Options::read(rest, &bench::OPTIONS)?),
        "growth" => growth::run(&Options::read(rest, &growth::OPTIONS)?),
        "worst" => worst::run(&Options::read(rest, &worst::OPTIONS)?),
        "selftest" => selftest::run(),
        "repeat" => bench::repeat(&Options::read(rest, &bench::REPEAT_OPTIONS)?),
        _ => Err(wrong(USAGE)),
    }
}
