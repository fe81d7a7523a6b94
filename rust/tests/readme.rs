//! What README.md shows is what the files say and what runs print.

use std::path::Path;
use std::process::Command;

const README: &str = include_str!("../README.md");

/// The fenced blocks of the page with this word.
fn blocks(word: &str) -> Vec<&'static str> {
    let opening = format!("```{word}\n");
    let parts = README.split(opening.as_str()).skip(1);
    parts.map(|part| part.split("```").next().unwrap()).collect()
}

#[test]
fn the_five_lines_are_the_example() {
    assert_eq!(blocks("rust")[0], include_str!("../examples/five_lines.rs"));
}

#[test]
fn the_c_example_is_the_headers() {
    let header = include_str!("../../include/pemzhulaq.h");
    for line in blocks("c")[0].lines() {
        assert!(header.contains(&format!(" *   {line}").trim_end().to_string()), "{line}");
    }
}

#[test]
fn the_grammar_is_the_modules() {
    let module = include_str!("../src/notation/mod.rs");
    let grammar = blocks("text").into_iter().find(|block| block.starts_with("type ")).unwrap();
    for line in grammar.lines() {
        assert!(module.contains(&format!("//! {line}").trim_end().to_string()), "{line}");
    }
}

/// Runs each `$ pemzhulaq ..` line of the page and compares what follows it.
#[test]
fn the_runs_are_real() {
    let programs = Path::new(env!("CARGO_BIN_EXE_pemzhulaq")).parent().unwrap().to_path_buf();
    let others = std::env::var_os("PATH").unwrap_or_default();
    let folders = std::iter::once(programs).chain(std::env::split_paths(&others));
    let path = std::env::join_paths(folders).unwrap();
    let mut count = 0;
    for block in blocks("console") {
        for run in block.split("$ pemzhulaq").skip(1) {
            let (args, shown) = run.split_once('\n').unwrap();
            let script = format!("{{ pemzhulaq{args}; }} 2>&1");
            let mut shell = Command::new("sh");
            let output = shell.args(["-c", &script]).env("PATH", &path).output().unwrap();
            assert_eq!(String::from_utf8(output.stdout).unwrap(), shown, "pemzhulaq{args}");
            count += 1;
        }
    }
    assert!(count >= 11, "{count} runs");
}

/// Prose is at most 120 characters wide; tables and code are as wide as they need.
#[test]
fn lines_are_short() {
    let mut is_code = false;
    for line in README.lines() {
        is_code ^= line.starts_with("```");
        assert!(is_code || line.starts_with('|') || line.chars().count() <= 120, "{line}");
    }
}
