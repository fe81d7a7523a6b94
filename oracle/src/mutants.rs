//! Likely porting mistakes, made in copies of the source and of the oracle's own reader and
//! calls, in the build folder.

use std::io;
use std::path::Path;
use std::process::Command;

/// The files that an edit may be of: its word, where it stands (the source where the build script
/// found it), and its copy.
const FILES: [(&str, &str, &str); 3] = [
    ("source", env!("BINARY_RS"), "binary.rs"),
    ("sheet", "src/sheet.rs", "sheet.rs"),
    ("call", "src/call.rs", "call.rs"),
];
const EDITS: &str = "mutants/edits.txt";
const FOLDER: &str = "target/mutants";
const STORED: &str = "vectors/calls.bin";

/// Old text becomes new text, once, within one function of the source.
struct Edit {
    file: usize,
    function: String,
    old: String,
    new: String,
}

struct Mutant {
    name: String,
    edits: Vec<Edit>,
}

/// The list of edits: `mutant NAME`, then any number of `in`, `old` and `new` lines, each
/// of the source unless an `of` line names another file.
fn read_list(text: &str) -> Result<Vec<Mutant>, String> {
    let mut mutants: Vec<Mutant> = Vec::new();
    let (mut file, mut function, mut old) = (0, String::new(), String::new());
    for line in text.lines().filter(|line| !line.is_empty() && !line.starts_with('#')) {
        let (word, rest) = line.split_once(' ').unwrap_or((line, ""));
        let rest = rest.replace("\\n", "\n");
        match (word, mutants.last_mut()) {
            ("mutant", _) => {
                mutants.push(Mutant { name: rest, edits: Vec::new() });
                file = 0;
            }
            ("of", Some(_)) => {
                let known = FILES.iter().position(|(word, ..)| *word == rest);
                file = known.ok_or(format!("no file is called {rest}"))?;
            }
            ("in", Some(_)) => function = rest,
            ("old", Some(_)) => old = rest,
            ("new", Some(mutant)) => {
                let (function, old) = (function.clone(), old.clone());
                mutant.edits.push(Edit { file, function, old, new: rest });
            }
            _ => return Err(format!("not understood: {line}")),
        }
    }
    Ok(mutants)
}

/// Where the text of a function begins and ends; `fn NAME` or another first line is named.
fn span_of(source: &str, function: &str) -> Result<(usize, usize), String> {
    let open = format!("{function}(");
    let starts: Vec<usize> = [open.as_str(), &format!("{function} ")]
        .iter()
        .filter_map(|first| source.find(first))
        .collect();
    let start = *starts.iter().min().ok_or(format!("no {function}"))?;
    let length = source[start..].find("\n}\n").ok_or(format!("no end of {function}"))?;
    Ok((start, start + length + 2))
}

fn apply(source: &str, edit: &Edit) -> Result<String, String> {
    let (start, end) = span_of(source, &edit.function)?;
    let body = &source[start..end];
    let times = body.matches(&edit.old).count();
    if times != 1 {
        return Err(format!("'{}' stands {times} times in {}", edit.old, edit.function));
    }
    Ok(format!("{}{}{}", &source[..start], body.replacen(&edit.old, &edit.new, 1), &source[end..]))
}

fn build(program: &Path) -> io::Result<bool> {
    let status = Command::new("rustc")
        .args(["--edition", "2021", "--cfg", "mutant", "-A", "warnings"])
        .args(["-C", "opt-level=0", "-C", "overflow-checks=off", "-C", "debug-assertions=off"])
        .args(["-C", "debuginfo=0", "--crate-name", "replay", "src/replay.rs", "-o"])
        .arg(program)
        .status()?;
    Ok(status.success())
}

/// What `replay` says, or that the program did not come to its end.
fn replay(program: &Path) -> io::Result<String> {
    let output = Command::new(program).arg(STORED).output()?;
    let said = String::from_utf8_lossy(&output.stdout).trim().to_string();
    Ok(if said.is_empty() { "crashed".to_string() } else { said })
}

fn try_mutant(originals: &[String], mutant: &Mutant) -> io::Result<String> {
    let mut edited = originals.to_vec();
    for edit in &mutant.edits {
        edited[edit.file] = apply(&edited[edit.file], edit).map_err(io::Error::other)?;
    }
    let folder = Path::new(FOLDER);
    for (text, (_, _, copy)) in edited.iter().zip(FILES) {
        std::fs::write(folder.join(copy), text)?;
    }
    let program = folder.join("replay");
    if !build(&program)? {
        return Err(io::Error::other(format!("'{}' does not compile", mutant.name)));
    }
    replay(&program)
}

/// Builds and replays each mutant whose name has `only` in it; false where one goes unnoticed.
pub fn run(only: &str) -> io::Result<bool> {
    let originals: io::Result<Vec<String>> =
        FILES.iter().map(|(_, path, _)| std::fs::read_to_string(path)).collect();
    let originals = originals?;
    let mut mutants = read_list(&std::fs::read_to_string(EDITS)?).map_err(io::Error::other)?;
    mutants.retain(|mutant| mutant.name.contains(only));
    std::fs::create_dir_all(FOLDER)?;
    let unchanged = Mutant { name: "the source unchanged".to_string(), edits: Vec::new() };
    let said = try_mutant(&originals, &unchanged)?;
    println!("{said} | {}", unchanged.name);
    let mut all_noticed = said.starts_with("0 of ");
    for mutant in &mutants {
        let said = try_mutant(&originals, mutant).unwrap_or_else(|error| format!("FAILED {error}"));
        let noticed = !said.starts_with("0 of ") && !said.starts_with("FAILED");
        all_noticed = all_noticed && noticed;
        println!("{said} | {}", mutant.name);
    }
    println!(
        "{} mutants, {}",
        mutants.len(),
        if all_noticed { "all noticed" } else { "NOT all noticed" }
    );
    Ok(all_noticed)
}
