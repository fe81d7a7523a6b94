//! Parts of documents that a run rewrites. The part NAME is what stands between the lines
//! `<!-- NAME -->` and `<!-- end of NAME -->`, on the one page of docs/ that has them.

use crate::options::wrong;
use std::fs;
use std::io;
use std::path::{Path, PathBuf};

const DOCS: &str = concat!(env!("CARGO_MANIFEST_DIR"), "/../../docs");

/// The pages that may have a part: two, and those of docs/data.
fn pages() -> Vec<PathBuf> {
    let docs = Path::new(DOCS);
    let mut found = vec![docs.join("BENCHMARKS.md"), docs.join("DIFFERENCES.md")];
    let data = fs::read_dir(docs.join("data")).into_iter().flatten().flatten();
    found.extend(
        data.map(|entry| entry.path()).filter(|path| path.extension() == Some("md".as_ref())),
    );
    found
}

/// The pages that have a part, and how they read with `text` in it.
fn replaced(name: &str, text: &str) -> Vec<(PathBuf, String)> {
    let (start, end) = (format!("<!-- {name} -->\n"), format!("<!-- end of {name} -->\n"));
    let replace = |page: PathBuf| {
        let old = fs::read_to_string(&page).ok()?;
        let from = old.find(&start)? + start.len();
        let to = from + old[from..].find(&end)?;
        Some((page, format!("{}{text}{}", &old[..from], &old[to..])))
    };
    pages().into_iter().filter_map(replace).collect()
}

/// Puts `text` into a part.
pub fn rewrite(name: &str, text: &str) -> io::Result<()> {
    match &replaced(name, text)[..] {
        [(page, new)] => {
            fs::write(page, new)?;
            println!("{}: part '{name}' rewritten", shown(page));
            Ok(())
        }
        found => Err(wrong(&format!(
            "`<!-- {name} -->` must stand on one page of docs/BENCHMARKS.md, docs/DIFFERENCES.md \
             and docs/data/*.md, not on {}",
            found.len()
        ))),
    }
}

/// Puts the few lines that say what a run came to into the part `NAME summary`, which need not be
/// there.
pub fn summarize(name: &str, text: &str) -> io::Result<()> {
    let part = format!("{name} summary");
    if replaced(&part, text).is_empty() {
        return Ok(());
    }
    rewrite(&part, text)
}

/// Writes a picture where it stands: in docs/data, else in docs.
pub fn draw(name: &str, text: &str) -> io::Result<()> {
    let docs = Path::new(DOCS);
    let in_data = docs.join("data").join(name);
    let place = if in_data.is_file() { in_data } else { docs.join(name) };
    fs::write(&place, text)?;
    println!("{} written", shown(&place));
    Ok(())
}

/// A path from the repository's root.
fn shown(path: &Path) -> String {
    let inside = path.strip_prefix(DOCS).unwrap_or(path);
    format!("docs/{}", inside.display())
}

/// The processor, the machine's load and the compiler, as far as the system tells.
pub fn machine() -> String {
    let read = |path: &str| fs::read_to_string(path).unwrap_or_default();
    let info = read("/proc/cpuinfo");
    let model = info.lines().find_map(|line| line.strip_prefix("model name")?.split_once(": "));
    let cores = info.lines().filter(|line| line.starts_with("processor")).count();
    let load = read("/proc/loadavg");
    let load = load.split_whitespace().next().unwrap_or("?");
    let rustc = env!("RUSTC_VERSION");
    let model = model.map_or("?", |found| found.1);
    format!("Machine: {model}, {cores} cores, load {load} at the start;\n{rustc}.")
}
