//! The benchmark: a table of times and ratios.

use crate::document;
use crate::inputs::{self, Input};
use crate::measure::{rounds, Side, Timed};
use crate::options::{wrong, Options};
use crate::worst;
use std::io;

pub const OPTIONS: [&str; 3] = ["--rounds=", "--only=", "--write"];
pub const REPEAT_OPTIONS: [&str; 4] = ["--only=", "--count=", "--side=", "--hard"];

fn chosen(options: &Options) -> io::Result<Vec<(Input, Timed)>> {
    let word = options.word("--only").unwrap_or("");
    let inputs = inputs::all().into_iter().filter(|input| title(input).contains(word));
    let timed = |input: Input| match Timed::new(&input.call) {
        Ok(timed) => Ok((input, timed)),
        Err(text) => Err(wrong(&format!("{}: {text}", title(&input)))),
    };
    inputs.map(timed).collect()
}

fn title(input: &Input) -> String {
    format!("{}, {}", input.name, input.call.question.word())
}

/// Measures each input on each side, prints the table and says which rows miss the goal.
pub fn run(options: &Options) -> io::Result<bool> {
    let machine = document::machine();
    let (inputs, mut timed): (Vec<_>, Vec<_>) = chosen(options)?.into_iter().unzip();
    let count = options.number("--rounds", 301)? as usize;
    rounds(&mut timed, count.max(1));
    let rows: Vec<Row> =
        inputs.iter().zip(&timed).map(|(input, timed)| row(input, timed)).collect();
    let head =
        format!("{machine}\nMedians of {count} rounds, nanoseconds of processor time a call.\n\n");
    let goals = goals(&rows);
    let text = format!("{head}{}\n{goals}", table(&rows));
    println!("{text}");
    if options.has("--write") {
        document::rewrite("bench", &text)?;
        document::summarize("bench", &format!("{head}{goals}"))?;
    }
    Ok(true)
}

/// Calls one side again and again, for a profiler.
pub fn repeat(options: &Options) -> io::Result<bool> {
    let side = match options.word("--side").unwrap_or("ours") {
        "ours" => Side::Ours,
        "rust" => Side::Rust,
        "source" => Side::Source,
        _ => return Err(wrong("--side is ours, rust or source")),
    };
    let count = options.number("--count", 1000)? as usize;
    if options.has("--hard") {
        return worst::repeat(options.word("--only").unwrap_or(""), count);
    }
    for (input, mut timed) in chosen(options)? {
        if timed.has(side) {
            timed.repeat(side, count);
            println!("{}: {count} calls", title(&input));
        }
    }
    Ok(true)
}

struct Row {
    name: String,
    question: &'static str,
    bytes: usize,
    ours: f64,
    rust: f64,
    source: Option<f64>,
}

fn row(input: &Input, timed: &Timed) -> Row {
    Row {
        name: input.name.clone(),
        question: input.call.question.word(),
        bytes: input.call.sheet.len(),
        ours: timed.median(Side::Ours).expect("a sample"),
        rust: timed.median(Side::Rust).expect("a sample"),
        source: timed.median(Side::Source),
    }
}

fn table(rows: &[Row]) -> String {
    let mut text =
        "| Class | Question | Sheet, bytes | Ours | Sheet to sheet in Rust | Source alone \
                    | Rust / ours | Source / ours |\n|---|---|---|---|---|---|---|---|\n"
            .to_string();
    for row in rows {
        let source = row.source.map_or("–".to_string(), shown);
        let ratio = row.source.map_or("–".to_string(), |time| format!("{:.2}", time / row.ours));
        text += &format!(
            "| {} | {} | {} | {} | {} | {source} | {:.2} | {ratio} |\n",
            row.name,
            row.question,
            row.bytes,
            shown(row.ours),
            shown(row.rust),
            row.rust / row.ours
        );
    }
    text
}

fn shown(time: f64) -> String {
    if time < 100.0 {
        return format!("{time:.1}");
    }
    crate::counts::grouped(time.round() as u64)
}

/// What the goal says, and the rows that miss it.
fn goals(rows: &[Row]) -> String {
    let faster = rows.iter().filter(|row| row.rust > row.ours).count();
    let twice = rows.iter().filter(|row| row.rust >= 2.0 * row.ours).count();
    let with_source: Vec<&Row> = rows.iter().filter(|row| row.source.is_some()).collect();
    let is_third = |row: &&&Row| row.source.is_some_and(|time| 3.0 * time >= row.ours);
    let third = with_source.iter().filter(is_third).count();
    let mut text = format!(
        "Faster than sheet to sheet in Rust: {faster} of {0} rows; at least twice: {twice} of {0}.\n\
         At most three times the source alone: {third} of {1} rows that the source answers.\n",
        rows.len(),
        with_source.len()
    );
    for row in rows {
        let slower = row.rust <= row.ours;
        let above = row.source.is_some_and(|time| 3.0 * time < row.ours);
        if slower || above {
            let ratio = row
                .source
                .map_or(String::new(), |time| format!(", source / ours {:.2}", time / row.ours));
            text += &format!(
                "- Missed: {}, {}: Rust / ours {:.2}{ratio}\n",
                row.name,
                row.question,
                row.rust / row.ours
            );
        }
    }
    text
}
