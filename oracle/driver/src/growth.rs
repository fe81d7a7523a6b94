//! Time against sheet size, for each class of the plot.

use crate::counts::grouped;
use crate::document;
use crate::inputs::PANELS;
use crate::measure::{rounds, Timed, SIDES};
use crate::options::{wrong, Options};
use crate::plot::{self, Point};
use std::io;

pub const OPTIONS: [&str; 2] = ["--rounds=", "--write"];

/// Measures each class at each size, and prints how the time grows.
pub fn run(options: &Options) -> io::Result<bool> {
    let count = options.number("--rounds", 51)? as usize;
    let mut panels = Vec::new();
    for panel in &PANELS {
        let calls = panel.sizes.iter().map(|&size| Timed::new(&(panel.make)(size)));
        let timed: Result<Vec<Timed>, String> = calls.collect();
        let mut timed = timed.map_err(|text| wrong(&format!("{}: {text}", panel.name)))?;
        rounds(&mut timed, count.max(1));
        panels.push((panel.name, timed.iter().map(point).collect()));
    }
    println!("{}", table(&panels));
    if options.has("--write") {
        document::rewrite("growth", &table(&panels))?;
        document::draw("growth.svg", &plot::svg(&panels))?;
    }
    Ok(true)
}

fn point(timed: &Timed) -> Point {
    Point { bytes: timed.call.sheet.len(), times: SIDES.map(|side| timed.median(side)) }
}

/// How the time grows from the largest sheet of half the bytes to the largest.
fn table(panels: &[(&str, Vec<Point>)]) -> String {
    let mut text = "| Class | Largest sheet, bytes | Ours, ns | ns a byte | Power of growth, ours \
                    | Sheet to sheet in Rust | Source alone |\n|---|---|---|---|---|---|---|\n"
        .to_string();
    for (name, points) in panels {
        let [.., before, last] = &points[..] else { continue };
        let power = |side: usize| match (before.times[side], last.times[side]) {
            (Some(low), Some(high)) => {
                let bytes = last.bytes as f64 / before.bytes as f64;
                format!("{:.2}", (high / low).ln() / bytes.ln())
            }
            _ => "–".to_string(),
        };
        let ours = last.times[0].unwrap_or(0.0);
        text += &format!(
            "| {name} | {} | {} | {:.2} | {} | {} | {} |\n",
            grouped(last.bytes as u64),
            grouped(ours.round() as u64),
            ours / last.bytes as f64,
            power(0),
            power(1),
            power(2)
        );
    }
    text
}
