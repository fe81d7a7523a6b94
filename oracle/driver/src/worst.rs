//! The slowest calls that are known, against the checking of a largest sheet of ordinary names.

use crate::call::{Answer, Call, QUESTIONS};
use crate::counts::grouped;
use crate::document;
use crate::generator::line;
use crate::hard::{self, Hard};
use crate::ladders::{self, STEPS};
use crate::largest;
use crate::measure::{thread_time, Side, Timed};
use crate::options::{wrong, Options};
use std::io;

pub const OPTIONS: [&str; 6] = ["--rounds=", "--most-k=", "--only=", "--all", "--show", "--write"];

/// No call may take longer than this many times the check of a largest sheet of ordinary names.
const BOUND: f64 = 100.0;

/// A call that is timed, and what it is.
struct Row {
    family: String,
    name: String,
    timed: Timed,
}

impl Row {
    fn time(&self) -> f64 {
        self.timed.median(Side::Ours).unwrap_or(0.0)
    }

    fn question(&self) -> &'static str {
        self.timed.call.question.word()
    }

    fn bytes(&self) -> String {
        grouped(self.timed.call.sheet.len() as u64)
    }
}

/// A call whose answer is the oracle's, where that may be asked.
fn row(family: &str, name: &str, call: &Call, answer: Option<Answer>) -> io::Result<Row> {
    let mut timed = Timed::ours_alone(call);
    match answer {
        None => _ = timed.once(Side::Ours),
        Some(answer) => timed
            .expect(Side::Ours, &answer)
            .map_err(|text| wrong(&format!("{name}, {}: {text}", call.question.word())))?,
    }
    Ok(Row { family: family.to_string(), name: name.to_string(), timed })
}

fn measure(rows: &mut [Row], count: usize) {
    rows.iter_mut().for_each(|row| row.timed.calibrate());
    for _ in 0..count {
        rows.iter_mut().for_each(|row| row.timed.sample());
    }
}

fn slowest<'a>(rows: impl Iterator<Item = &'a Row>) -> Option<&'a Row> {
    rows.max_by(|a, b| a.time().total_cmp(&b.time()))
}

/// The hard sheets' calls with a word in their names.
fn chosen(word: &str, most: usize) -> Vec<(Hard, Vec<Call>)> {
    let with_calls = |sheet: Hard| {
        let named =
            |call: &Call| format!("{}, {}", sheet.name, call.question.word()).contains(word);
        let calls = sheet.calls().into_iter().filter(named).collect();
        (sheet, calls)
    };
    hard::all().into_iter().filter(|sheet| sheet.steps <= most).map(with_calls).collect()
}

fn hard_rows(word: &str, most: usize) -> io::Result<Vec<Row>> {
    let mut rows = Vec::new();
    for (sheet, calls) in chosen(word, most) {
        for call in calls {
            rows.push(row(&sheet.family, &sheet.name, &call, sheet.answer(&call))?);
        }
    }
    Ok(rows)
}

fn show(word: &str) -> io::Result<bool> {
    for (sheet, calls) in chosen(word, usize::MAX) {
        calls.iter().for_each(|call| println!("{}\n{}", sheet.name, line(call)));
    }
    Ok(true)
}

/// Calls the port again and again on hard sheets, for a profiler.
pub fn repeat(word: &str, count: usize) -> io::Result<bool> {
    for mut row in hard_rows(word, usize::MAX)? {
        row.timed.repeat(Side::Ours, count);
        println!("{}, {}: {count} calls", row.name, row.question());
    }
    Ok(true)
}

/// Measures the slowest calls known; false where one takes longer than the bound.
pub fn run(options: &Options) -> io::Result<bool> {
    let most = options.number("--most-k", u64::MAX)? as usize;
    let word = options.word("--only").unwrap_or("");
    if options.has("--show") {
        return show(word);
    }
    let machine = document::machine();
    let count = options.number("--rounds", 9)?.max(1) as usize;
    let largest = largest::all();
    let mut rows = Vec::new();
    for sheet in &largest {
        rows.push(row("", sheet.name, &sheet.call, Some(Answer::Refused(6)))?);
    }
    rows.extend(hard_rows(word, most)?);
    measure(&mut rows, count);
    let hard = rows.split_off(largest.len());
    let full = || rows.iter().zip(&largest).filter(|(_, sheet)| sheet.is_full());
    let checks = |ordinary: bool| {
        let of = full().filter(move |(_, sheet)| sheet.is_ordinary == ordinary);
        slowest(of.map(|(row, _)| row)).expect("a full sheet").time()
    };
    let (base, made_hard) = (checks(true), checks(false));
    let ladders = if word.is_empty() { climb(most, count)? } else { Vec::new() };
    let (result, holds) = verdict(&hard, &ladders, base, made_hard);
    let summary = format!(
        "{machine}\nMedians of {count} rounds, microseconds of processor time a call.\n\n{result}"
    );
    let text = format!(
        "{summary}\n{}\n{}\n{}",
        base_table(&rows, base),
        ladder_table(&ladders, base),
        hard_table(&hard, base, |a, b| a.family == b.family)
    );
    println!("{text}");
    if options.has("--all") {
        println!("{}", hard_table(&hard, base, |a, b| a.name == b.name));
    }
    if options.has("--write") {
        document::rewrite("worst", &text)?;
        document::summarize("worst", &summary)?;
    }
    Ok(holds)
}

/// The ladders of one number of steps, and the time of the source's slowest call.
struct Climbed {
    steps: usize,
    rows: Vec<Row>,
    source: Option<f64>,
}

fn climb(most: usize, count: usize) -> io::Result<Vec<Climbed>> {
    let few = [ladders::SOURCE_STEPS, ladders::SOURCE_STEPS - 1].map(have_types);
    let steps = STEPS.into_iter().filter(|&steps| steps <= most);
    steps.map(|steps| climb_to(steps, count, &few[steps % 2])).collect()
}

/// Whether the ladders of a number of steps have a common type, by the source.
fn have_types(steps: usize) -> Vec<bool> {
    ladders::of(steps).iter().map(|ladder| ladder.call.answer() != Answer::None).collect()
}

/// Where wrappers come in turn, the innermost and the outermost go by whether the steps are
/// even; otherwise the number of steps does not tell whether there is a common type. So what
/// the source says of few steps is asked of many.
fn climb_to(steps: usize, count: usize, types: &[bool]) -> io::Result<Climbed> {
    let mut climbed = Climbed { steps, rows: Vec::new(), source: None };
    for (ladder, &has_type) in ladders::of(steps).iter().zip(types) {
        let start = thread_time();
        let answer = ladder.answer();
        let time = (thread_time() - start) as f64;
        if steps <= ladders::SOURCE_STEPS {
            climbed.source = Some(climbed.source.map_or(time, |before| before.max(time)));
        }
        let mut row = row("", &ladder.title(), &ladder.call, answer)?;
        if has_type != (row.timed.once(Side::Ours) != 0) {
            let text = format!("{}: a type, or none, otherwise than with few steps", row.name);
            return Err(wrong(&text));
        }
        climbed.rows.push(row);
    }
    measure(&mut climbed.rows, count);
    Ok(climbed)
}

fn micros(time: f64) -> String {
    let tenths = (time / 100.0).round() as u64;
    format!("{}.{}", grouped(tenths / 10), tenths % 10)
}

fn verdict(hard: &[Row], ladders: &[Climbed], base: f64, made_hard: f64) -> (String, bool) {
    let rows = || hard.iter().chain(ladders.iter().flat_map(|climbed| &climbed.rows));
    let worst = slowest(rows()).map_or(0.0, Row::time);
    let holds = worst <= BOUND * base;
    let mut text = format!(
        "The bound: no sheet takes longer than {BOUND} times the check of a largest sheet of ordinary \
         names,\nhere {BOUND} × {} = {}.\n\
         In this run it {}: the slowest of {} calls takes {:.1} times the check.\n\
         Against the slowest check of names that were made to be hard to tell apart, {}, \
         it takes {:.1} times.\n\n",
        micros(base),
        micros(BOUND * base),
        if holds { "holds" } else { "DOES NOT HOLD" },
        grouped(rows().count() as u64),
        worst / base,
        micros(made_hard),
        worst / made_hard
    );
    text += "| Question | The slowest sheet found | Sheet, bytes | Time | Time / check |\n|---|---|---|---|---|\n";
    for question in QUESTIONS {
        let of = rows().filter(|row| row.timed.call.question == question);
        if let Some(row) = slowest(of) {
            text += &format!(
                "| {} | {} | {} | {} | {:.1} |\n",
                question.word(),
                row.name,
                row.bytes(),
                micros(row.time()),
                row.time() / base
            );
        }
    }
    (text, holds)
}

fn base_table(rows: &[Row], base: f64) -> String {
    let mut text =
        "| The check of | Sheet, bytes | Time | Time / check |\n|---|---|---|---|\n".to_string();
    for row in rows {
        text += &format!(
            "| {} | {} | {} | {:.2} |\n",
            row.name,
            row.bytes(),
            micros(row.time()),
            row.time() / base
        );
    }
    text
}

fn ladder_table(ladders: &[Climbed], base: f64) -> String {
    let mut text = "| Dictionaries against run ends, a side | list | union | compare \
                    | Slowest / check | The slowest | The source's slowest |\n\
                    |---|---|---|---|---|---|---|\n"
        .to_string();
    for Climbed { steps, rows, source } in ladders {
        let times = QUESTIONS.map(|question| {
            let of = rows.iter().filter(|row| row.timed.call.question == question);
            slowest(of).map_or("–".to_string(), |row| micros(row.time()))
        });
        let Some(row) = slowest(rows.iter()) else { continue };
        let told = source.map_or("–".to_string(), micros);
        text += &format!(
            "| {steps} | {} | {:.1} | {} | {told} |\n",
            times.join(" | "),
            row.time() / base,
            row.name
        );
    }
    text
}

/// A line for the slowest sheet of each group of neighbours, with the times of the questions
/// that it is asked.
fn hard_table(rows: &[Row], base: f64, together: fn(&Row, &Row) -> bool) -> String {
    let mut text = "| Sheets | Calls | The slowest | Bytes | list | union | compare \
                    | Slowest / check |\n|---|---|---|---|---|---|---|---|\n"
        .to_string();
    for group in rows.chunk_by(together) {
        let Some(worst) = slowest(group.iter()) else { continue };
        let times = QUESTIONS.map(|question| {
            let same = |row: &&Row| row.name == worst.name && row.timed.call.question == question;
            group.iter().find(same).map_or("–".to_string(), |row| micros(row.time()))
        });
        text += &format!(
            "| {} | {} | {} | {} | {} | {:.1} |\n",
            worst.family,
            group.len(),
            worst.name,
            worst.bytes(),
            times.join(" | "),
            worst.time() / base
        );
    }
    text
}
