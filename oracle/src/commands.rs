//! The commands of the program.

use crate::call::{common_type, Answer, Call, FULL_MASK, QUESTIONS};
use crate::generator;
use crate::rng::Rng;
use crate::standin::arrow::datatypes::DataType::{Decimal128, Decimal256, Decimal32};
use crate::{mutants, plain, selftest, stored, vectors};
use std::collections::BTreeMap;
use std::io::{self, BufRead, BufWriter, Read, Write};

const STORED: &str = "vectors/calls.bin";

const USAGE: &str = "usage: oracle COMMAND (run it in the folder of this program)
  answer                         answers each line 'question mask output work sheet' of its input
  shelf                          the three lines of the shelf program for a sheet, in bytes
  generate --seed S --count N    lines for 'answer', good and damaged
  vectors [--seed S]             the list of vectors, in bytes
  verify                         whether the stored list is the one that 'vectors' makes
  replay [FILE]                  runs a stored list, counts the vectors that differ
  counts                         how many vectors of each class, question and answer are stored
  plain                          every ordered pair of plain types, in bytes
  selftest                       the oracle's own tests
  stops                          whether this build stops where a sum leaves 8 signed bits
  mutants                        builds each edited copy of the source and replays the list";

/// Runs the command of the arguments; false where a check fails.
pub fn run() -> io::Result<bool> {
    let words: Vec<String> = std::env::args().skip(1).collect();
    match words.first().map_or("", String::as_str) {
        "answer" => answer_lines(),
        "shelf" => shelf(),
        "generate" => generate(option(&words, "--seed", 1), option(&words, "--count", 1000)),
        "vectors" => print_bytes(&made(option(&words, "--seed", vectors::SEED))),
        "verify" => verify(),
        "replay" => stored::replay(words.get(1).map_or(STORED, String::as_str)),
        "counts" => counts(),
        "plain" => print_bytes(&plain::table()),
        "selftest" => selftest::run(),
        "stops" => stops(),
        "mutants" => mutants::run(words.get(1).map_or("", String::as_str)),
        _ => Err(io::Error::other(USAGE)),
    }
}

fn made(seed: u64) -> Vec<u8> {
    stored::write(&vectors::all(seed))
}

fn option(words: &[String], name: &str, default: u64) -> u64 {
    let at = words.iter().position(|word| word == name);
    at.and_then(|at| words.get(at + 1)?.parse().ok()).unwrap_or(default)
}

fn print_bytes(bytes: &[u8]) -> io::Result<bool> {
    io::stdout().lock().write_all(bytes)?;
    Ok(true)
}

fn answer_lines() -> io::Result<bool> {
    let mut out = BufWriter::new(io::stdout().lock());
    for line in io::stdin().lock().lines() {
        match generator::of_line(&line?) {
            None => writeln!(out, "not a call")?,
            Some(call) => match call.answer() {
                Answer::Refused(number) => writeln!(out, "refused {number}")?,
                Answer::None => writeln!(out, "none")?,
                Answer::Type(bytes) => writeln!(out, "type {}", generator::hex(&bytes))?,
            },
        }
    }
    out.flush()?;
    Ok(true)
}

fn shelf() -> io::Result<bool> {
    let mut sheet = Vec::new();
    io::stdin().lock().read_to_end(&mut sheet)?;
    for line in selftest::shelf_lines(&sheet) {
        println!("{line}");
    }
    Ok(true)
}

fn generate(seed: u64, count: u64) -> io::Result<bool> {
    let mut rng = Rng::new(seed);
    let mut out = BufWriter::new(io::stdout().lock());
    for _ in 0..count {
        writeln!(out, "{}", generator::line(&generator::any_call(&mut rng)))?;
    }
    out.flush()?;
    Ok(true)
}

fn verify() -> io::Result<bool> {
    let stored = std::fs::read(STORED)?;
    let made = made(vectors::SEED);
    let same = stored == made;
    let word = if same { "equal" } else { "NOT equal" };
    println!("{} bytes stored, {} made, {word}", stored.len(), made.len());
    Ok(same)
}

fn code_word(answer: &Answer) -> String {
    match answer {
        Answer::Refused(number) => format!("refused {number}"),
        Answer::None => "none".to_string(),
        Answer::Type(_) => "type".to_string(),
    }
}

fn counts() -> io::Result<bool> {
    let vectors = stored::load(STORED)?;
    let mut by_answer: BTreeMap<(&str, String), usize> = BTreeMap::new();
    let mut by_tag: BTreeMap<u16, usize> = BTreeMap::new();
    for vector in &vectors {
        let key = (vector.call.question.word(), code_word(&vector.answer));
        *by_answer.entry(key).or_default() += 1;
        *by_tag.entry(vector.tag).or_default() += 1;
    }
    let greatest = |size: fn(&Call) -> u32| vectors.iter().map(|v| size(&v.call)).max();
    println!("{} vectors", vectors.len());
    println!("greatest sheet {:?}", greatest(|call| call.sheet.len() as u32));
    println!("greatest output {:?}", greatest(|call| call.output));
    println!("greatest work {:?}", greatest(|call| call.work));
    for ((question, answer), count) in by_answer {
        println!("{question} {answer}: {count}");
    }
    for (tag, name, _) in crate::vectors::classes() {
        println!("{tag} | {name} | {}", by_tag.get(&tag).unwrap_or(&0));
    }
    Ok(true)
}

/// Sums that leave 8 signed bits: the debug build stops on them, the release build wraps.
fn stops() -> io::Result<bool> {
    std::panic::set_hook(Box::new(|_| {}));
    let pairs = [
        [Decimal256(76, 0), Decimal256(76, 76)],
        [Decimal32(1, -126), Decimal32(9, 9)],
        [Decimal128(1, -126), Decimal256(76, 76)],
    ];
    for pair in &pairs {
        for question in QUESTIONS {
            let answer = std::panic::catch_unwind(|| common_type(question, FULL_MASK, pair));
            let said = answer.map_or("stopped".to_string(), |answer| format!("{answer:?}"));
            println!("{} of {pair:?}: {said}", question.word());
        }
    }
    Ok(true)
}
