//! Dictionaries against run ends, where the source tries one way after the other.

use crate::call::{Answer, Call, Question, FULL_MASK, QUESTIONS};
use crate::inputs::{wrap_dictionary, wrap_run_ends};
use crate::sheet;
use crate::standin::arrow::datatypes::DataType;
use DataType::*;

/// How many wrappers a side has.
pub const STEPS: [usize; 4] = [10, 20, 100, 255];
/// The source takes binomial(2k, k) calls: it is asked only up to here.
pub const SOURCE_STEPS: usize = 10;

/// A call on wrappers against wrappers, `steps` on each side.
pub struct Ladder {
    pub name: String,
    pub steps: usize,
    pub call: Call,
}

const MASKS: [(&str, u64); 4] =
    [("all bits", FULL_MASK), ("bit 37", 1 << 37), ("bit 38", 1 << 38), ("no bit", 0)];
const CORES: [(&str, DataType, DataType); 4] = [
    ("Boolean and Binary", Boolean, Binary),
    ("Null and Binary", Null, Binary),
    ("Boolean and Null", Boolean, Null),
    ("Null and Null", Null, Null),
];
/// The wrappers of the left and of the right, from the outermost on, again and again.
const SIDES: [(&str, &str, &str); 6] = [
    ("Dictionaries left", "D", "R"),
    ("run ends left", "R", "D"),
    ("in turn, DR.. left", "DR", "RD"),
    ("in turn, RD.. left", "RD", "DR"),
    ("in turn, DR.. on both sides", "DR", "DR"),
    ("run ends on both sides", "R", "R"),
];

/// A core in a number of wrappers.
pub fn wrapped(pattern: &str, steps: usize, core: DataType) -> DataType {
    let wraps: Vec<char> = pattern.chars().cycle().take(steps).collect();
    wraps.into_iter().rev().fold(core, |inner, wrap| match wrap {
        'D' => wrap_dictionary("", inner, true),
        'L' => crate::make::list("", inner, true),
        _ => wrap_run_ends("", inner, true),
    })
}

/// All calls of a number of steps.
pub fn of(steps: usize) -> Vec<Ladder> {
    let mut ladders = Vec::new();
    for (sides, left, right) in SIDES {
        for (cores, l, r) in &CORES {
            let types = [wrapped(left, steps, l.clone()), wrapped(right, steps, r.clone())];
            let sheet = sheet::write(&types).expect("types that fit in a sheet");
            ladders.extend(asked(steps, &format!("{sides}, {cores}"), &sheet));
        }
    }
    ladders
}

fn asked(steps: usize, name: &str, sheet: &[u8]) -> Vec<Ladder> {
    let mut ladders = Vec::new();
    for (mask, bits) in MASKS {
        for question in QUESTIONS {
            let call = Call::new(question, bits, sheet.to_vec());
            ladders.push(Ladder { name: format!("{name}, {mask}"), steps, call });
        }
    }
    ladders
}

impl Ladder {
    /// Steps, sides, cores, mask and question in words.
    pub fn title(&self) -> String {
        format!("{} steps a side, {}, {}", self.steps, self.name, self.call.question.word())
    }

    /// Whether the source may be asked: a list takes one way alone.
    pub fn has_source(&self) -> bool {
        self.steps <= SOURCE_STEPS || self.call.question == Question::List
    }

    /// The oracle's answer, where the source may be asked.
    pub fn answer(&self) -> Option<Answer> {
        self.has_source().then(|| self.call.answer())
    }
}
