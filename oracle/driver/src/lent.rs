//! Everything that is lent to a call, in one stretch of memory with guards between.

use crate::call::{Answer, Call};
use crate::ours;
use crate::rng::Rng;
use std::ops::Range;

const GUARD: usize = 32;
const OFFSETS: usize = 1 << 12;
const PATTERN: usize = 1 << 20;

/// Bytes to fill memory with, none of them zero.
pub struct Pattern(Vec<u8>);

impl Pattern {
    /// The bytes of a seed.
    pub fn new(seed: u64) -> Pattern {
        let mut rng = Rng::new(seed);
        Pattern((0..PATTERN).map(|_| 1 + rng.below(255) as u8).collect())
    }
}

/// Guard, sheet, guard, output, guard, work space, guard.
#[derive(Default)]
pub struct Lent {
    bytes: Vec<u8>,
    sheet: Range<usize>,
    output: Range<usize>,
    work: Range<usize>,
}

impl Lent {
    /// Fills the memory for a call from a place in the pattern.
    pub fn lay(&mut self, call: &Call, pattern: &Pattern, turn: usize) {
        let after = |end: usize, length: usize| end + GUARD..end + GUARD + length;
        self.sheet = after(0, call.sheet.len());
        self.output = after(self.sheet.end, call.output as usize);
        self.work = after(self.output.end, call.work as usize);
        let from = turn % OFFSETS;
        self.bytes.clear();
        self.bytes.extend_from_slice(&pattern.0[from..from + self.work.end + GUARD]);
        self.bytes[self.sheet.clone()].copy_from_slice(&call.sheet);
    }

    /// Asks the port.
    pub fn ask(&mut self, call: &Call) -> usize {
        let (sheet, rest) = self.bytes.split_at_mut(self.sheet.end);
        let (output, work) = rest.split_at_mut(self.output.end - self.sheet.end);
        let output = &mut output[self.output.start - self.sheet.end..];
        let work = &mut work[self.work.start - self.output.end..][..self.work.len()];
        ours::ask(call.question, &sheet[self.sheet.start..], call.mask, output, work)
    }

    /// Leaves what docs/FORMAT.md says of this answer, and gives its number.
    pub fn expect(&mut self, answer: &Answer) -> usize {
        if let Answer::Refused(number) = answer {
            return usize::from(*number);
        }
        let both = 2 * self.sheet.len();
        self.bytes[self.work.start..self.work.start + both].fill(0);
        match answer {
            Answer::Type(found) => {
                self.output_mut()[..found.len()].copy_from_slice(found);
                found.len()
            }
            _ => 0,
        }
    }

    /// The output alone.
    pub fn output_mut(&mut self) -> &mut [u8] {
        &mut self.bytes[self.output.clone()]
    }

    /// The work space alone.
    pub fn work_mut(&mut self) -> &mut [u8] {
        &mut self.bytes[self.work.clone()]
    }

    /// The sheet alone.
    pub fn sheet_mut(&mut self) -> &mut [u8] {
        &mut self.bytes[self.sheet.clone()]
    }

    /// Whether every byte is the same, guards and all.
    pub fn is_same(&self, other: &Lent) -> bool {
        self.bytes == other.bytes
    }

    /// Where the first byte differs, in words.
    pub fn first_difference(&self, other: &Lent) -> Option<String> {
        let at = self.bytes.iter().zip(&other.bytes).position(|(a, b)| a != b)?;
        let parts = [("sheet", &self.sheet), ("output", &self.output), ("work space", &self.work)];
        let inside = parts.iter().find(|(_, part)| part.contains(&at));
        let place = match inside {
            Some((name, part)) => format!("byte {} of the {name}", at - part.start),
            None => format!("byte {at}, which was not lent"),
        };
        Some(format!("{place} is {:02x}, due {:02x}", self.bytes[at], other.bytes[at]))
    }
}
