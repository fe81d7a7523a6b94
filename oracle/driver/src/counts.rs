//! How often each class and question got each answer.

use crate::call::QUESTIONS;
use crate::cases::CLASSES;

/// None, the refusals 1 to 8, a type.
const ANSWERS: usize = 10;

/// Calls by class of sheets, question and answer.
#[derive(Clone)]
pub struct Counts([[[u64; ANSWERS]; 3]; CLASSES.len()]);

impl Counts {
    /// No calls.
    pub fn new() -> Counts {
        Counts([[[0; ANSWERS]; 3]; CLASSES.len()])
    }

    /// Counts a call by the number that was answered.
    pub fn add(&mut self, class: usize, question: usize, number: usize) {
        self.0[class][question][number.min(ANSWERS - 1)] += 1;
    }

    /// Adds the counts of another thread.
    pub fn merge(&mut self, other: &Counts) {
        let cells = self.0.iter_mut().flatten().flatten();
        cells.zip(other.0.iter().flatten().flatten()).for_each(|(sum, more)| *sum += more);
    }

    /// All calls.
    pub fn total(&self) -> u64 {
        self.0.iter().flatten().flatten().sum()
    }

    /// Two tables: classes by answer, and questions by answer.
    pub fn tables(&self) -> String {
        let head = "type | none | 1 | 2 | 3 | 4 | 5 | 6 | 7 | 8 | calls |";
        let rule = "|---|---|---|---|---|---|---|---|---|---|---|---|\n";
        let mut text = format!("| Question | {head}\n{rule}");
        for (at, question) in QUESTIONS.iter().enumerate() {
            let rows: Vec<_> = self.0.iter().map(|class| class[at]).collect();
            text += &row(question.word(), &sum(&rows));
        }
        let all: Vec<_> = self.0.iter().flatten().copied().collect();
        text += &row("all", &sum(&all));
        text += &format!("\n| Sheets | {head}\n{rule}");
        for (at, class) in CLASSES.iter().enumerate() {
            text += &row(class.0, &sum(&self.0[at]));
        }
        text
    }
}

fn sum(rows: &[[u64; ANSWERS]]) -> [u64; ANSWERS] {
    std::array::from_fn(|at| rows.iter().map(|row| row[at]).sum())
}

fn row(name: &str, cells: &[u64; ANSWERS]) -> String {
    let total = cells.iter().sum();
    let order = [cells[9], cells[0]].into_iter().chain(cells[1..9].iter().copied());
    let shown: Vec<String> = order.chain([total]).map(grouped).collect();
    format!("| {name} | {} |\n", shown.join(" | "))
}

/// A number with a comma before every three digits.
pub fn grouped(number: u64) -> String {
    let digits = number.to_string();
    let mut text = String::new();
    for (at, digit) in digits.chars().enumerate() {
        if at > 0 && (digits.len() - at).is_multiple_of(3) {
            text.push(',');
        }
        text.push(digit);
    }
    text
}
