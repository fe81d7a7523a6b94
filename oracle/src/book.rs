//! How the list of vectors is gathered.

use crate::call::{Call, Question, FULL_MASK, QUESTIONS};
use crate::rng::Rng;
use crate::sheet;
use crate::standin::arrow::datatypes::DataType;
use crate::stored::Vector;

/// A number, what the vectors of the class are for, and the function that adds them.
pub type Class = (u16, &'static str, fn(&mut Book, u16));

/// The vectors so far, and the numbers from which more are made.
pub struct Book {
    pub vectors: Vec<Vector>,
    pub rng: Rng,
    turn: usize,
}

impl Book {
    /// An empty list.
    pub fn new(seed: u64) -> Book {
        Book { vectors: Vec::new(), rng: Rng::new(seed), turn: 0 }
    }

    /// Adds a call with its answer, as one of class `tag`.
    pub fn add(&mut self, tag: u16, call: Call) {
        let answer = call.answer();
        self.vectors.push(Vector { tag, call, answer });
    }

    /// Leaves at most `most` of the vectors from `start` on, in their order.
    pub fn thin(&mut self, start: usize, most: usize) {
        let added = self.vectors.split_off(start);
        let mut places: Vec<usize> = (0..added.len()).collect();
        self.rng.shuffle(&mut places);
        places.truncate(most);
        let kept = |(place, vector)| places.contains(&place).then_some(vector);
        self.vectors.extend(added.into_iter().enumerate().filter_map(kept));
    }

    /// A call with space that is exact or somewhat long.
    pub fn ask(&mut self, tag: u16, question: Question, mask: u64, types: &[DataType]) {
        let bytes = sheet::write(types).expect("types that fit in a sheet");
        let mut call = Call::new(question, mask, bytes);
        if self.rng.once_in(3) {
            call.output += self.rng.below(40) as u32;
            call.work += self.rng.below(80) as u32;
        }
        self.add(tag, call);
    }

    /// All three questions, or the list alone where there are not two types.
    pub fn ask_all(&mut self, tag: u16, types: &[DataType]) {
        for question in QUESTIONS {
            if question == Question::List || types.len() == 2 {
                self.ask(tag, question, FULL_MASK, types);
            }
        }
    }

    /// All three questions, both ways round.
    pub fn both_ways(&mut self, tag: u16, one: &DataType, other: &DataType) {
        self.ask_all(tag, &[one.clone(), other.clone()]);
        self.ask_all(tag, &[other.clone(), one.clone()]);
    }

    /// One question, the three of them in turn.
    pub fn in_turn(&mut self, tag: u16, mask: u64, types: &[DataType]) {
        self.turn += 1;
        let question = if types.len() == 2 { QUESTIONS[self.turn % 3] } else { Question::List };
        self.ask(tag, question, mask, types);
    }
}
