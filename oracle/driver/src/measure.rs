//! Times of one call, taken in turns.

use crate::call::{common_type, Answer, Call, Question};
use crate::standin::arrow::datatypes::DataType;
use crate::{ours, rust, sheet};
use std::hint::black_box;

/// A sample runs about this long, so that the clock's own steps do not count.
const SAMPLE: f64 = 40_000.0;

const CLOCK_THREAD_CPUTIME_ID: i32 = 3;

extern "C" {
    fn clock_gettime(clock: i32, time: *mut [i64; 2]) -> i32;
}

/// The processor time of this thread, in nanoseconds: what other processes take is left out.
pub fn thread_time() -> i64 {
    let mut time = [0; 2];
    // On 64-bit Linux a timespec is two numbers of 64 bits, seconds and nanoseconds.
    let failed = unsafe { clock_gettime(CLOCK_THREAD_CPUTIME_ID, &mut time) };
    assert_eq!(failed, 0, "the system has no clock of a thread");
    time[0] * 1_000_000_000 + time[1]
}

/// The three that are timed.
#[derive(Debug, Clone, Copy, PartialEq, Eq)]
pub enum Side {
    Ours,
    Rust,
    Source,
}

/// All sides, in the order of the tables.
pub const SIDES: [Side; 3] = [Side::Ours, Side::Rust, Side::Source];

/// A call with warm buffers, its decoded types where no refusal applies, and the samples.
pub struct Timed {
    pub call: Call,
    types: Option<Vec<DataType>>,
    sides: Vec<Side>,
    output: Vec<u8>,
    work: Vec<u8>,
    repeats: [usize; 3],
    samples: [Vec<f64>; 3],
}

impl Timed {
    /// Fails where the two ways from bytes to bytes do not give the oracle's answer.
    pub fn new(call: &Call) -> Result<Timed, String> {
        let answer = call.answer();
        let refused = matches!(answer, Answer::Refused(_));
        let types = if refused { None } else { sheet::read(&call.sheet).ok() };
        let sides = if refused { &SIDES[..2] } else { &SIDES[..] };
        let mut timed = Timed { types, ..Timed::cold(call, sides) };
        timed.expect(Side::Ours, &answer)?;
        timed.expect(Side::Rust, &answer)?;
        Ok(timed)
    }

    /// A call of which the port alone is timed.
    pub fn ours_alone(call: &Call) -> Timed {
        Timed::cold(call, &[Side::Ours])
    }

    fn cold(call: &Call, sides: &[Side]) -> Timed {
        Timed {
            call: call.clone(),
            types: None,
            sides: sides.to_vec(),
            output: vec![0; call.output as usize],
            work: vec![0; call.work as usize],
            repeats: [1; 3],
            samples: Default::default(),
        }
    }

    /// Fails where a side does not give an answer.
    pub fn expect(&mut self, side: Side, answer: &Answer) -> Result<(), String> {
        self.output.fill(0xa5);
        let number = self.once(side);
        if is_answer(answer, number, &self.output) {
            return Ok(());
        }
        Err(format!("{side:?} does not give the oracle's answer: {number}"))
    }

    /// Calls a side once, and gives the number answered (of the source, whether there is a type).
    pub fn once(&mut self, side: Side) -> usize {
        let Call { question, mask, ref sheet, .. } = self.call;
        let sheet = black_box(&sheet[..]);
        match side {
            Side::Ours => ours::ask(question, sheet, mask, &mut self.output, &mut self.work),
            Side::Rust => rust::ask(question, sheet, mask, &mut self.output, self.work.len()),
            Side::Source => {
                let types = black_box(self.types.as_ref().expect("an accepted call"));
                usize::from(black_box(common_type(question, mask, types)).is_some())
            }
        }
    }

    /// A loop for each, in which a function is called by its name, as a program that asks calls it.
    pub fn repeat(&mut self, side: Side, times: usize) {
        let question = self.call.question;
        match (side, question) {
            (Side::Ours, Question::List) => self.again(times, ours::type_union_resolution),
            (Side::Ours, Question::Union) => self.again(times, ours::type_union_coercion),
            (Side::Ours, Question::Compare) => self.again(times, ours::comparison_coercion),
            (Side::Rust, _) => self.again(times, |sheet, mask, output, work| {
                rust::ask(question, sheet, mask, output, work.len())
            }),
            (Side::Source, _) => (0..times).for_each(|_| {
                black_box(self.once(side));
            }),
        }
    }

    fn again(&mut self, times: usize, ask: impl Fn(&[u8], u64, &mut [u8], &mut [u8]) -> usize) {
        for _ in 0..times {
            let sheet = black_box(&self.call.sheet[..]);
            black_box(ask(sheet, self.call.mask, &mut self.output, &mut self.work));
        }
    }

    fn time(&mut self, side: Side, times: usize) -> f64 {
        let start = thread_time();
        self.repeat(side, times);
        (thread_time() - start) as f64 / times as f64
    }

    /// Whether a side is timed.
    pub fn has(&self, side: Side) -> bool {
        self.sides.contains(&side)
    }

    /// How often a call is repeated in one sample.
    pub fn calibrate(&mut self) {
        for side in SIDES.into_iter().filter(|&side| self.has(side)).collect::<Vec<_>>() {
            let first = self.time(side, 1).max(1.0);
            let guess = ((SAMPLE / first) as usize).clamp(1, 10_000);
            let better = self.time(side, guess).max(1.0);
            self.repeats[side as usize] = ((SAMPLE / better) as usize).clamp(1, 100_000);
        }
    }

    /// One sample of each side, after a call that warms its memory.
    pub fn sample(&mut self) {
        for side in SIDES {
            if self.has(side) {
                self.repeat(side, 1);
                let time = self.time(side, self.repeats[side as usize]);
                self.samples[side as usize].push(time);
            }
        }
    }

    /// The median of a side's samples, in nanoseconds.
    pub fn median(&self, side: Side) -> Option<f64> {
        let mut samples = self.samples[side as usize].clone();
        samples.sort_by(f64::total_cmp);
        samples.get(samples.len() / 2).copied()
    }
}

fn is_answer(answer: &Answer, number: usize, output: &[u8]) -> bool {
    match answer {
        Answer::Refused(due) => number == usize::from(*due),
        Answer::None => number == 0,
        Answer::Type(bytes) => output.get(..number) == Some(&bytes[..]),
    }
}

/// Rounds over all calls, so that whatever else the machine does falls on all of them.
pub fn rounds(timed: &mut [Timed], count: usize) {
    timed.iter_mut().for_each(Timed::calibrate);
    for _ in 0..count {
        timed.iter_mut().for_each(Timed::sample);
    }
}
