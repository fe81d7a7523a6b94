//! The port against the source, case by case and byte by byte.

use crate::call::{Answer, Call};
use crate::cases;
use crate::counts::{grouped, Counts};
use crate::lent::{Lent, Pattern};
use crate::notation::{shown_answer, shown_call};
use crate::options::{wrong, Options};
use crate::rng::Rng;
use crate::shrink::shrink;
use crate::spoil::{self, Spoil};
use crate::{document, stack};
use std::cell::RefCell;
use std::io;
use std::panic::catch_unwind;
use std::sync::atomic::{AtomicBool, Ordering};
use std::thread;
use std::time::{Duration, Instant};

pub const OPTIONS: [&str; 6] =
    ["--seed=", "--cases=", "--seconds=", "--threads=", "--spoil=", "--write"];

const PATTERN_SEED: u64 = 7;
const TURN: usize = 1;

/// What one thread is to do.
#[derive(Clone, Copy)]
pub struct Task {
    pub seed: u64,
    pub cases: u64,
    pub until: Instant,
    pub spoil: Option<Spoil>,
}

/// A call on which the two sides differ.
pub struct Difference {
    class: &'static str,
    call: Call,
}

/// Both sides of a call and the memory for them.
pub struct Sides {
    pattern: Pattern,
    ours: Lent,
    due: Lent,
    spoil: Option<Spoil>,
}

impl Sides {
    /// Memory for both sides; a spoil is a mistake in what the port answers.
    pub fn new(spoil: Option<Spoil>) -> Sides {
        let pattern = Pattern::new(PATTERN_SEED);
        Sides { pattern, ours: Lent::default(), due: Lent::default(), spoil }
    }

    /// The port's number and the one that is due, where the source has an answer.
    fn run(&mut self, call: &Call, turn: usize) -> (usize, Option<usize>) {
        self.ours.lay(call, &self.pattern, turn);
        self.due.lay(call, &self.pattern, turn);
        let answer = catch_unwind(|| call.answer()).ok();
        let due = answer.map(|answer| self.due.expect(&answer));
        (spoil::ask(self.spoil, &mut self.ours, call), due)
    }

    /// The number that both sides gave, or none where anything differs.
    pub fn agreed(&mut self, call: &Call, turn: usize) -> Option<usize> {
        let (ours, due) = self.run(call, turn);
        (due == Some(ours) && self.ours.is_same(&self.due)).then_some(ours)
    }

    /// Whether anything differs.
    pub fn differs(&mut self, call: &Call) -> bool {
        self.agreed(call, TURN).is_none()
    }

    fn report(&mut self, call: &Call) -> String {
        let (ours, due) = self.run(call, TURN);
        let answer = catch_unwind(|| call.answer());
        let said = answer.as_ref().map_or("the source stopped".to_string(), shown_answer);
        let ours_said = match ours {
            0 => "none".to_string(),
            1..=31 => format!("refused {ours}"),
            length => {
                let kept = self.ours.output_mut().get(..length);
                kept.map_or(format!("{length}"), |kept| shown_answer(&Answer::Type(kept.to_vec())))
            }
        };
        let bytes = self.ours.first_difference(&self.due);
        let bytes = bytes.unwrap_or_else(|| "every byte as due".to_string());
        format!(
            "{}\n  due       {due:?}: {said}\n  ours      {ours}: {ours_said}\n  bytes     {bytes}",
            shown_call(call)
        )
    }
}

/// Runs cases until their number, the time or the flag says stop.
pub fn work(task: Task, stop: &AtomicBool) -> (Counts, Option<Difference>) {
    let mut counts = Counts::new();
    let mut rng = Rng::new(task.seed);
    let mut sides = Sides::new(task.spoil);
    let mut done = 0;
    while done < task.cases && !stop.load(Ordering::Relaxed) && Instant::now() < task.until {
        let class = cases::any_class(&mut rng);
        let mut calls = cases::calls(&mut rng, class);
        calls.truncate((task.cases - done) as usize);
        for call in calls {
            done += 1;
            match sides.agreed(&call, done as usize) {
                Some(number) => counts.add(class, call.question as usize, number),
                None => {
                    stop.store(true, Ordering::Relaxed);
                    return (counts, Some(Difference { class: cases::CLASSES[class].0, call }));
                }
            }
        }
    }
    (counts, None)
}

/// The smallest call that differs too, and both in words.
pub fn explain(found: &Difference, spoil: Option<Spoil>) -> (Call, String) {
    let sides = RefCell::new(Sides::new(spoil));
    let differs = |call: &Call| sides.borrow_mut().differs(call);
    let small = if differs(&found.call) {
        shrink(found.call.clone(), &differs)
    } else {
        found.call.clone()
    };
    let mut sides = sides.borrow_mut();
    let text = format!(
        "DIFFERENCE in '{}'\nas found:\n{}\nsmallest:\n{}",
        found.class,
        sides.report(&found.call),
        sides.report(&small)
    );
    (small, text)
}

/// Compares on every thread, prints the counts, and explains the first difference.
pub fn run(options: &Options) -> io::Result<bool> {
    let started = Instant::now();
    let (seed, cases) = (options.number("--seed", 1)?, options.number("--cases", 10_000_000)?);
    let seconds = options.number("--seconds", 3600)?;
    let threads = options.number("--threads", 1)?.max(1);
    let word = options.word("--spoil");
    let spoil = word.map(|word| spoil::of_word(word).ok_or_else(|| wrong("no such spoil")));
    let spoil = spoil.transpose()?;
    std::panic::set_hook(Box::new(|_| {}));
    let until = started + Duration::from_secs(seconds);
    let cases = cases.div_ceil(threads);
    let task = |at: u64| Task { seed: seed.wrapping_add(at << 32), cases, until, spoil };
    let results = work_all((0..threads).map(task).collect())?;
    finish(options, results, started.elapsed(), spoil)
}

/// Each task on a thread of its own, with a large stack.
fn work_all(tasks: Vec<Task>) -> io::Result<Results> {
    let stop = &AtomicBool::new(false);
    thread::scope(|scope| {
        let spawn = |task| {
            let thread = thread::Builder::new().stack_size(stack::SIZE);
            thread.spawn_scoped(scope, move || work(task, stop))
        };
        let running: Vec<_> = tasks.into_iter().map(spawn).collect();
        let ended = running.into_iter().map(|thread| {
            let result = thread?.join();
            result.map_err(|_| wrong("a thread of the comparison stopped"))
        });
        ended.collect()
    })
}

type Results = Vec<(Counts, Option<Difference>)>;

fn finish(
    options: &Options,
    results: Results,
    time: Duration,
    spoil: Option<Spoil>,
) -> io::Result<bool> {
    let mut counts = Counts::new();
    results.iter().for_each(|(more, _)| counts.merge(more));
    let found = results.iter().find_map(|(_, difference)| difference.as_ref());
    let (total, seconds) = (grouped(counts.total()), time.as_secs());
    let seed = options.number("--seed", 1)?;
    let end = if found.is_some() { "one DIFFERENCE" } else { "no difference" };
    let summary = format!("{total} calls of seed {seed} in {seconds} s, {end}\n");
    println!("{}\n{summary}", counts.tables());
    if let Some(found) = found {
        println!("{}", explain(found, spoil).1);
    } else if options.has("--write") {
        let text = format!("{summary}\n{}", counts.tables());
        document::rewrite("compare", &text)?;
        document::summarize("compare", &summary)?;
    }
    Ok(found.is_none())
}
