//! What the driver itself must do. (`cargo test` is no way to run these: the source asks for
//! a file of its own tests, which is not at hand.)

use crate::call::{Answer, Question};
use crate::cases;
use crate::compare::{explain, work, Task};
use crate::rng::Rng;
use crate::rust;
use crate::spoil::{Spoil, SPOILS};
use std::io;
use std::sync::atomic::AtomicBool;
use std::time::{Duration, Instant};

const CASES: u64 = 100_000;
/// The bytes of a sheet of two plain types.
const TWO_PLAIN: usize = 48;

/// Runs every test, and says which fails.
pub fn run() -> io::Result<bool> {
    let unspoiled = nothing_differs();
    println!("unspoiled, {CASES} calls: {}", word(unspoiled));
    let mut all = unspoiled;
    for (name, spoil) in SPOILS {
        let seen = is_seen(spoil);
        println!("spoil {name} is seen, and shrunk to two plain types or less: {}", word(seen));
        all &= seen;
    }
    let agreed = rust_agrees();
    println!("the Rust side of the benchmark answers as the oracle: {}", word(agreed));
    Ok(all && agreed)
}

fn word(right: bool) -> &'static str {
    if right {
        "yes"
    } else {
        "NO"
    }
}

fn task(spoil: Option<Spoil>) -> Task {
    Task { seed: 5, cases: CASES, until: Instant::now() + Duration::from_secs(600), spoil }
}

fn nothing_differs() -> bool {
    let (counts, difference) = work(task(None), &AtomicBool::new(false));
    difference.is_none() && counts.total() == CASES
}

fn is_seen(spoil: Spoil) -> bool {
    let (_, found) = work(task(Some(spoil)), &AtomicBool::new(false));
    let Some(found) = found else { return false };
    let (small, _) = explain(&found, Some(spoil));
    let asked = spoil != Spoil::Asked || small.question == Question::Compare;
    asked && small.sheet.len() <= TWO_PLAIN
}

/// On the cases of the comparison, bytes and all.
fn rust_agrees() -> bool {
    let mut rng = Rng::new(9);
    let mut agreed = true;
    for _ in 0..CASES {
        let class = cases::any_class(&mut rng);
        for call in cases::calls(&mut rng, class) {
            let mut output = vec![0xa5; call.output as usize];
            let space = call.work as usize;
            let number = rust::ask(call.question, &call.sheet, call.mask, &mut output, space);
            agreed &= match call.answer() {
                Answer::Refused(due) => number == usize::from(due),
                Answer::None => number == 0,
                Answer::Type(bytes) => output.get(..number) == Some(&bytes[..]),
            };
        }
    }
    agreed
}
