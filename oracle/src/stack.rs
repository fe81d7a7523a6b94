//! Types may be a thousand records deep, and the source recurses on them.

use std::io;
use std::process::ExitCode;
use std::thread::{Builder, JoinHandle};

/// Bytes of stack that the largest sheets need, with much to spare.
pub const SIZE: usize = 256 << 20;

/// Runs a task on a large stack; it fails where the task says so or panics.
pub fn run(task: fn() -> io::Result<bool>) -> ExitCode {
    let thread = Builder::new().stack_size(SIZE).spawn(task);
    match thread.map(JoinHandle::join) {
        Ok(Ok(Ok(true))) => ExitCode::SUCCESS,
        Ok(Ok(Err(error))) => {
            eprintln!("{}: {error}", option_env!("CARGO_PKG_NAME").unwrap_or("replay"));
            ExitCode::FAILURE
        }
        _ => ExitCode::FAILURE,
    }
}
