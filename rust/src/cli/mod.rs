//! From arguments to answers. Everything is worked out before a byte is printed, and files get their
//! names last.

mod args;
mod files;
mod input;
mod report;

use args::{Command, Options, Place};
use pemzhulaq::coerce::Question;
use std::fmt::Display;
use std::io::{self, ErrorKind, Write};
use std::process::ExitCode;

/// Why the program ends without answers.
pub struct Failure {
    status: u8,
    message: String,
}

impl Failure {
    /// A wrong argument, text or file.
    pub fn wrong(message: impl Into<String>) -> Failure {
        Failure { status: 2, message: message.into() }
    }

    /// An answer that has no sheet to write.
    fn no_type(message: String) -> Failure {
        Failure { status: 1, message }
    }
}

pub fn main() -> ExitCode {
    match args::read(std::env::args_os().skip(1)).and_then(run) {
        Ok(()) => ExitCode::SUCCESS,
        Err(failure) => {
            say(failure.message);
            ExitCode::from(failure.status)
        }
    }
}

/// Says something on standard error. Where that cannot be written, nobody is left to be told.
fn say(message: impl Display) {
    let _ = io::stderr().write_all(format!("pemzhulaq: {message}\n").as_bytes());
}

fn run(command: Command) -> Result<(), Failure> {
    match command {
        Command::Help => print(include_bytes!("help.txt")),
        Command::Version => {
            print(concat!("pemzhulaq ", env!("CARGO_PKG_VERSION"), "\n").as_bytes())
        }
        Command::Ask(options) => ask(&options),
    }
}

fn ask(options: &Options) -> Result<(), Failure> {
    let sheet = input::sheet(&options.source)?;
    let answers: Vec<report::Answer> = questions(options)
        .into_iter()
        .map(|question| (question, question.ask(&sheet, options.mask)))
        .collect();
    let lines = report::text(&sheet, &answers, options.hex)?;
    let (mut printed, mut written) = (lines.as_bytes(), Vec::new());
    let places = [(&options.encode, Ok(sheet.as_slice())), (&options.out, answer_sheet(&answers))];
    for (place, bytes) in places {
        match place {
            None => {}
            // A sheet that goes to standard output has it alone.
            Some(Place::Standard) => printed = bytes?,
            Some(Place::File(path)) => written.push((path.as_path(), bytes?)),
        }
    }
    let staged = files::Staged::new(&written)?;
    print(printed)?;
    staged.put()?;
    if let Some(warning) = report::warning(&sheet, &answers).filter(|_| !options.quiet) {
        say(warning);
    }
    Ok(())
}

/// The questions whose answers are printed or written.
fn questions(options: &Options) -> Vec<Question> {
    match options {
        Options { encode: Some(Place::Standard), out: None, .. } => Vec::new(),
        Options { question: Some(question), .. } => vec![*question],
        _ => Question::ALL.to_vec(),
    }
}

/// The sheet of the one answer.
fn answer_sheet(answers: &[report::Answer]) -> Result<&[u8], Failure> {
    match answers {
        [(_, Ok(Some(sheet)))] => Ok(sheet),
        [(question, Ok(None))] => {
            Err(Failure::no_type(format!("{question} none: no sheet to write")))
        }
        [(question, Err(refusal))] => {
            Err(Failure::no_type(format!("{question} {refusal}: no sheet to write")))
        }
        _ => Err(Failure::wrong("--out needs --question")),
    }
}

/// Writes to standard output. A reader that closes it early, as `head` does, has what it wants.
fn print(bytes: &[u8]) -> Result<(), Failure> {
    let mut stdout = io::stdout().lock();
    match stdout.write_all(bytes).and_then(|()| stdout.flush()) {
        Err(error) if error.kind() != ErrorKind::BrokenPipe => {
            Err(Failure::wrong(format!("cannot write standard output: {error}")))
        }
        _ => Ok(()),
    }
}
