//! The arguments.

use super::Failure;
use pemzhulaq::coerce::Question;
use pemzhulaq::Mask;
use std::ffi::OsString;
use std::path::PathBuf;

pub enum Command {
    Help,
    Version,
    Ask(Options),
}

/// Where the types come from.
pub enum Source {
    Types(Vec<String>),
    File(Place),
    Sheet(Place),
}

/// What a FILE names: a file, or standard input or output for `-`.
pub enum Place {
    Standard,
    File(PathBuf),
}

pub struct Options {
    pub source: Source,
    pub question: Option<Question>,
    pub mask: Mask,
    pub hex: bool,
    pub quiet: bool,
    pub encode: Option<Place>,
    pub out: Option<Place>,
}

impl From<OsString> for Place {
    fn from(name: OsString) -> Place {
        if name == "-" {
            Place::Standard
        } else {
            Place::File(name.into())
        }
    }
}

/// What was given so far.
#[derive(Default)]
struct Given {
    types: Vec<String>,
    file: Option<OsString>,
    sheet: Option<OsString>,
    question: Option<OsString>,
    mask: Option<OsString>,
    encode: Option<OsString>,
    out: Option<OsString>,
    hex: bool,
    quiet: bool,
}

pub fn read(mut args: impl Iterator<Item = OsString>) -> Result<Command, Failure> {
    let mut given = Given::default();
    while let Some(arg) = args.next() {
        let text = arg.into_string().map_err(|arg| {
            wrong(format!("{arg:?} is not UTF-8; in a type, write a byte as \\xHH in quotes"))
        })?;
        match text.as_str() {
            "--help" | "-h" => return Ok(Command::Help),
            "--version" | "-V" => return Ok(Command::Version),
            "--hex" => given.hex = true,
            "--quiet" | "-q" => given.quiet = true,
            "--" => given.add_types(args.by_ref())?,
            _ if text.starts_with('-') => given.set(&text, &mut args)?,
            _ => given.types.push(text),
        }
    }
    given.options().map(Command::Ask)
}

fn wrong(message: impl std::fmt::Display) -> Failure {
    Failure::wrong(format!("{message} (pemzhulaq --help says more)"))
}

impl Given {
    fn add_types(&mut self, args: impl Iterator<Item = OsString>) -> Result<(), Failure> {
        for arg in args {
            let text = arg.into_string().map_err(|arg| wrong(format!("{arg:?} is not UTF-8")))?;
            self.types.push(text);
        }
        Ok(())
    }

    /// Sets an option that has a value, `--name VALUE` or `--name=VALUE`.
    fn set(
        &mut self,
        text: &str,
        args: &mut impl Iterator<Item = OsString>,
    ) -> Result<(), Failure> {
        let (name, value) = match text.split_once('=') {
            Some((name, value)) => (name, Some(value.into())),
            None => (text, None),
        };
        let place = match name {
            "--file" => &mut self.file,
            "--sheet" => &mut self.sheet,
            "--question" => &mut self.question,
            "--mask" => &mut self.mask,
            "--encode" => &mut self.encode,
            "--out" => &mut self.out,
            _ => return Err(wrong(format!("unknown option {name}"))),
        };
        let value = value.or_else(|| args.next()).filter(|value| !value.is_empty());
        let value = value.ok_or_else(|| wrong(format!("{name} needs a value")))?;
        match place.replace(value) {
            Some(_) => Err(wrong(format!("{name} was given twice"))),
            None => Ok(()),
        }
    }

    fn options(self) -> Result<Options, Failure> {
        let question = self.question.as_ref().map(question).transpose()?;
        if self.out.is_some() && question.is_none() {
            return Err(wrong("--out needs --question"));
        }
        if self.out.is_some() && self.out == self.encode {
            return Err(wrong("--out and --encode name the same file"));
        }
        let (encode, out) = (self.encode.map(Place::from), self.out.map(Place::from));
        let is_standard = |place: &Option<Place>| matches!(place, Some(Place::Standard));
        if self.hex && (is_standard(&encode) || is_standard(&out)) {
            return Err(wrong("--hex prints lines, but standard output takes the sheet alone"));
        }
        Ok(Options {
            question,
            mask: self.mask.as_ref().map_or(Ok(Mask::ALL), mask)?,
            hex: self.hex,
            quiet: self.quiet,
            encode,
            out,
            source: source(self.types, self.file, self.sheet)?,
        })
    }
}

fn source(
    types: Vec<String>,
    file: Option<OsString>,
    sheet: Option<OsString>,
) -> Result<Source, Failure> {
    match (types.is_empty(), file, sheet) {
        (false, None, None) => Ok(Source::Types(types)),
        (true, Some(file), None) => Ok(Source::File(file.into())),
        (true, None, Some(sheet)) => Ok(Source::Sheet(sheet.into())),
        (true, None, None) => Err(wrong("no types were given")),
        _ => Err(wrong("types come from arguments, from --file or from --sheet, not from two")),
    }
}

fn question(word: &OsString) -> Result<Question, Failure> {
    let known = Question::ALL.into_iter().find(|question| word == question.word());
    known.ok_or_else(|| wrong(format!("--question is list, union or compare, not {word:?}")))
}

fn mask(word: &OsString) -> Result<Mask, Failure> {
    let text = word.to_str().unwrap_or_default();
    let digits = text.strip_prefix("0x").unwrap_or(text);
    // Rust would take a sign too.
    let is_hex = digits.bytes().all(|byte| byte.is_ascii_hexdigit());
    let bits = u64::from_str_radix(digits, 16).ok().filter(|_| is_hex);
    let message = "--mask is up to 16 hexadecimal digits, not";
    bits.map(Mask::from_bits).ok_or_else(|| wrong(format!("{message} {word:?}")))
}
