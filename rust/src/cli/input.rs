//! The sheet that is asked about.

use super::args::{Place, Source};
use super::Failure;
use pemzhulaq::{notation, sheet, DataType};
use std::fs::File;
use std::io::{self, Read};

/// Far more than 1,023 types need.
const MAX_TEXT: u64 = 16 << 20;

pub fn sheet(source: &Source) -> Result<Vec<u8>, Failure> {
    match source {
        Source::Types(texts) => encode(&parse_arguments(texts)?),
        Source::File(place) => encode(&parse_file(place)?),
        // One byte more than a sheet can have is enough for the call to refuse it.
        Source::Sheet(place) => read(place, sheet::MAX_SHEET as u64 + 1),
    }
}

fn encode(types: &[DataType]) -> Result<Vec<u8>, Failure> {
    sheet::encode(types)
        .map_err(|error| Failure::wrong(format!("no sheet can carry this: {error}")))
}

fn parse_arguments(texts: &[String]) -> Result<Vec<DataType>, Failure> {
    let parse = |(at, text): (usize, &String)| {
        notation::parse(text).map_err(|error| Failure::wrong(format!("type {}, {error}", at + 1)))
    };
    texts.iter().enumerate().map(parse).collect()
}

fn parse_file(place: &Place) -> Result<Vec<DataType>, Failure> {
    let name = name_of(place);
    let bytes = read(place, MAX_TEXT + 1)?;
    if bytes.len() as u64 > MAX_TEXT {
        return Err(Failure::wrong(format!("{name}: more than {MAX_TEXT} bytes of text")));
    }
    let text = String::from_utf8(bytes).map_err(|error| {
        let place = place_behind(&error.as_bytes()[..error.utf8_error().valid_up_to()]);
        Failure::wrong(format!("{name}, {place}: not UTF-8; write a byte as \\xHH in quotes"))
    })?;
    notation::parse_lines(&text).map_err(|error| Failure::wrong(format!("{name}, {error}")))
}

/// The line and the column behind some text.
fn place_behind(text: &[u8]) -> String {
    let text = String::from_utf8_lossy(text);
    let text = text.strip_prefix('\u{feff}').unwrap_or(&text);
    let last = text.rsplit('\n').next().unwrap_or("");
    format!("line {}, column {}", text.matches('\n').count() + 1, last.chars().count() + 1)
}

/// The first bytes of a file or of standard input.
fn read(place: &Place, limit: u64) -> Result<Vec<u8>, Failure> {
    let mut bytes = Vec::new();
    let read = match place {
        Place::Standard => io::stdin().lock().take(limit).read_to_end(&mut bytes),
        Place::File(path) => {
            File::open(path).and_then(|file| file.take(limit).read_to_end(&mut bytes))
        }
    };
    read.map_err(|error| Failure::wrong(format!("cannot read {}: {error}", name_of(place))))?;
    Ok(bytes)
}

fn name_of(place: &Place) -> String {
    match place {
        Place::Standard => "standard input".to_string(),
        Place::File(path) => path.display().to_string(),
    }
}
