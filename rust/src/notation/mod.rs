//! Types as text, in Arrow's notation.
//!
//! ```
//! use pemzhulaq::{notation, DataType};
//! let text = r#"Struct(cases: Int64, "till no.": nullable Timestamp(ns, "UTC"))"#;
//! let data_type: DataType = text.parse().unwrap();
//! assert_eq!(data_type.to_string(), text);
//! let error = notation::parse("List(Int65)").unwrap_err();
//! assert_eq!((error.line(), error.column()), (1, 6));
//! ```
//!
//! The grammar; spaces and line ends may stand between its signs and words:
//!
//! ```text
//! type     = word                                       a kind that the word alone tells
//!          | decimal "(" number "," number ")"          precision and scale
//!          | ("Time32" | "Time64" | "Duration") "(" unit ")"
//!          | "Timestamp" "(" unit ["," quoted] ")"      a zone is always in quotes
//!          | "Interval" "(" ("YearMonth" | "DayTime" | "MonthDayNano") ")"
//!          | "FixedSizeBinary" "(" number ")"
//!          | ("List" | "LargeList") "(" field ")"
//!          | "FixedSizeList" "(" number "x" field ")"
//!          | "Struct" "(" [field {"," field}] ")"
//!          | "Map" "(" field "," ("sorted" | "unsorted") ")"
//!          | "Dictionary" "(" type "," type ")"
//!          | "RunEndEncoded" "(" field "," field ")"
//! field    = [name ":"] ["nullable" | "non-null"] type
//! name     = word | quoted
//! unit     = "s" | "ms" | "µs" | "us" | "ns"
//! word     = a letter or "_", then letters, digits and "_"
//! number   = ["-"] digits
//! quoted   = '"' ... '"', with \" \\ \n \r \t and \xHH for any one byte
//! ```
//!
//! A field of a Struct has its name before it. Elsewhere a field without one has the name that
//! Arrow gives it: `item` in lists, `entries` in a Map, `run_ends` and `values` in a
//! RunEndEncoded.
//!
//! A field is not nullable unless it says `nullable`; `non-null` may be said too and is never
//! printed. Another tool may leave the word out where a field is nullable: its `List(Int32)` is
//! `List(nullable Int32)` here.

mod error;
mod figures;
mod parse;
mod print;
mod tokens;

pub use error::ParseError;
pub use parse::{parse, parse_lines};
pub(crate) use print::{print_name, print_quoted};

use crate::Kind;

/// The name of a part, by its number, that goes without saying.
fn default_name(kind: Kind, part: usize) -> Option<&'static str> {
    match (kind, part) {
        (Kind::List | Kind::LargeList | Kind::FixedSizeList, _) => Some("item"),
        (Kind::Map, _) => Some("entries"),
        (Kind::RunEndEncoded, 0) => Some("run_ends"),
        (Kind::RunEndEncoded, _) => Some("values"),
        _ => None,
    }
}

/// The words for units, by their numbers.
const UNITS: [&str; 4] = ["s", "ms", "µs", "ns"];
const INTERVALS: [&str; 3] = ["YearMonth", "DayTime", "MonthDayNano"];

fn starts_word(c: char) -> bool {
    c.is_alphabetic() || c == '_'
}

fn continues_word(c: char) -> bool {
    c.is_alphanumeric() || c == '_'
}

fn is_word(text: &str) -> bool {
    text.starts_with(starts_word) && text.chars().all(continues_word)
}
