//! Names and zones.

use crate::notation;
use std::fmt;

/// A name or a zone: plain bytes, as a sheet has them.
///
/// A sheet may carry any bytes, so this is not a `String`. Most labels are text all the same:
/// they are made from text with `into()`, compared with it, and printed as it.
///
/// ```
/// use pemzhulaq::Label;
/// let label: Label = "loose".into();
/// assert_eq!(label, "loose");
/// assert_eq!(label.to_string(), "loose");
/// assert_eq!(Label::from(&b"\xFF a"[..]).to_string(), r#""\xFF a""#);
/// ```
#[derive(Clone, Default, PartialEq, Eq, Hash, PartialOrd, Ord)]
pub struct Label(Vec<u8>);

impl Label {
    /// The bytes.
    pub fn as_bytes(&self) -> &[u8] {
        &self.0
    }

    /// The text, where the bytes are UTF-8.
    pub fn as_text(&self) -> Option<&str> {
        std::str::from_utf8(&self.0).ok()
    }
}

impl From<&str> for Label {
    fn from(text: &str) -> Label {
        Label(text.as_bytes().to_vec())
    }
}

impl From<String> for Label {
    fn from(text: String) -> Label {
        Label(text.into_bytes())
    }
}

impl From<&[u8]> for Label {
    fn from(bytes: &[u8]) -> Label {
        Label(bytes.to_vec())
    }
}

impl From<Vec<u8>> for Label {
    fn from(bytes: Vec<u8>) -> Label {
        Label(bytes)
    }
}

impl PartialEq<str> for Label {
    fn eq(&self, text: &str) -> bool {
        self.0 == text.as_bytes()
    }
}

impl PartialEq<&str> for Label {
    fn eq(&self, text: &&str) -> bool {
        self == *text
    }
}

/// As a name stands in the notation: bare where it is a word, else in quotes with escapes.
impl fmt::Display for Label {
    fn fmt(&self, f: &mut fmt::Formatter<'_>) -> fmt::Result {
        notation::print_name(f, self)
    }
}

/// In quotes, with escapes.
impl fmt::Debug for Label {
    fn fmt(&self, f: &mut fmt::Formatter<'_>) -> fmt::Result {
        notation::print_quoted(f, self)
    }
}
