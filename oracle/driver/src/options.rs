//! Options of a command: `--name value`, or `--name` alone.

use std::io;

/// The options given, by name.
pub struct Options(Vec<(String, String)>);

impl Options {
    /// Reads the words after the command; `known` has the names, `=` after those with a value.
    pub fn read(words: &[String], known: &[&str]) -> io::Result<Options> {
        let mut found = Vec::new();
        let mut words = words.iter();
        while let Some(word) = words.next() {
            let valued = known.iter().any(|name| name.strip_suffix('=') == Some(word));
            let value = if valued { words.next().cloned() } else { Some(String::new()) };
            let Some(value) = value else { return Err(wrong(&format!("{word} needs a value"))) };
            if !valued && !known.contains(&word.as_str()) {
                return Err(wrong(&format!("{word} is no option of this command")));
            }
            found.push((word.clone(), value));
        }
        Ok(Options(found))
    }

    /// The value of an option, the last where it is given twice.
    pub fn word(&self, name: &str) -> Option<&str> {
        self.0.iter().rev().find(|(found, _)| found == name).map(|(_, value)| value.as_str())
    }

    /// Whether an option is given.
    pub fn has(&self, name: &str) -> bool {
        self.word(name).is_some()
    }

    /// The number of an option, in decimal; `_` between digits is let through.
    pub fn number(&self, name: &str, default: u64) -> io::Result<u64> {
        let Some(word) = self.word(name) else { return Ok(default) };
        let digits = word.replace('_', "");
        digits.parse().map_err(|_| wrong(&format!("{name} takes a number, not {word}")))
    }
}

/// An error that says a text.
pub fn wrong(text: &str) -> io::Error {
    io::Error::other(text.to_string())
}
