//! `join` over strings, the one adaptor that the source takes.

pub trait Itertools: Iterator<Item = String> {
    fn join(&mut self, separator: &str) -> String {
        let parts: Vec<String> = self.collect();
        parts.join(separator)
    }
}

impl<I: Iterator<Item = String>> Itertools for I {}
