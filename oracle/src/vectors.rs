//! The stored list: every class in order, from one seed.

use crate::book::{Book, Class};
use crate::stored::Vector;
use crate::{damage, rules, traps};

/// The seed of the stored list.
pub const SEED: u64 = 20261115;

/// All classes: rules, traps, damage.
pub fn classes() -> Vec<Class> {
    let mut classes: Vec<Class> = Vec::new();
    classes.extend(rules::CLASSES);
    classes.extend(traps::CLASSES);
    classes.extend(damage::CLASSES);
    classes
}

/// How many vectors of a class are kept; the rest is left out at random.
fn most(tag: u16) -> usize {
    match tag {
        103 => 961,
        120 => 200,
        107 => 484,
        110 => 200,
        128 => 363,
        122 => 500,
        123 => 250,
        309 => 224,
        311 => usize::MAX,
        _ => 128,
    }
}

/// The list of vectors that a seed makes.
pub fn all(seed: u64) -> Vec<Vector> {
    let mut book = Book::new(seed);
    for (tag, _, fill) in classes() {
        let before = book.vectors.len();
        fill(&mut book, tag);
        book.thin(before, most(tag));
    }
    book.vectors
}
