//! How often each reply number was given, and each field named as the one at fault.

use crate::layouts::{rows, Row};
use crate::lent::KINDS;

/// Counts of numbers below 64, which all reply numbers are.
#[derive(Clone)]
pub struct Tally {
    counts: [u64; 64],
}

impl Default for Tally {
    fn default() -> Self {
        Tally { counts: [0; 64] }
    }
}

impl Tally {
    pub fn note(&mut self, number: u64) {
        if let Some(count) = self.counts.get_mut(number as usize) {
            *count += 1;
        }
    }

    pub fn count(&self, number: u64) -> u64 {
        self.counts.get(number as usize).copied().unwrap_or(0)
    }
}

/// A field that can be at fault with a number, and how often it was. What stands before the payload has type 0.
pub struct Way {
    pub kind: u64,
    pub word: &'static str,
    pub number: u64,
    pub count: u64,
}

/// Every field of every type, with 44, and with 45 where not every value is allowed.
pub struct Named {
    pub ways: Vec<Way>,
}

/// What is named before the payload's fields are.
const HEADER_WAYS: [(&str, u64); 5] = [
    ("header", 1),
    ("payload", 1),
    ("header.type", 41),
    ("header.type", 42),
    ("header.size", 43),
];

impl Default for Named {
    fn default() -> Self {
        let header = HEADER_WAYS.iter().map(|&(word, number)| way(0, word, number));
        let fields = KINDS.iter().flat_map(|kind| {
            let kind_number = kind.number();
            rows(*kind).iter().flat_map(move |row| row_ways(kind_number, row))
        });
        let ways = header.chain(fields).collect();
        Named { ways }
    }
}

fn way(kind: u64, word: &'static str, number: u64) -> Way {
    let count = 0;
    Way {
        kind,
        word,
        number,
        count,
    }
}

fn row_ways(kind: u64, row: &'static Row) -> impl Iterator<Item = Way> {
    let judged = row.is_judged().then(|| way(kind, row.word, 45));
    [way(kind, row.word, 44)].into_iter().chain(judged)
}

impl Named {
    /// Counts a field. False: no type has such a field, or it cannot be at fault in this way.
    pub fn note(&mut self, kind: u64, word: &[u8], number: u64) -> bool {
        let is_it = |way: &&mut Way| way.kind == kind && way.number == number && way.word.as_bytes() == word;
        match self.ways.iter_mut().find(is_it) {
            Some(way) => way.count += 1,
            None => return false,
        }
        true
    }
}
