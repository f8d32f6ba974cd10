//! What the bits of a book mean, as `crates/book/specs/Book.antt` says it. Every bit pattern has a meaning.

use super::exports;
use crate::answer::{MOST_BODY_LITERALS, MOST_NAMES, MOST_RULES};
use crate::second::{Book, Entry, Rule, MOST_LETTERS};

/// The literals that a set has room for.
pub const CAPACITY: usize = 256;

/// The names and rules of a book. A loaded one has names of letters, digits and underscores.
pub fn book_of(book: &exports::Book) -> Book {
    let name = |number| String::from_utf8_lossy(name_of(book, number)).into_owned();
    Book {
        names: (0..names_of(book)).map(name).collect(),
        rules: rules_of(book),
    }
}

/// How many names a book has: a count past the table stands for a full table.
pub fn names_of(book: &exports::Book) -> usize {
    book.names.min(MOST_NAMES)
}

pub fn rules_of(book: &exports::Book) -> Vec<Rule> {
    let rule = |r: usize| Rule {
        head: usize::from(book.heads[r]) % CAPACITY,
        body: body_of(book, r).iter().copied().map(entry_of).collect(),
    };
    (0..book.rules.min(MOST_RULES)).map(rule).collect()
}

/// The stored entries of a rule: from its start to the next one's, as far as the table goes.
fn body_of(book: &exports::Book, r: usize) -> &[u16] {
    let end = usize::from(book.starts[r + 1]).min(MOST_BODY_LITERALS);
    let body = book.entries.get(usize::from(book.starts[r])..end);
    body.unwrap_or(&[])
}

/// Twice the literal, and one more where `not` stands before it.
fn entry_of(stored: u16) -> Entry {
    Entry {
        literal: usize::from(stored / 2) % CAPACITY,
        default: stored % 2 == 1,
    }
}

/// The bytes of a name. One past the book's is empty.
pub fn name_of(book: &exports::Book, number: usize) -> &[u8] {
    if number >= names_of(book) {
        return &[];
    }
    let length = usize::from(book.lengths[number]).min(MOST_LETTERS);
    &book.text[MOST_LETTERS * number..][..length]
}
