//! The listing (document 01, "The listing, whole"; document 02, A.2, A.7 and A.10).

use super::book::Book;
use super::model::{contradictory_name, Program};
use super::reader::read;
use super::verdicts::{verdict, word};
use std::collections::BTreeSet;

/// The listing of a lesson: a header, and a line for each name whether or not the lesson is contradictory. A
/// name is spelt as on the line that declares it.
pub fn listing(book: &Book, facts: &BTreeSet<usize>) -> String {
    let program = Program::new(book, facts);
    let halves = program.halves();
    let (names, rules, facts) = (book.names.len(), book.rules.len(), facts.len());
    // Both headers have these four fields.
    let counts = format!("{names},{rules},{facts},{}", halves.rounds);
    let mut text = match contradictory_name(&halves) {
        Some(name) => format!("contradiction,{counts},{}\n", book.names[name]),
        None => format!("model,{counts}\n"),
    };
    for (number, name) in book.names.iter().enumerate() {
        let plain = word(verdict(&program, &halves, 2 * number));
        let negated = word(verdict(&program, &halves, 2 * number + 1));
        text += &format!("{number},{name},{plain},{negated}\n");
    }
    text
}

/// What the listing program prints for a file.
pub fn program_output(file: &[u8]) -> String {
    match read(file) {
        Ok(book) => listing(&book, &BTreeSet::new()),
        Err(refused) => format!("refused,{},{}\n", refused.number(), refused.line()),
    }
}
