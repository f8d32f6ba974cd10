//! From the bytes of a file to a book (document 01, "The marking file" and "When a call is turned
//! down by its input"; document 02, A.1, A.2 and A.4).

use super::book::{Book, Entry, Rule};
use super::book::{MOST_BODY_LITERALS, MOST_BYTES, MOST_LETTERS, MOST_NAMES, MOST_RULES};
use crate::answer::{BookSize, Fault, Refused};

/// The book of a file, or the number and line of its first fault. A file of no bytes has a book of no
/// names and no rules.
pub fn read(file: &[u8]) -> Result<Book, Refused> {
    if file.is_empty() {
        return Ok(Book::default());
    }
    judge_whole(file).map_err(|fault| Refused::File { fault, line: 0 })?;
    let mut reading = Reading::default();
    let mut line = 0;
    for text in file[..file.len() - 1].split(|&byte| byte == 10) {
        line += 1;
        reading
            .take_line(text)
            .map_err(|fault| Refused::File { fault, line })?;
    }
    if !reading.ended {
        return Err(Refused::File {
            fault: Fault::End,
            line: line + 1,
        });
    }
    Ok(reading.book)
}

/// How much of the tables a file fills: the figures of the book that a load of it would leave.
pub fn size(file: &[u8]) -> Result<BookSize, Refused> {
    read(file).map(|book| book.size())
}

/// Numbers 1 to 3, in this order.
fn judge_whole(file: &[u8]) -> Result<(), Fault> {
    if file.len() > MOST_BYTES {
        return Err(Fault::TooLong);
    }
    if file.iter().any(|byte| !matches!(byte, 10 | 32..=126)) {
        return Err(Fault::ForeignByte);
    }
    if file.last() != Some(&10) {
        return Err(Fault::NotEnded);
    }
    Ok(())
}

/// What the lines so far have said.
#[derive(Default)]
struct Reading {
    book: Book,
    /// How many body literals the rules have in all.
    body_literals: usize,
    ended: bool,
}

impl Reading {
    /// The faults of a line are looked for in the order 9, 4, 5, 6, 7, 8.
    fn take_line(&mut self, text: &[u8]) -> Result<(), Fault> {
        if self.ended {
            return Err(Fault::End);
        }
        let fields: Vec<&[u8]> = text.split(|&byte| byte == b',').collect();
        match (fields[0], fields.len()) {
            (b"name", 2) => self.declare(fields[1]),
            (b"rule", 2..=18) => self.add_rule(fields[1], &fields[2..]),
            (b"end", 1) => {
                self.ended = true;
                Ok(())
            }
            _ => Err(Fault::Fields),
        }
    }

    /// The book keeps the spelling of this line, which the listing prints.
    fn declare(&mut self, field: &[u8]) -> Result<(), Fault> {
        let name = name_of(field)?;
        if self.book.number_of(name).is_some() {
            return Err(Fault::DeclaredBefore);
        }
        if self.book.names.len() == MOST_NAMES {
            return Err(Fault::TableFull);
        }
        self.book.names.push(name.to_string());
        Ok(())
    }

    fn add_rule(&mut self, head: &[u8], body: &[&[u8]]) -> Result<(), Fault> {
        // Every field is judged by 5 before any is judged by 7.
        let head = Written::of(head)?;
        let body: Vec<Written> = body
            .iter()
            .map(|field| Written::of(field))
            .collect::<Result<_, _>>()?;
        if head.default {
            return Err(Fault::Malformed);
        }
        let head = self.entry(&head)?.literal;
        let body: Vec<Entry> = body
            .iter()
            .map(|written| self.entry(written))
            .collect::<Result<_, _>>()?;
        if self.book.rules.len() == MOST_RULES
            || self.body_literals + body.len() > MOST_BODY_LITERALS
        {
            return Err(Fault::TableFull);
        }
        self.body_literals += body.len();
        self.book.rules.push(Rule { head, body });
        Ok(())
    }

    /// The literal of a declared name. How the rule spells the name isn't kept.
    fn entry(&self, written: &Written) -> Result<Entry, Fault> {
        let number = self.book.number_of(written.name).ok_or(Fault::Undeclared)?;
        Ok(Entry {
            literal: 2 * number + usize::from(written.negated),
            default: written.default,
        })
    }
}

/// A literal as a field spells it.
struct Written<'a> {
    default: bool,
    negated: bool,
    name: &'a str,
}

impl<'a> Written<'a> {
    fn of(field: &'a [u8]) -> Result<Written<'a>, Fault> {
        let (default, rest) = without(b'~', field);
        let (negated, rest) = without(b'-', rest);
        Ok(Written {
            default,
            negated,
            name: name_of(rest)?,
        })
    }
}

/// Whether a field begins with a mark, and the field behind it.
fn without(mark: u8, field: &[u8]) -> (bool, &[u8]) {
    match field.split_first() {
        Some((&first, rest)) if first == mark => (true, rest),
        _ => (false, field),
    }
}

/// The name in a field, as it is spelt there.
fn name_of(field: &[u8]) -> Result<&str, Fault> {
    let letter = |byte: u8| matches!(byte, 65..=90 | 97..=122);
    let known = |byte: &u8| letter(*byte) || matches!(byte, 48..=57 | 95);
    let long_enough = (1..=MOST_LETTERS).contains(&field.len());
    if !long_enough || !field.iter().all(known) || !letter(field[0]) {
        return Err(Fault::Malformed);
    }
    Ok(std::str::from_utf8(field).expect("letters, digits and underscores are ASCII"))
}
