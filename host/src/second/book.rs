//! A marking book (document 01, "The marking file"; document 02, A.2).

use crate::answer::BookSize;

pub use crate::answer::{MOST_BODY_LITERALS, MOST_NAMES, MOST_RULES};

pub const MOST_BYTES: usize = 60_000;
/// Body literals of one rule.
pub const MOST_IN_A_BODY: usize = 16;
/// Bytes of a name.
pub const MOST_LETTERS: usize = 16;

/// The other objective literal of the same name.
pub fn complement(literal: usize) -> usize {
    match literal % 2 {
        0 => literal + 1,
        _ => literal - 1,
    }
}

/// A body literal: an objective literal, by default negated where `~` stands before it.
#[derive(Clone, Copy, Debug, PartialEq, Eq)]
pub struct Entry {
    pub literal: usize,
    pub default: bool,
}

#[derive(Clone, Debug, PartialEq, Eq)]
pub struct Rule {
    pub head: usize,
    pub body: Vec<Entry>,
}

/// The names and rules of a file, in file order.
#[derive(Clone, Debug, Default, PartialEq, Eq)]
pub struct Book {
    /// Each name as the line that declares it spells it.
    pub names: Vec<String>,
    pub rules: Vec<Rule>,
}

impl Book {
    /// How many objective literals the book has.
    pub fn literals(&self) -> usize {
        2 * self.names.len()
    }

    pub fn body_literals(&self) -> usize {
        self.rules.iter().map(|rule| rule.body.len()).sum()
    }

    /// How much of the tables it fills (document 02, A.1).
    pub fn size(&self) -> BookSize {
        BookSize {
            names: self.names.len(),
            rules: self.rules.len(),
            body_literals: self.body_literals(),
        }
    }

    /// The number of a declared name. Names that differ only in case are one name.
    pub fn number_of(&self, name: &str) -> Option<usize> {
        self.names
            .iter()
            .position(|declared| declared.eq_ignore_ascii_case(name))
    }

    /// A marking file that this book is read from: its rules spell the names as they are declared.
    pub fn to_file(&self) -> String {
        let mut file = String::new();
        for name in &self.names {
            file += &format!("name,{name}\n");
        }
        for number in 0..self.rules.len() {
            file += &format!("{}\n", self.rule_line(number));
        }
        file + "end\n"
    }

    /// The line of a rule in that file.
    pub fn rule_line(&self, number: usize) -> String {
        let rule = &self.rules[number];
        let mut line = format!("rule,{}", self.spelt(rule.head));
        for entry in &rule.body {
            let tilde = if entry.default { "~" } else { "" };
            line += &format!(",{tilde}{}", self.spelt(entry.literal));
        }
        line
    }

    /// A literal as that file spells it.
    pub fn spelt(&self, literal: usize) -> String {
        let minus = if literal % 2 == 1 { "-" } else { "" };
        format!("{minus}{}", self.names[literal / 2])
    }
}
