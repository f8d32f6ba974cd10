//! What a call answers, in the words and numbers of documents 01 and 02.

use std::collections::BTreeSet;
use std::fmt;

/// What the model says of a literal.
#[derive(Clone, Copy, Debug, PartialEq, Eq)]
pub enum Verdict {
    /// The literal is in M.
    True,
    /// The literal isn't in N.
    False,
    /// The literal is in N and not in M.
    Undefined,
}

impl Verdict {
    /// The word that a listing prints.
    pub fn word(self) -> &'static str {
        match self {
            Verdict::True => "true",
            Verdict::False => "false",
            Verdict::Undefined => "undefined",
        }
    }
}

/// A change of the facts of a lesson.
#[derive(Clone, Copy, Debug, PartialEq, Eq)]
pub enum Change {
    /// A literal is put in as a fact.
    PutIn,
    /// A fact is taken out.
    TakeOut,
}

impl Change {
    pub const BOTH: [Change; 2] = [Change::PutIn, Change::TakeOut];
}

impl fmt::Display for Change {
    fn fmt(&self, f: &mut fmt::Formatter<'_>) -> fmt::Result {
        f.write_str(match self {
            Change::PutIn => "put in",
            Change::TakeOut => "take out",
        })
    }
}

/// The kind of tree that a search walks.
#[derive(Clone, Copy, Debug, PartialEq, Eq)]
pub enum Tree {
    /// Proves that a literal is true.
    T,
    /// Proves that a literal isn't false.
    TU,
}

/// What a search asks: a tree for a literal, with or without `~` before it.
#[derive(Clone, Copy, Debug, PartialEq, Eq)]
pub struct Question {
    /// The number of the objective literal: 2n for name n, 2n + 1 for its explicit negation.
    pub literal: usize,
    /// Whether `~` stands before the literal.
    pub default: bool,
    /// The kind of tree.
    pub tree: Tree,
}

/// What a proof sheet is to show of a literal (document 02, A.3). In a contradictory lesson both claims about a
/// literal may be so.
#[derive(Clone, Copy, Debug, PartialEq, Eq)]
pub struct Claim {
    /// The number of the literal.
    pub literal: usize,
    /// Whether the claim is "true", that the literal is in M, or "false", that it isn't in N.
    pub truth: bool,
}

impl Claim {
    /// Both claims about a literal.
    pub fn both(literal: usize) -> [Claim; 2] {
        [true, false].map(|truth| Claim { literal, truth })
    }

    /// The kind of the entries that show it.
    pub fn kind(self) -> u16 {
        match self.truth {
            true => SheetEntry::TRUE,
            false => SheetEntry::FALSE,
        }
    }
}

impl fmt::Display for Claim {
    fn fmt(&self, f: &mut fmt::Formatter<'_>) -> fmt::Result {
        write!(f, "{} is {}", self.literal, self.truth)
    }
}

/// An entry of a proof sheet. It is lent to the engine as it stands here: four numbers of 16 bits, in this order.
#[repr(C)]
#[derive(Clone, Copy, Default, PartialEq, Eq)]
pub struct SheetEntry {
    /// 1 says that the literal is true, 0 that it is false. No other kind follows from anything.
    pub kind: u16,
    /// The number of the literal.
    pub literal: u16,
    /// The number of a rule for the literal, or [`SheetEntry::fact`]; read in "true" entries only.
    pub rule: u16,
    /// The number of the group; read in "false" entries only.
    pub group: u16,
}

impl SheetEntry {
    /// The kind of an entry that says "true".
    pub const TRUE: u16 = 1;
    /// The kind of an entry that says "false".
    pub const FALSE: u16 = 0;

    /// The rule number that stands for a literal of a book, put in as a fact.
    pub fn fact(literal: u16) -> u16 {
        MOST_RULES as u16 + literal
    }

    /// Whether the entry says what a claim says.
    pub fn says(self, claim: Claim) -> bool {
        self.kind == claim.kind() && usize::from(self.literal) == claim.literal
    }
}

impl fmt::Debug for SheetEntry {
    /// In few characters, since a sheet has many entries: what is read of the entry, and of one of another kind
    /// all numbers.
    fn fmt(&self, f: &mut fmt::Formatter<'_>) -> fmt::Result {
        let SheetEntry {
            kind,
            literal,
            rule,
            group,
        } = self;
        match *kind {
            SheetEntry::TRUE => write!(f, "{literal} true by {rule}"),
            SheetEntry::FALSE => write!(f, "{literal} false in {group}"),
            _ => write!(f, "{literal} of kind {kind} by {rule} in {group}"),
        }
    }
}

/// The answer of the model call.
#[derive(Clone, Debug, PartialEq, Eq)]
pub struct Model {
    /// M, the literals that are true.
    pub truths: BTreeSet<usize>,
    /// N, the literals that aren't false.
    pub nonfalse: BTreeSet<usize>,
    /// Whether the lesson is contradictory: some name has both literals in M.
    pub contradictory: bool,
    /// How many rounds M takes: the least k with I(k) = I(k + 1).
    pub rounds: usize,
}

/// The names of a book in the order in which they can be settled (document 02, A.5). It comes from the
/// book alone, whatever facts are put in.
///
/// A name reaches itself and every name in the bodies of the rules for either of its literals, and so on
/// from there. Names that reach each other form a group; a name alone is a group too. Whatever else a
/// group reaches comes earlier, and of the groups that may come next the one with the lowest name number
/// comes.
#[derive(Clone, Debug, PartialEq, Eq)]
pub struct WorkingOrder {
    /// The numbers of the names of each group, from the lowest on.
    pub groups: Vec<Vec<usize>>,
}

impl WorkingOrder {
    /// The numbers of all names in working order.
    pub fn names(&self) -> impl Iterator<Item = usize> + '_ {
        self.groups.iter().flatten().copied()
    }
}

/// M and N worked out group by group in working order.
#[derive(Clone, Debug, PartialEq, Eq)]
pub struct ModelByGroups {
    /// M, the literals that are true.
    pub truths: BTreeSet<usize>,
    /// N, the literals that aren't false.
    pub nonfalse: BTreeSet<usize>,
    /// Whether the lesson is contradictory: some name has both literals in M.
    pub contradictory: bool,
}

impl From<Model> for ModelByGroups {
    /// What the groups of a lesson with this model give.
    fn from(model: Model) -> ModelByGroups {
        ModelByGroups {
            truths: model.truths,
            nonfalse: model.nonfalse,
            contradictory: model.contradictory,
        }
    }
}

/// Names of one book (document 01, "The marking file").
pub const MOST_NAMES: usize = 128;
/// Rules of one book.
pub const MOST_RULES: usize = 512;
/// Body literals of all rules of one book together.
pub const MOST_BODY_LITERALS: usize = 2_048;
/// Bytes of the longest listing that calls can lead to: 128 names of 16 bytes, all of them contradictory
/// (document 02, A.7), and a header whose counts have three digits each.
pub const MOST_LISTING: usize = 6_209;
/// Entries of one proof sheet (document 02, A.3): two for each literal of the largest book.
pub const MOST_SHEET: usize = 4 * MOST_NAMES;

/// How much of the tables a marking file fills: the names, rules and body literals of the book that a load
/// of it would leave.
#[derive(Clone, Copy, Debug, PartialEq, Eq)]
pub struct BookSize {
    /// Declared names.
    pub names: usize,
    /// Rules.
    pub rules: usize,
    /// Body literals of all rules together.
    pub body_literals: usize,
}

impl BookSize {
    /// How much of the table of names is filled.
    pub fn names_share(self) -> Share {
        Share {
            filled: self.names,
            room: MOST_NAMES,
        }
    }

    /// How much of the table of rules is filled.
    pub fn rules_share(self) -> Share {
        Share {
            filled: self.rules,
            room: MOST_RULES,
        }
    }

    /// How much of the table of body literals is filled.
    pub fn body_literals_share(self) -> Share {
        Share {
            filled: self.body_literals,
            room: MOST_BODY_LITERALS,
        }
    }
}

impl fmt::Display for BookSize {
    fn fmt(&self, f: &mut fmt::Formatter<'_>) -> fmt::Result {
        write!(
            f,
            "names {}, rules {}, body literals {}",
            self.names_share(),
            self.rules_share(),
            self.body_literals_share()
        )
    }
}

/// How much of a table is filled.
#[derive(Clone, Copy, Debug, PartialEq, Eq)]
pub struct Share {
    /// How much of it is filled.
    pub filled: usize,
    /// How much the table has room for.
    pub room: usize,
}

impl Share {
    /// The percentage, rounded down: it is 100 exactly where nothing more fits.
    pub fn percent(self) -> usize {
        100 * self.filled / self.room
    }
}

impl fmt::Display for Share {
    fn fmt(&self, f: &mut fmt::Formatter<'_>) -> fmt::Result {
        write!(f, "{} of {} ({} %)", self.filled, self.room, self.percent())
    }
}

/// A fault of a marking file.
#[derive(Clone, Copy, Debug, PartialEq, Eq)]
pub enum Fault {
    /// 1: more than 60,000 bytes.
    TooLong,
    /// 2: a byte that is neither 10 nor 32 to 126.
    ForeignByte,
    /// 3: the last byte isn't 10.
    NotEnded,
    /// 4: an unknown first field, or a wrong count of fields.
    Fields,
    /// 5: a malformed name or literal, or a head with `~`.
    Malformed,
    /// 6: a name declared before, in the same or in other capitals.
    DeclaredBefore,
    /// 7: a rule uses a name that isn't declared, in the same or in other capitals.
    Undeclared,
    /// 8: one name, rule or body literal beyond the table.
    TableFull,
    /// 9: a line after `end`, or no `end`.
    End,
}

/// Every fault with its number and the words that a person reads.
const FAULTS: [(Fault, u8, &str); 9] = [
    (Fault::TooLong, 1, "more than 60,000 bytes"),
    (Fault::ForeignByte, 2, "a byte that is no printable ASCII"),
    (Fault::NotEnded, 3, "no newline at the end"),
    (
        Fault::Fields,
        4,
        "an unknown first word, or a wrong count of fields",
    ),
    (
        Fault::Malformed,
        5,
        "a malformed name or literal, or `~` at the head",
    ),
    (Fault::DeclaredBefore, 6, "a name declared before"),
    (Fault::Undeclared, 7, "a rule uses an undeclared name"),
    (
        Fault::TableFull,
        8,
        "one name, rule or body literal too many",
    ),
    (Fault::End, 9, "a line after `end`, or no `end`"),
];

impl Fault {
    /// The fault with a number from 1 to 9.
    pub fn from_number(number: u8) -> Option<Fault> {
        let row = FAULTS.iter().find(|row| row.1 == number)?;
        Some(row.0)
    }

    fn row(self) -> &'static (Fault, u8, &'static str) {
        FAULTS
            .iter()
            .find(|row| row.0 == self)
            .expect("every fault has a row")
    }

    /// The number that document 01 gives the fault.
    pub fn number(self) -> u8 {
        self.row().1
    }
}

/// Why a call was turned down. The desk and every lent byte are as they were.
#[derive(Clone, Copy, Debug, PartialEq, Eq)]
pub enum Refused {
    /// 1 to 9: the file has a fault in this line; line 0 stands for the whole file.
    File {
        /// What is wrong.
        fault: Fault,
        /// The line, counted from 1.
        line: usize,
    },
    /// 20: no book is loaded.
    NoBook,
    /// 21: the literal number isn't below twice the count of names.
    NoSuchLiteral,
    /// 22: the literal is put in now.
    PutInNow,
    /// 23: the literal isn't put in now.
    NotPutIn,
    /// 24: the literal's name, or a name that it reaches, has both literals in M.
    Contradictory,
    /// 25: the lent buffer is shorter than the listing, or than the one that a preview would write; or the run
    /// lent for a proof sheet is shorter than two entries per literal.
    BufferTooShort,
    /// 26: a proof sheet has no entries, or more than 512.
    SheetLength,
    /// 27: an entry of a proof sheet doesn't follow.
    DoesNotFollow {
        /// The index of the first such entry, counted from 0.
        index: usize,
    },
    /// 28: the claim isn't among the entries of a proof sheet; or, where one is to be made, the claim isn't so.
    NotShown,
}

impl Refused {
    /// The number that document 01 or 02 gives the refusal.
    pub fn number(self) -> u8 {
        match self {
            Refused::File { fault, .. } => fault.number(),
            Refused::NoBook => 20,
            Refused::NoSuchLiteral => 21,
            Refused::PutInNow => 22,
            Refused::NotPutIn => 23,
            Refused::Contradictory => 24,
            Refused::BufferTooShort => 25,
            Refused::SheetLength => 26,
            Refused::DoesNotFollow { .. } => 27,
            Refused::NotShown => 28,
        }
    }

    /// The line of a refused file; 0 for a fault of the whole file and for every other refusal.
    pub fn line(self) -> usize {
        match self {
            Refused::File { line, .. } => line,
            _ => 0,
        }
    }

    /// The refusal with a number, and with a place: the line where the number is a file's, the index where it
    /// is 27.
    pub fn from_number(number: u8, place: usize) -> Option<Refused> {
        if let Some(fault) = Fault::from_number(number) {
            return Some(Refused::File { fault, line: place });
        }
        match number {
            20 => Some(Refused::NoBook),
            21 => Some(Refused::NoSuchLiteral),
            22 => Some(Refused::PutInNow),
            23 => Some(Refused::NotPutIn),
            24 => Some(Refused::Contradictory),
            25 => Some(Refused::BufferTooShort),
            26 => Some(Refused::SheetLength),
            27 => Some(Refused::DoesNotFollow { index: place }),
            28 => Some(Refused::NotShown),
            _ => None,
        }
    }
}

impl fmt::Display for Refused {
    fn fmt(&self, f: &mut fmt::Formatter<'_>) -> fmt::Result {
        let words = match self {
            Refused::File { fault, line } => {
                return write!(f, "{}, line {line}: {}", fault.number(), fault.row().2)
            }
            Refused::NoBook => "no book is loaded",
            Refused::NoSuchLiteral => "the book has no literal with this number",
            Refused::PutInNow => "the literal is put in already",
            Refused::NotPutIn => "the literal isn't put in",
            Refused::Contradictory => {
                "the name, or a name it reaches, is shown and shown not to be"
            }
            Refused::BufferTooShort => {
                "the buffer or the run of entries that was lent is too short"
            }
            Refused::SheetLength => "the sheet has no entries, or more than 512",
            Refused::DoesNotFollow { index } => {
                return write!(f, "27: entry {index} of the sheet doesn't follow")
            }
            Refused::NotShown => "the sheet doesn't have the claim, or the claim isn't so",
        };
        write!(f, "{}: {words}", self.number())
    }
}

impl std::error::Error for Refused {}

#[cfg(test)]
mod tests {
    use super::*;

    #[test]
    fn only_a_full_table_is_filled_to_100_percent() {
        let size = BookSize {
            names: 127,
            rules: 512,
            body_literals: 20,
        };
        assert_eq!(
            size.to_string(),
            "names 127 of 128 (99 %), rules 512 of 512 (100 %), body literals 20 of 2048 (0 %)"
        );
    }

    #[test]
    fn numbers_and_refusals_name_each_other() {
        let known = (1..=9).chain(20..=28);
        for number in known.clone() {
            let refused = Refused::from_number(number, 3).expect("a number of documents 01 and 02");
            assert_eq!(refused.number(), number);
            assert_eq!(refused.line(), if number <= 9 { 3 } else { 0 });
        }
        let unknown = (0..=255u8).filter(|n| !known.clone().any(|k| k == *n));
        assert!(unknown
            .into_iter()
            .all(|n| Refused::from_number(n, 3).is_none()));
    }
}
