//! The proved engine behind a safe type.
//!
//! ```
//! use mezhkura::answer::{Claim, Question, Refused, SheetEntry, Tree, Verdict, MOST_SHEET};
//! use mezhkura::engine::{self, Desk};
//!
//! let file = b"name,brake_held\nname,may_park\nrule,may_park,brake_held\nend\n";
//! let size = engine::size(file)?;
//! assert_eq!((size.names, size.rules, size.body_literals), (2, 1, 1));
//! assert_eq!(size.names_share().to_string(), "2 of 128 (1 %)");
//!
//! let mut desk = Desk::fresh();
//! desk.load(file)?;
//!
//! // Name 0 is `brake_held`: its literals are 0, and 1 for "shown not to be".
//! desk.put_in(0)?;
//! assert_eq!(desk.verdict(2)?, Verdict::True);
//! assert_eq!(desk.put_in(0), Err(Refused::PutInNow));
//!
//! let question = Question { literal: 2, default: false, tree: Tree::T };
//! assert!(desk.search(question)?);
//!
//! let mut buffer = [0; 200];
//! let length = desk.listing(&mut buffer)?;
//! assert_eq!(&buffer[..length], b"model,2,1,1,1\n0,brake_held,true,false\n1,may_park,true,false\n");
//!
//! // `may_park` follows from `brake_held` and comes after it. Group by group the model is the same.
//! assert_eq!(desk.working_order()?.groups, [[0], [1]]);
//! assert_eq!(desk.model_by_groups()?.truths, desk.model()?.truths);
//!
//! // Before a sensor is overridden: what would be listed with `brake_held` taken out, and what with its contrary
//! // put in. The lesson is as before.
//! let length = desk.preview_take_out(0, &mut buffer)?;
//! assert_eq!(&buffer[..length], b"model,2,1,0,0\n0,brake_held,false,false\n1,may_park,false,false\n");
//! desk.preview_put_in(1, &mut buffer)?;
//! assert!(buffer.starts_with(b"contradiction,2,1,2,1,brake_held\n"));
//! assert_eq!(desk.verdict(2)?, Verdict::True);
//!
//! // When a mark is doubted: a proof sheet, which the check accepts no matter who wrote it, and its reasons in words.
//! let claim = Claim { literal: 2, truth: true };
//! let mut run = [SheetEntry::default(); MOST_SHEET];
//! let count = desk.make_sheet(claim, &mut run)?;
//! desk.check_sheet(claim, &run[..count])?;
//! let reasons = desk.reasons_by(claim, &run[..count])?;
//! assert_eq!(
//!     reasons.to_string(),
//!     "1. brake_held is true: it is put in\n\
//!      2. may_park is true by rule,may_park,brake_held: brake_held is true (line 1)\n"
//! );
//! let claim = Claim { literal: 2, truth: false };
//! assert_eq!(desk.make_sheet(claim, &mut run), Err(Refused::NotShown));
//!
//! // `brake_held` is shown and shown not to be. `may_park` depends on it, and neither has a verdict.
//! desk.put_in(1)?;
//! assert!(desk.model()?.contradictory);
//! assert_eq!(desk.verdict(2), Err(Refused::Contradictory));
//! # Ok::<(), Refused>(())
//! ```

mod meaning;

use crate::answer::{
    BookSize, Change, Claim, Model, ModelByGroups, Question, Refused, SheetEntry, Tree, Verdict,
    WorkingOrder, MOST_SHEET,
};
use crate::compare::Calls;
use crate::exports;
use crate::reasons::Reasons;
use std::collections::BTreeSet;
use std::fmt;

// Safety of the calls below: the exported functions are proved for every argument and every bit pattern
// of a desk, read a file and a sheet only within their lengths, and write a buffer and a run only within theirs.

/// How much of the tables a marking file fills, with no book stored: it takes no desk and changes none.
///
/// Refused exactly as a load of the file is, with numbers 1 to 9 and a line.
pub fn size(file: &[u8]) -> Result<BookSize, Refused> {
    let reply = unsafe { exports::mezhkura_size(file.as_ptr(), file.len()) };
    accepted(reply.number, reply.line)?;
    Ok(BookSize {
        names: reply.names,
        rules: reply.rules,
        body_literals: reply.body_literals,
    })
}

/// A desk: a marking book, once one is loaded, and a lesson beside it.
///
/// The lesson is the facts put in, with M, N and the rounds of the book and these facts, and the literals whose
/// verdicts are refused by 24. A load and a change of the facts work them out; a verdict, the model call and a
/// listing read them. A preview works out those that a change would leave, and leaves the lesson. A call that is
/// turned down leaves the desk, and every byte of a lent buffer, as it was.
#[derive(Clone, PartialEq, Eq)]
pub struct Desk(Box<exports::Desk>);

impl Desk {
    /// A fresh desk, with no book and no facts.
    pub fn fresh() -> Desk {
        Desk(Box::new(unsafe { exports::mezhkura_fresh() }))
    }

    /// Makes a marking file's names and rules the book, and empties the facts. A file of no bytes is a book
    /// of no names and no rules. Names that differ only in case are one name.
    ///
    /// Refused with numbers 1 to 9 and a line.
    pub fn load(&mut self, file: &[u8]) -> Result<(), Refused> {
        let reply = unsafe { exports::mezhkura_load(*self.0, file.as_ptr(), file.len()) };
        *self.0 = reply.desk;
        accepted(reply.number, reply.line)
    }

    /// Puts in a literal as a fact. Refused with 20, 21 or 22.
    pub fn put_in(&mut self, literal: usize) -> Result<(), Refused> {
        let reply = unsafe { exports::mezhkura_put_in(*self.0, literal) };
        *self.0 = reply.desk;
        accepted(reply.number, 0)
    }

    /// Takes out a fact. Refused with 20, 21 or 23.
    pub fn take_out(&mut self, literal: usize) -> Result<(), Refused> {
        let reply = unsafe { exports::mezhkura_take_out(*self.0, literal) };
        *self.0 = reply.desk;
        accepted(reply.number, 0)
    }

    /// The verdict of a literal. Refused with 20 or 21, or with 24 where the literal's name, or a name that it
    /// reaches, has both literals in M. The other literals of a contradictory lesson have their verdicts.
    pub fn verdict(&self, literal: usize) -> Result<Verdict, Refused> {
        let reply = unsafe { exports::mezhkura_verdict(*self.0, literal) };
        accepted(reply.number, 0)?;
        match reply.verdict {
            0 => Ok(Verdict::False),
            1 => Ok(Verdict::True),
            2 => Ok(Verdict::Undefined),
            other => panic!("the engine has no verdict {other}"),
        }
    }

    /// The answer to a question by a walk of its trees. Refused with 20 or 21.
    pub fn search(&self, question: Question) -> Result<bool, Refused> {
        let tree = match question.tree {
            Tree::T => exports::TREE_T,
            Tree::TU => exports::TREE_TU,
        };
        let default = u8::from(question.default);
        let reply = unsafe { exports::mezhkura_search(*self.0, question.literal, default, tree) };
        accepted(reply.number, 0)?;
        Ok(reply.holds != 0)
    }

    /// M, N, whether the lesson is contradictory, and how many rounds M takes. Refused with 20.
    pub fn model(&self) -> Result<Model, Refused> {
        let reply = unsafe { exports::mezhkura_model(*self.0) };
        accepted(reply.number, 0)?;
        Ok(Model {
            truths: members(reply.truths),
            nonfalse: members(reply.nonfalse),
            contradictory: reply.contradictory != 0,
            rounds: reply.rounds,
        })
    }

    /// Writes the listing to the buffer's first bytes and answers its length; the bytes after it stay. A
    /// name is spelt as on the line that declares it. The word `contradictory` stands where a verdict is
    /// refused with 24.
    ///
    /// Refused with 20, or with 25 where the buffer is shorter than the listing.
    pub fn listing(&self, buffer: &mut [u8]) -> Result<usize, Refused> {
        let (start, length) = (buffer.as_mut_ptr(), buffer.len());
        length_of(unsafe { exports::mezhkura_listing(*self.0, start, length) })
    }

    /// Writes the listing that would follow if a literal were put in, as [`Desk::listing`] writes it. The desk
    /// keeps its facts, and what is answered and written is what a put-in and a listing give on a copy.
    ///
    /// Refused with 20, 21 or 22, or with 25 where the buffer is shorter than the listing that would follow.
    pub fn preview_put_in(&self, literal: usize, buffer: &mut [u8]) -> Result<usize, Refused> {
        let (start, length) = (buffer.as_mut_ptr(), buffer.len());
        length_of(unsafe { exports::mezhkura_preview_put_in(*self.0, literal, start, length) })
    }

    /// The same if a fact were taken out.
    ///
    /// Refused with 20, 21 or 23, or with 25 where the buffer is shorter than the listing that would follow.
    pub fn preview_take_out(&self, literal: usize, buffer: &mut [u8]) -> Result<usize, Refused> {
        let (start, length) = (buffer.as_mut_ptr(), buffer.len());
        length_of(unsafe { exports::mezhkura_preview_take_out(*self.0, literal, start, length) })
    }

    /// The names of the book in the order in which they can be settled. Facts don't change it. Refused
    /// with 20.
    pub fn working_order(&self) -> Result<WorkingOrder, Refused> {
        let reply = unsafe { exports::mezhkura_working_order(*self.0) };
        accepted(reply.number, 0)?;
        Ok(groups_of(&reply.order))
    }

    /// M, N and whether the lesson is contradictory, worked out group by group in working order. It comes
    /// from the book and the facts, and not from the M and N that a lesson keeps. Refused with 20.
    pub fn model_by_groups(&self) -> Result<ModelByGroups, Refused> {
        let reply = unsafe { exports::mezhkura_model_by_groups(*self.0) };
        accepted(reply.number, 0)?;
        Ok(ModelByGroups {
            truths: members(reply.truths),
            nonfalse: members(reply.nonfalse),
            contradictory: reply.contradictory != 0,
        })
    }

    /// Whether a proof sheet, no matter who wrote it, shows a claim. What is accepted is so: a claim "true" is of a
    /// literal in M, a claim "false" of one outside N. It comes from the book and the facts, in contradictory lessons
    /// too.
    ///
    /// Refused with 20 or 21, with 26 where the sheet has no entries or more than 512, with 27 and the index of the
    /// first entry that doesn't follow, or with 28 where the claim isn't among the entries.
    pub fn check_sheet(&self, claim: Claim, sheet: &[SheetEntry]) -> Result<(), Refused> {
        let Claim { literal, truth } = claim;
        let (start, length) = (sheet.as_ptr(), sheet.len());
        let reply = unsafe {
            exports::mezhkura_check_sheet(*self.0, literal, u8::from(truth), start, length)
        };
        accepted(reply.number, reply.index)
    }

    /// Writes a proof sheet for a claim to the run's first entries and answers how many it wrote; the entries after
    /// them stay. [`Desk::check_sheet`] accepts the sheet. Which one it is may change with the engine.
    ///
    /// Refused with 20 or 21, with 28 where the claim isn't so, or with 25 where the run is shorter than two entries
    /// per literal; [`MOST_SHEET`](crate::answer::MOST_SHEET) entries are enough for every book.
    pub fn make_sheet(&self, claim: Claim, run: &mut [SheetEntry]) -> Result<usize, Refused> {
        let Claim { literal, truth } = claim;
        let (start, length) = (run.as_mut_ptr(), run.len());
        let reply = unsafe {
            exports::mezhkura_make_sheet(*self.0, literal, u8::from(truth), start, length)
        };
        accepted(reply.number, 0)?;
        Ok(reply.count)
    }

    /// Why a claim is so, in lines that a person reads, by a sheet that is made for it. Only what the claim needs is
    /// there.
    ///
    /// Refused with 20 or 21, or with 28 where the claim isn't so.
    pub fn reasons(&self, claim: Claim) -> Result<Reasons, Refused> {
        let mut run = [SheetEntry::default(); MOST_SHEET];
        let count = self.make_sheet(claim, &mut run)?;
        self.reasons_by(claim, &run[..count])
    }

    /// The same by a sheet, no matter who wrote it. The lines are a sheet again, which [`Desk::check_sheet`] has to
    /// accept before they are given.
    ///
    /// Refused as the check of the sheet is.
    pub fn reasons_by(&self, claim: Claim, sheet: &[SheetEntry]) -> Result<Reasons, Refused> {
        let exports::Desk { shelf, lesson } = &*self.0;
        let book = meaning::book_of(&shelf.book);
        Reasons::by_sheet(
            &book,
            &members(lesson.facts),
            claim,
            sheet,
            |claim, sheet| self.check_sheet(claim, sheet),
        )
    }
}

impl fmt::Debug for Desk {
    fn fmt(&self, f: &mut fmt::Formatter<'_>) -> fmt::Result {
        let exports::Desk { shelf, lesson } = &*self.0;
        f.debug_struct("Desk")
            .field("loaded", &(shelf.loaded != 0))
            .field("names", &shelf.book.names)
            .field("rules", &shelf.book.rules)
            .field("facts", &members(lesson.facts))
            .field("truths", &members(lesson.marks.model.truths))
            .field("nonfalse", &members(lesson.marks.model.nonfalse))
            .field("rounds", &lesson.marks.model.rounds)
            .field("contradictory", &members(lesson.marks.contradictory))
            .finish()
    }
}

/// What a reply's number says, with the line of a file or the index of an entry.
fn accepted(number: u8, place: usize) -> Result<(), Refused> {
    if number == exports::ACCEPTED {
        return Ok(());
    }
    let refused = Refused::from_number(number, place);
    Err(refused.unwrap_or_else(|| panic!("the engine has no refusal {number}")))
}

/// The length of a listing that was written.
fn length_of(reply: exports::ListingReply) -> Result<usize, Refused> {
    accepted(reply.number, 0)?;
    Ok(reply.length)
}

fn members(set: exports::LitSet) -> BTreeSet<usize> {
    let mut found = BTreeSet::new();
    for (index, &word) in set.words.iter().enumerate() {
        // Most words of most books are empty, so only the bits that are set are visited.
        let mut rest = word;
        while rest != 0 {
            found.insert(64 * index + rest.trailing_zeros() as usize);
            rest &= rest - 1;
        }
    }
    found
}

/// The groups of an order: places beside each other with the same group number.
fn groups_of(order: &exports::Order) -> WorkingOrder {
    let places = order.group.iter().zip(&order.name).take(order.names);
    let groups = Vec::from_iter(places)
        .chunk_by(|one, next| one.0 == next.0)
        .map(|group| group.iter().map(|place| usize::from(*place.1)).collect())
        .collect();
    WorkingOrder { groups }
}

/// For the comparison.
impl Calls for Desk {
    fn size(&self, file: &[u8]) -> Result<BookSize, Refused> {
        size(file)
    }

    fn load(&mut self, file: &[u8]) -> Result<(), Refused> {
        Desk::load(self, file)
    }

    fn put_in(&mut self, literal: usize) -> Result<(), Refused> {
        Desk::put_in(self, literal)
    }

    fn take_out(&mut self, literal: usize) -> Result<(), Refused> {
        Desk::take_out(self, literal)
    }

    fn verdict(&self, literal: usize) -> Result<Verdict, Refused> {
        Desk::verdict(self, literal)
    }

    fn search(&self, question: Question) -> Result<bool, Refused> {
        Desk::search(self, question)
    }

    fn model(&self) -> Result<Model, Refused> {
        Desk::model(self)
    }

    fn listing(&self, buffer: &mut [u8]) -> Result<usize, Refused> {
        Desk::listing(self, buffer)
    }

    fn preview(
        &mut self,
        change: Change,
        literal: usize,
        buffer: &mut [u8],
    ) -> Result<usize, Refused> {
        match change {
            Change::PutIn => self.preview_put_in(literal, buffer),
            Change::TakeOut => self.preview_take_out(literal, buffer),
        }
    }

    fn working_order(&self) -> Result<WorkingOrder, Refused> {
        Desk::working_order(self)
    }

    fn model_by_groups(&self) -> Result<ModelByGroups, Refused> {
        Desk::model_by_groups(self)
    }

    fn check_sheet(&self, claim: Claim, sheet: &[SheetEntry]) -> Result<(), Refused> {
        Desk::check_sheet(self, claim, sheet)
    }

    fn make_sheet(&self, claim: Claim, run: &mut [SheetEntry]) -> Result<usize, Refused> {
        Desk::make_sheet(self, claim, run)
    }

    fn state(&self) -> Vec<u8> {
        // Every field is named here, so that none can be added to a desk and forgotten.
        let exports::Desk { shelf, lesson } = &*self.0;
        let exports::Shelf { loaded, book } = shelf;
        let exports::Book {
            names,
            rules,
            text,
            lengths,
            heads,
            starts,
            entries,
        } = book;
        let exports::Lesson { facts, marks } = lesson;
        let exports::Marks {
            model,
            contradictory,
        } = marks;
        let exports::Model {
            truths,
            nonfalse,
            rounds,
        } = model;
        let mut bytes = vec![*loaded];
        bytes.extend(names.to_le_bytes());
        bytes.extend(rules.to_le_bytes());
        bytes.extend(text);
        bytes.extend(lengths);
        let tables = heads.iter().chain(starts).chain(entries);
        bytes.extend(tables.flat_map(|number| number.to_le_bytes()));
        let words = [facts, truths, nonfalse, contradictory].map(|set| set.words);
        bytes.extend(words.into_iter().flatten().flat_map(u64::to_le_bytes));
        bytes.extend(rounds.to_le_bytes());
        bytes
    }
}

#[cfg(test)]
mod bits;

#[cfg(test)]
mod tests {
    use super::*;

    fn listed(desk: &Desk) -> String {
        let mut buffer = [0; 100];
        let length = desk.listing(&mut buffer).expect("the buffer is long");
        String::from_utf8(buffer[..length].to_vec()).expect("a listing is ASCII")
    }

    /// Sets that no call left show who reads them: verdicts do, a refused call leaves them, and a change
    /// of the facts works them out.
    #[test]
    fn verdicts_are_of_the_sets_that_stand() {
        let mut desk = Desk::fresh();
        desk.load(b"name,a\nend\n").expect("the book loads");
        let loaded = desk.state();
        assert_eq!(desk.verdict(0), Ok(Verdict::False));
        desk.0.lesson.marks.model.nonfalse.words[0] = 1;
        assert_eq!(desk.verdict(0), Ok(Verdict::Undefined));
        let undefined = desk.state();
        desk.0.lesson.marks.model.truths.words[0] = 1;
        assert_eq!(desk.verdict(0), Ok(Verdict::True));
        let written = desk.state();
        assert!(loaded != undefined && undefined != written);
        assert_eq!(desk.put_in(2), Err(Refused::NoSuchLiteral));
        assert_eq!(desk.take_out(1), Err(Refused::NotPutIn));
        assert!(desk.load(b"name,a\n").is_err());
        assert_eq!(desk.state(), written);
        assert_eq!(desk.put_in(1), Ok(()));
        assert_eq!(desk.verdict(0), Ok(Verdict::False));
        assert_eq!(desk.verdict(1), Ok(Verdict::True));
        assert_eq!(desk.take_out(1), Ok(()));
        assert_eq!(desk.state(), loaded);
    }

    /// The same of rounds: the model call and both headers have the number that stands, whatever it is.
    #[test]
    fn rounds_are_those_that_stand() {
        let mut desk = Desk::fresh();
        desk.load(b"name,a\nend\n").expect("the book loads");
        let loaded = desk.state();
        for rounds in [1, 10, 256, 257, 1 << 32, usize::MAX] {
            desk.0.lesson.marks.model.rounds = rounds;
            assert!(desk.state() != loaded);
            assert!(format!("{desk:?}").contains(&format!("rounds: {rounds},")));
            assert_eq!(desk.model().map(|model| model.rounds), Ok(rounds));
            assert_eq!(
                listed(&desk),
                format!("model,1,0,0,{rounds}\n0,a,false,false\n")
            );
            assert_eq!(desk.put_in(2), Err(Refused::NoSuchLiteral));
            assert_eq!(desk.model().map(|model| model.rounds), Ok(rounds));
            let mut clash = desk.clone();
            clash.0.lesson.marks.model.truths.words[0] = 3;
            assert_eq!(
                listed(&clash),
                format!("contradiction,1,0,0,{rounds},a\n0,a,true,true\n")
            );
            assert_eq!(desk.put_in(1), Ok(()));
            assert_eq!(desk.model().map(|model| model.rounds), Ok(1));
            assert_eq!(desk.take_out(1), Ok(()));
            assert_eq!(desk.state(), loaded);
        }
    }

    /// The same of the literals whose verdicts are refused by 24. They are looked at one by one, so a set that
    /// has one literal of a name refuses that one, and whether the lesson is contradictory is read from M.
    #[test]
    fn refusals_are_of_the_set_that_stands() {
        let mut desk = Desk::fresh();
        desk.load(b"name,a\nend\n").expect("the book loads");
        let loaded = desk.state();
        desk.0.lesson.marks.contradictory.words[0] = 1;
        assert!(desk.state() != loaded);
        assert!(format!("{desk:?}").contains("contradictory: {0} "));
        assert_eq!(desk.verdict(0), Err(Refused::Contradictory));
        assert_eq!(desk.verdict(1), Ok(Verdict::False));
        assert_eq!(desk.model().map(|model| model.contradictory), Ok(false));
        assert_eq!(listed(&desk), "model,1,0,0,0\n0,a,contradictory,false\n");
        desk.0.lesson.marks.contradictory.words[0] = 2;
        assert_eq!(desk.verdict(0), Ok(Verdict::False));
        assert_eq!(desk.verdict(1), Err(Refused::Contradictory));
        assert_eq!(listed(&desk), "model,1,0,0,0\n0,a,false,contradictory\n");
        let written = desk.state();
        assert_eq!(desk.put_in(2), Err(Refused::NoSuchLiteral));
        assert_eq!(desk.state(), written);
        assert_eq!(desk.put_in(0), Ok(()));
        assert_eq!(desk.put_in(1), Ok(()));
        let words = desk.0.lesson.marks.contradictory.words;
        assert_eq!(words, [3, 0, 0, 0]);
        assert_eq!(desk.take_out(0), Ok(()));
        assert_eq!(desk.take_out(1), Ok(()));
        assert_eq!(desk.state(), loaded);
    }

    /// A preview works out the sets and the number that would stand. It reads none of those that stand, and
    /// leaves them.
    #[test]
    fn previews_are_of_what_would_stand() {
        let mut desk = Desk::fresh();
        desk.load(b"name,a\nend\n").expect("the book loads");
        let marks = &mut desk.0.lesson.marks;
        marks.model.truths.words[0] = 3;
        marks.model.rounds = 300;
        marks.contradictory.words[0] = 1;
        let written = desk.state();
        let mut buffer = [7; 29];
        assert_eq!(desk.preview_put_in(0, &mut buffer), Ok(29));
        assert_eq!(&buffer, b"model,1,0,1,1\n0,a,true,false\n");
        assert_eq!(desk.state(), written);
        assert_eq!(
            desk.preview_take_out(0, &mut buffer),
            Err(Refused::NotPutIn)
        );
        assert_eq!(&buffer, b"model,1,0,1,1\n0,a,true,false\n");
        desk.0.lesson.facts.words[0] = 1;
        let written = desk.state();
        let mut buffer = [7; 31];
        assert_eq!(desk.preview_put_in(0, &mut buffer), Err(Refused::PutInNow));
        assert_eq!(buffer, [7; 31]);
        assert_eq!(desk.preview_take_out(0, &mut buffer), Ok(30));
        assert_eq!(&buffer, b"model,1,0,0,0\n0,a,false,false\n\x07");
        assert_eq!(desk.state(), written);
        let listing = "contradiction,1,0,1,300,a\n0,a,contradictory,true\n";
        assert_eq!(listed(&desk), listing);
    }
}
