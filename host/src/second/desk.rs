//! The calls on one desk (document 01, "When a call is turned down by the state"; document 02, A.3, A.5,
//! A.7 and A.8).

use super::book::Book;
use super::groups::{model_by_groups, reach, working_order};
use super::listing::listing;
use super::model::{contradictory_name, members, Program};
use super::reader::read;
use super::sheets::{check, make, Matter};
use super::trees::search;
use super::verdicts::verdict;
use crate::answer::{Change, Claim, Model, ModelByGroups, Question, Refused, SheetEntry};
use crate::answer::{Verdict, WorkingOrder, MOST_SHEET};
use crate::reasons::Reasons;
use std::collections::BTreeSet;

/// A desk: a book, once one is loaded, and the facts put in. M and N don't stand here: each call that
/// needs them works them out.
#[derive(Clone, Debug, Default, PartialEq, Eq)]
pub struct Desk {
    book: Option<Book>,
    facts: BTreeSet<usize>,
}

impl Desk {
    /// A fresh desk, with no book and no facts.
    pub fn fresh() -> Desk {
        Desk::default()
    }

    /// The book, once one is loaded.
    pub fn book(&self) -> Option<&Book> {
        self.book.as_ref()
    }

    /// The facts put in.
    pub fn facts(&self) -> &BTreeSet<usize> {
        &self.facts
    }

    /// Makes a file's names and rules the book, and empties the facts.
    pub fn load(&mut self, file: &[u8]) -> Result<(), Refused> {
        self.book = Some(read(file)?);
        self.facts.clear();
        Ok(())
    }

    pub fn put_in(&mut self, literal: usize) -> Result<(), Refused> {
        self.book_with(literal)?;
        if !self.facts.insert(literal) {
            return Err(Refused::PutInNow);
        }
        Ok(())
    }

    pub fn take_out(&mut self, literal: usize) -> Result<(), Refused> {
        self.book_with(literal)?;
        if !self.facts.remove(&literal) {
            return Err(Refused::NotPutIn);
        }
        Ok(())
    }

    /// Puts in a literal or takes it out.
    pub fn change(&mut self, change: Change, literal: usize) -> Result<(), Refused> {
        match change {
            Change::PutIn => self.put_in(literal),
            Change::TakeOut => self.take_out(literal),
        }
    }

    pub fn verdict(&self, literal: usize) -> Result<Verdict, Refused> {
        let book = self.book_with(literal)?;
        let program = Program::new(book, &self.facts);
        verdict(&program, &program.halves(), literal)
    }

    /// The answer to a question, or nothing where the walk of its trees takes more than `visits`.
    pub fn search(&self, question: Question, visits: u64) -> Result<Option<bool>, Refused> {
        let book = self.book_with(question.literal)?;
        let program = Program::new(book, &self.facts);
        Ok(search(&program, question, visits))
    }

    pub fn model(&self) -> Result<Model, Refused> {
        let book = self.loaded()?;
        let halves = Program::new(book, &self.facts).halves();
        Ok(Model {
            truths: members(&halves.truths),
            nonfalse: members(&halves.nonfalse),
            contradictory: contradictory_name(&halves).is_some(),
            rounds: halves.rounds,
        })
    }

    /// The names in the order in which they can be settled.
    pub fn working_order(&self) -> Result<WorkingOrder, Refused> {
        let book = self.loaded()?;
        let names = book.names.len();
        let groups = working_order(names, &reach(names, &book.rules));
        Ok(WorkingOrder { groups })
    }

    /// M and N worked out group by group in that order.
    pub fn model_by_groups(&self) -> Result<ModelByGroups, Refused> {
        let book = self.loaded()?;
        Ok(model_by_groups(&Program::new(book, &self.facts)))
    }

    /// Writes the listing to the buffer's first bytes and answers its length.
    pub fn listing(&self, buffer: &mut [u8]) -> Result<usize, Refused> {
        let text = listing(self.loaded()?, &self.facts);
        let lent = buffer
            .get_mut(..text.len())
            .ok_or(Refused::BufferTooShort)?;
        lent.copy_from_slice(text.as_bytes());
        Ok(text.len())
    }

    /// Makes the change on a copy and lists that.
    pub fn preview(
        &self,
        change: Change,
        literal: usize,
        buffer: &mut [u8],
    ) -> Result<usize, Refused> {
        let mut copy = self.clone();
        copy.change(change, literal)?;
        copy.listing(buffer)
    }

    /// Whether a proof sheet shows a claim.
    pub fn check_sheet(&self, claim: Claim, sheet: &[SheetEntry]) -> Result<(), Refused> {
        check(self.matter(claim.literal)?, claim, sheet)
    }

    /// Writes a proof sheet for a claim to the first entries of a run and answers how many it wrote.
    pub fn make_sheet(&self, claim: Claim, run: &mut [SheetEntry]) -> Result<usize, Refused> {
        make(self.matter(claim.literal)?, claim, run)
    }

    /// Why a claim is so, by a sheet that is made for it.
    pub fn reasons(&self, claim: Claim) -> Result<Reasons, Refused> {
        let mut run = [SheetEntry::default(); MOST_SHEET];
        let count = self.make_sheet(claim, &mut run)?;
        self.reasons_by(claim, &run[..count])
    }

    /// Why a claim is so, by a sheet that shows it.
    pub fn reasons_by(&self, claim: Claim, sheet: &[SheetEntry]) -> Result<Reasons, Refused> {
        let book = self.book_with(claim.literal)?;
        Reasons::by_sheet(book, &self.facts, claim, sheet, |claim, sheet| {
            self.check_sheet(claim, sheet)
        })
    }

    /// What a proof sheet with a claim about this literal is about.
    pub fn matter(&self, literal: usize) -> Result<Matter<'_>, Refused> {
        let book = self.book_with(literal)?;
        Ok(Matter {
            literals: book.literals(),
            rules: &book.rules,
            facts: &self.facts,
        })
    }

    fn loaded(&self) -> Result<&Book, Refused> {
        self.book.as_ref().ok_or(Refused::NoBook)
    }

    /// The book, which has a literal with this number: 20 is looked at before 21.
    fn book_with(&self, literal: usize) -> Result<&Book, Refused> {
        let book = self.loaded()?;
        if literal >= book.literals() {
            return Err(Refused::NoSuchLiteral);
        }
        Ok(book)
    }
}
