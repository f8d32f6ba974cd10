//! Holds what a desk says of proof sheets against the second implementation, and against M and N (document 02, A.3):
//! the sheets that it makes, those that the second implementation makes, and changed and random ones. Which sheet is
//! made is the maker's choice, so sheets are compared by what the checks say of them, and never by their entries.

use crate::answer::{Claim, Model, Refused, SheetEntry, MOST_SHEET};
use crate::compare::{look_after, Calls};
use crate::gen::{self, Call, Random};
use crate::second::Desk;
use crate::shrink::shortest;
use std::collections::BTreeMap;
use std::ops::AddAssign;

/// What a run holds before it is lent: entries that no sheet has.
pub const UNTOUCHED: SheetEntry = SheetEntry {
    kind: 0xA5A5,
    literal: 0xA5A6,
    rule: 0xA5A7,
    group: 0xA5A8,
};

/// How many sheets were looked at, by what was due of them.
#[derive(Clone, Debug, Default, PartialEq, Eq)]
pub struct Sheets {
    /// Makers' answers by the number that refuses them, which is 0 for those that are accepted.
    pub made: BTreeMap<u8, usize>,
    /// Sheets that were made for claims "true".
    pub of_truths: usize,
    /// Sheets that were made in contradictory lessons.
    pub in_contradictory: usize,
    /// Sheets with as many entries as a sheet may have, two per literal.
    pub longest: usize,
    /// Checks by their numbers.
    pub checked: BTreeMap<u8, usize>,
    /// Checks of changed and random sheets that were accepted.
    pub accepted_otherwise: usize,
}

impl AddAssign for Sheets {
    fn add_assign(&mut self, more: Sheets) {
        for (all, counts) in [
            (&mut self.made, more.made),
            (&mut self.checked, more.checked),
        ] {
            for (number, count) in counts {
                *all.entry(number).or_default() += count;
            }
        }
        self.of_truths += more.of_truths;
        self.in_contradictory += more.in_contradictory;
        self.longest += more.longest;
        self.accepted_otherwise += more.accepted_otherwise;
    }
}

/// A lesson of the second implementation with M and N, beside the desk that is held against it.
struct Pair<'a, D> {
    second: &'a Desk,
    desk: &'a D,
    model: Model,
    literals: usize,
    sheets: Sheets,
}

impl<'a, D: Calls> Pair<'a, D> {
    /// Nothing where no book is loaded.
    fn of(second: &'a Desk, desk: &'a D) -> Option<Pair<'a, D>> {
        Some(Pair {
            model: second.model().ok()?,
            literals: second.book()?.literals(),
            second,
            desk,
            sheets: Sheets::default(),
        })
    }

    /// Whether a claim is so, by M and N.
    fn is_so(&self, claim: Claim) -> bool {
        match claim.truth {
            true => self.model.truths.contains(&claim.literal),
            false => !self.model.nonfalse.contains(&claim.literal),
        }
    }

    /// Holds the makers against M and N, and the sheets of both against both checks. The second one, which has no
    /// choice in what it refuses, is asked once.
    fn look_at_makers(&mut self, claim: Claim) -> Result<(), String> {
        let bound = 2 * self.literals;
        let ours = made(claim, bound, &|run| self.second.make_sheet(claim, run))?;
        self.look_at_an_answer("second", claim, bound, ours)?;
        for length in [bound + 7, bound, bound - 1, 0] {
            let theirs = made(claim, length, &|run| self.desk.make_sheet(claim, run))?;
            self.look_at_an_answer("the other", claim, length, theirs)?;
        }
        Ok(())
    }

    /// Holds what one of the makers answers for a run of so many entries against what is due, and its sheet against
    /// both checks.
    fn look_at_an_answer(
        &mut self,
        who: &str,
        claim: Claim,
        length: usize,
        answer: Result<Vec<SheetEntry>, Refused>,
    ) -> Result<(), String> {
        let due = match self.is_so(claim) {
            false => Some(Refused::NotShown),
            true => (length < 2 * self.literals).then_some(Refused::BufferTooShort),
        };
        let of = || format!("in {length} entries {who} makes {answer:?} to show that {claim}");
        if answer.as_ref().err() != due.as_ref() {
            let due = due.map_or("a sheet".to_string(), |refused| format!("{refused:?}"));
            return Err(format!("{}, and {due} is due", of()));
        }
        if let Ok(sheet) = &answer {
            self.look_at_a_made_sheet(claim, sheet)
                .map_err(|text| format!("{}: {text}", of()))?;
        }
        let number = due.map_or(0, Refused::number);
        *self.sheets.made.entry(number).or_default() += 1;
        Ok(())
    }

    fn look_at_a_made_sheet(&mut self, claim: Claim, sheet: &[SheetEntry]) -> Result<(), String> {
        if sheet.len() > 2 * self.literals {
            return Err("more than two entries per literal".to_string());
        }
        if self.look_at_checks(claim, sheet)? != 0 {
            return Err("the checks refuse it".to_string());
        }
        self.sheets.of_truths += usize::from(claim.truth);
        self.sheets.in_contradictory += usize::from(self.model.contradictory);
        self.sheets.longest += usize::from(sheet.len() == 2 * self.literals);
        Ok(())
    }

    /// Holds both checks against each other and, where they accept, against M and N. Answers their number.
    fn look_at_checks(&mut self, claim: Claim, sheet: &[SheetEntry]) -> Result<u8, String> {
        let answer = self.both_checks(claim, sheet);
        let answer = answer.map_err(|_| self.explained(claim, sheet))?;
        let number = answer.map_or_else(Refused::number, |()| 0);
        *self.sheets.checked.entry(number).or_default() += 1;
        Ok(number)
    }

    /// What both checks say, or what is different.
    fn both_checks(
        &self,
        claim: Claim,
        sheet: &[SheetEntry],
    ) -> Result<Result<(), Refused>, String> {
        let ours = self.second.check_sheet(claim, sheet);
        let theirs = self.desk.check_sheet(claim, sheet);
        if ours != theirs {
            return Err(format!("second says {ours:?}, the other says {theirs:?}"));
        }
        match ours {
            Ok(()) if !self.is_so(claim) => Err("both accept what isn't so".to_string()),
            _ => Ok(ours),
        }
    }

    /// A short sheet that shows a difference, ready to print. A long one is printed as it is: what it shows may come
    /// from its length, and then every shorter one takes a trial.
    fn explained(&self, claim: Claim, sheet: &[SheetEntry]) -> String {
        let difference = |sheet: &[SheetEntry]| self.both_checks(claim, sheet).err();
        let mut short = sheet.to_vec();
        if short.len() <= 100 {
            short = shortest(short, &mut |sheet| difference(sheet).is_some());
        }
        let text = difference(&short).expect("the short sheet shows it too");
        format!("of {claim} by {} {text}", gen::sheets::spelt(&short))
    }

    /// Holds both checks against each other on so many changed and random sheets. Half of those that are changed are
    /// the desk's own.
    fn look_at_changed_sheets(&mut self, random: &mut Random, count: usize) -> Result<(), String> {
        for turn in 0..count {
            let matter = self.second.matter(0).ok();
            let (mut claim, mut sheet) = gen::sheets::claim_and_sheet(random, matter);
            if turn % 2 == 0 {
                let own = made(claim, 2 * self.literals, &|run| {
                    self.desk.make_sheet(claim, run)
                })?;
                sheet = own.unwrap_or(sheet);
                for _ in 0..random.between(1, 3) {
                    gen::sheets::change(random, matter, &mut sheet);
                }
            }
            if random.chance(1, 8) {
                claim.literal = random.below(self.literals);
            }
            let number = self.look_at_checks(claim, &sheet)?;
            self.sheets.accepted_otherwise += usize::from(number == 0);
        }
        Ok(())
    }
}

/// Holds check and maker against the second implementation where the claim is refused: no book is loaded, or the
/// book has no such literal. Then neither the sheet nor the run is looked at.
fn look_at_refusals<D: Calls>(second: &Desk, desk: &D) -> Result<Sheets, String> {
    let literals = second.book().map_or(0, |book| book.literals());
    let mut sheets = Sheets::default();
    for claim in [literals, literals + 1, usize::MAX]
        .into_iter()
        .flat_map(Claim::both)
    {
        let due = second.matter(claim.literal).err();
        let due = due.ok_or_else(|| format!("the book has literal {}", claim.literal))?;
        for length in [0, 1, MOST_SHEET, MOST_SHEET + 1] {
            let checked = desk.check_sheet(claim, &vec![UNTOUCHED; length]);
            let made = made(claim, length, &|run| desk.make_sheet(claim, run))?;
            if checked != Err(due) || made != Err(due) {
                return Err(format!(
                    "of {claim} the check of {length} entries says {checked:?} and the maker {made:?}, \
                     and {due:?} is due"
                ));
            }
            *sheets.checked.entry(due.number()).or_default() += 1;
            *sheets.made.entry(due.number()).or_default() += 1;
        }
    }
    Ok(sheets)
}

/// A maker: it writes a sheet to the first entries of a run.
type Maker<'a> = &'a dyn Fn(&mut [SheetEntry]) -> Result<usize, Refused>;

/// The sheet that a maker makes in a run of so many entries, or its refusal; or what is wrong whichever sheet it
/// makes: a count past the run, or an entry written that was to stay.
fn made(
    claim: Claim,
    length: usize,
    make: Maker,
) -> Result<Result<Vec<SheetEntry>, Refused>, String> {
    let mut run = vec![UNTOUCHED; length];
    let answer = make(&mut run);
    let count = answer.unwrap_or(0);
    let wrong = |what: &str| {
        let run = gen::sheets::spelt(&run);
        Err(format!("{answer:?} and {what} to show that {claim}: {run}"))
    };
    match run.get(count..) {
        None => wrong("a run that is shorter"),
        Some(rest) if rest.iter().any(|entry| *entry != UNTOUCHED) => {
            wrong("a write behind that count")
        }
        Some(_) => Ok(answer.map(|_| run[..count].to_vec())),
    }
}

/// What is told of a maker's answer, and whether it is a refusal: the same of all sheets that show the claim and have
/// at most two entries per literal.
pub(crate) fn told_of_a_made_sheet(
    second: &Desk,
    claim: Claim,
    length: usize,
    make: Maker,
) -> (String, bool) {
    let literals = second.book().map_or(0, |book| book.literals());
    match made(claim, length, make) {
        Err(text) => (text, false),
        Ok(Err(refused)) => (format!("{refused:?}"), true),
        Ok(Ok(sheet)) => match second.check_sheet(claim, &sheet) {
            Ok(()) if sheet.len() <= 2 * literals => ("a sheet".to_string(), false),
            answer => (format!("{sheet:?}, checked {answer:?}"), false),
        },
    }
}

/// How much is looked at after a list of calls.
#[derive(Clone, Copy, Debug)]
pub struct Amount {
    /// About so many literals at most, which stand as far apart as they can.
    pub literals: usize,
    /// So many changed and random sheets.
    pub changed: usize,
    /// The seed of these.
    pub seed: u64,
}

/// Makes the calls of a list on a fresh desk. Then it has both implementations make sheets for both claims about literals
/// of the book that the list leaves, in runs around two entries per literal: there is one exactly where the claim is
/// so, both checks accept it, it has at most two entries per literal, and the entries behind it stay. Behind that it
/// has both checks judge changed and random sheets, and what they accept is so. Where one of these isn't so, a short
/// list of calls that shows it, ready to print.
pub fn sheets_agree<D: Calls>(
    calls: &[Call],
    amount: Amount,
    fresh: impl Fn() -> D,
) -> Result<Sheets, String> {
    look_after(calls, &fresh, |second, desk| {
        let before = desk.state();
        let sheets = look_at_sheets(second, desk, amount).map_err(|text| format!("then {text}"))?;
        match desk.state() == before {
            true => Ok(sheets),
            false => Err("then checks and makers change the desk".to_string()),
        }
    })
}

fn look_at_sheets<D: Calls>(second: &Desk, desk: &D, amount: Amount) -> Result<Sheets, String> {
    let mut sheets = look_at_refusals(second, desk)?;
    let Some(mut pair) = Pair::of(second, desk).filter(|pair| pair.literals > 0) else {
        return Ok(sheets);
    };
    let apart = pair.literals.div_ceil(amount.literals);
    for claim in (0..pair.literals).step_by(apart).flat_map(Claim::both) {
        pair.look_at_makers(claim)?;
    }
    pair.look_at_changed_sheets(&mut Random::new(amount.seed), amount.changed)?;
    sheets += pair.sheets;
    Ok(sheets)
}
