//! Checks and makers of proof sheets that are wrong in one thing (document 02, A.3).

use mezhkura::answer::{Claim, Refused, SheetEntry, MOST_RULES, MOST_SHEET};
use mezhkura::second::{complement, Desk, Entry, Matter};
use std::ops::Range;

/// What is wrong in a check.
#[derive(Clone, Copy, Debug, PartialEq)]
pub enum Misjudged {
    /// 28 is never given.
    AcceptsWhatIsNotAmongTheEntries,
    /// 28 is given by the literal alone, whatever the kind.
    TakesEitherKindForTheClaim,
    /// 28 comes before 27.
    LooksForTheClaimFirst,
    /// 27 has the index of the last entry that doesn't follow.
    TellsTheLastIndex,
    /// 27 has the index of the first entry of a failing group.
    TellsTheGroupsFirstIndex,
    /// 27 counts from 1.
    CountsFromOne,
    /// A group may have the number of an ended one.
    AcceptsAnEndedNumber,
    /// Entries apart from each other with one number are one group.
    JoinsGroupsThatStandApart,
    /// The number of a "true" entry's group has ended too.
    EndsGroupsOfTrueEntries,
    /// An unknown literal ends the group.
    EndsTheGroupAtAnUnknownLiteral,
    /// The group's own literals don't count.
    LeavesOutTheGroup,
    /// Each entry of a group is judged by those before it, and not the group whole.
    JudgesAGroupOneByOne,
    /// A body literal "not C" with C in the group answers a rule.
    TakesTheGroupForNot,
    /// A fact put in is no rule of a "false" entry.
    LeavesOutFacts,
    /// The complement of the head isn't asked.
    LeavesOutTheComplement,
    /// One rule of a literal with an answer is enough.
    TakesOneAnsweredRule,
    /// A "true" entry's number may be that of a rule with another head.
    TakesARuleOfAnotherHead,
    /// Later "true" entries count as earlier ones.
    LooksAtLaterEntries,
    /// 512 and more stands for every fact.
    TakesEveryFactNumber,
    /// A fact's number is taken where the literal isn't put in.
    TakesFactsThatAreNotPutIn,
    /// An entry of another kind is passed over.
    PassesOverOtherKinds,
    /// Every kind but 0 is "true".
    TakesOtherKindsForTrue,
    /// A literal's number is taken by remainder.
    TakesLiteralsByRemainder,
    /// 513 entries are accepted.
    AcceptsOneEntryMore,
    /// 512 entries are refused.
    RefusesTheLongestSheet,
    /// A sheet of no entries is refused by 28.
    TakesNoEntriesForNoClaim,
    /// 26 comes before 20 and 21.
    LooksAtTheLengthFirst,
    /// 24 is given in a contradictory lesson.
    RefusesContradictoryLessons,
}

impl Misjudged {
    pub const ALL: [Misjudged; 28] = [
        Misjudged::AcceptsWhatIsNotAmongTheEntries,
        Misjudged::TakesEitherKindForTheClaim,
        Misjudged::LooksForTheClaimFirst,
        Misjudged::TellsTheLastIndex,
        Misjudged::TellsTheGroupsFirstIndex,
        Misjudged::CountsFromOne,
        Misjudged::AcceptsAnEndedNumber,
        Misjudged::JoinsGroupsThatStandApart,
        Misjudged::EndsGroupsOfTrueEntries,
        Misjudged::EndsTheGroupAtAnUnknownLiteral,
        Misjudged::LeavesOutTheGroup,
        Misjudged::JudgesAGroupOneByOne,
        Misjudged::TakesTheGroupForNot,
        Misjudged::LeavesOutFacts,
        Misjudged::LeavesOutTheComplement,
        Misjudged::TakesOneAnsweredRule,
        Misjudged::TakesARuleOfAnotherHead,
        Misjudged::LooksAtLaterEntries,
        Misjudged::TakesEveryFactNumber,
        Misjudged::TakesFactsThatAreNotPutIn,
        Misjudged::PassesOverOtherKinds,
        Misjudged::TakesOtherKindsForTrue,
        Misjudged::TakesLiteralsByRemainder,
        Misjudged::AcceptsOneEntryMore,
        Misjudged::RefusesTheLongestSheet,
        Misjudged::TakesNoEntriesForNoClaim,
        Misjudged::LooksAtTheLengthFirst,
        Misjudged::RefusesContradictoryLessons,
    ];

    /// The check of a claim on a desk.
    pub fn check(self, desk: &Desk, claim: Claim, sheet: &[SheetEntry]) -> Result<(), Refused> {
        if self == Misjudged::LooksAtTheLengthFirst
            && (sheet.is_empty() || sheet.len() > MOST_SHEET)
        {
            return Err(Refused::SheetLength);
        }
        let matter = desk.matter(claim.literal)?;
        if self == Misjudged::RefusesContradictoryLessons && desk.model()?.contradictory {
            return Err(Refused::Contradictory);
        }
        self.look_at_length(sheet.len())?;
        let among = |claim: Claim| sheet.iter().any(|entry| entry.says(claim));
        let shown = match self {
            Misjudged::AcceptsWhatIsNotAmongTheEntries => true,
            Misjudged::TakesEitherKindForTheClaim => {
                Claim::both(claim.literal).into_iter().any(among)
            }
            _ => among(claim),
        };
        if self == Misjudged::LooksForTheClaimFirst && !shown {
            return Err(Refused::NotShown);
        }
        match self.fault(matter, sheet) {
            Some(index) => Err(Refused::DoesNotFollow { index }),
            None if shown => Ok(()),
            None => Err(Refused::NotShown),
        }
    }

    fn look_at_length(self, length: usize) -> Result<(), Refused> {
        let most = match self {
            Misjudged::AcceptsOneEntryMore => MOST_SHEET + 1,
            Misjudged::RefusesTheLongestSheet => MOST_SHEET - 1,
            _ => MOST_SHEET,
        };
        match length {
            0 if self == Misjudged::TakesNoEntriesForNoClaim => Err(Refused::NotShown),
            0 => Err(Refused::SheetLength),
            _ if length > most => Err(Refused::SheetLength),
            _ => Ok(()),
        }
    }

    /// The index that 27 has.
    fn fault(self, matter: Matter, sheet: &[SheetEntry]) -> Option<usize> {
        let sheet = self.misread(matter, sheet);
        let fails = |index: &usize| !self.follows(matter, &sheet, *index);
        let first = (0..sheet.len()).find(fails)?;
        Some(match self {
            Misjudged::TellsTheLastIndex => (0..sheet.len()).rfind(fails)?,
            Misjudged::TellsTheGroupsFirstIndex => self.group_around(&sheet, first, 0).start,
            Misjudged::CountsFromOne => first + 1,
            _ => first,
        })
    }

    /// What the check reads in place of a sheet, with as many entries.
    fn misread(self, matter: Matter, sheet: &[SheetEntry]) -> Vec<SheetEntry> {
        let mut read = sheet.to_vec();
        for entry in &mut read {
            match self {
                Misjudged::TakesLiteralsByRemainder => entry.literal %= matter.literals as u16,
                Misjudged::TakesOtherKindsForTrue => entry.kind = entry.kind.min(SheetEntry::TRUE),
                _ => {}
            }
        }
        read
    }

    fn follows(self, matter: Matter, sheet: &[SheetEntry], index: usize) -> bool {
        let entry = sheet[index];
        let is_known = usize::from(entry.literal) < matter.literals;
        match entry.kind {
            SheetEntry::TRUE => is_known && self.true_follows(matter, sheet, index),
            SheetEntry::FALSE => is_known && self.false_follows(matter, sheet, index),
            _ => self == Misjudged::PassesOverOtherKinds,
        }
    }

    fn true_follows(self, matter: Matter, sheet: &[SheetEntry], index: usize) -> bool {
        let SheetEntry { literal, rule, .. } = sheet[index];
        let (literal, number) = (usize::from(literal), usize::from(rule));
        let earlier = match self {
            Misjudged::LooksAtLaterEntries => [&sheet[..index], &sheet[index + 1..]].concat(),
            _ => sheet[..index].to_vec(),
        };
        let shown = |entry: &Entry| says(&earlier, entry.literal, !entry.default);
        let is_fact_number = match self {
            Misjudged::TakesEveryFactNumber => number >= MOST_RULES,
            _ => number == MOST_RULES + literal,
        };
        let is_fact = matter.facts.contains(&literal);
        match matter.rules.get(number) {
            Some(rule) => {
                let is_own = rule.head == literal || self == Misjudged::TakesARuleOfAnotherHead;
                is_own && rule.body.iter().all(shown)
            }
            None => is_fact_number && (is_fact || self == Misjudged::TakesFactsThatAreNotPutIn),
        }
    }

    fn false_follows(self, matter: Matter, sheet: &[SheetEntry], index: usize) -> bool {
        let number = sheet[index].group;
        let is_own = |e: &SheetEntry| e.kind == SheetEntry::FALSE && e.group == number;
        let ended = |e: &SheetEntry| match self {
            Misjudged::AcceptsAnEndedNumber | Misjudged::JoinsGroupsThatStandApart => false,
            Misjudged::EndsGroupsOfTrueEntries => e.kind <= SheetEntry::TRUE && e.group == number,
            _ => is_own(e),
        };
        let whole = group_around(sheet, index);
        let part = self.group_around(sheet, index, matter.literals);
        let mut group = sheet[part.clone()].to_vec();
        let mut already = &sheet[..part.start];
        if self == Misjudged::JoinsGroupsThatStandApart {
            group = sheet.iter().filter(|e| is_own(e)).copied().collect();
            already = already.split(is_own).next().unwrap_or_default();
        }
        let is_ended = sheet[..whole.start].iter().any(ended);
        !is_ended && self.leaves_no_rule(matter, already, &group, sheet[index].literal.into())
    }

    /// The group that an entry is judged in.
    fn group_around(self, sheet: &[SheetEntry], index: usize, known: usize) -> Range<usize> {
        let whole = match sheet[index].kind {
            SheetEntry::FALSE => group_around(sheet, index),
            _ => index..index + 1,
        };
        let is_unknown = |i: &usize| usize::from(sheet[*i].literal) >= known;
        match self {
            Misjudged::JudgesAGroupOneByOne => index..index + 1,
            Misjudged::EndsTheGroupAtAnUnknownLiteral => {
                let start = (whole.start..index).rfind(is_unknown).map(|i| i + 1);
                let end = (index..whole.end).find(is_unknown).map(|i| i + 1);
                start.unwrap_or(whole.start)..end.unwrap_or(whole.end)
            }
            _ => whole,
        }
    }

    fn leaves_no_rule(
        self,
        matter: Matter,
        already: &[SheetEntry],
        group: &[SheetEntry],
        literal: usize,
    ) -> bool {
        let in_group = |wanted: usize| group.iter().any(|e| usize::from(e.literal) == wanted);
        let fails = |entry: &Entry| match (entry.default, self) {
            (true, Misjudged::TakesTheGroupForNot) if in_group(entry.literal) => true,
            (false, Misjudged::LeavesOutTheGroup) => says(already, entry.literal, false),
            (false, _) if in_group(entry.literal) => true,
            (default, _) => says(already, entry.literal, default),
        };
        let is_fact = match self {
            Misjudged::LeavesOutFacts => false,
            _ => matter.facts.contains(&literal),
        };
        let asks = self != Misjudged::LeavesOutTheComplement;
        let own = matter.rules.iter().filter(|rule| rule.head == literal);
        let answered = Vec::from_iter(own.map(|rule| rule.body.iter().any(fails)));
        let all = match self {
            Misjudged::TakesOneAnsweredRule => answered.is_empty() || answered.contains(&true),
            _ => !answered.contains(&false),
        };
        asks && says(already, complement(literal), true) || !is_fact && all
    }
}

/// Whether some entries say of a literal that it is true, or that it is false.
fn says(entries: &[SheetEntry], literal: usize, truth: bool) -> bool {
    let claim = Claim { literal, truth };
    entries.iter().any(|entry| entry.says(claim))
}

/// The entries that stand together with a "false" one under its number.
fn group_around(sheet: &[SheetEntry], index: usize) -> Range<usize> {
    let own =
        |entry: &&SheetEntry| entry.kind == SheetEntry::FALSE && entry.group == sheet[index].group;
    let before = sheet[..index].iter().rev().take_while(own);
    let behind = sheet[index..].iter().take_while(own);
    index - before.count()..index + behind.count()
}

/// What is wrong in a maker.
#[derive(Clone, Copy, Debug, PartialEq)]
pub enum Mismade {
    /// Entries behind those that it counts are cleared.
    WritesBehindItsCount,
    /// 25 comes before 28.
    LooksAtTheRunFirst,
    /// A run of one entry per literal is long enough.
    AsksForOneEntryPerLiteral,
    /// A run is long enough if the sheet fits.
    AsksForWhatItNeeds,
    /// 25 is given up to two entries per literal, and to as many.
    AsksForOneEntryMore,
    /// A refused call writes what fits.
    WritesThoughRefused,
    /// A claim that isn't so has the sheet of another one.
    MakesForWhatIsNotSo,
    /// The last entry isn't counted.
    CountsOneLess,
    /// The last group isn't written.
    LeavesOutTheLastGroup,
    /// In a contradictory lesson the claim "false" of a true literal is taken for one that isn't so.
    TakesTheTrueForNotFalse,
    /// Facts put in aren't known.
    ForgetsFacts,
    /// The entries stand in their order by literals.
    SortsByLiterals,
    /// Every entry is written twice.
    WritesEachEntryTwice,
}

impl Mismade {
    pub const ALL: [Mismade; 13] = [
        Mismade::WritesBehindItsCount,
        Mismade::LooksAtTheRunFirst,
        Mismade::AsksForOneEntryPerLiteral,
        Mismade::AsksForWhatItNeeds,
        Mismade::AsksForOneEntryMore,
        Mismade::WritesThoughRefused,
        Mismade::MakesForWhatIsNotSo,
        Mismade::CountsOneLess,
        Mismade::LeavesOutTheLastGroup,
        Mismade::TakesTheTrueForNotFalse,
        Mismade::ForgetsFacts,
        Mismade::SortsByLiterals,
        Mismade::WritesEachEntryTwice,
    ];

    /// The sheet for a claim on a desk.
    pub fn make(self, desk: &Desk, claim: Claim, run: &mut [SheetEntry]) -> Result<usize, Refused> {
        let literals = desk.matter(claim.literal)?.literals;
        let bound = 2 * literals;
        let mut whole = vec![NOTHING; 4 * bound];
        let due = desk.make_sheet(claim, &mut whole);
        self.refuse(desk, claim, due.is_ok(), run.len())?;
        match self {
            Mismade::WritesThoughRefused => {
                let fits = due.unwrap_or(bound).min(run.len());
                run[..fits].fill(NOTHING);
            }
            Mismade::MakesForWhatIsNotSo if due.is_err() => {
                let truth = !claim.truth;
                return desk.make_sheet(Claim { truth, ..claim }, run);
            }
            Mismade::ForgetsFacts => return without_facts(desk).make_sheet(claim, run),
            _ => {}
        }
        let count = self.fit(due?, &mut whole);
        let needed = match self {
            Mismade::AsksForOneEntryPerLiteral => literals.max(count),
            Mismade::AsksForWhatItNeeds => count,
            _ => bound.max(count),
        };
        let lent = run.get_mut(..needed).ok_or(Refused::BufferTooShort)?;
        lent[..count].copy_from_slice(&whole[..count]);
        if self == Mismade::WritesBehindItsCount {
            run[count..].fill(NOTHING);
        }
        Ok(count)
    }

    /// Refuses a claim about a literal of the book where that isn't due, where the claim is so or isn't.
    fn refuse(self, desk: &Desk, claim: Claim, is_so: bool, length: usize) -> Result<(), Refused> {
        let bound = 2 * desk.matter(claim.literal)?.literals;
        let is_true = || {
            desk.model()
                .is_ok_and(|m| m.truths.contains(&claim.literal))
        };
        match self {
            Mismade::LooksAtTheRunFirst if length < bound => Err(Refused::BufferTooShort),
            Mismade::AsksForOneEntryMore if is_so && length <= bound => {
                Err(Refused::BufferTooShort)
            }
            Mismade::TakesTheTrueForNotFalse if !claim.truth && is_true() => Err(Refused::NotShown),
            _ => Ok(()),
        }
    }

    /// Makes a sheet at the start of a run a wrong one, and answers its count.
    fn fit(self, count: usize, run: &mut [SheetEntry]) -> usize {
        let sheet = &mut run[..count];
        match self {
            Mismade::CountsOneLess => count - 1,
            Mismade::LeavesOutTheLastGroup => {
                let last = sheet.iter().rfind(|e| e.kind == SheetEntry::FALSE).copied();
                let of_it = |e: &SheetEntry| {
                    last.is_some_and(|last| e.kind == last.kind && e.group == last.group)
                };
                let kept: Vec<SheetEntry> = sheet.iter().filter(|e| !of_it(e)).copied().collect();
                sheet[..kept.len()].copy_from_slice(&kept);
                kept.len()
            }
            Mismade::SortsByLiterals => {
                sheet.sort_by_key(|entry| (entry.kind, entry.group, entry.literal));
                count
            }
            Mismade::WritesEachEntryTwice => {
                let twice: Vec<SheetEntry> = sheet.iter().flat_map(|&e| [e, e]).collect();
                run[..2 * count].copy_from_slice(&twice);
                2 * count
            }
            _ => count,
        }
    }
}

/// An entry of zeros.
const NOTHING: SheetEntry = SheetEntry {
    kind: 0,
    literal: 0,
    rule: 0,
    group: 0,
};

/// A desk with the same book and no facts.
fn without_facts(desk: &Desk) -> Desk {
    let mut without = desk.clone();
    for &fact in desk.facts() {
        without.take_out(fact).expect("the fact is in");
    }
    without
}
