//! Proof sheets: the check, and a maker (document 02, A.3).
//!
//! The check looks at each entry by itself, with the whole sheet around it. The maker goes by the definition of M
//! and N: a claim has the stage k at which its literal comes into I(k + 1), or leaves Γs(I(k)), and from the claim that
//! is to be shown it goes back to the claims that are needed, each of an earlier stage.

use super::book::{complement, Entry, Rule, MOST_RULES};
use super::model::{gamma, Program};
use crate::answer::{Claim, Refused, SheetEntry, MOST_SHEET};
use std::collections::BTreeSet;
use std::ops::Range;

/// What a sheet is about: the rules of a book, the facts put in, and how many literals the book has.
#[derive(Clone, Copy)]
pub struct Matter<'a> {
    pub literals: usize,
    pub rules: &'a [Rule],
    pub facts: &'a BTreeSet<usize>,
}

/// What the check answers to a claim about a literal of the book. Refused with 26, 27 or 28.
pub fn check(matter: Matter, claim: Claim, sheet: &[SheetEntry]) -> Result<(), Refused> {
    if sheet.is_empty() || sheet.len() > MOST_SHEET {
        return Err(Refused::SheetLength);
    }
    if let Some(index) = (0..sheet.len()).find(|&index| !follows(matter, sheet, index)) {
        return Err(Refused::DoesNotFollow { index });
    }
    if !sheet.iter().any(|entry| entry.says(claim)) {
        return Err(Refused::NotShown);
    }
    Ok(())
}

/// Whether an entry of a sheet follows. Where those before it do, the first that doesn't is the one of 27.
fn follows(matter: Matter, sheet: &[SheetEntry], index: usize) -> bool {
    let entry = sheet[index];
    let literal = usize::from(entry.literal);
    if literal >= matter.literals {
        return false;
    }
    match entry.kind {
        SheetEntry::TRUE => {
            let already = Already::of(&sheet[..index]);
            names_a_rule(matter, already, literal, usize::from(entry.rule))
        }
        SheetEntry::FALSE => {
            let group = group_around(sheet, index);
            let already = Already::of(&sheet[..group.start]);
            !already.ends(entry.group) && has_no_rule_left(matter, already, &sheet[group], literal)
        }
        _ => false,
    }
}

/// The entries that stand together with a "false" entry under its number.
fn group_around(sheet: &[SheetEntry], index: usize) -> Range<usize> {
    let own =
        |entry: &SheetEntry| entry.kind == SheetEntry::FALSE && entry.group == sheet[index].group;
    let before = sheet[..index].iter().rev().take_while(|entry| own(entry));
    let behind = sheet[index..].iter().take_while(|entry| own(entry));
    index - before.count()..index + behind.count()
}

/// The entries before a "true" entry, or before the first entry of a group.
#[derive(Clone, Copy)]
struct Already<'a>(&'a [SheetEntry]);

impl<'a> Already<'a> {
    fn of(entries: &'a [SheetEntry]) -> Already<'a> {
        Already(entries)
    }

    fn is(self, literal: usize, truth: bool) -> bool {
        self.0
            .iter()
            .any(|entry| entry.says(Claim { literal, truth }))
    }

    /// Whether a group before has this number.
    fn ends(self, group: u16) -> bool {
        self.0
            .iter()
            .any(|entry| entry.kind == SheetEntry::FALSE && entry.group == group)
    }
}

/// Whether a number is that of a rule for the literal whose positive body literals are already true and whose
/// "not" literals are already false, or stands for the literal put in.
fn names_a_rule(matter: Matter, already: Already, literal: usize, number: usize) -> bool {
    let shown = |entry: &Entry| already.is(entry.literal, !entry.default);
    match matter.rules.get(number) {
        Some(rule) => rule.head == literal && rule.body.iter().all(shown),
        None => number == MOST_RULES + literal && matter.facts.contains(&literal),
    }
}

/// Whether no rule for a literal of a group is left open. A fact put in is a rule without a body: it is left open
/// unless its complement is already true.
fn has_no_rule_left(
    matter: Matter,
    already: Already,
    group: &[SheetEntry],
    literal: usize,
) -> bool {
    let in_group = |wanted: usize| group.iter().any(|e| usize::from(e.literal) == wanted);
    let fails = |entry: &Entry| match entry.default {
        true => already.is(entry.literal, true),
        false => already.is(entry.literal, false) || in_group(entry.literal),
    };
    let mut own = matter.rules.iter().filter(|rule| rule.head == literal);
    already.is(complement(literal), true)
        || !matter.facts.contains(&literal) && own.all(|rule| rule.body.iter().any(fails))
}

/// Writes a sheet for a claim about a literal of the book to the first entries of a run, and answers how many it
/// wrote. Refused with 28, and then with 25.
pub fn make(matter: Matter, claim: Claim, run: &mut [SheetEntry]) -> Result<usize, Refused> {
    let sheet = sheet_for(matter, claim).ok_or(Refused::NotShown)?;
    if run.len() < 2 * matter.literals {
        return Err(Refused::BufferTooShort);
    }
    run[..sheet.len()].copy_from_slice(&sheet);
    Ok(sheet.len())
}

/// A sheet for a claim, where the claim is so. It has what the claim needs by the ranks of the literals, each claim
/// once.
pub fn sheet_for(matter: Matter, claim: Claim) -> Option<Vec<SheetEntry>> {
    let ranks = Ranks::of(matter);
    ranks.of_claim(claim)?;
    let mut ahead = vec![claim];
    let mut sheet: Vec<(Rank, SheetEntry)> = Vec::new();
    while let Some(claim) = ahead.pop() {
        if sheet.iter().any(|(_, entry)| entry.says(claim)) {
            continue;
        }
        let rank = ranks.of_claim(claim)?;
        let (rule, needed) = match claim.truth {
            true => ranks.rule_for(matter, claim.literal)?,
            false => (0, ranks.against_rules(matter, claim.literal)?),
        };
        ahead.extend(needed);
        let entry = SheetEntry {
            kind: claim.kind(),
            literal: short(claim.literal),
            rule: short(rule),
            group: short(rank.stage),
        };
        sheet.push((rank, entry));
    }
    // The entries of one rank, which are a group or don't need each other, stay as they were found.
    sheet.sort_by_key(|(rank, _)| *rank);
    Some(sheet.into_iter().map(|(_, entry)| entry).collect())
}

fn short(number: usize) -> u16 {
    u16::try_from(number).expect("literals, rules and stages are few")
}

/// When a claim is settled: those about literals outside Γs(I(k)) at step 0 of stage k, and those about literals of
/// I(k + 1) at the steps behind it. A claim needs earlier ones, and one of step 0 may need others of that step.
#[derive(Clone, Copy, Debug, PartialEq, Eq, PartialOrd, Ord)]
struct Rank {
    stage: usize,
    step: usize,
}

/// The ranks of all claims that are so, by the literals.
struct Ranks {
    truths: Vec<Option<Rank>>,
    falses: Vec<Option<Rank>>,
}

impl Ranks {
    /// By I(0), I(1) and so on until two neighbours are equal, and Γs of each.
    fn of(matter: Matter) -> Ranks {
        let program = program_of(matter);
        let seminormal = program.seminormal();
        let none = vec![None; program.literals];
        let mut ranks = Ranks {
            truths: none.clone(),
            falses: none,
        };
        let mut truths = vec![false; program.literals];
        for stage in 0.. {
            let nonfalse = gamma(&seminormal, &truths);
            set_first(&mut ranks.falses, Rank { stage, step: 0 }, |l| !nonfalse[l]);
            // Each step adds the heads of the rules that the steps before it show. The last one is Γ(Γs(I(k))).
            let mut shown = vec![false; program.literals];
            for step in 1.. {
                let next = one_step(&program, &nonfalse, &shown);
                if next == shown {
                    break;
                }
                set_first(&mut ranks.truths, Rank { stage, step }, |l| next[l]);
                shown = next;
            }
            if shown == truths {
                break;
            }
            truths = shown;
        }
        ranks
    }

    fn of_claim(&self, claim: Claim) -> Option<Rank> {
        match claim.truth {
            true => self.truths[claim.literal],
            false => self.falses[claim.literal],
        }
    }

    /// Whether a claim is settled before a rank.
    fn is_before(&self, claim: &Claim, rank: Rank) -> bool {
        self.of_claim(*claim).is_some_and(|own| own < rank)
    }

    /// The number of a rule, or that of a fact, whose body is settled before the rank of a true literal, with what
    /// the body claims.
    fn rule_for(&self, matter: Matter, literal: usize) -> Option<(usize, Vec<Claim>)> {
        let rank = self.truths[literal]?;
        if matter.facts.contains(&literal) {
            return Some((MOST_RULES + literal, Vec::new()));
        }
        let claims = |rule: &Rule| Vec::from_iter(rule.body.iter().map(claim_of));
        let own = |rule: &&Rule| {
            rule.head == literal && claims(rule).iter().all(|c| self.is_before(c, rank))
        };
        let number = matter.rules.iter().position(|rule| own(&rule))?;
        Some((number, claims(&matter.rules[number])))
    }

    /// Claims that leave no rule for a false literal open, settled before its rank or in its group.
    fn against_rules(&self, matter: Matter, literal: usize) -> Option<Vec<Claim>> {
        let rank = self.falses[literal]?;
        let complement = Claim {
            literal: complement(literal),
            truth: true,
        };
        if self.is_before(&complement, rank) {
            return Some(vec![complement]);
        }
        let settled = |claim: &Claim| {
            self.is_before(claim, rank) || !claim.truth && self.of_claim(*claim) == Some(rank)
        };
        let against = |rule: &Rule| rule.body.iter().map(contrary_of).find(settled);
        let own = matter.rules.iter().filter(|rule| rule.head == literal);
        own.map(against).collect()
    }
}

/// What a body literal claims: a positive one that it is true, "not C" that C is false.
fn claim_of(entry: &Entry) -> Claim {
    Claim {
        literal: entry.literal,
        truth: !entry.default,
    }
}

/// What leaves a rule with this body literal no way to apply.
fn contrary_of(entry: &Entry) -> Claim {
    Claim {
        literal: entry.literal,
        truth: entry.default,
    }
}

/// The rules and facts as a program. A literal of whatever bits may be past those that the book has.
fn program_of(matter: Matter) -> Program {
    let of_rule = |rule: &Rule| {
        let body = rule.body.iter().map(|entry| entry.literal);
        body.chain([rule.head]).max().expect("a rule has a head")
    };
    let rules = matter.rules.iter().map(of_rule);
    let highest = rules.chain(matter.facts.iter().copied()).max();
    // Both literals of each name are there.
    let literals = highest.map_or(0, |literal| literal / 2 * 2 + 2);
    let facts = matter.facts.iter().map(|&head| Rule {
        head,
        body: Vec::new(),
    });
    Program {
        literals: literals.max(matter.literals),
        rules: matter.rules.iter().cloned().chain(facts).collect(),
    }
}

/// Gives the literals of a set a rank, where they have none yet.
fn set_first(ranks: &mut [Option<Rank>], rank: Rank, is_member: impl Fn(usize) -> bool) {
    for (literal, own) in ranks.iter_mut().enumerate() {
        if own.is_none() && is_member(literal) {
            *own = Some(rank);
        }
    }
}

/// What is shown, and the heads of the rules that it shows, where "not C" holds if C isn't in a set.
fn one_step(program: &Program, set: &[bool], shown: &[bool]) -> Vec<bool> {
    let holds = |entry: &Entry| match entry.default {
        true => !set[entry.literal],
        false => shown[entry.literal],
    };
    let mut next = shown.to_vec();
    for rule in program
        .rules
        .iter()
        .filter(|rule| rule.body.iter().all(holds))
    {
        next[rule.head] = true;
    }
    next
}
