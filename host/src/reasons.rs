//! A proof sheet as reasons that a person reads (document 02, A.3). A doubted mark is about one literal, so of the sheet
//! only what the claim needs is shown: what a line needs stands before it, and literals that need each other stand
//! together. The lines are a sheet again, and they are shown only where the check accepts that sheet.

use crate::answer::{Claim, Refused, SheetEntry, MOST_RULES};
use crate::second::{complement, Book, Entry, Rule};
use std::collections::{BTreeMap, BTreeSet};
use std::fmt;

/// Why a claim is so, line by line. The claim is the last line, or one of the last that stand together.
#[derive(Clone, Debug, PartialEq, Eq)]
pub struct Reasons {
    pub lines: Vec<Line>,
    /// The lines as a proof sheet that the check accepted.
    pub sheet: Vec<SheetEntry>,
}

/// What one line says of a literal, and why.
#[derive(Clone, Debug, PartialEq, Eq)]
pub struct Line {
    pub claim: Claim,
    /// The literal as rules spell it.
    pub literal: String,
    pub why: Why,
}

/// Why a literal is true or false.
#[derive(Clone, Debug, PartialEq, Eq)]
pub enum Why {
    /// True: the literal is put in.
    PutIn,
    /// True: all of the body of a rule holds.
    Rule {
        rule: RuleText,
        /// A line for each literal of the body, in its order.
        because: Vec<Earlier>,
    },
    /// False: the complement is true.
    Complement(Earlier),
    /// False: it isn't put in, and each of its rules has a body literal that doesn't hold. Some literals have no rule.
    NoRule(Vec<(RuleText, Earlier)>),
}

/// A rule of the book.
#[derive(Clone, Debug, PartialEq, Eq)]
pub struct RuleText {
    /// Its number, counted from 0 in file order.
    pub number: usize,
    /// Its line in a marking file, with the names spelt as they are declared.
    pub text: String,
}

/// What another line says.
#[derive(Clone, Debug, PartialEq, Eq)]
pub struct Earlier {
    /// The line, counted from 1.
    pub line: usize,
    /// The literal as rules spell it.
    pub literal: String,
    pub truth: bool,
    /// Whether the two lines stand together: they are false since each could be shown only after the other.
    pub together: bool,
}

impl Reasons {
    /// The reasons of a claim by a sheet, no matter who wrote it, where `check` is the check of the lesson with this
    /// book and these facts. Refused where the check refuses the sheet.
    pub fn by_sheet(
        book: &Book,
        facts: &BTreeSet<usize>,
        claim: Claim,
        sheet: &[SheetEntry],
        check: impl Fn(Claim, &[SheetEntry]) -> Result<(), Refused>,
    ) -> Result<Reasons, Refused> {
        check(claim, sheet)?;
        let mut steps = Steps {
            book,
            facts,
            steps: Vec::new(),
            settled: BTreeMap::new(),
        };
        steps.take_sheet(sheet);
        let mut order = Vec::new();
        steps.order_what_is_needed(steps.settled[&key(claim)], &mut order);
        let reasons = steps.told(&order);
        check(claim, &reasons.sheet)?;
        Ok(reasons)
    }
}

/// A claim as the key of a map.
fn key(claim: Claim) -> (usize, bool) {
    (claim.literal, claim.truth)
}

/// A "true" entry, or a smallest group of "false" entries.
struct Step {
    claims: Vec<Settled>,
}

/// A claim with what settles it.
struct Settled {
    claim: Claim,
    /// The number of the rule of a "true" entry.
    rule: usize,
    /// For a "true" entry the claims of the body, for a "false" one what answers each rule; or the complement alone.
    because: Vec<Claim>,
}

/// A sheet, step by step: what a step needs stands in the steps before it, or in itself.
struct Steps<'a> {
    book: &'a Book,
    facts: &'a BTreeSet<usize>,
    steps: Vec<Step>,
    /// The step that settles a claim.
    settled: BTreeMap<(usize, bool), usize>,
}

impl Steps<'_> {
    fn is_settled(&self, claim: Claim) -> bool {
        self.settled.contains_key(&key(claim))
    }

    fn push(&mut self, claims: Vec<Settled>) {
        for settled in &claims {
            self.settled.insert(key(settled.claim), self.steps.len());
        }
        self.steps.push(Step { claims });
    }

    /// Takes an accepted sheet, each claim the first time that an entry says it.
    fn take_sheet(&mut self, sheet: &[SheetEntry]) {
        let together = |one: &SheetEntry, next: &SheetEntry| {
            let number = |entry: &SheetEntry| (entry.kind, entry.group);
            one.kind == SheetEntry::FALSE && number(one) == number(next)
        };
        for block in sheet.chunk_by(together) {
            match block[0].kind {
                SheetEntry::FALSE => self.take_group(block),
                _ => self.take_truth(block[0]),
            }
        }
    }

    fn take_truth(&mut self, entry: SheetEntry) {
        let (literal, rule) = (usize::from(entry.literal), usize::from(entry.rule));
        let claim = Claim {
            literal,
            truth: true,
        };
        if self.is_settled(claim) {
            return;
        }
        // A fact has the number of no rule.
        let body = self.book.rules.get(rule).map_or(&[][..], |rule| &rule.body);
        let because = body.iter().map(claim_of).collect();
        self.push(vec![Settled {
            claim,
            rule,
            because,
        }]);
    }

    /// Takes a group in parts that are as small as can be. The whole group follows, so that there is always a part of
    /// what is left of it that does.
    fn take_group(&mut self, group: &[SheetEntry]) {
        let literals = group.iter().map(|entry| usize::from(entry.literal));
        let mut rest = BTreeSet::from_iter(literals);
        rest.retain(|&literal| !self.is_settled(falsity(literal)));
        while !rest.is_empty() {
            let part = self.smallest_part(&rest);
            for settled in &part {
                rest.remove(&settled.claim.literal);
            }
            self.push(part);
        }
    }

    /// The smallest part of what is left of a group. None is smaller than one literal, so the first of these is taken.
    fn smallest_part(&self, rest: &BTreeSet<usize>) -> Vec<Settled> {
        let parts = || rest.iter().map(|&literal| self.part_of(literal, rest));
        let alone = parts().find(|part| part.len() == 1);
        let smallest = alone.or_else(|| parts().min_by_key(Vec::len));
        smallest.expect("something is left")
    }

    /// A literal of what is left of a group, with those others of it that it needs, that these need, and so on.
    fn part_of(&self, literal: usize, rest: &BTreeSet<usize>) -> Vec<Settled> {
        let mut part: Vec<Settled> = Vec::new();
        let mut known = BTreeSet::from([literal]);
        let mut ahead = vec![literal];
        while let Some(literal) = ahead.pop() {
            let because = self.against_rules(literal, &known, rest);
            for claim in &because {
                if !self.is_settled(*claim) && known.insert(claim.literal) {
                    ahead.push(claim.literal);
                }
            }
            part.push(Settled {
                claim: falsity(literal),
                rule: 0,
                because,
            });
        }
        part
    }

    /// What answers the rules of a false literal: the complement where it is true, and else for each rule what is
    /// settled first, or a literal of its part, or one that is left.
    fn against_rules(
        &self,
        literal: usize,
        part: &BTreeSet<usize>,
        rest: &BTreeSet<usize>,
    ) -> Vec<Claim> {
        let complement = Claim {
            literal: complement(literal),
            truth: true,
        };
        let has_rule = self.rules_of(literal).next().is_some() || self.facts.contains(&literal);
        if has_rule && self.is_settled(complement) {
            return vec![complement];
        }
        let rank = |claim: &Claim| match self.settled.get(&key(*claim)) {
            Some(step) => Some((0, *step)),
            None if claim.truth => None,
            None if part.contains(&claim.literal) => Some((1, 0)),
            None => rest.contains(&claim.literal).then_some((2, 0)),
        };
        let answer = |(_, rule): (usize, &Rule)| {
            let contraries = rule.body.iter().map(contrary_of);
            let ranked = contraries.filter_map(|claim| Some((rank(&claim)?, claim)));
            let first = ranked.min_by_key(|(rank, _)| *rank);
            first.expect("the check accepts the group").1
        };
        self.rules_of(literal).map(answer).collect()
    }

    /// The rules of a literal with their numbers.
    fn rules_of(&self, literal: usize) -> impl Iterator<Item = (usize, &Rule)> {
        let rules = self.book.rules.iter().enumerate();
        rules.filter(move |(_, rule)| rule.head == literal)
    }

    /// Adds a step, and before it the steps that it needs, in the order in which it names them.
    fn order_what_is_needed(&self, step: usize, order: &mut Vec<usize>) {
        let claims = self.steps[step].claims.iter();
        for claim in claims.flat_map(|settled| &settled.because) {
            let needed = self.settled[&key(*claim)];
            if needed != step && !order.contains(&needed) {
                self.order_what_is_needed(needed, order);
            }
        }
        order.push(step);
    }

    /// The lines of some steps, and the sheet that they are.
    fn told(&self, order: &[usize]) -> Reasons {
        let steps = order.iter().map(|&step| (step, &self.steps[step].claims));
        let all: Vec<(usize, &Settled)> = steps
            .flat_map(|(step, claims)| claims.iter().map(move |settled| (step, settled)))
            .collect();
        let place: BTreeMap<_, _> = all
            .iter()
            .enumerate()
            .map(|(place, (_, settled))| (key(settled.claim), place))
            .collect();
        let (mut lines, mut sheet) = (Vec::new(), Vec::new());
        for (step, settled) in &all {
            let first = all.iter().position(|(other, _)| other == step);
            let earlier = |claim: &Claim| Earlier {
                line: place[&key(*claim)] + 1,
                literal: self.book.spelt(claim.literal),
                truth: claim.truth,
                together: self.settled[&key(*claim)] == *step,
            };
            lines.push(Line {
                claim: settled.claim,
                literal: self.book.spelt(settled.claim.literal),
                why: self.why(settled, earlier),
            });
            sheet.push(SheetEntry {
                kind: settled.claim.kind(),
                literal: short(settled.claim.literal),
                rule: short(settled.rule),
                // No other group begins there.
                group: short(first.unwrap_or(0)),
            });
        }
        Reasons { lines, sheet }
    }

    fn why(&self, settled: &Settled, earlier: impl Fn(&Claim) -> Earlier) -> Why {
        let Settled {
            claim,
            rule,
            because,
        } = settled;
        match (claim.truth, &because[..]) {
            (true, _) if *rule >= MOST_RULES => Why::PutIn,
            (true, _) => Why::Rule {
                rule: self.text(*rule),
                because: because.iter().map(earlier).collect(),
            },
            (false, [one]) if one.literal == complement(claim.literal) && one.truth => {
                Why::Complement(earlier(one))
            }
            (false, _) => {
                let rules = self.rules_of(claim.literal);
                let texts = rules.map(|(number, _)| self.text(number));
                Why::NoRule(texts.zip(because.iter().map(earlier)).collect())
            }
        }
    }

    fn text(&self, number: usize) -> RuleText {
        RuleText {
            number,
            text: self.book.rule_line(number),
        }
    }
}

fn falsity(literal: usize) -> Claim {
    Claim {
        literal,
        truth: false,
    }
}

/// What a body literal claims: a positive one that it is true, "not C" that C is false.
fn claim_of(entry: &Entry) -> Claim {
    Claim {
        literal: entry.literal,
        truth: !entry.default,
    }
}

/// What leaves a rule with this body literal no way to apply.
fn contrary_of(entry: &Entry) -> Claim {
    Claim {
        literal: entry.literal,
        truth: entry.default,
    }
}

fn short(number: usize) -> u16 {
    u16::try_from(number).expect("literals, rules and lines are few")
}

/// A line for each literal, and behind a false one a line for each of its rules.
impl fmt::Display for Reasons {
    fn fmt(&self, f: &mut fmt::Formatter<'_>) -> fmt::Result {
        for (place, line) in self.lines.iter().enumerate() {
            writeln!(f, "{}. {line}", place + 1)?;
        }
        Ok(())
    }
}

impl fmt::Display for Line {
    fn fmt(&self, f: &mut fmt::Formatter<'_>) -> fmt::Result {
        write!(f, "{} is {}", self.literal, self.claim.truth)?;
        match &self.why {
            Why::PutIn => write!(f, ": it is put in"),
            Why::Rule { rule, because } => {
                write!(f, " by {}", rule.text)?;
                for (place, earlier) in because.iter().enumerate() {
                    let mark = if place == 0 { ":" } else { "," };
                    write!(f, "{mark} {earlier}")?;
                }
                Ok(())
            }
            Why::Complement(earlier) => write!(f, ": {earlier}"),
            Why::NoRule(rules) if rules.is_empty() => {
                write!(f, ": it has no rule, and it isn't put in")
            }
            Why::NoRule(rules) => {
                write!(f, ": it isn't put in, and no rule for it can apply")?;
                for (rule, earlier) in rules {
                    write!(f, "\n   {}: {earlier}", rule.text)?;
                }
                Ok(())
            }
        }
    }
}

impl fmt::Display for Earlier {
    fn fmt(&self, f: &mut fmt::Formatter<'_>) -> fmt::Result {
        let with = if self.together { ", together" } else { "" };
        write!(
            f,
            "{} is {} (line {}{with})",
            self.literal, self.truth, self.line
        )
    }
}
