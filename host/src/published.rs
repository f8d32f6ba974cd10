//! Holds the verdicts of a desk against the published definition, which is read over the rules for the names
//! that a name reaches, and against books with other rules for the names that it doesn't reach (document 02,
//! A.7).

use crate::answer::{Refused, Verdict};
use crate::compare::{look_after, Calls};
use crate::gen::{self, Call, Random};
use crate::second::{least_model, partial_stable_models, Book, Desk, Program, Rule};
use std::collections::BTreeSet;
use std::ops::AddAssign;

/// How many literals were looked at, by what was due of them.
#[derive(Clone, Copy, Debug, Default, PartialEq, Eq)]
pub struct Looked {
    /// Refused by 24.
    pub refused: usize,
    /// With a verdict, in a contradictory lesson.
    pub given_beside: usize,
    /// With a verdict, in other lessons.
    pub given: usize,
}

impl AddAssign for Looked {
    fn add_assign(&mut self, more: Looked) {
        self.refused += more.refused;
        self.given_beside += more.given_beside;
        self.given += more.given;
    }
}

impl Looked {
    fn count(&mut self, answer: Result<Verdict, Refused>, contradictory: bool) {
        match answer {
            Err(_) => self.refused += 1,
            Ok(_) if contradictory => self.given_beside += 1,
            Ok(_) => self.given += 1,
        }
    }
}

/// Makes the calls of a list on a fresh desk. Then it takes, for each literal of the book that the list
/// leaves, the rules and facts for the names that the literal's name reaches, and all their partial stable
/// models: the verdict is refused by 24 exactly where there is none, and otherwise it is the literal's value in
/// the least of them. Where that isn't so, a short list of calls that shows it, ready to print.
pub fn verdicts_are_published<D: Calls>(
    calls: &[Call],
    fresh: impl Fn() -> D,
) -> Result<Looked, String> {
    look_after(calls, &fresh, |second, desk| {
        let mut looked = Looked::default();
        let contradictory = second.model().is_ok_and(|model| model.contradictory);
        let Some(book) = second.book() else {
            return Ok(looked);
        };
        let program = Program::new(book, second.facts());
        for name in 0..book.names.len() {
            let rules = rules_for(&reached_names(&program.rules, name), &program);
            let due = published(&rules, name)?;
            for (sign, due) in due.into_iter().enumerate() {
                let literal = 2 * name + sign;
                let answer = desk.verdict(literal);
                if answer != due {
                    return Err(format!(
                        "then the verdict of {literal} is {answer:?}, by the definition it is {due:?}"
                    ));
                }
                looked.count(answer, contradictory);
            }
        }
        Ok(looked)
    })
}

/// Makes the calls of a list on a fresh desk. Then it looks, for each name of the book that the list leaves,
/// at other books with other facts, in which only rules and facts for names that it doesn't reach are others:
/// the verdicts of the name are the same, 24 included. The tally is by the other lessons.
pub fn verdicts_are_unaltered<D: Calls>(
    calls: &[Call],
    seed: u64,
    fresh: impl Fn() -> D,
) -> Result<Looked, String> {
    look_after(calls, &fresh, |second, desk| {
        let mut random = Random::new(seed);
        let mut looked = Looked::default();
        let names = second.book().map_or(0, |book| book.names.len());
        for name in 0..names {
            let (file, facts) = altered(&mut random, second, name);
            let mut other = fresh();
            let loaded = other.load(file.as_bytes());
            let put_in = facts.iter().try_for_each(|&fact| other.put_in(fact));
            let contradictory = other.model().is_ok_and(|model| model.contradictory);
            for literal in [2 * name, 2 * name + 1] {
                let (answer, again) = (desk.verdict(literal), other.verdict(literal));
                if loaded.is_err() || put_in.is_err() || answer != again {
                    return Err(format!(
                        "then the verdict of {literal} is {answer:?}, and {again:?} with facts \
                         {facts:?} in the book\n{file}"
                    ));
                }
                looked.count(again, contradictory);
            }
        }
        Ok(looked)
    })
}

/// The names that a name reaches: the least set that has the name itself, and with each name also those in
/// the bodies of the rules for either of its literals.
fn reached_names(rules: &[Rule], name: usize) -> BTreeSet<usize> {
    let mut reached = BTreeSet::from([name]);
    loop {
        let known = reached.clone();
        let own = rules.iter().filter(|rule| known.contains(&(rule.head / 2)));
        reached.extend(
            own.flat_map(|rule| &rule.body)
                .map(|entry| entry.literal / 2),
        );
        if reached == known {
            return reached;
        }
    }
}

/// The rules of a program for some names, over the same literals.
fn rules_for(names: &BTreeSet<usize>, program: &Program) -> Program {
    let own = |rule: &&Rule| names.contains(&(rule.head / 2));
    Program {
        literals: program.literals,
        rules: program.rules.iter().filter(own).cloned().collect(),
    }
}

/// What the definition says of both literals of a name, by the partial stable models of a program.
fn published(program: &Program, name: usize) -> Result<[Result<Verdict, Refused>; 2], String> {
    let models = partial_stable_models(program);
    let least = least_model(&models);
    if least.is_none() && !models.is_empty() {
        return Err(format!(
            "then none of these models is the least: {models:?}"
        ));
    }
    Ok([2 * name, 2 * name + 1].map(|literal| {
        let model = least.ok_or(Refused::Contradictory)?;
        Ok(match (model.truths[literal], model.nonfalse[literal]) {
            (true, _) => Verdict::True,
            (false, true) => Verdict::Undefined,
            (false, false) => Verdict::False,
        })
    }))
}

/// A file and facts that are those of a desk but for the rules and facts for names that a name doesn't reach.
/// Such rules are left out, and others come in their place, some for names that the book doesn't have.
fn altered(random: &mut Random, desk: &Desk, name: usize) -> (String, Vec<usize>) {
    let book = desk.book().expect("a name is of a book");
    let reached = reached_names(&book.rules, name);
    let is_reached = |literal: usize| reached.contains(&(literal / 2));
    let names = book.names.len() + random.below(3);
    let mut other = Book {
        names: (0..names).map(gen::name).collect(),
        rules: book.rules.clone(),
    };
    other
        .rules
        .retain(|rule| is_reached(rule.head) || random.chance(1, 2));
    for _ in 0..random.below(6) {
        let rule = gen::some_rule(random, names);
        if !is_reached(rule.head) {
            let place = random.below(other.rules.len() + 1);
            other.rules.insert(place, rule);
        }
    }
    let mut facts = desk.facts().clone();
    facts.retain(|&fact| is_reached(fact) || random.chance(1, 2));
    // Both literals of a name make a clash.
    let clash = random.below(names);
    let more = [2 * clash, 2 * clash + 1, random.below(2 * names)];
    let put_in = random.below(more.len() + 1);
    facts.extend(more[..put_in].iter().filter(|&&fact| !is_reached(fact)));
    (other.to_file(), facts.into_iter().collect())
}
