//! Holds what a desk answers against the answer sets of the book and facts that a list of calls leaves
//! (document 02, A.14).

use crate::answer::{Model, Refused, Verdict};
use crate::compare::{look_after, Calls};
use crate::gen::Call;
use crate::second::{answer_sets, Program};
use std::collections::BTreeSet;
use std::ops::AddAssign;

/// How many answer sets the programs have that lists of calls left, and what the verdicts were there.
#[derive(Clone, Copy, Debug, Default, PartialEq, Eq)]
pub struct Accord {
    /// Contradictory programs: they have no answer set.
    pub contradictory: usize,
    /// Programs that have a model and no answer set.
    pub none: usize,
    pub one: usize,
    pub several: usize,
    /// Verdicts true and false, of programs with answer sets.
    pub settled: usize,
    /// Verdicts undefined, of programs with answer sets.
    pub undefined: usize,
}

impl AddAssign for Accord {
    fn add_assign(&mut self, more: Accord) {
        self.contradictory += more.contradictory;
        self.none += more.none;
        self.one += more.one;
        self.several += more.several;
        self.settled += more.settled;
        self.undefined += more.undefined;
    }
}

/// Makes the calls of a list on a fresh desk, and holds its model and every verdict of the book that the
/// list leaves against all answer sets. Where they aren't in accord, a short list of calls that shows it,
/// ready to print.
pub fn accords<D: Calls>(calls: &[Call], fresh: impl Fn() -> D) -> Result<Accord, String> {
    look_after(calls, &fresh, |second, desk| match second.book() {
        Some(book) => accord(&Program::new(book, second.facts()), desk),
        None => Ok(Accord::default()),
    })
}

/// What a desk with this program says, or what of it isn't in accord with the program's answer sets.
fn accord<D: Calls>(program: &Program, desk: &D) -> Result<Accord, String> {
    let sets = answer_sets(program);
    let model = desk
        .model()
        .map_err(|refused| format!("then the model is refused: {refused}"))?;
    if !is_around(&model, &sets) {
        return Err(format!("then {model:?}, the answer sets are {sets:?}"));
    }
    let mut accord = counted(&model, sets.len());
    for literal in 0..program.literals {
        let verdict = desk.verdict(literal);
        if !is_in_accord(verdict, literal, &sets) {
            return Err(format!(
                "then the verdict of {literal} is {verdict:?}, the answer sets are {sets:?}"
            ));
        }
        match verdict {
            _ if sets.is_empty() => {}
            Ok(Verdict::Undefined) => accord.undefined += 1,
            _ => accord.settled += 1,
        }
    }
    Ok(accord)
}

/// Every answer set lies between M and N, a contradictory lesson has none, and where M and N are the same
/// there is one.
fn is_around(model: &Model, sets: &[BTreeSet<usize>]) -> bool {
    let between =
        |set: &BTreeSet<usize>| model.truths.is_subset(set) && set.is_subset(&model.nonfalse);
    sets.iter().all(between)
        && (sets.is_empty() || !model.contradictory)
        && (sets.len() == 1 || model.truths != model.nonfalse)
}

/// What is true is in all answer sets, what is false in none, and where there is one, a verdict is given.
fn is_in_accord(
    verdict: Result<Verdict, Refused>,
    literal: usize,
    sets: &[BTreeSet<usize>],
) -> bool {
    match verdict {
        Ok(Verdict::True) => sets.iter().all(|set| set.contains(&literal)),
        Ok(Verdict::False) => !sets.iter().any(|set| set.contains(&literal)),
        Ok(Verdict::Undefined) => true,
        Err(_) => sets.is_empty(),
    }
}

/// A program with so many answer sets, counted.
fn counted(model: &Model, sets: usize) -> Accord {
    let mut accord = Accord::default();
    match sets {
        0 if model.contradictory => accord.contradictory = 1,
        0 => accord.none = 1,
        1 => accord.one = 1,
        _ => accord.several = 1,
    }
    accord
}
