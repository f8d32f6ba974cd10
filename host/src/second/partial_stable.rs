//! Partial stable models (001, definition 2).

use super::answer_sets::every_set;
use super::model::{gamma, Program};

/// A partial stable model: the literals that are true, and those that aren't false.
#[derive(Clone, Debug, PartialEq, Eq)]
pub struct PartialStable {
    pub truths: Vec<bool>,
    pub nonfalse: Vec<bool>,
}

/// The partial stable models of a program: the pairs T and F with T = ΓΓs(T), where F is all literals
/// outside Γs(T), and T and F have none in common. Every T is tried, so the program has few names.
pub fn partial_stable_models(program: &Program) -> Vec<PartialStable> {
    let seminormal = program.seminormal();
    let model = |truths: Vec<bool>| {
        let nonfalse = gamma(&seminormal, &truths);
        let apart = is_inside(&truths, &nonfalse);
        (apart && gamma(program, &nonfalse) == truths).then_some(PartialStable { truths, nonfalse })
    };
    every_set(program.literals).filter_map(model).collect()
}

/// The one of some models whose true literals are true in all of them, and whose false literals are false
/// in all of them.
pub fn least_model(models: &[PartialStable]) -> Option<&PartialStable> {
    let below = |one: &PartialStable, other: &PartialStable| {
        is_inside(&one.truths, &other.truths) && is_inside(&other.nonfalse, &one.nonfalse)
    };
    models
        .iter()
        .find(|one| models.iter().all(|other| below(one, other)))
}

/// Whether every literal of a set is in another one.
fn is_inside(set: &[bool], other: &[bool]) -> bool {
    set.iter().zip(other).all(|(one, two)| !one || *two)
}
