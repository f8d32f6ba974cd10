//! The names of a book in working order, and a model worked out group by group (document 02, A.5).

use super::book::{complement, Entry, Rule};
use super::model::{halves_by, members, Program};
use crate::answer::ModelByGroups;

/// For each of so many names, which names it reaches: itself and every name in the bodies of the rules
/// for either of its literals, and so on from there. The rules have no other names.
pub fn reach(names: usize, rules: &[Rule]) -> Vec<Vec<bool>> {
    (0..names)
        .map(|name| reached_from(name, names, rules))
        .collect()
}

/// Which of so many names one name reaches.
pub fn reached_from(name: usize, names: usize, rules: &[Rule]) -> Vec<bool> {
    let mut reached = vec![false; names];
    reached[name] = true;
    let mut ahead = vec![name];
    while let Some(here) = ahead.pop() {
        let its_rules = rules.iter().filter(|rule| rule.head / 2 == here);
        for entry in its_rules.flat_map(|rule| &rule.body) {
            let next = entry.literal / 2;
            if !reached[next] {
                reached[next] = true;
                ahead.push(next);
            }
        }
    }
    reached
}

/// The groups of the first `count` names in working order. A name behind these is reached like any other,
/// but it isn't listed, and no group waits for it.
pub fn working_order(count: usize, reach: &[Vec<bool>]) -> Vec<Vec<usize>> {
    let mut rest = groups(count, reach);
    let mut order = Vec::new();
    // The groups stand by their lowest names, so the first that may come next is the one that does.
    while let Some(next) = rest.iter().position(|group| may_come(group, &rest, reach)) {
        order.push(rest.remove(next));
    }
    order
}

/// The names that reach each other, a group for each name that is the lowest of its group.
fn groups(count: usize, reach: &[Vec<bool>]) -> Vec<Vec<usize>> {
    let together = |one: usize, other: usize| reach[one][other] && reach[other][one];
    (0..count)
        .filter(|&name| !(0..name).any(|lower| together(lower, name)))
        .map(|lowest| (lowest..count).filter(|&n| together(lowest, n)).collect())
        .collect()
}

/// Whether a group of the rest reaches no name of another one.
fn may_come(group: &[usize], rest: &[Vec<usize>], reach: &[Vec<bool>]) -> bool {
    let others = rest.iter().filter(|other| *other != group);
    !others.flatten().any(|&name| reach[group[0]][name])
}

/// M and N of the groups that are settled, as lists of flags.
struct Settled {
    truths: Vec<bool>,
    nonfalse: Vec<bool>,
}

/// M and N of a program, worked out group by group in working order.
pub fn model_by_groups(program: &Program) -> ModelByGroups {
    let names = program.literals / 2;
    let none = vec![false; program.literals];
    let mut before = Settled {
        truths: none.clone(),
        nonfalse: none,
    };
    for group in working_order(names, &reach(names, &program.rules)) {
        let own = |literal: usize| group.contains(&(literal / 2));
        let rules = program.rules.iter().filter(|rule| own(rule.head));
        let step = step(&Vec::from_iter(rules), own, &before);
        for literal in (0..program.literals).filter(|&literal| own(literal)) {
            before.truths[literal] = step.truths[literal];
            before.nonfalse[literal] = step.nonfalse[literal];
        }
    }
    let truths = members(&before.truths);
    ModelByGroups {
        contradictory: truths.iter().any(|&l| truths.contains(&complement(l))),
        truths,
        nonfalse: members(&before.nonfalse),
    }
}

/// M and N of one group, from its rules, facts among them, and from M and N of the groups before.
///
/// In Γ a literal of a group before holds where it is in M, and "not" of it where it isn't in N. In Γs it
/// is the other way round.
fn step(rules: &[&Rule], own: impl Fn(usize) -> bool, before: &Settled) -> Settled {
    let Settled { truths, nonfalse } = before;
    let in_gamma = with_values(rules, &own, truths, nonfalse);
    let in_gamma_s = with_values(rules, &own, nonfalse, truths);
    let halves = halves_by(&in_gamma, &in_gamma_s.seminormal());
    Settled {
        truths: halves.truths,
        nonfalse: halves.nonfalse,
    }
}

/// The rules of a group without the literals of the groups before. A rule stays where all of these hold:
/// a literal that is in `shown`, and "not" of one that isn't in `possible`.
fn with_values(
    rules: &[&Rule],
    own: impl Fn(usize) -> bool,
    shown: &[bool],
    possible: &[bool],
) -> Program {
    let holds = |entry: &Entry| match entry.default {
        false => shown[entry.literal],
        true => !possible[entry.literal],
    };
    let without = |rule: &&Rule| {
        let (body, earlier): (Vec<Entry>, Vec<Entry>) =
            rule.body.iter().partition(|entry| own(entry.literal));
        let head = rule.head;
        earlier.iter().all(holds).then_some(Rule { head, body })
    };
    Program {
        literals: shown.len(),
        rules: rules.iter().filter_map(without).collect(),
    }
}
