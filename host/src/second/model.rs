//! From rules to a model (document 01, "From rules to a model"; document 02, A.10).

use super::book::{complement, Book, Entry, Rule};
use crate::answer::Verdict;
use std::collections::BTreeSet;

/// P: the rules of a book, and a rule with no body for each fact put in.
#[derive(Clone, Debug)]
pub struct Program {
    /// Every literal of the program is below this number.
    pub literals: usize,
    pub rules: Vec<Rule>,
}

impl Program {
    pub fn new(book: &Book, facts: &BTreeSet<usize>) -> Program {
        let mut rules = book.rules.clone();
        rules.extend(facts.iter().map(|&head| Rule {
            head,
            body: Vec::new(),
        }));
        Program {
            literals: book.literals(),
            rules,
        }
    }

    /// P with "not complement of the head" added to every body.
    pub fn seminormal(&self) -> Program {
        let mut program = self.clone();
        for rule in &mut program.rules {
            rule.body.push(Entry {
                literal: complement(rule.head),
                default: true,
            });
        }
        program
    }

    /// M, N and the rounds.
    pub fn halves(&self) -> Halves {
        halves_by(self, &self.seminormal())
    }
}

/// M, N and the rounds, where Γ is that of one program and Γs is Γ of another: I(0), I(1) and so on,
/// until two neighbours are equal.
pub fn halves_by(program: &Program, seminormal: &Program) -> Halves {
    let mut truths = vec![false; program.literals];
    // The set above is I(rounds).
    let mut rounds = 0;
    loop {
        let nonfalse = gamma(seminormal, &truths);
        let next = gamma(program, &nonfalse);
        if next == truths {
            return Halves {
                truths,
                nonfalse,
                rounds,
            };
        }
        truths = next;
        rounds += 1;
    }
}

/// Γ(S) over a program: the least set closed under the rules in which no "not C" has C in S, the
/// other "not" literals dropped. A set is a list that says of each literal whether it is a member.
pub fn gamma(program: &Program, s: &[bool]) -> Vec<bool> {
    let kept = |rule: &&Rule| {
        !rule
            .body
            .iter()
            .any(|entry| entry.default && s[entry.literal])
    };
    let reduct: Vec<&Rule> = program.rules.iter().filter(kept).collect();
    let mut closed = vec![false; program.literals];
    loop {
        let mut grown = false;
        for rule in &reduct {
            let holds = |entry: &Entry| entry.default || closed[entry.literal];
            if !closed[rule.head] && rule.body.iter().all(holds) {
                closed[rule.head] = true;
                grown = true;
            }
        }
        if !grown {
            return closed;
        }
    }
}

/// The literals of a set.
pub fn members(set: &[bool]) -> BTreeSet<usize> {
    (0..set.len()).filter(|&literal| set[literal]).collect()
}

/// M and N as lists of flags.
#[derive(Clone, Debug, PartialEq, Eq)]
pub struct Halves {
    pub truths: Vec<bool>,
    pub nonfalse: Vec<bool>,
    /// The least k with I(k) = I(k + 1) (document 02, A.10).
    pub rounds: usize,
}

impl Halves {
    /// Whether a name has both literals in M.
    pub fn has_both(&self, name: usize) -> bool {
        self.truths[2 * name] && self.truths[2 * name + 1]
    }
}

/// The lowest-numbered name that has both literals in M.
pub fn contradictory_name(halves: &Halves) -> Option<usize> {
    let names = halves.truths.len() / 2;
    (0..names).find(|&name| halves.has_both(name))
}

/// What M and N say of a literal, whether or not its verdict is given.
pub fn value(halves: &Halves, literal: usize) -> Verdict {
    if halves.truths[literal] {
        Verdict::True
    } else if halves.nonfalse[literal] {
        Verdict::Undefined
    } else {
        Verdict::False
    }
}
