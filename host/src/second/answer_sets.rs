//! Answer sets (document 02, A.14).

use super::model::{gamma, members, Program};
use std::collections::BTreeSet;

/// Every set of literals below a bound, as flags.
pub fn every_set(literals: usize) -> impl Iterator<Item = Vec<bool>> {
    (0..1usize << literals).map(move |bits| (0..literals).map(|l| bits >> l & 1 == 1).collect())
}

/// The answer sets of a program: the sets S with S = Γ(S) in which no name has both its literals. Every
/// set of literals is tried, so the program has few names.
pub fn answer_sets(program: &Program) -> Vec<BTreeSet<usize>> {
    every_set(program.literals)
        .filter(|s| *s == gamma(program, s) && !s.chunks(2).any(|name| name[0] && name[1]))
        .map(|s| members(&s))
        .collect()
}
