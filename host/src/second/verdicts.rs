//! The verdict of a literal, or its refusal by 24 (document 01, "From rules to a model"; document 02, A.7).

use super::groups::reached_from;
use super::model::{value, Halves, Program};
use crate::answer::{Refused, Verdict};

/// The verdict of a literal of a program, where M and N are those of the program: refused by 24 where the
/// literal's name, or a name that it reaches, has both literals in M, and otherwise read from M and N.
pub fn verdict(program: &Program, halves: &Halves, literal: usize) -> Result<Verdict, Refused> {
    if reaches_a_clash(program, halves, literal / 2) {
        return Err(Refused::Contradictory);
    }
    Ok(value(halves, literal))
}

/// The word that a listing prints for a verdict or its refusal.
pub fn word(verdict: Result<Verdict, Refused>) -> &'static str {
    match verdict {
        Ok(verdict) => verdict.word(),
        Err(_) => "contradictory",
    }
}

/// Whether a name, or a name that it reaches, has both literals in M. Facts have no bodies, so it is no
/// matter that the rules of a program have them too.
fn reaches_a_clash(program: &Program, halves: &Halves, name: usize) -> bool {
    let names = program.literals / 2;
    let clashing: Vec<usize> = (0..names).filter(|&n| halves.has_both(n)).collect();
    // Without a clash nothing has to be searched.
    if clashing.is_empty() {
        return false;
    }
    let reached = reached_from(name, names, &program.rules);
    clashing.iter().any(|&clash| reached[clash])
}
