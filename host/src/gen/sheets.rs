//! Proof sheets and claims from a seed (document 02, A.3).

use super::{any_literal, shuffle, Random, Size};
use crate::answer::{Claim, SheetEntry, MOST_RULES, MOST_SHEET};
use crate::second::{sheet_for, Matter, Rule};

/// The entries of a sheet, ready to print. Entries that are repeated stand there once.
pub fn spelt(sheet: &[SheetEntry]) -> String {
    let run = |entries: &[SheetEntry]| match entries {
        [entry] => format!("{entry:?}"),
        [entry, ..] => format!("{} times {entry:?}", entries.len()),
        [] => String::new(),
    };
    let runs: Vec<String> = sheet.chunk_by(PartialEq::eq).map(run).collect();
    format!("[{}]", runs.join(", "))
}

/// A claim about a literal of a book, or of none.
pub(super) fn any_claim(random: &mut Random, size: Size) -> Claim {
    Claim {
        literal: any_literal(random, size),
        truth: random.chance(1, 2),
    }
}

/// How many entries the run has that is lent for a sheet: around two entries per literal, around one, around the
/// longest sheet, or none.
pub(super) fn any_run(random: &mut Random, literals: usize) -> usize {
    let bound = 2 * literals;
    let lengths = [
        bound,
        bound,
        bound + 1,
        bound + 9,
        bound.saturating_sub(1),
        bound.saturating_sub(1),
        literals,
        literals.saturating_sub(1),
        MOST_SHEET - 1,
        MOST_SHEET,
        MOST_SHEET + 1,
        0,
        1,
    ];
    random.pick(&lengths)
}

/// A claim, most often one that is so, and a sheet to check it by: most often one that was made for it, as it is or
/// changed, and else a random one. Without a book it is a claim about literal 0.
pub fn claim_and_sheet(random: &mut Random, matter: Option<Matter>) -> (Claim, Vec<SheetEntry>) {
    let literals = matter.map_or(0, |matter| matter.literals);
    let claim = Claim {
        literal: random.below(literals),
        truth: random.chance(1, 2),
    };
    let Some(matter) = matter else {
        return (claim, some_entries(random, None));
    };
    let claim = a_claim_that_is_so(random, matter).unwrap_or(claim);
    let mut sheet = match random.below(8) {
        0 => some_entries(random, Some(matter)),
        1 => joined_sheets(random, matter, claim),
        _ => sheet_for(matter, claim).unwrap_or_default(),
    };
    for _ in 0..random.pick(&[0, 1, 1, 2, 4]) {
        change(random, Some(matter), &mut sheet);
    }
    (claim, sheet)
}

/// One of the claims that are so, where a few that are tried have one.
fn a_claim_that_is_so(random: &mut Random, matter: Matter) -> Option<Claim> {
    let some = |_| Claim {
        literal: random.below(matter.literals),
        truth: random.chance(1, 2),
    };
    let tried: Vec<Claim> = (0..3).map(some).collect();
    let is_so = |claim: &Claim| sheet_for(matter, *claim).is_some();
    tried.into_iter().find(is_so)
}

/// Sheets for several claims behind each other, with other numbers for the groups of each, so that literals have
/// several entries.
fn joined_sheets(random: &mut Random, matter: Matter, claim: Claim) -> Vec<SheetEntry> {
    let mut claims = vec![claim];
    claims.extend((0..random.between(1, 4)).filter_map(|_| a_claim_that_is_so(random, matter)));
    shuffle(random, &mut claims);
    let mut sheet = Vec::new();
    for (place, claim) in claims.into_iter().enumerate() {
        let mut more = sheet_for(matter, claim).unwrap_or_default();
        for entry in &mut more {
            entry.group += 300 * place as u16;
        }
        sheet.extend(more);
    }
    sheet
}

/// A sheet of random entries.
fn some_entries(random: &mut Random, matter: Option<Matter>) -> Vec<SheetEntry> {
    let count = random.pick(&[0, 1, 1, 2, 3, 5, 8, 13]);
    (0..count).map(|_| entry(random, matter)).collect()
}

/// An entry: a "true" one with a rule of its literal or with another number, a "false" one, or one of no kind.
pub fn entry(random: &mut Random, matter: Option<Matter>) -> SheetEntry {
    let (literals, rules) = matter.map_or((4, &[][..]), |matter| (matter.literals, matter.rules));
    let mut literal = literal(random, literals);
    let mut rule = rule_number(random, rules.len(), literal);
    if random.chance(1, 2) && !rules.is_empty() {
        rule = random.below(rules.len()) as u16;
        literal = rules[usize::from(rule)].head as u16;
    }
    SheetEntry {
        kind: kind(random),
        literal,
        rule,
        group: group(random),
    }
}

fn kind(random: &mut Random) -> u16 {
    match random.chance(1, 24) {
        true => random.pick(&[2, 3, 255, 256, 257, u16::MAX]),
        false => random.below(2) as u16,
    }
}

/// A literal of the book, and at times one past it or one that is the book's where only its last bits are looked at.
fn literal(random: &mut Random, literals: usize) -> u16 {
    let own = random.below(literals) as u16;
    let edges = [
        literals as u16,
        literals as u16 + 1,
        255,
        256,
        256 + own,
        512 + own,
        u16::MAX,
    ];
    match random.chance(1, 24) {
        true => random.pick(&edges),
        false => own,
    }
}

/// Numbers of rules, of facts, and those that stand for nothing.
fn rule_number(random: &mut Random, rules: usize, literal: u16) -> u16 {
    let fact = (MOST_RULES as u16).wrapping_add(literal);
    match random.below(8) {
        0..=2 => fact,
        // Of other literals.
        3 => random.pick(&[fact ^ 1, fact.wrapping_add(2), fact.wrapping_sub(2)]),
        4 => random.pick(&[
            fact.wrapping_add(256),
            rules as u16,
            rules as u16 + 1,
            literal,
            511,
            512,
            u16::MAX,
        ]),
        _ => random.below(rules) as u16,
    }
}

fn group(random: &mut Random) -> u16 {
    random.pick(&[0, 0, 1, 1, 2, 3, 300, 512, u16::MAX])
}

/// Changes a sheet in one thing. By chance it may be one that shows as much as before.
pub fn change(random: &mut Random, matter: Option<Matter>, sheet: &mut Vec<SheetEntry>) {
    let place = random.below(sheet.len());
    let other = random.below(sheet.len());
    let (literals, rules) = matter.map_or((4, &[][..]), |matter| (matter.literals, matter.rules));
    if sheet.is_empty() || random.chance(1, 12) {
        let more = entry(random, matter);
        sheet.insert(random.below(sheet.len() + 1), more);
        return;
    }
    match random.below(17) {
        0 => drop(sheet.remove(place)),
        1 => sheet.swap(place, other),
        2 => sheet.insert(other, sheet[place]),
        3 => {
            let moved = sheet.remove(place);
            sheet.insert(random.below(sheet.len() + 1), moved);
        }
        4 => sheet[place].kind = kind(random),
        5 => sheet[place].literal = literal(random, literals),
        6 => sheet[place].literal ^= 1,
        7 => sheet[place].rule = rule_number(random, rules.len(), sheet[place].literal),
        8 => sheet[place].rule = other_rule(random, rules, sheet[place]),
        9 => sheet[place].group = group(random),
        10 => sheet[place].group = sheet[other].group,
        11 => renumber(random, sheet, place),
        12 => sheet.truncate(place),
        13 => sheet.rotate_left(place),
        14 => change_what_isnt_read(random, sheet),
        15 => {
            // In the midst of a group, most often: a literal that the book doesn't have, with the same number.
            let mut unknown = sheet[place];
            unknown.literal =
                random.pick(&[literals as u16, 256 + unknown.literal % 256, u16::MAX]);
            sheet.insert(place, unknown);
        }
        _ => lengthen(random, sheet, place),
    }
}

/// The number of another rule for the literal of an entry, where there is one.
fn other_rule(random: &mut Random, rules: &[Rule], entry: SheetEntry) -> u16 {
    let own = |number: &usize| rules[*number].head == usize::from(entry.literal);
    let numbers: Vec<usize> = (0..rules.len()).filter(own).collect();
    match numbers[..] {
        [] => entry.rule,
        _ => random.pick(&numbers) as u16,
    }
}

/// Gives all entries with the number of one another number, which may be that of others.
fn renumber(random: &mut Random, sheet: &mut [SheetEntry], place: usize) {
    let (before, now) = (sheet[place].group, group(random));
    let with_it = sheet.iter_mut().filter(|entry| entry.group == before);
    with_it.for_each(|entry| entry.group = now);
}

/// Other group numbers in "true" entries, and other rule numbers in "false" ones.
fn change_what_isnt_read(random: &mut Random, sheet: &mut [SheetEntry]) {
    for entry in sheet {
        match entry.kind {
            SheetEntry::TRUE => entry.group = group(random),
            SheetEntry::FALSE => entry.rule = rule_number(random, 3, entry.literal),
            _ => {}
        }
    }
}

/// Repeats an entry, so that the sheet is about as long as a sheet may be. An entry that follows does so again.
fn lengthen(random: &mut Random, sheet: &mut Vec<SheetEntry>, place: usize) {
    if random.chance(3, 4) {
        sheet.insert(place, sheet[place]);
        return;
    }
    let length = MOST_SHEET - 1 + random.below(4);
    let more = length.saturating_sub(sheet.len());
    let repeated = vec![sheet[place]; more];
    sheet.splice(place..place, repeated);
}

#[cfg(test)]
mod tests {
    use crate::answer::Refused;
    use crate::gen::{calls, calls_on_clashes, Call, Random, SMALL};
    use crate::second::Desk;
    use std::collections::BTreeMap;

    /// The calls of lists meet every number of the check and of the maker, and sheets of every kind of length.
    #[test]
    fn sheets_of_lists_meet_every_number() {
        let mut random = Random::new(8);
        let (mut checked, mut made) = (BTreeMap::new(), BTreeMap::new());
        let (mut longest, mut longer) = (0, 0);
        let number = |answer: Result<(), Refused>| answer.map_or_else(Refused::number, |()| 0);
        for turn in 0..4_000 {
            let mut desk = Desk::fresh();
            let list = match turn % 4 {
                0 => calls_on_clashes(&mut random, 6),
                _ => calls(&mut random, SMALL),
            };
            for call in list {
                match &call {
                    Call::CheckSheet { claim, sheet } => {
                        let answer = number(desk.check_sheet(*claim, sheet));
                        *checked.entry(answer).or_insert(0) += 1;
                        longest += usize::from(sheet.len() == 512);
                        longer += usize::from(sheet.len() == 513);
                    }
                    Call::MakeSheet { claim, length } => {
                        let mut run = vec![Default::default(); *length];
                        let answer = desk.make_sheet(*claim, &mut run).map(drop);
                        *made.entry(number(answer)).or_insert(0) += 1;
                    }
                    _ => call.change(&mut desk),
                }
            }
        }
        println!("checked {checked:?}, made {made:?}, {longest} of 512 entries, {longer} of 513");
        assert!([0, 20, 21, 26, 27, 28].iter().all(|n| checked[n] > 80));
        assert!([0, 20, 21, 25, 28].iter().all(|n| made[n] > 80));
        assert!(longest > 3 && longer > 3);
    }
}
