//! Proof sheets as reasons that a person reads (document 02, A.3): those of both makers and those of accepted sheets by
//! anyone.

use mezhkura::answer::{Claim, Refused, SheetEntry, MOST_RULES};
use mezhkura::gen::{self, Call, Random, MIDDLE, SMALL};
use mezhkura::reasons::{Earlier, Line, Reasons, Why};
use mezhkura::second::{Book, Desk, Entry, Rule};

/// The seed of the random books; another can be set by hand.
fn seed() -> u64 {
    match std::env::var("MEZHKURA_SEED") {
        Ok(text) => text.parse().expect("MEZHKURA_SEED is a number"),
        Err(_) => 53,
    }
}

/// The lines that a line names.
fn named(line: &Line) -> Vec<&Earlier> {
    match &line.why {
        Why::PutIn => Vec::new(),
        Why::Rule { because, .. } => because.iter().collect(),
        Why::Complement(earlier) => vec![earlier],
        Why::NoRule(rules) => rules.iter().map(|(_, earlier)| earlier).collect(),
    }
}

/// Looks at the reasons of a claim: the lines are a sheet that the check accepts, what a line names stands before it or
/// together with it and says what it is said to say, each line but the claim's is named by another one, and the rules
/// are those of the literal.
fn check(desk: &Desk, claim: Claim, reasons: &Reasons) {
    let Reasons { lines, sheet } = reasons;
    let book = desk.book().expect("a book is loaded");
    let input = || {
        format!(
            "{claim} by\n{reasons}in\n{}{:?}",
            book.to_file(),
            desk.facts()
        )
    };
    assert_eq!(desk.check_sheet(claim, sheet), Ok(()), "{}", input());
    let mut needed = vec![false; lines.len()];
    for (place, line) in lines.iter().enumerate() {
        needed[place] |= line.claim == claim;
        assert_eq!(line.literal, book.spelt(line.claim.literal), "{}", input());
        assert!(sheet[place].says(line.claim), "{}", input());
        for earlier in named(line) {
            let other = earlier.line - 1;
            needed[other] |= other != place;
            let together = sheet[other].kind == SheetEntry::FALSE
                && (sheet[other].kind, sheet[other].group)
                    == (sheet[place].kind, sheet[place].group);
            assert_eq!(earlier.together, together, "{}", input());
            assert!(other < place || together, "{}", input());
            assert_eq!(earlier.truth, lines[other].claim.truth, "{}", input());
            assert_eq!(earlier.literal, lines[other].literal, "{}", input());
        }
        check_rules(desk, line);
    }
    assert!(needed.iter().all(|needed| *needed), "{}", input());
    let text = reasons.to_string();
    let numbered = |place: usize| format!("{}. {} is ", place + 1, lines[place].literal);
    assert!((0..lines.len()).all(|place| text.contains(&numbered(place))));
}

/// The rules that a line has are rules of its literal: one of a true literal, all of a false one.
fn check_rules(desk: &Desk, line: &Line) {
    let book = desk.book().expect("a book is loaded");
    let literal = line.claim.literal;
    let own = |number: &usize| book.rules[*number].head == literal;
    let all: Vec<usize> = (0..book.rules.len()).filter(own).collect();
    match &line.why {
        Why::PutIn => assert!(desk.facts().contains(&literal)),
        Why::Rule { rule, because } => {
            assert!(all.contains(&rule.number));
            assert_eq!(rule.text, book.rule_line(rule.number));
            assert_eq!(because.len(), book.rules[rule.number].body.len());
        }
        Why::Complement(earlier) => assert_eq!(earlier.literal, book.spelt(literal ^ 1)),
        Why::NoRule(rules) => {
            let numbers: Vec<usize> = rules.iter().map(|(rule, _)| rule.number).collect();
            assert_eq!(numbers, all);
            assert!(!desk.facts().contains(&literal));
        }
    }
}

/// The desk that a list of calls leaves.
fn left_by(calls: &[Call]) -> Desk {
    let mut desk = Desk::fresh();
    for call in calls {
        // A refused call changes nothing.
        let _ = match call {
            Call::Load(file) => desk.load(file),
            Call::PutIn(literal) => desk.put_in(*literal),
            Call::TakeOut(literal) => desk.take_out(*literal),
            _ => Ok(()),
        };
    }
    desk
}

/// How the reasons of some claims went.
#[derive(Debug, Default)]
struct Tally {
    claims: usize,
    lines: usize,
    most: usize,
    /// Claims with lines that stand together.
    together: usize,
    by_other_sheets: usize,
}

impl Tally {
    fn count(&mut self, reasons: &Reasons) {
        self.claims += 1;
        self.lines += reasons.lines.len();
        self.most = self.most.max(reasons.lines.len());
        let together = |line: &Line| {
            let others = named(line).into_iter().filter(|earlier| earlier.together);
            others
                .map(|earlier| &earlier.literal)
                .any(|other| *other != line.literal)
        };
        self.together += usize::from(reasons.lines.iter().any(together));
    }
}

/// Every claim of a desk, with the second implementation's sheets and with the engine's.
fn check_every_claim(desk: &Desk, tally: &mut Tally) {
    let literals = desk.book().map_or(0, |book| book.literals());
    for claim in (0..literals).flat_map(Claim::both) {
        let reasons = desk.reasons(claim);
        #[cfg(feature = "engine")]
        assert_eq!(
            engine_reasons(desk, claim).is_ok(),
            reasons.is_ok(),
            "{claim}"
        );
        match reasons {
            Ok(reasons) => {
                check(desk, claim, &reasons);
                tally.count(&reasons);
            }
            Err(refused) => assert_eq!(refused, Refused::NotShown, "{claim}"),
        }
    }
}

/// The engine's reasons, which are looked at in the same way.
#[cfg(feature = "engine")]
fn engine_reasons(desk: &Desk, claim: Claim) -> Result<Reasons, Refused> {
    let mut engine = mezhkura::engine::Desk::fresh();
    let book = desk.book().expect("a book is loaded");
    engine.load(book.to_file().as_bytes())?;
    for &fact in desk.facts() {
        engine.put_in(fact)?;
    }
    let reasons = engine.reasons(claim)?;
    check(desk, claim, &reasons);
    assert_eq!(engine.check_sheet(claim, &reasons.sheet), Ok(()));
    // The lines are a sheet, so they have reasons as well, which are no longer.
    let again = engine.reasons_by(claim, &reasons.sheet)?;
    check(desk, claim, &again);
    assert!(again.lines.len() <= reasons.lines.len(), "{again}{reasons}");
    Ok(reasons)
}

/// A book in which literals follow from each other in circles, and some have other rules.
fn circles(random: &mut Random) -> Book {
    let mut book = gen::book(random, SMALL);
    let literals = book.literals();
    for _ in 0..random.below(3) {
        let circle: Vec<usize> = (0..random.between(2, 4))
            .map(|_| random.below(literals))
            .collect();
        for (place, &head) in circle.iter().enumerate().filter(|_| literals > 0) {
            let body = vec![Entry {
                literal: circle[(place + 1) % circle.len()],
                default: false,
            }];
            book.rules.push(Rule { head, body });
        }
    }
    book
}

#[test]
fn reasons_are_of_what_a_claim_needs() {
    let mut random = Random::new(seed());
    let mut tally = Tally::default();
    for turn in 0..1_200 {
        let calls = match turn % 5 {
            0 => gen::calls(&mut random, SMALL),
            1 => gen::calls(&mut random, MIDDLE),
            2 => gen::calls_on_clashes(&mut random, 8),
            3 => vec![Call::Load(circles(&mut random).to_file().into_bytes())],
            _ => {
                let book = gen::book_with_rounds(&mut random);
                vec![Call::Load(book.to_file().into_bytes())]
            }
        };
        let desk = left_by(&calls);
        check_every_claim(&desk, &mut tally);
        // Sheets that were changed or joined, where the check accepts them.
        for _ in 0..10 {
            let (claim, sheet) = gen::sheets::claim_and_sheet(&mut random, desk.matter(0).ok());
            let reasons = desk.reasons_by(claim, &sheet);
            let accepted = desk.check_sheet(claim, &sheet);
            assert_eq!(reasons.as_ref().map(drop), accepted.as_ref().map(drop));
            if let Ok(reasons) = reasons {
                check(&desk, claim, &reasons);
                tally.by_other_sheets += 1;
            }
        }
    }
    println!("{tally:?}");
    assert!(tally.claims > 5_000 && tally.together > 100 && tally.most > 10);
    assert!(tally.by_other_sheets > 2_000);
}

#[test]
fn reasons_of_large_books_are_of_what_a_claim_needs() {
    let mut random = Random::new(seed() + 1);
    let mut books = gen::books_in_groups(&mut random);
    // The last is the slow book.
    books.pop();
    books.push(gen::long_model_book());
    for book in books {
        let desk = left_by(&[Call::Load(book.to_file().into_bytes())]);
        for claim in (0..book.literals()).step_by(37).flat_map(Claim::both) {
            if let Ok(reasons) = desk.reasons(claim) {
                check(&desk, claim, &reasons);
            }
            #[cfg(feature = "engine")]
            let _ = engine_reasons(&desk, claim);
        }
    }
}

/// A sheet with entries that a claim doesn't need, a literal that is said twice, and a group that is larger than it has
/// to be, in an order that needs it whole.
fn sheet_with_more() -> [SheetEntry; 8] {
    let entry = |kind, literal, rule, group| SheetEntry {
        kind,
        literal,
        rule,
        group,
    };
    let fact = MOST_RULES as u16;
    [
        entry(0, 1, 9, 2),
        entry(1, 0, fact, 3),
        entry(1, 0, fact, 3),
        entry(0, 3, 9, 7),
        entry(0, 2, 9, 7),
        entry(0, 1, 9, 7),
        entry(1, 4, 1, 3),
        entry(1, 5, 2, 3),
    ]
}

#[test]
fn reasons_leave_out_what_isnt_needed() {
    let file = "name,a\nname,b\nname,c\nrule,b,~a\nrule,c,~b,a\nrule,-c,c\nend\n";
    let desk = left_by(&[Call::Load(file.as_bytes().to_vec()), Call::PutIn(0)]);
    let told = |literal: usize, truth: bool| {
        let reasons = desk.reasons_by(Claim { literal, truth }, &sheet_with_more());
        reasons.map(|reasons| reasons.to_string())
    };
    let first = "1. a is true: it is put in\n\
        2. b is false: it isn't put in, and no rule for it can apply\n   \
        rule,b,~a: a is true (line 1)\n";
    assert_eq!(told(2, false), Ok(first.to_string()));
    let third = "3. c is true by rule,c,~b,a: b is false (line 2), a is true (line 1)\n";
    assert_eq!(told(4, true), Ok(format!("{first}{third}")));
    let alone = "1. -a is false: it has no rule, and it isn't put in\n";
    assert_eq!(told(1, false), Ok(alone.to_string()));
    // It isn't among the entries, though it is so, or the book has no such literal.
    assert_eq!(told(4, false), Err(Refused::NotShown));
    assert_eq!(told(6, false), Err(Refused::NoSuchLiteral));
}

/// Literals that need each other stand together, and both literals of a clashing name have reasons.
#[test]
fn reasons_of_circles_and_clashes() {
    let file = "name,a\nname,b\nname,c\nrule,a,b\nrule,b,a\nrule,c\nend\n";
    let desk = left_by(&[Call::Load(file.as_bytes().to_vec()), Call::PutIn(5)]);
    let told = |literal: usize, truth: bool| {
        let reasons = desk.reasons(Claim { literal, truth });
        reasons.expect("the claim is so").to_string()
    };
    let circle = "1. a is false: it isn't put in, and no rule for it can apply\n   \
        rule,a,b: b is false (line 2, together)\n\
        2. b is false: it isn't put in, and no rule for it can apply\n   \
        rule,b,a: a is false (line 1, together)\n";
    assert_eq!(told(0, false), circle);
    assert_eq!(told(4, true), "1. c is true by rule,c\n");
    let clash = "1. -c is true: it is put in\n2. c is false: -c is true (line 1)\n";
    assert_eq!(told(4, false), clash);
}
