//! Proof sheets (document 02, A.3): the sentences of the request on short sheets, and the engine's sheets and checks
//! against the second implementation's, M and N (feature `engine`).

use mezhkura::answer::{Claim, Refused, SheetEntry, MOST_RULES, MOST_SHEET};
use mezhkura::second::Desk;

fn desk(file: &str, facts: &[usize]) -> Desk {
    let mut desk = Desk::fresh();
    desk.load(file.as_bytes()).expect("the file loads");
    for &fact in facts {
        desk.put_in(fact).expect("the fact is out");
    }
    desk
}

/// A "true" entry.
fn t(literal: u16, rule: u16) -> SheetEntry {
    SheetEntry {
        kind: 1,
        literal,
        rule,
        group: 0,
    }
}

/// A "true" entry by a fact put in.
fn put_in(literal: u16) -> SheetEntry {
    t(literal, MOST_RULES as u16 + literal)
}

/// A "false" entry.
fn f(literal: u16, group: u16) -> SheetEntry {
    SheetEntry {
        kind: 0,
        literal,
        rule: 0,
        group,
    }
}

fn is_true(literal: usize) -> Claim {
    Claim {
        literal,
        truth: true,
    }
}

fn is_false(literal: usize) -> Claim {
    Claim {
        literal,
        truth: false,
    }
}

/// Short sheets with what is due of them: a number, with the index where it is 27.
fn check_all(desk: &Desk, rows: &[(Claim, &[SheetEntry], Result<(), Refused>)]) {
    for (claim, sheet, due) in rows {
        assert_eq!(
            desk.check_sheet(*claim, sheet),
            *due,
            "{claim} by {sheet:?}"
        );
        #[cfg(feature = "engine")]
        engine::check(desk, *claim, sheet, *due);
    }
}

const fn at(index: usize) -> Result<(), Refused> {
    Err(Refused::DoesNotFollow { index })
}

const NOT_AMONG: Result<(), Refused> = Err(Refused::NotShown);

/// a is 0, b is 2, c is 4, and the complements follow them.
const ABC: &str = "name,a\nname,b\nname,c\n";

/// "A "true" entry names a rule of its literal whose positive body literals are earlier "true" entries and whose
/// "not" literals are earlier "false" ones."
#[test]
fn true_entries_name_a_rule_whose_body_is_earlier() {
    let file = format!("{ABC}rule,b,a,~c\nrule,c,c\nrule,-b,~a\nend\n");
    let desk = desk(&file, &[0]);
    check_all(
        &desk,
        &[
            (is_true(0), &[put_in(0)], Ok(())),
            (is_true(2), &[put_in(0), f(4, 7), t(2, 0)], Ok(())),
            (is_true(2), &[f(4, 7), put_in(0), t(2, 0)], Ok(())),
            // The body isn't earlier, or not all of it.
            (is_true(2), &[t(2, 0), put_in(0), f(4, 7)], at(0)),
            (is_true(2), &[put_in(0), t(2, 0), f(4, 7)], at(1)),
            (is_true(2), &[f(4, 7), t(2, 0), put_in(0)], at(1)),
            // Rule 1 has another head, rules 3 and 511 aren't there, and neither is a fact b.
            (is_true(2), &[put_in(0), f(4, 7), t(2, 1)], at(2)),
            (is_true(2), &[put_in(0), f(4, 7), t(2, 3)], at(2)),
            (is_true(2), &[put_in(0), f(4, 7), t(2, 511)], at(2)),
            (is_true(2), &[put_in(0), f(4, 7), put_in(2)], at(2)),
            // 512 plus another literal stands for no fact of this one.
            (is_true(2), &[t(2, 512)], at(0)),
            (is_true(0), &[t(0, 513)], at(0)),
            // A "true" entry counts as no "false" one.
            (is_true(3), &[put_in(0), t(3, 2)], at(1)),
        ],
    );
}

/// "Each rule of each literal in it, facts too, has its head's complement already true, or a body literal "not C" with
/// C already true, or a positive body literal already false or in the group."
#[test]
fn groups_leave_no_rule_open() {
    let file = format!("{ABC}rule,b,~a\nrule,c,b\nrule,-c,c\nrule,b,b\nrule,-a\nend\n");
    check_all(
        &desk(&file, &[0]),
        &[
            // b: "not a" with a true, and b itself in the group.
            (is_false(2), &[put_in(0), f(2, 0)], Ok(())),
            (is_false(2), &[f(2, 0), put_in(0)], at(0)),
            // c: b is already false, or in the group, before it or behind it.
            (is_false(4), &[put_in(0), f(2, 0), f(4, 1)], Ok(())),
            (is_false(4), &[put_in(0), f(2, 0), f(4, 0)], Ok(())),
            (is_false(4), &[put_in(0), f(4, 0), f(2, 0)], Ok(())),
            (is_false(4), &[put_in(0), f(4, 0), f(2, 1)], at(1)),
            (is_false(4), &[put_in(0), f(4, 0)], at(1)),
            // A fact is a rule with nothing in its body: only the complement, already true, answers it.
            (is_false(0), &[f(0, 0)], at(0)),
            (is_false(0), &[t(1, 4), f(0, 0)], Ok(())),
            (is_false(1), &[put_in(0), f(1, 0)], Ok(())),
            (is_false(0), &[f(0, 0), t(1, 4)], at(0)),
        ],
    );
    // A literal without rules is false by itself.
    check_all(
        &desk(&format!("{ABC}end\n"), &[]),
        &[(is_false(5), &[f(5, 65_535)], Ok(()))],
    );
}

/// ""False" entries of one group stand together under a number no other group has, and the group is judged whole;
/// "already" means before its first entry."
#[test]
fn groups_stand_together() {
    let file = format!("{ABC}rule,a,b\nrule,b,a\nrule,-c\nrule,-a,~b\nend\n");
    check_all(
        &desk(&file, &[]),
        &[
            (is_false(0), &[f(0, 3), f(2, 3)], Ok(())),
            (is_false(0), &[f(0, 3), f(2, 4)], at(0)),
            // Apart from its group b isn't in it, so the first entry has a rule left open.
            (is_false(0), &[f(0, 3), t(5, 2), f(2, 3)], at(0)),
            (is_false(0), &[f(0, 3), f(4, 4), f(2, 3)], at(0)),
            // An ended number, with a group that would follow, at the first entry of the group.
            (is_false(0), &[f(3, 3), t(5, 2), f(0, 3), f(2, 3)], at(2)),
            (is_false(0), &[f(3, 3), f(4, 4), f(0, 3), f(2, 3)], at(2)),
            (
                is_false(0),
                &[f(3, 3), t(5, 2), f(4, 4), f(0, 3), f(2, 3)],
                at(3),
            ),
            // The group isn't already false for itself: "not b" of the rule for -a needs b before.
            (is_true(1), &[f(0, 3), f(2, 3), t(1, 3)], Ok(())),
            (is_true(1), &[f(0, 3), t(1, 3), f(2, 3)], at(0)),
            // The number of a "true" entry isn't read, so it ends no group and is no ended one.
            (is_false(3), &[t(5, 2), f(3, 0)], Ok(())),
        ],
    );
}

/// "An entry of another kind, with an unknown literal (which stays in its group) or with an ended group's number doesn't
/// follow, nor, in a failing group, does the first with a rule left open."
#[test]
fn entries_that_do_not_follow() {
    let file = format!("{ABC}rule,a,b\nrule,b,a\nrule,c\nend\n");
    let of_kind = |kind: u16| SheetEntry { kind, ..f(3, 9) };
    let desk = desk(&file, &[]);
    for kind in [2, 3, 255, 256, 257, u16::MAX] {
        check_all(
            &desk,
            &[
                (is_false(3), &[of_kind(kind)], at(0)),
                (is_false(3), &[f(3, 0), of_kind(kind)], at(1)),
                // It ends the group.
                (is_false(0), &[f(0, 9), of_kind(kind), f(2, 9)], at(0)),
            ],
        );
    }
    for unknown in [6, 7, 255, 256, 262, u16::MAX] {
        check_all(
            &desk,
            &[
                (is_false(3), &[f(unknown, 0)], at(0)),
                (is_false(3), &[f(3, 0), f(unknown, 0)], at(1)),
                (is_true(4), &[t(4, 2), put_in(unknown & 0xFF)], at(1)),
                // It stays in its group, which goes on behind it.
                (is_false(0), &[f(0, 9), f(unknown, 9), f(2, 9)], at(1)),
                // Of an unknown literal and a rule left open, the first decides.
                (is_false(0), &[f(4, 9), f(unknown, 9)], at(0)),
                (is_false(0), &[f(unknown, 9), f(4, 9)], at(0)),
            ],
        );
    }
    // The first with a rule left open.
    check_all(
        &desk,
        &[
            (is_false(3), &[f(3, 1), f(0, 1), f(4, 1)], at(1)),
            (is_false(3), &[f(3, 1), f(4, 1), f(0, 1)], at(1)),
            (is_false(3), &[f(3, 1), f(4, 1), f(0, 1), f(2, 1)], at(1)),
        ],
    );
}

/// "20 and 21 (for the claim) come first, then 26 for no entries or more than 512, 27 with the index of the first entry
/// that doesn't follow, 28 if the claim isn't among the entries."
#[test]
fn numbers_of_the_check_come_in_their_order() {
    let with_book = desk(&format!("{ABC}rule,a\nend\n"), &[]);
    let longest = vec![f(3, 0); MOST_SHEET];
    let longer = vec![f(0, 0); MOST_SHEET + 1];
    let wrong = [f(0, 0)];
    check_all(
        &with_book,
        &[
            (is_true(6), &[], Err(Refused::NoSuchLiteral)),
            (is_true(6), &wrong, Err(Refused::NoSuchLiteral)),
            (is_false(6), &longer, Err(Refused::NoSuchLiteral)),
            (is_true(usize::MAX), &[], Err(Refused::NoSuchLiteral)),
            (is_true(0), &[], Err(Refused::SheetLength)),
            (is_false(3), &longest, Ok(())),
            (is_false(0), &longer, Err(Refused::SheetLength)),
            (is_true(2), &wrong, at(0)),
            (is_true(2), &[t(0, 0)], NOT_AMONG),
            (is_false(0), &[t(0, 0)], NOT_AMONG),
            (is_true(3), &[f(3, 0)], NOT_AMONG),
            (is_true(0), &[f(3, 0), t(0, 0), f(4, 1)], Ok(())),
            // A literal may have several entries of a kind.
            (
                is_true(0),
                &[t(0, 0), t(0, 0), f(3, 1), f(3, 1), f(3, 2)],
                Ok(()),
            ),
        ],
    );
    let fresh = Desk::fresh();
    for sheet in [&[][..], &wrong, &longer] {
        assert_eq!(fresh.check_sheet(is_true(0), sheet), Err(Refused::NoBook));
        #[cfg(feature = "engine")]
        engine::check(&fresh, is_true(0), sheet, Err(Refused::NoBook));
    }
}

/// "The maker gives 20, 21, then 28 for a claim that isn't so, then 25 for a lent run shorter than two entries per
/// literal."
#[test]
fn numbers_of_the_maker_come_in_their_order() {
    let with_book = desk(&format!("{ABC}rule,a\nrule,b,~b\nend\n"), &[]);
    let rows = [
        (is_true(6), 0, Err(Refused::NoSuchLiteral)),
        (is_false(usize::MAX), 600, Err(Refused::NoSuchLiteral)),
        // b is undefined, so neither claim about it is so.
        (is_true(2), 0, Err(Refused::NotShown)),
        (is_false(2), 600, Err(Refused::NotShown)),
        (is_false(0), 11, Err(Refused::NotShown)),
        (is_true(0), 0, Err(Refused::BufferTooShort)),
        (is_true(0), 11, Err(Refused::BufferTooShort)),
        (is_false(3), 11, Err(Refused::BufferTooShort)),
        (is_true(0), 12, Ok(())),
        (is_false(3), 12, Ok(())),
        (is_false(3), 513, Ok(())),
    ];
    for (claim, length, due) in rows {
        let made = with_book.make_sheet(claim, &mut vec![f(0, 0); length]);
        assert_eq!(made.map(drop), due, "{claim} in {length}");
        #[cfg(feature = "engine")]
        engine::make(&with_book, claim, length, due);
    }
    let fresh = Desk::fresh();
    assert_eq!(fresh.make_sheet(is_true(0), &mut []), Err(Refused::NoBook));
    #[cfg(feature = "engine")]
    engine::make(&fresh, is_true(0), 0, Err(Refused::NoBook));
}

/// A contradictory lesson has sheets for both claims about a literal, also for one that a verdict is refused of.
#[test]
fn contradictory_lessons_have_sheets() {
    let desk = desk(&format!("{ABC}rule,b,a\nend\n"), &[0, 1]);
    assert_eq!(desk.verdict(0), Err(Refused::Contradictory));
    check_all(
        &desk,
        &[
            (is_true(0), &[put_in(0)], Ok(())),
            (is_false(0), &[put_in(1), f(0, 0)], Ok(())),
            (is_true(1), &[put_in(1)], Ok(())),
            (is_false(1), &[put_in(0), f(1, 0)], Ok(())),
            (is_true(2), &[put_in(0), t(2, 0)], Ok(())),
            (is_false(2), &[put_in(1), f(0, 0), f(2, 0)], Ok(())),
        ],
    );
    for claim in [0, 1, 2].into_iter().flat_map(Claim::both) {
        assert!(desk.make_sheet(claim, &mut [f(0, 0); 12]).is_ok());
        #[cfg(feature = "engine")]
        engine::make(&desk, claim, 12, Ok(()));
    }
}

/// Claims about literals that M and N leave open have no sheet.
fn check_undefined(desk: &Desk, literals: &[usize]) {
    for claim in literals.iter().flat_map(|&literal| Claim::both(literal)) {
        let made = desk.make_sheet(claim, &mut [f(0, 0); 16]);
        assert_eq!(made, Err(Refused::NotShown), "{claim}");
        #[cfg(feature = "engine")]
        engine::make(desk, claim, 16, Err(Refused::NotShown));
    }
}

/// A desk with a book whose names, and whose rules without their first word, are parted by semicolons.
fn case(names: &str, rules: &str) -> Desk {
    let lines = |first: &str, text: &str| -> String {
        let fields = text.split_terminator(';');
        fields.map(|field| format!("{first},{field}\n")).collect()
    };
    desk(
        &(lines("name", names) + &lines("rule", rules) + "end\n"),
        &[],
    )
}

/// Document 01, cases 1 to 4.
#[test]
fn cases_1_to_4_have_sheets() {
    let case_1 = case(
        "moving;locked;fault;stalled",
        "moving,~locked;locked,~moving;fault,moving,~stalled;-locked;stalled,~stalled",
    );
    check_all(
        &case_1,
        &[
            (is_true(0), &[t(3, 3), f(2, 0), t(0, 0)], Ok(())),
            (is_false(1), &[f(1, 0)], Ok(())),
            (is_true(4), &[t(3, 3), f(2, 0), t(0, 0), t(4, 2)], at(3)),
        ],
    );
    check_undefined(&case_1, &[4, 6]);
    check_all(&case("a", "a,a"), &[(is_false(0), &[f(0, 0)], Ok(()))]);
    let case_3 = case("a", "a,~a");
    check_all(&case_3, &[(is_false(0), &[f(0, 0)], at(0))]);
    check_undefined(&case_3, &[0]);
    let case_4 = [
        (is_true(0), &[t(0, 0)][..], Ok(())),
        (is_false(0), &[t(1, 1), f(0, 0)], Ok(())),
    ];
    check_all(&case("a", "a;-a"), &case_4);
}

/// Document 01, cases 6 to 10.
#[test]
fn cases_6_to_10_have_sheets() {
    let case_6 = case("f;s;d", "f,s;s,~d;d,~d;-s");
    let f_is_false = (is_false(0), &[t(3, 3), f(0, 0), f(2, 0)][..], Ok(()));
    check_all(&case_6, &[f_is_false]);
    check_undefined(&case_6, &[4]);
    let case_7 = (is_true(0), &[f(2, 0), t(0, 0)][..], Ok(()));
    check_all(&case("a;b", "a,~b"), &[case_7]);
    let case_8 = (is_true(1), &[f(0, 0), t(1, 0)][..], Ok(()));
    check_all(&case("a", "-a,~a"), &[case_8]);
    check_undefined(&case("a", "a,~-a;-a,~a"), &[0, 1]);
    let case_10 = (is_false(0), &[f(0, 0)][..], Err(Refused::NoSuchLiteral));
    check_all(&case("", ""), &[case_10]);
}

/// Document 01, cases 5 and 11: with a put in, both claims about a and about b are so.
#[test]
fn cases_5_and_11_have_sheets() {
    let mut desk = case("a;b", "a,~b;b,~a;-a");
    let b_is_true = (is_true(2), &[t(1, 2), f(0, 0), t(2, 1)][..], Ok(()));
    check_all(&desk, &[b_is_true]);
    desk.put_in(0).expect("the fact is out");
    check_all(
        &desk,
        &[
            b_is_true,
            (is_true(0), &[put_in(0)], Ok(())),
            (is_false(0), &[t(1, 2), f(0, 0)], Ok(())),
            (is_false(2), &[put_in(0), f(2, 0)], Ok(())),
        ],
    );
    desk.take_out(0).expect("the fact is in");
    check_all(&desk, &[b_is_true, (is_true(0), &[put_in(0)], at(0))]);
}

#[cfg(feature = "engine")]
mod engine {
    use super::{Claim, Refused, SheetEntry};
    use mezhkura::engine::Desk;
    use mezhkura::gen::{self, Call, Random, FULL, MIDDLE, SMALL};
    use mezhkura::second::{self, Book, MOST_NAMES};
    use mezhkura::sheets::{sheets_agree, Amount, Sheets, UNTOUCHED};
    use std::fs;
    use std::path::Path;

    /// The seed of the random inputs; another can be set by hand.
    fn seed() -> u64 {
        match std::env::var("MEZHKURA_SEED") {
            Ok(text) => text.parse().expect("MEZHKURA_SEED is a number"),
            Err(_) => 41,
        }
    }

    /// A desk of the engine with the book and the facts of the second implementation's.
    fn desk_like(second: &second::Desk) -> Desk {
        let mut desk = Desk::fresh();
        if let Some(book) = second.book() {
            desk.load(book.to_file().as_bytes())
                .expect("the book loads");
        }
        for &fact in second.facts() {
            desk.put_in(fact).expect("the fact is out");
        }
        desk
    }

    pub fn check(
        second: &second::Desk,
        claim: Claim,
        sheet: &[SheetEntry],
        due: Result<(), Refused>,
    ) {
        let answer = desk_like(second).check_sheet(claim, sheet);
        assert_eq!(answer, due, "the engine of {claim} by {sheet:?}");
    }

    pub fn make(second: &second::Desk, claim: Claim, length: usize, due: Result<(), Refused>) {
        let mut run = vec![UNTOUCHED; length];
        let answer = desk_like(second).make_sheet(claim, &mut run);
        assert_eq!(answer.map(drop), due, "the engine of {claim} in {length}");
        let count = answer.unwrap_or(0);
        assert!(run[count..].iter().all(|entry| *entry == UNTOUCHED));
        if answer.is_ok() {
            assert_eq!(second.check_sheet(claim, &run[..count]), Ok(()), "{claim}");
        }
    }

    /// What was looked at after some lists.
    fn compare(label: &str, lists: Vec<Vec<Call>>, literals: usize, changed: usize) -> Sheets {
        let mut sheets = Sheets::default();
        for (turn, calls) in lists.iter().enumerate() {
            let amount = Amount {
                literals,
                changed,
                seed: seed() + turn as u64,
            };
            let more = sheets_agree(calls, amount, Desk::fresh);
            sheets += more.unwrap_or_else(|text| panic!("{text}"));
        }
        println!("{label}: {sheets:?}");
        sheets
    }

    /// A load of a book, and facts put in. A literal put in twice is refused: that is no matter.
    fn load_with(book: &Book, facts: &[usize]) -> Vec<Call> {
        let mut calls = vec![Call::Load(book.to_file().into_bytes())];
        calls.extend(facts.iter().map(|&fact| Call::PutIn(fact)));
        calls
    }

    /// Every claim of small books, and changed and random sheets by the hundred thousand.
    #[test]
    fn sheets_of_small_books_agree() {
        let mut random = Random::new(seed());
        let mut lists = Vec::new();
        for turn in 0..3_000 {
            lists.push(match turn % 4 {
                0 => gen::calls(&mut random, SMALL),
                1 => gen::calls(&mut random, MIDDLE),
                2 => gen::calls_on_clashes(&mut random, 8),
                _ => {
                    let book = gen::book_with_rounds(&mut random);
                    let facts = gen::some_literals(&mut random, &book);
                    load_with(&book, &facts)
                }
            });
        }
        let sheets = compare("small books", lists, 2 * MOST_NAMES, 100);
        assert!(sheets.of_truths > 20_000 && sheets.in_contradictory > 20_000);
        assert!(sheets.longest > 100 && sheets.accepted_otherwise > 20_000);
        for number in [0, 26, 27, 28] {
            assert!(sheets.checked[&number] > 5_000, "{number}: {sheets:?}");
        }
        for number in [0, 20, 21, 25, 28] {
            assert!(sheets.made[&number] > 1_000, "{number}: {sheets:?}");
        }
    }

    /// Every claim of the examples, without facts and with.
    #[test]
    fn sheets_of_examples_agree() {
        let mut random = Random::new(seed() + 1);
        let folder = Path::new(env!("CARGO_MANIFEST_DIR")).join("../examples");
        let mut paths: Vec<_> = fs::read_dir(folder)
            .expect("the folder examples")
            .map(|entry| entry.expect("an entry of examples").path())
            .filter(|path| path.extension().is_some_and(|ending| ending == "book"))
            .collect();
        // A folder has no order of its own, and the seed says which facts a book is given.
        paths.sort();
        let mut lists = Vec::new();
        for path in paths {
            let file = fs::read(path).expect("a book of examples");
            let book = second::read(&file).expect("the book loads");
            lists.push(load_with(&book, &[]));
            let facts = gen::some_literals(&mut random, &book);
            lists.push(load_with(&book, &facts));
        }
        let sheets = compare("examples", lists, 2 * MOST_NAMES, 200);
        assert!(sheets.of_truths > 300 && sheets.made[&0] > sheets.of_truths);
    }

    /// Some claims of books with many names.
    #[test]
    fn sheets_of_large_books_agree() {
        let mut random = Random::new(seed() + 2);
        let mut lists = Vec::new();
        let mut books = gen::books_in_groups(&mut random);
        // The last is the slow book.
        books.pop();
        books.extend((0..3).map(|_| gen::full_book(&mut random)));
        books.push(gen::long_model_book());
        for book in books {
            let facts = gen::some_literals(&mut random, &book);
            lists.push(load_with(&book, &facts));
        }
        lists.extend((0..10).map(|_| gen::calls(&mut random, FULL)));
        let sheets = compare("large books", lists, 16, 10);
        assert!(sheets.made[&0] > 500, "{sheets:?}");
        let slow = load_with(&gen::slow_book(), &[]);
        compare("the slow book", vec![slow], 2, 2);
    }
}
