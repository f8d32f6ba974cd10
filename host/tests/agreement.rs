//! On random small books: the searches agree with M and N, M and N with the published notions and with
//! the answer sets, verdicts with the published definition over the rules for reached names, previews with the
//! change on a copy, proof sheets with M and N, the rounds are those of the definition, capitals make no other names,
//! and the comparison of two desks finds wrong ones.

mod families;
mod wrong;

use families::{header_of, known_rounds};
use mezhkura::accord::{accords, Accord};
use mezhkura::answer::{Change, Question, Tree};
use mezhkura::compare::{agree, answer_by_model, explain, models_stand, questions};
use mezhkura::compare::{Asked, Stood, MOST_VISITS};
use mezhkura::gen::{self, Call, Random, Size, FULL, MIDDLE, SMALL};
use mezhkura::previews::{previews_are_of_a_copy, Previewed};
use mezhkura::published::{verdicts_are_published, verdicts_are_unaltered, Looked};
use mezhkura::second::{contradictory_name, every_set, gamma, partial_stable_models};
use mezhkura::second::{program_output, read, search};
use mezhkura::second::{Book, Desk, Program, Rule, Walk};
use mezhkura::second::{MOST_BODY_LITERALS, MOST_NAMES};
use mezhkura::sheets::{sheets_agree, Amount, Sheets};
use std::collections::BTreeSet;
use std::iter::successors;
use wrong::{Astray, How, Misjudged, Mismade, Misshown, Wrong};

/// The seed of the random books; another can be set by hand.
fn seed() -> u64 {
    match std::env::var("MEZHKURA_SEED") {
        Ok(text) => text.parse().expect("MEZHKURA_SEED is a number"),
        Err(_) => 20_261,
    }
}

fn random_desk(random: &mut Random, size: Size) -> Desk {
    let mut desk = Desk::fresh();
    let book = gen::book(random, size);
    desk.load(book.to_file().as_bytes())
        .expect("a generated book loads");
    for _ in 0..random.below(3) {
        // A literal put in twice, or one of a book with no names, is refused: that is no matter.
        let _ = desk.put_in(random.below(book.literals()));
    }
    desk
}

fn file_of(desk: &Desk) -> String {
    let book = desk.book().expect("a book is loaded");
    format!("{}facts {:?}", book.to_file(), desk.facts())
}

/// A desk with this book and some facts put in.
fn desk_with_facts(random: &mut Random, book: &Book) -> Desk {
    let mut desk = Desk::fresh();
    desk.load(book.to_file().as_bytes())
        .expect("a generated book loads");
    for literal in gen::some_literals(random, book) {
        // A literal put in twice is refused: that is no matter.
        let _ = desk.put_in(literal);
    }
    desk
}

/// How the searches of some desks went.
#[derive(Debug, Default)]
struct Tally {
    desks: usize,
    asked: usize,
    not_ended: usize,
    contradictory: usize,
}

/// Asks every literal's four questions of some desks.
fn searches_of(desks: impl Iterator<Item = Desk>, visits: u64) -> Tally {
    let mut tally = Tally::default();
    for desk in desks {
        let model = desk.model().expect("a book is loaded");
        tally.desks += 1;
        tally.contradictory += usize::from(model.contradictory);
        let literals = desk.book().map_or(0, |book| book.literals());
        for question in (0..literals).flat_map(questions) {
            tally.asked += 1;
            match desk.search(question, visits) {
                Ok(Some(answer)) => {
                    let expected = answer_by_model(question, &model);
                    assert_eq!(answer, expected, "{question:?} of\n{}", file_of(&desk));
                }
                Ok(None) => tally.not_ended += 1,
                Err(refused) => panic!("{question:?} is refused: {refused}"),
            }
        }
    }
    println!("{tally:?}");
    tally
}

#[test]
fn searches_agree_with_m_and_n() {
    let of_size = |count, size, seed| {
        let mut random = Random::new(seed);
        searches_of((0..count).map(|_| random_desk(&mut random, size)), 20_000)
    };
    let small = of_size(6_000, SMALL, seed());
    assert!(small.not_ended * 100 < small.asked);
    assert!(small.contradictory > 500);
    let middle = of_size(400, MIDDLE, seed() + 3);
    assert!(middle.not_ended * 4 < middle.asked);
    assert!(middle.contradictory > 50);
}

#[test]
fn short_searches_of_large_books_agree_with_m_and_n() {
    let mut random = Random::new(seed() + 4);
    let mut books = gen::shaped_books();
    books.extend((0..10).map(|_| gen::full_book(&mut random)));
    let desks = books.iter().map(|book| desk_with_facts(&mut random, book));
    let tally = searches_of(desks, MOST_VISITS);
    assert!(0 < tally.not_ended && tally.not_ended * 4 < tally.asked * 3);
}

/// Γ(S) by its definition: the intersection of all sets closed under the rules that S keeps.
fn gamma_by_definition(program: &Program, s: &[bool]) -> Vec<bool> {
    let closed = |set: &[bool]| {
        program.rules.iter().all(|rule| {
            let applies = rule.body.iter().all(|entry| {
                if entry.default {
                    !s[entry.literal]
                } else {
                    set[entry.literal]
                }
            });
            !applies || set[rule.head]
        })
    };
    every_set(program.literals)
        .filter(|set| closed(set))
        .reduce(|one, other| one.iter().zip(&other).map(|(a, b)| *a && *b).collect())
        .expect("the set of all literals is closed")
}

#[test]
fn model_is_the_published_one() {
    let size = Size {
        names: 3,
        rules: 7,
        body: 3,
    };
    let mut random = Random::new(seed() + 1);
    for _ in 0..400 {
        let desk = random_desk(&mut random, size);
        check_model(&program_of(&desk), &file_of(&desk));
    }
}

/// The halves of the model against the published definitions, each by trying every set of literals.
fn check_model(program: &Program, file: &str) {
    let seminormal = program.seminormal();
    let halves = program.halves();
    for s in every_set(program.literals) {
        let by_definition = gamma_by_definition(program, &s);
        assert_eq!(gamma(program, &s), by_definition, "{s:?} of {file}");
    }
    assert_eq!(
        halves.nonfalse,
        gamma_by_definition(&seminormal, &halves.truths),
        "{}",
        file
    );
    // M is inside every fixpoint, and no partial stable model exists exactly where M holds
    // both literals of a name.
    let fixpoint = |s: &Vec<bool>| gamma(program, &gamma(&seminormal, s)) == *s;
    let inside = |s: &Vec<bool>| halves.truths.iter().zip(s).all(|(m, x)| !m || *x);
    assert!(fixpoint(&halves.truths), "{}", file);
    assert!(
        every_set(program.literals)
            .filter(fixpoint)
            .all(|s| inside(&s)),
        "{}",
        file
    );
    let has_model = !partial_stable_models(program).is_empty();
    assert_eq!(has_model, contradictory_name(&halves).is_none(), "{}", file);
}

/// The program that a desk with a book has.
fn program_of(desk: &Desk) -> Program {
    Program::new(desk.book().expect("a book is loaded"), desk.facts())
}

/// I(0), I(1) and so on, two more than the program has rules.
fn rounds_one_by_one(program: &Program) -> Vec<Vec<bool>> {
    let seminormal = program.seminormal();
    let next = |set: &Vec<bool>| Some(gamma(program, &gamma(&seminormal, set)));
    successors(Some(vec![false; program.literals]), next)
        .take(program.rules.len() + 2)
        .collect()
}

/// The literals that are the head of a rule.
fn distinct_heads(rules: &[Rule]) -> usize {
    let heads: BTreeSet<usize> = rules.iter().map(|rule| rule.head).collect();
    heads.len()
}

/// Document 02, A.10: the rounds are the least k with I(k) = I(k + 1), from there on every I is M, and they
/// are never above the count of distinct heads, put-in facts included. Without a contradiction they aren't
/// above the count of names either. Answers the rounds.
fn check_rounds(desk: &Desk) -> usize {
    let program = program_of(desk);
    let sets = rounds_one_by_one(&program);
    let least = (0..sets.len() - 1).find(|&k| sets[k] == sets[k + 1]);
    let halves = program.halves();
    let file = file_of(desk);
    assert_eq!(Some(halves.rounds), least, "{file}");
    let from_there = &sets[halves.rounds..];
    assert!(from_there.iter().all(|set| *set == halves.truths), "{file}");
    assert!(halves.rounds <= distinct_heads(&program.rules), "{file}");
    let contradictory = contradictory_name(&halves).is_some();
    assert!(
        contradictory || 2 * halves.rounds <= program.literals,
        "{file}"
    );
    assert_eq!(
        desk.model().map(|model| model.rounds),
        Ok(halves.rounds),
        "{file}"
    );
    halves.rounds
}

#[test]
fn rounds_are_those_of_the_definition() {
    let mut random = Random::new(seed() + 7);
    // How many desks have how many rounds.
    let mut met = [0usize; 2 * MOST_NAMES + 1];
    for (desks, size) in [(2_000, SMALL), (500, MIDDLE), (10, FULL)] {
        for _ in 0..desks {
            met[check_rounds(&random_desk(&mut random, size))] += 1;
        }
    }
    for _ in 0..2_000 {
        let book = gen::book_with_rounds(&mut random);
        met[check_rounds(&desk_with_facts(&mut random, &book))] += 1;
    }
    let few = &met[..=24];
    println!("{few:?}");
    assert!(few[..13].iter().all(|&desks| desks > 5), "{few:?}");
}

#[test]
fn rounds_are_known_for_every_count_of_names() {
    for known in known_rounds() {
        let desk = known.left_on(Desk::fresh(), Desk::load, Desk::put_in);
        assert_eq!(check_rounds(&desk), known.rounds, "{}", known.header);
        assert_eq!(header_of(|buffer| desk.listing(buffer)), known.header);
        let of_rules = distinct_heads(&known.book.rules);
        assert_eq!(of_rules < known.rounds, !known.facts.is_empty());
    }
}

/// The books with most rounds reach the bound: each of their literals is a head and takes a round.
#[test]
fn rounds_reach_the_count_of_distinct_heads() {
    for names in 1..=MOST_NAMES {
        let book = gen::bound_book(names);
        let program = Program::new(&book, &BTreeSet::new());
        assert_eq!(program.halves().rounds, distinct_heads(&program.rules));
        assert_eq!(program.halves().rounds, book.literals());
    }
}

/// How many passes over the rules in their order add a literal to Γs(S).
fn passes(program: &Program, s: &[bool]) -> usize {
    let seminormal = program.seminormal();
    let mut closed = vec![false; program.literals];
    let mut passes = 0;
    loop {
        let before = closed.clone();
        for rule in &seminormal.rules {
            let holds = rule.body.iter().all(|entry| {
                if entry.default {
                    !s[entry.literal]
                } else {
                    closed[entry.literal]
                }
            });
            closed[rule.head] |= holds;
        }
        if closed == before {
            return passes;
        }
        passes += 1;
    }
}

/// The slow book has a round for each literal of half of its names, and in each round a pass for each literal
/// of the other half but the last.
#[test]
fn the_slow_book_has_many_rounds_of_many_passes() {
    let book = gen::slow_book();
    assert_eq!(book.body_literals(), MOST_BODY_LITERALS);
    let program = Program::new(&book, &BTreeSet::new());
    let halves = program.halves();
    assert_eq!(halves.rounds, MOST_NAMES);
    let sets = rounds_one_by_one(&program);
    for set in &sets[..=halves.rounds] {
        assert_eq!(passes(&program, set), MOST_NAMES - 1);
    }
}

/// The first field of a line, and the rest of it from the first comma on.
fn first_and_rest(line: &mut [u8]) -> (&mut [u8], &mut [u8]) {
    let end = line.iter().position(|byte| matches!(byte, b',' | b'\n'));
    let end = end.unwrap_or(line.len());
    line.split_at_mut(end)
}

/// A file with a change to each of its lines.
fn with_each_line(file: &[u8], change: impl Fn(&mut [u8])) -> Vec<u8> {
    let mut lines = gen::lines_of(file);
    lines.iter_mut().for_each(|line| change(line));
    lines.concat()
}

/// Document 02, A.2: a file and the same one with its names in small letters have one outcome, and their
/// listings differ only in case.
#[test]
fn capitals_make_no_other_names() {
    let mut random = Random::new(seed() + 6);
    let mut with_capitals = 0;
    for _ in 0..20_000 {
        let file = gen::file(&mut random, SMALL);
        let small = with_each_line(&file, |line| first_and_rest(line).1.make_ascii_lowercase());
        let (printed, of_small) = (program_output(&file), program_output(&small));
        let spelt = file.escape_ascii();
        assert_eq!(printed.to_ascii_lowercase(), of_small, "\"{spelt}\"");
        let rules = |file| read(file).map(|book| book.rules);
        assert_eq!(rules(&file), rules(&small), "\"{spelt}\"");
        with_capitals += usize::from(file != small);
    }
    assert!((4_000..16_000).contains(&with_capitals), "{with_capitals}");
}

/// What was asked after so many lists of calls, or a list that shows a difference.
fn random_lists(how: How, lists: usize) -> Result<Asked, String> {
    let fresh = || Wrong::fresh(how);
    let mut random = Random::new(seed() + 2);
    let mut asked = Asked::default();
    for turn in 0..lists {
        let calls = match turn % 4 {
            0 => gen::calls_on_clashes(&mut random, 6),
            _ => gen::calls(&mut random, SMALL),
        };
        match agree(&calls, &mut fresh()) {
            Ok(more) => asked += more,
            Err(calls) => return Err(explain(calls, fresh)),
        }
    }
    Ok(asked)
}

#[test]
fn a_desk_that_agrees_is_found_to_agree() {
    let asked = random_lists(How::NotAtAll, 1_000).unwrap_or_else(|text| panic!("{text}"));
    println!("{asked:?}");
    assert!(asked.questions > 10_000 && asked.walked < asked.questions);
    assert!(asked.refused > 500 && asked.given_beside > 500);
    assert!(asked.contradictory > 100 && asked.in_part > 100);
}

#[test]
fn wrong_desks_are_found_and_explained_in_few_calls() {
    for how in [
        How::HeadsAreSized,
        How::SizesRefusedFiles,
        How::PutInStoresNothing,
        How::SearchSaysNo,
        How::LongSearchSaysNo,
        How::ShortBufferOfALongOne,
        How::WritesPastTheListing,
        How::ModelOfTheBookAlone,
        How::LoadKeepsFacts,
        How::RefusedPutInTakesOut,
        How::TakenOutStaysInTheModel,
    ] {
        assert_found(how, random_lists(how, 2_000));
    }
}

/// A wrong desk is found, and shown in few calls, in the text that is answered.
fn assert_found<T>(how: How, looked: Result<T, String>) -> String {
    let Err(text) = looked else {
        panic!("{how:?} wasn't found");
    };
    println!("{how:?}: {text}");
    let calls = text.lines().filter(|line| line.starts_with("  ")).count();
    assert!(calls <= 4, "{how:?} takes {calls} calls:\n{text}");
    text
}

/// Each is shown by the answer that it gets wrong.
#[test]
fn desks_that_are_wrong_about_capitals_are_found() {
    for (how, difference) in [
        (
            How::DeclaresEachSpelling,
            "second says Err(File { fault: DeclaredBefore",
        ),
        (
            How::UsesTheDeclaredSpellingAlone,
            "the other says Err(File { fault: Undeclared",
        ),
        (
            How::FirstWordsInCapitals,
            "second says Err(File { fault: Fields",
        ),
        (How::ListsSmallLetters, "(listing, "),
        // A listing, or a preview of one.
        (How::ListsTheLastSpelling, ", buffer longer by "),
    ] {
        let text = assert_found(how, random_lists(how, 2_000));
        assert!(text.contains(difference), "{how:?}: {text}");
    }
}

/// Rounds are in two answers, that of the model call and the listing. Each is looked at for itself.
#[test]
fn desks_that_are_wrong_about_rounds_are_found() {
    for how in [How::CountsTheConfirmingRound, How::RoundsOfTheBookAlone] {
        assert_found(how, random_lists(how, 2_000));
        assert_found(how, random_models(how, 2_000));
    }
    let how = How::ListsRoundsBeforeFacts;
    let text = assert_found(how, random_lists(how, 2_000));
    assert!(text.contains("(listing, "), "{text}");
    assert!(random_models(how, 500).is_ok());
}

/// Each is shown by the answer that it gets wrong, and nothing else of the desk is wrong.
#[test]
fn desks_that_are_wrong_about_groups_are_found() {
    for (how, call) in [
        (How::NoNameReachesItself, "(working order)"),
        (How::ReachesByPlainLiterals, "(working order)"),
        (How::ReachesByRulesForTheName, "(working order)"),
        (How::TakesTheHighestGroup, "(working order)"),
        (How::ListsGroupsByNumber, "(working order)"),
        (How::FactsEndTheReach, "(working order)"),
        (How::StepsForgetFacts, "(model by groups)"),
        (How::StepsKnowTruthsAlone, "(model by groups)"),
    ] {
        let text = assert_found(how, random_lists(how, 2_000));
        assert!(text.contains(call), "{how:?}: {text}");
        assert!(random_models(how, 100).is_ok(), "{how:?}");
    }
}

/// Each is shown by the answer that it gets wrong, the verdict or the listing, and nothing else of the desk is
/// wrong.
#[test]
fn desks_that_are_wrong_about_contradictions_are_found() {
    let verdicts = Astray::ALL.map(|astray| (How::Refuses(astray), "(verdict "));
    let listings = Astray::ALL.map(|astray| (How::Lists(astray), "(listing, "));
    let lines = [
        How::ListsTheWordInOneField,
        How::ListsTheWordInTheOtherField,
        How::LeavesOutContradictoryLines,
        How::LeavesOutTheLastLine,
        How::ListsTheHeaderAlone,
        How::HeadsByTheFirstContradictoryLine,
        How::HeadsByTheHighestClash,
        How::NamesNoClash,
    ]
    .map(|how| (how, "(listing, "));
    for (how, call) in [&verdicts[..], &listings, &lines].concat() {
        let text = assert_found(how, random_lists(how, 2_000));
        assert!(text.contains(call), "{how:?}: {text}");
        assert!(random_models(how, 100).is_ok(), "{how:?}");
    }
}

/// Previews after so many lists that are the change and the listing on a copy, or a list that shows that one
/// isn't.
fn random_previews(how: How, lists: usize) -> Result<Previewed, String> {
    let mut previewed = Previewed::default();
    for calls in lists_with_clashes(seed() + 10, lists) {
        previewed += previews_are_of_a_copy(&calls, || Wrong::fresh(how))?;
    }
    Ok(previewed)
}

/// Document 02, A.8. Each is shown by a preview of the change whose previews are wrong, and where the change
/// isn't kept nothing else of the desk is wrong.
#[test]
fn desks_that_are_wrong_about_previews_are_found() {
    let right = random_previews(How::NotAtAll, 300).unwrap_or_else(|text| panic!("{text}"));
    println!("{right:?}");
    assert!(right.clashing > 100 && right.mended > 100, "{right:?}");
    for number in [0, 20, 21, 22, 23, 25] {
        assert!(right.numbers[&number] > 20, "{number}: {right:?}");
    }
    for change in Change::BOTH {
        for misshown in Misshown::ALL {
            let how = How::Previews(change, misshown);
            let text = assert_found(how, random_lists(how, 2_000));
            assert!(text.contains(&format!("(preview: {change} ")), "{text}");
            let text = assert_found(how, random_previews(how, 2_000));
            assert!(
                text.contains(&format!("the preview of {change} ")),
                "{text}"
            );
            match misshown {
                Misshown::KeepsTheChange => drop(assert_found(how, random_models(how, 2_000))),
                _ => assert!(random_models(how, 100).is_ok(), "{how:?}"),
            }
        }
    }
}

/// What was looked at of proof sheets after so many lists, or a list that shows that something of them is wrong.
fn random_sheets(how: How, lists: usize) -> Result<Sheets, String> {
    let mut sheets = Sheets::default();
    for (turn, calls) in lists_with_clashes(seed() + 11, lists).enumerate() {
        let amount = Amount {
            literals: 20,
            changed: 20,
            seed: seed() + turn as u64,
        };
        sheets += sheets_agree(&calls, amount, || Wrong::fresh(how))?;
    }
    Ok(sheets)
}

/// Document 02, A.3. Each is shown by a check or by a sheet that is made, in lists of calls and in the comparison of
/// sheets.
#[test]
fn desks_that_are_wrong_about_sheets_are_found() {
    let right = random_sheets(How::NotAtAll, 300).unwrap_or_else(|text| panic!("{text}"));
    println!("{right:?}");
    assert!(right.of_truths > 1_000 && right.in_contradictory > 1_000);
    assert!(right.accepted_otherwise > 1_000, "{right:?}");
    for (numbers, counts) in [
        (&[0, 20, 21, 25, 28][..], &right.made),
        (&[0, 20, 21, 26, 27, 28], &right.checked),
    ] {
        for number in numbers {
            assert!(counts[number] > 20, "{number}: {right:?}");
        }
    }
    let judges = Misjudged::ALL.map(|misjudged| (How::Judges(misjudged), "(check that "));
    let makes = Mismade::ALL.map(|mismade| (How::Makes(mismade), "(make a sheet that "));
    for (how, call) in judges.into_iter().chain(makes) {
        let text = assert_found(how, random_lists(how, 10_000));
        assert!(text.contains(call), "{how:?}: {text}");
        assert_found(how, random_sheets(how, 2_000));
        assert!(random_models(how, 20).is_ok(), "{how:?}");
    }
}

/// Random lists of calls, and lists with clashes. There are few names, so that every set of literals can be
/// tried.
fn lists_with_clashes(seed: u64, lists: usize) -> impl Iterator<Item = Vec<Call>> {
    let mut random = Random::new(seed);
    (0..lists).map(move |turn| match turn % 3 {
        0 => gen::calls(&mut random, SMALL),
        1 => gen::calls_on_clashes(&mut random, 4),
        _ => gen::calls_on_clashes(&mut random, 5),
    })
}

/// The verdicts after so many lists that are those of the published definition over the rules for reached
/// names, or a list that shows that one isn't.
fn random_published(how: How, lists: usize) -> Result<Looked, String> {
    let mut looked = Looked::default();
    for calls in lists_with_clashes(seed() + 8, lists) {
        looked += verdicts_are_published(&calls, || Wrong::fresh(how))?;
    }
    println!("{how:?}: {looked:?}");
    Ok(looked)
}

/// The same of verdicts that rules for names not reached don't alter.
fn random_unaltered(how: How, lists: usize) -> Result<Looked, String> {
    let mut looked = Looked::default();
    for calls in lists_with_clashes(seed() + 9, lists) {
        looked += verdicts_are_unaltered(&calls, seed(), || Wrong::fresh(how))?;
    }
    println!("{how:?}: {looked:?}");
    Ok(looked)
}

fn assert_both_outcomes(looked: Result<Looked, String>) {
    let looked = looked.unwrap_or_else(|text| panic!("{text}"));
    assert!(looked.refused > 1_000, "{looked:?}");
    assert!(looked.given_beside > 1_000, "{looked:?}");
    assert!(looked.given > 1_000, "{looked:?}");
}

/// Document 02, A.7: 24 is given exactly where the rules for reached names have no partial stable model, and
/// every other verdict is the value in the least one.
#[test]
fn verdicts_are_those_of_the_published_definition() {
    assert_both_outcomes(random_published(How::NotAtAll, 1_200));
    for astray in Astray::ALL {
        let how = How::Refuses(astray);
        assert_found(how, random_published(how, 1_200));
    }
}

/// Document 02, A.7. A desk that refuses no verdict, or that of a clash alone, isn't found here: what it says of
/// a name depends on nothing that the name doesn't reach.
#[test]
fn rules_for_names_not_reached_alter_no_verdict() {
    assert_both_outcomes(random_unaltered(How::NotAtAll, 1_200));
    for astray in [Astray::EveryName, Astray::ReachedByAClash] {
        let how = How::Refuses(astray);
        assert_found(how, random_unaltered(how, 1_200));
    }
    for astray in [Astray::NoName, Astray::ClashesAlone] {
        assert!(random_unaltered(How::Refuses(astray), 100).is_ok());
    }
}

/// After how many calls of so many lists the model was looked at, or a list after which it doesn't stand.
fn random_models(how: How, lists: usize) -> Result<Stood, String> {
    let mut random = Random::new(seed() + 5);
    let mut stood = Stood::default();
    for _ in 0..lists {
        stood += models_stand(&gen::calls(&mut random, SMALL), || Wrong::fresh(how))?;
    }
    Ok(stood)
}

#[test]
fn models_that_come_from_more_than_book_and_facts_are_found() {
    let right = random_models(How::NotAtAll, 500).unwrap_or_else(|text| panic!("{text}"));
    assert!(right.calls > 5_000, "{right:?}");
    // No answer of a desk shows what it keeps of earlier calls, so only this comparison finds that.
    assert!(random_lists(How::KeepsTheLastPutIn, 500).is_ok());
    for how in [
        How::PutInStoresNothing,
        How::ModelOfTheBookAlone,
        How::LoadKeepsFacts,
        How::RefusedPutInTakesOut,
        How::TakenOutStaysInTheModel,
        How::KeepsTheLastPutIn,
    ] {
        assert_found(how, random_models(how, 2_000));
    }
}

/// The answer sets of what so many lists of calls left, with which a desk is in accord, or a list that
/// shows that it isn't.
fn random_accord(how: How, lists: usize) -> Result<Accord, String> {
    let mut random = Random::new(seed() + 6);
    let mut accord = Accord::default();
    for _ in 0..lists {
        accord += accords(&gen::calls(&mut random, SMALL), || Wrong::fresh(how))?;
        let circles = gen::calls_on_circles(&mut random);
        accord += accords(&circles, || Wrong::fresh(how))?;
    }
    println!("{accord:?}");
    Ok(accord)
}

#[test]
fn desks_that_are_not_in_accord_with_answer_sets_are_found() {
    let right = random_accord(How::NotAtAll, 500).unwrap_or_else(|text| panic!("{text}"));
    assert!(right.one > 50 && right.several > 50, "{right:?}");
    for how in [
        How::UndefinedIsTrue,
        How::UndefinedIsFalse,
        How::UndefinedIsAContradiction,
        How::PutInStoresNothing,
        How::ModelOfTheBookAlone,
    ] {
        assert_found(how, random_accord(how, 500));
    }
}

/// The plain tree of the layered book doubles with each level.
#[test]
fn the_layered_book_has_a_wide_tree() {
    let program = Program::new(&gen::layered_book(9), &BTreeSet::new());
    let question = Question {
        literal: 0,
        default: false,
        tree: Tree::T,
    };
    assert_eq!(search(&program, question, 1_023), Some(true));
    assert_eq!(search(&program, question, 1_022), None);
}

/// The deep book is what it is made for, and the stack of a test holds the walk of its plain tree.
#[test]
fn the_deep_book_has_a_deep_tree() {
    let book = gen::deep_book(60);
    let program = Program::new(&book, &BTreeSet::new());
    let question = Question {
        literal: 0,
        default: false,
        tree: Tree::TU,
    };
    let mut walk = Walk::new(&program, 10_000);
    assert_eq!(walk.ask(question), Some(program.halves().nonfalse[0]));
    assert!(walk.deepest > 3_600, "{} nodes deep", walk.deepest);
}
