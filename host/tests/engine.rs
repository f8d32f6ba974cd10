//! The engine compared with the second implementation (feature `engine`). A list of calls ends with all
//! verdicts and questions of the book that it leaves, or the model is looked at after each of its calls, or
//! what it leaves is held against the answer sets, or against the published definition. Its previews are held
//! against the change and the listing on a copy.
#![cfg(feature = "engine")]

mod families;

use families::{header_of, known_rounds};
use mezhkura::accord::{accords, Accord};
use mezhkura::answer::{Change, Claim, MOST_LISTING};
use mezhkura::compare::{agree, answers_agree, explain, models_stand, questions, Asked, Stood};
use mezhkura::engine::Desk;
use mezhkura::gen::{self, Call, Random, FULL, MIDDLE, SMALL};
use mezhkura::previews::{previews_are_of_a_copy, Previewed};
use mezhkura::published::{verdicts_are_published, verdicts_are_unaltered, Looked};
use mezhkura::second::{read, Book};
use std::fs;
use std::path::Path;

/// The seed of the random inputs; another can be set by hand.
fn seed() -> u64 {
    match std::env::var("MEZHKURA_SEED") {
        Ok(text) => text.parse().expect("MEZHKURA_SEED is a number"),
        Err(_) => 5,
    }
}

/// Compares so many lists of calls, and prints and answers what was asked.
fn compare(label: &str, lists: impl Iterator<Item = Vec<Call>>) -> Asked {
    let mut asked = Asked::default();
    for calls in lists {
        match agree(&calls, &mut Desk::fresh()) {
            Ok(more) => asked += more,
            Err(calls) => panic!("{}", explain(calls, Desk::fresh)),
        }
    }
    println!("{label}: {asked:?}");
    asked
}

/// Loads a file, and then makes every other call, with literals at the edges of sets and of books.
fn load_and_look(file: Vec<u8>) -> Vec<Call> {
    let literals = [0, 1, 2, 100, 253, 254, 255, 256];
    let mut calls = vec![Call::Load(file)];
    calls.extend(look(&literals));
    calls.extend(literals.map(Call::PutIn));
    calls.extend(look(&literals));
    calls.extend(literals.map(Call::TakeOut));
    calls
}

/// The calls that change nothing. There are few previews, since listings of large books take the second
/// implementation long.
fn look(literals: &[usize]) -> Vec<Call> {
    let mut calls = vec![Call::Model, Call::WorkingOrder, Call::ModelByGroups];
    calls.extend([-1, 0, 9].map(|margin| Call::Listing { margin }));
    let previews = literals.iter().step_by(4).zip([-1, 0]);
    calls.extend(previews.flat_map(|(&literal, margin)| previews_into(literal, margin)));
    // The largest book has 253 among its literals, and takes a run of 512 entries.
    let claims = [0, 253].into_iter().flat_map(Claim::both);
    calls.extend(
        claims
            .zip([512, 512, 511, 513])
            .map(|(claim, length)| Call::MakeSheet { claim, length }),
    );
    calls.extend(literals.iter().map(|&literal| Call::Verdict(literal)));
    let questions = literals.iter().flat_map(|&literal| questions(literal));
    calls.extend(questions.map(Call::Search));
    calls
}

/// The previews of both changes, into buffers with this margin.
fn previews_into(literal: usize, margin: isize) -> [Call; 2] {
    Change::BOTH.map(|change| Call::Preview {
        change,
        literal,
        margin,
    })
}

/// As [`load_and_look`], with facts of the book put in at the end.
fn with_facts(random: &mut Random, file: Vec<u8>) -> Vec<Call> {
    let book = read(&file).expect("the book loads");
    let facts = gen::some_literals(random, &book);
    let mut calls = load_and_look(file);
    calls.extend(facts.into_iter().map(Call::PutIn));
    calls
}

/// A desk with this book and these facts.
fn desk_with(book: &Book, facts: &[usize]) -> Desk {
    let mut desk = Desk::fresh();
    desk.load(book.to_file().as_bytes())
        .expect("the book loads");
    for &fact in facts {
        desk.put_in(fact).expect("the fact is out");
    }
    desk
}

/// Compares books, each without facts and four times with facts.
fn compare_books(label: &str, seed: u64, files: &[Vec<u8>]) {
    let mut random = Random::new(seed);
    let lists = files.iter().flat_map(|file| {
        let mut lists = vec![load_and_look(file.clone())];
        lists.extend((0..4).map(|_| with_facts(&mut random, file.clone())));
        lists
    });
    assert_eq!(compare(label, lists).books, 5 * files.len());
}

#[test]
fn lists_of_calls_agree() {
    let mut random = Random::new(seed());
    let small = (0..20_000).map(|_| gen::calls(&mut random, SMALL));
    let small = compare("small lists", small);
    assert!(small.questions > 200_000);
    assert!(small.contradictory > 1_000 && small.in_part > 1_000);
    let middle = (0..2_000).map(|_| gen::calls(&mut random, MIDDLE));
    assert!(compare("middle lists", middle).questions > 40_000);
}

/// Document 02, A.7: lists after which most lessons are contradictory in part.
#[test]
fn lists_with_clashes_agree() {
    let mut random = Random::new(seed() + 11);
    let lists = (0..6_000).map(|turn| {
        let most_names = if turn % 4 == 0 { 40 } else { 8 };
        gen::calls_on_clashes(&mut random, most_names)
    });
    let asked = compare("lists with clashes", lists);
    assert!(asked.contradictory > 300 && asked.in_part > 2_000);
    assert!(asked.refused > 10_000 && asked.given_beside > 10_000);
}

/// Full books with a clash that most names reach, and with one that few do.
#[test]
fn full_books_with_clashes_agree() {
    let mut random = Random::new(seed() + 12);
    let mut in_part = 0;
    for _ in 0..3 {
        for book in gen::books_in_groups(&mut random) {
            let clash = random.below(book.names.len());
            let facts = [2 * clash, 2 * clash + 1];
            let mut calls = load_and_change(&book, &facts);
            let literals = Vec::from_iter(0..book.literals());
            let asked = literals.into_iter().map(Call::Verdict);
            let place = 1 + facts.len();
            calls.splice(place..place, asked);
            calls.insert(place, Call::Listing { margin: 1 });
            answers_agree(&calls, Desk::fresh).unwrap_or_else(|text| panic!("{text}"));
            in_part += usize::from(is_in_part(&book, &facts));
        }
    }
    println!("{in_part} contradictory in part");
    assert!(in_part > 5);
}

/// Whether a book with these facts has names that are refused by 24 and names that aren't.
fn is_in_part(book: &Book, facts: &[usize]) -> bool {
    let desk = desk_with(book, facts);
    let refused = |name: usize| desk.verdict(2 * name).is_err();
    let names = 0..book.names.len();
    names.clone().any(refused) && !names.clone().all(refused)
}

/// Random lists of calls, and lists with clashes. There are few names, so that every set of literals can be
/// tried.
fn lists_for_the_definition(seed: u64) -> impl Iterator<Item = Vec<Call>> {
    let mut random = Random::new(seed);
    (0..3_000).map(move |turn| match turn % 3 {
        0 => gen::calls(&mut random, SMALL),
        1 => gen::calls_on_clashes(&mut random, 4),
        _ => gen::calls_on_clashes(&mut random, 5),
    })
}

fn assert_both_outcomes(looked: Looked) {
    println!("{looked:?}");
    assert!(looked.refused > 2_000 && looked.given_beside > 2_000 && looked.given > 2_000);
}

/// Document 02, A.7: 24 is given exactly where the rules for reached names have no partial stable model, and
/// every other verdict is the value in the least one.
#[test]
fn verdicts_are_those_of_the_published_definition() {
    let mut looked = Looked::default();
    for calls in lists_for_the_definition(seed() + 13) {
        let more = verdicts_are_published(&calls, Desk::fresh);
        looked += more.unwrap_or_else(|text| panic!("{text}"));
    }
    assert_both_outcomes(looked);
}

#[test]
fn rules_for_names_not_reached_alter_no_verdict() {
    let mut looked = Looked::default();
    for calls in lists_for_the_definition(seed() + 14) {
        let more = verdicts_are_unaltered(&calls, seed(), Desk::fresh);
        looked += more.unwrap_or_else(|text| panic!("{text}"));
    }
    assert_both_outcomes(looked);
}

/// The calls of a list, and then each literal that it puts in taken out again.
fn and_out_again(mut calls: Vec<Call>) -> Vec<Call> {
    let put_in = |call: &Call| match call {
        Call::PutIn(literal) => Some(Call::TakeOut(*literal)),
        _ => None,
    };
    let out: Vec<Call> = calls.iter().filter_map(put_in).collect();
    calls.extend(out);
    calls
}

#[test]
fn models_stand_whatever_came_before() {
    let mut random = Random::new(seed() + 6);
    let mut stood = Stood::default();
    for (lists, size) in [(3_000, SMALL), (500, MIDDLE), (30, FULL)] {
        for _ in 0..lists {
            let calls = and_out_again(gen::calls(&mut random, size));
            stood += models_stand(&calls, Desk::fresh).unwrap_or_else(|text| panic!("{text}"));
        }
    }
    println!("{stood:?}");
    assert!(stood.refused > 10_000 && stood.calls > stood.refused + 10_000);
}

/// A load of a book, and facts put in and taken out again.
fn load_and_change(book: &Book, facts: &[usize]) -> Vec<Call> {
    let mut calls = vec![Call::Load(book.to_file().into_bytes())];
    calls.extend(facts.iter().map(|&fact| Call::PutIn(fact)));
    and_out_again(calls)
}

/// Document 02, A.10: the books that take most rounds, and others that take many.
#[test]
fn models_of_many_rounds_stand() {
    let mut random = Random::new(seed() + 8);
    let mut lists = vec![load_and_change(&gen::slow_book(), &[0])];
    lists.extend(known_rounds().map(|known| load_and_change(&known.book, &known.facts)));
    lists.extend((0..1_000).map(|_| {
        let book = gen::book_with_rounds(&mut random);
        let facts = gen::some_literals(&mut random, &book);
        load_and_change(&book, &facts)
    }));
    for calls in lists {
        models_stand(&calls, Desk::fresh).unwrap_or_else(|text| panic!("{text}"));
    }
}

/// The same, by the number itself.
#[test]
fn rounds_are_known_for_every_count_of_names() {
    for known in known_rounds() {
        let desk = known.left_on(Desk::fresh(), Desk::load, Desk::put_in);
        let rounds = desk.model().map(|model| model.rounds);
        assert_eq!(rounds, Ok(known.rounds), "{}", known.header);
        assert_eq!(header_of(|buffer| desk.listing(buffer)), known.header);
    }
}

/// A load of a book, and facts put in; before and after them the names in working order and the model by
/// groups.
fn load_and_group(book: &Book, facts: &[usize]) -> Vec<Call> {
    let look = [Call::WorkingOrder, Call::ModelByGroups];
    let mut calls = look.to_vec();
    calls.push(Call::Load(book.to_file().into_bytes()));
    calls.extend(look.clone());
    calls.extend(facts.iter().map(|&fact| Call::PutIn(fact)));
    calls.extend(look);
    calls
}

/// Document 02, A.5: many small groups, few large ones, one group of all names, names that reach the
/// lower ones and names that reach the higher ones, in small books and in full ones.
#[test]
fn books_in_groups_agree() {
    let mut random = Random::new(seed() + 9);
    let mut lists = Vec::new();
    let mut list = |random: &mut Random, book: &Book| {
        let facts = gen::some_literals(random, book);
        lists.push(load_and_group(book, &facts));
    };
    for _ in 0..3_000 {
        let book = gen::small_book_in_groups(&mut random);
        list(&mut random, &book);
    }
    for _ in 0..4 {
        let mut books = gen::books_in_groups(&mut random);
        books.push(gen::full_book(&mut random));
        books.iter().for_each(|book| list(&mut random, book));
    }
    // Four books stand there for each count of names, and each fifth of all has all four kinds.
    let rounds = known_rounds().step_by(5);
    lists.extend(rounds.map(|known| load_and_group(&known.book, &known.facts)));
    for calls in lists {
        answers_agree(&calls, Desk::fresh).unwrap_or_else(|text| panic!("{text}"));
    }
}

/// The searches of such books too.
#[test]
fn small_books_in_groups_agree() {
    let mut random = Random::new(seed() + 10);
    let lists = (0..1_000).map(|_| {
        let book = gen::small_book_in_groups(&mut random);
        let facts = gen::some_literals(&mut random, &book);
        load_and_group(&book, &facts)
    });
    assert!(compare("books in groups", lists).questions > 15_000);
}

/// Document 02, A.7: every name is contradictory, the names have 16 bytes, and the counts three digits.
#[test]
fn the_longest_listing_agrees() {
    let (book, facts) = gen::longest_listing();
    let mut calls = vec![Call::Load(book.to_file().into_bytes())];
    calls.extend(facts.iter().copied().map(Call::PutIn));
    for margin in [-1, 0, 1] {
        calls.push(Call::Listing { margin });
        calls.extend(previews_into(0, margin));
    }
    answers_agree(&calls, Desk::fresh).unwrap_or_else(|text| panic!("{text}"));
    let desk = desk_with(&book, &facts);
    assert_eq!(desk.listing(&mut [0; MOST_LISTING]), Ok(MOST_LISTING));
}

/// Document 02, A.8: a buffer for the longest listing holds every preview of that lesson too. The engine alone is
/// asked for all of them, since the second implementation takes long.
#[test]
fn the_longest_listing_has_room_for_every_preview() {
    let (book, facts) = gen::longest_listing();
    let desk = desk_with(&book, &facts);
    let (mut buffer, mut longest) = ([0; MOST_LISTING], 0);
    for name in 0..book.names.len() {
        for previewed in [
            desk.preview_take_out(2 * name, &mut buffer),
            desk.preview_put_in(2 * name + 1, &mut buffer),
        ] {
            longest = longest.max(previewed.expect("the buffer is long"));
        }
    }
    assert_eq!(longest, MOST_LISTING);
}

/// Document 02, A.8: a preview is the change and the listing on a copy, byte by byte, and leaves the desk.
#[test]
fn previews_are_those_of_a_copy() {
    let mut random = Random::new(seed() + 15);
    let mut lists = Vec::from_iter((0..1_000).map(|_| gen::calls(&mut random, SMALL)));
    lists.extend((0..300).map(|_| gen::calls_on_clashes(&mut random, 12)));
    lists.extend((0..10).map(|_| gen::calls(&mut random, FULL)));
    let mut previewed = Previewed::default();
    for calls in lists {
        let more = previews_are_of_a_copy(&calls, Desk::fresh);
        previewed += more.unwrap_or_else(|text| panic!("{text}"));
    }
    println!("{previewed:?}");
    assert!(previewed.clashing > 500 && previewed.mended > 500);
    for number in [0, 20, 21, 22, 23, 25] {
        assert!(previewed.numbers[&number] > 1_000, "{number}");
    }
}

/// M lies inside every answer set and that inside N; true is in all of them, false in none.
#[test]
fn answer_sets_are_in_accord() {
    let mut random = Random::new(seed() + 7);
    let mut accord = Accord::default();
    for _ in 0..8_000 {
        for calls in [
            gen::calls(&mut random, SMALL),
            gen::calls_on_circles(&mut random),
        ] {
            accord += accords(&calls, Desk::fresh).unwrap_or_else(|text| panic!("{text}"));
        }
    }
    println!("{accord:?}");
    assert!(accord.one > 5_000 && accord.several > 1_500 && accord.none > 1_000);
    assert!(accord.settled > 30_000 && accord.undefined > 6_000);
}

#[test]
fn small_files_agree() {
    let mut random = Random::new(seed() + 1);
    let files = (0..20_000).map(|_| vec![Call::Load(gen::file(&mut random, SMALL))]);
    assert!(compare("small files", files).questions > 100_000);
}

#[test]
fn edges_agree() {
    let files = gen::edge_files().into_iter().map(load_and_look);
    assert!(compare("edges", files).questions > 2_000);
}

#[test]
fn full_books_agree() {
    let mut random = Random::new(seed() + 2);
    let books = (0..24).map(|_| {
        let full = gen::full_book_file(&mut random);
        with_facts(&mut random, full)
    });
    assert_eq!(compare("full books", books).questions, 24 * 1_024);
}

#[test]
fn damaged_full_books_agree() {
    let mut random = Random::new(seed() + 3);
    let files = (0..50).flat_map(|_| {
        let full = gen::full_book_file(&mut random);
        let damaged = gen::damaged(&mut random, &full);
        [damaged, gen::file(&mut random, FULL)]
    });
    // How many damaged files still load depends on the seed.
    assert!(compare("damaged full books", files.map(load_and_look)).books > 5);
}

#[test]
fn shaped_books_agree() {
    let books = gen::shaped_books();
    let files: Vec<_> = books.iter().map(|b| b.to_file().into_bytes()).collect();
    compare_books("shaped books", seed() + 4, &files);
}

#[test]
fn examples_agree() {
    let folder = Path::new(env!("CARGO_MANIFEST_DIR")).join("../examples");
    let mut paths: Vec<_> = fs::read_dir(folder)
        .expect("the folder examples")
        .map(|entry| entry.expect("an entry of examples").path())
        .filter(|path| path.extension().is_some_and(|ending| ending == "book"))
        .collect();
    // A folder has no order of its own, and the seed says which facts a book is given.
    paths.sort();
    assert!(paths.len() >= 4, "{} examples", paths.len());
    let read = |path| fs::read(path).expect("a book of examples");
    let files: Vec<_> = paths.iter().map(read).collect();
    compare_books("examples", seed() + 5, &files);
}
