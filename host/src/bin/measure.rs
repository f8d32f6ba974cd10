//! Measures the engine beside the second implementation: `cargo run --release --features engine --bin
//! measure`. It prints the tables of docs/MEASUREMENTS.md.

use mezhkura::answer::{Claim, Question, SheetEntry, Tree, MOST_LISTING, MOST_NAMES, MOST_SHEET};
use mezhkura::engine::{self, Desk};
use mezhkura::gen::{self, Random};
use mezhkura::second::{self, Book};
use std::env;
use std::hint::black_box;
use std::io::{self, Write};
use std::process::{Command, ExitCode, Stdio};
use std::thread;
use std::time::{Duration, Instant};

fn main() -> ExitCode {
    let words: Vec<String> = env::args().skip(1).collect();
    let words: Vec<&str> = words.iter().map(String::as_str).collect();
    match words[..] {
        [] => {
            print_calls();
            print_rounds();
            print_groups();
            print_clashes();
            print_previews();
            print_sheets();
            print_sizes();
            print_searches();
            print_stack();
        }
        ["stack", call, stack] => call_on(call, stack.parse().expect("a number of bytes")),
        ["file", "random"] => print_file(&full_file(1)),
        ["file", "chain"] => print_file(&chain_file()),
        ["file", "bound"] => print_file(&file_of(gen::bound_book(MOST_NAMES))),
        ["file", "rounds"] => print_file(&file_of(gen::rounds_book(MOST_NAMES))),
        ["file", "slow"] => print_file(&file_of(gen::slow_book())),
        ["file", "lower"] => print_file(&one_way_file(true)),
        ["file", "higher"] => print_file(&one_way_file(false)),
        ["file", "clash-lower"] => print_file(&clash_file(true)),
        ["file", "clash-higher"] => print_file(&clash_file(false)),
        _ => {
            eprintln!(
                "usage: measure, or measure file random|chain|bound|rounds|slow|lower|higher|\
                 clash-lower|clash-higher"
            );
            return ExitCode::FAILURE;
        }
    }
    ExitCode::SUCCESS
}

/// A book with the words that the tables call it by.
struct Sample {
    label: &'static str,
    file: Vec<u8>,
}

fn samples() -> Vec<Sample> {
    let files: [(&str, Vec<u8>); 4] = [
        (
            "small: examples/first.book",
            include_bytes!("../../../examples/first.book").into(),
        ),
        (
            "middle: examples/eleven_axles.book",
            include_bytes!("../../../examples/eleven_axles.book").into(),
        ),
        (
            "full: random, 128 names, 512 rules, 2,048 body literals",
            full_file(1),
        ),
        (
            "full: 128 names, 508 rules, each name unless the next",
            chain_file(),
        ),
    ];
    files
        .into_iter()
        .map(|(label, file)| Sample { label, file })
        .collect()
}

/// The examples that are not among the samples.
fn other_examples() -> [Sample; 2] {
    [
        Sample {
            label: "small: examples/circles.book",
            file: include_bytes!("../../../examples/circles.book").into(),
        },
        Sample {
            label: "small: examples/contradiction.book",
            file: include_bytes!("../../../examples/contradiction.book").into(),
        },
    ]
}

/// The books whose model takes most rounds, with and without a contradiction, and one whose rounds take
/// long.
fn books_of_many_rounds() -> [Sample; 3] {
    [
        Sample {
            label: "bound: 128 names, 511 rules, a round for each literal",
            file: file_of(gen::bound_book(MOST_NAMES)),
        },
        Sample {
            label: "rounds: 128 names, 255 rules, a round for each name",
            file: file_of(gen::rounds_book(MOST_NAMES)),
        },
        Sample {
            label: "slow: 128 names, 487 rules, half of the names for rounds, half for passes",
            file: file_of(gen::slow_book()),
        },
    ]
}

/// The books in which each name reaches those with lower numbers, or those with higher ones.
fn one_way_books() -> [Sample; 2] {
    [
        Sample {
            label: "lower: 128 groups, 512 rules, bodies of lower names",
            file: one_way_file(true),
        },
        Sample {
            label: "higher: 128 groups, 512 rules, bodies of higher names",
            file: one_way_file(false),
        },
    ]
}

fn one_way_file(lower: bool) -> Vec<u8> {
    file_of(gen::one_way_book(&mut Random::new(1), lower))
}

/// A full book in which all names reach one end, and no other name reaches the other end.
fn clash_file(lower: bool) -> Vec<u8> {
    file_of(gen::clash_book(&mut Random::new(1), lower))
}

/// A book with a fact that is put in, whose complement then makes a clash, and another fact that makes none.
struct Clash {
    label: String,
    file: Vec<u8>,
    fact: usize,
    other: usize,
}

fn clashes() -> Vec<Clash> {
    let small = Clash {
        label: "small: 2 names, no rules; one name clashes".to_string(),
        file: b"name,a\nname,b\nend\n".into(),
        fact: 0,
        other: 2,
    };
    // Names 74 and 48 of the eleven axles are `coupled` and `axle_11_fault`.
    let middle = Clash {
        label: "middle: examples/eleven_axles.book; `coupled` clashes".to_string(),
        file: include_bytes!("../../../examples/eleven_axles.book").into(),
        fact: 2 * 74,
        other: 2 * 48,
    };
    let full = [true, false].into_iter().flat_map(full_clashes);
    [small, middle].into_iter().chain(full).collect()
}

/// A clash that all names reach, and one that no other name reaches.
fn full_clashes(lower: bool) -> [Clash; 2] {
    let last = 2 * (MOST_NAMES - 1);
    let (words, all, none) = match lower {
        true => ("lower", 0, last),
        false => ("higher", last, 0),
    };
    let rows = [
        ("all names reach the clash", all, none),
        ("no other name reaches the clash", none, all),
    ];
    rows.map(|(which, fact, other)| Clash {
        label: format!("full: 128 names, 512 rules, bodies of {words} names; {which}"),
        file: clash_file(lower),
        fact,
        other,
    })
}

fn file_of(book: Book) -> Vec<u8> {
    book.to_file().into_bytes()
}

/// The full random book of a seed.
fn full_file(seed: u64) -> Vec<u8> {
    file_of(gen::full_book(&mut Random::new(seed)))
}

/// A book whose model takes many rounds: each name unless the next.
fn chain_file() -> Vec<u8> {
    file_of(gen::long_model_book())
}

/// Prints a sample's file, for a program that measures the calls from C.
fn print_file(file: &[u8]) {
    io::stdout().write_all(file).expect("the file is printed");
}

fn deep_file() -> Vec<u8> {
    file_of(gen::deep_book(60))
}

/// The mean of a call is over runs that take at least this time together.
const RUNS_OF_A_CALL: Duration = Duration::from_millis(20);

/// The same for a question, of which a book has hundreds.
const RUNS_OF_A_QUESTION: Duration = Duration::from_micros(100);

/// The mean time of a run, over runs that take at least so long together.
///
/// The clock is read after 1, 3, 7, 15 runs and so on: reading it takes as long as the shortest calls.
fn mean_of<R>(together: Duration, work: &mut impl FnMut() -> R) -> Duration {
    let start = Instant::now();
    let (mut runs, mut more) = (0, 1);
    loop {
        for _ in 0..more {
            black_box(work());
        }
        runs += more;
        let elapsed = start.elapsed();
        if elapsed >= together {
            return elapsed / runs;
        }
        more *= 2;
    }
}

/// Keeps the compiler from leaving out what an answer takes.
fn keep<R>(answer: R) {
    black_box(answer);
}

/// The times of one run of each side: the least of five means.
///
/// The sides take turns, so that a change in the machine's speed meets all.
fn times_in_turns<const SIDES: usize>(mut sides: [&mut dyn FnMut(); SIDES]) -> [Duration; SIDES] {
    let mut least = [Duration::MAX; SIDES];
    for _ in 0..5 {
        for (side, least) in sides.iter_mut().zip(&mut least) {
            *least = mean_of(RUNS_OF_A_CALL, side).min(*least);
        }
    }
    least
}

/// The same for the engine and the second implementation.
fn times_of<R, S>(
    mut engine: impl FnMut() -> R,
    mut second: impl FnMut() -> S,
) -> (Duration, Duration) {
    let [engine, second] = times_in_turns([&mut || drop(black_box(engine())), &mut || {
        drop(black_box(second()));
    }]);
    (engine, second)
}

fn micros(time: Duration) -> f64 {
    time.as_secs_f64() * 1e6
}

/// A ratio with two decimals, and with four where it is so small that two say nothing.
fn ratio(above: f64, below: f64) -> String {
    let ratio = above / below;
    if ratio < 0.1 {
        format!("{ratio:.4}")
    } else {
        format!("{ratio:.2}")
    }
}

fn print_row(label: &str, call: &str, (engine, second): (Duration, Duration)) {
    let (engine, second) = (micros(engine), micros(second));
    let ratio = ratio(engine, second);
    println!("| {label} | {call} | {engine:.2} | {second:.2} | {ratio} |");
}

fn print_calls() {
    println!("| book | call | engine, µs | second, µs | engine / second |");
    println!("|---|---|---|---|---|");
    for sample in samples() {
        let (mut engine, mut other) = (Desk::fresh(), second::Desk::fresh());
        let file = &sample.file[..];
        let load = times_of(
            || engine.load(black_box(file)).expect("the book loads"),
            || other.load(black_box(file)).expect("the book loads"),
        );
        print_row(sample.label, "load", load);
        print_readings(sample.label, &engine, &other);
        print_changes(sample.label, &mut engine, &mut other);
    }
}

/// A change of the facts beside the second implementation's model call, on books whose model takes many
/// rounds: each works one model out. Literal 0, which is put in, is a rule of each of these books too, so that
/// the rounds stay as they are.
fn print_rounds() {
    println!();
    println!("| book | rounds | change, µs | second's model, µs | change / second's model |");
    println!("|---|---|---|---|---|");
    for Sample { label, file } in books_of_many_rounds() {
        let (mut engine, mut other) = (Desk::fresh(), second::Desk::fresh());
        engine.load(&file).expect("the book loads");
        other.load(&file).expect("the book loads");
        let rounds = engine.model().expect("a book is loaded").rounds;
        let (in_and_out, model) = times_of(|| put_in_and_out(&mut engine, 0), || other.model());
        let (change, model) = (micros(in_and_out) / 2.0, micros(model));
        let ratio = ratio(change, model);
        println!("| {label} | {rounds} | {change:.2} | {model:.2} | {ratio} |");
    }
}

/// The working order and the model by groups beside a change of the facts, which works the model out in
/// one piece, and beside the second implementation's.
fn print_groups() {
    println!();
    println!(
        "| book | groups | order, µs | by groups, µs | change, µs | by groups / change \
         | second's order, µs | second's by groups, µs | second's model, µs |"
    );
    println!("|---|---|---|---|---|---|---|---|---|");
    let samples = samples().into_iter().chain(books_of_many_rounds());
    for Sample { label, file } in samples.chain(one_way_books()) {
        let (mut engine, mut other) = (Desk::fresh(), second::Desk::fresh());
        engine.load(&file).expect("the book loads");
        other.load(&file).expect("the book loads");
        let order = engine.working_order().expect("a book is loaded");
        let times = times_of_groups(&engine, &other);
        let [order_time, by_groups, change, rest @ ..] = times.map(|time| format!("{time:.2}"));
        let ratio = ratio(times[1], times[2]);
        println!(
            "| {label} | {} | {order_time} | {by_groups} | {change} | {ratio} | {} |",
            order.groups.len(),
            rest.join(" | ")
        );
    }
}

/// Microseconds of the working order, the model by groups and a change, and of the second
/// implementation's order, model by groups and model.
///
/// The fact that comes and goes is a rule of the book too, where it has one without a body, so that the
/// model stays.
fn times_of_groups(engine: &Desk, other: &second::Desk) -> [f64; 6] {
    let fact = fact_of(other);
    let mut changed = engine.clone();
    let mut times = times_in_turns([
        &mut || drop(black_box(black_box(engine).working_order())),
        &mut || drop(black_box(black_box(engine).model_by_groups())),
        &mut || put_in_and_out(&mut changed, fact),
        &mut || drop(black_box(black_box(other).working_order())),
        &mut || drop(black_box(black_box(other).model_by_groups())),
        &mut || drop(black_box(black_box(other).model())),
    ]);
    times[2] /= 2;
    times.map(micros)
}

/// A put-in that makes a clash beside one that makes none, and verdicts and the listing of the contradictory
/// lesson.
fn print_clashes() {
    println!();
    println!(
        "| book | refused names | put in without a clash, µs | put in with a clash, µs | with / without \
         | verdict given, µs | verdict refused, µs | listing, µs | second's verdict refused, µs |"
    );
    println!("|---|---|---|---|---|---|---|---|---|");
    for clash in clashes() {
        let Clash { label, file, .. } = &clash;
        let (mut engine, mut other) = (Desk::fresh(), second::Desk::fresh());
        engine.load(file).expect("the book loads");
        other.load(file).expect("the book loads");
        engine.put_in(clash.fact).expect("the fact is out");
        let [without, with] = times_of_put_ins(&engine, [clash.other, clash.fact + 1]);
        engine.put_in(clash.fact + 1).expect("the fact is out");
        for fact in [clash.fact, clash.fact + 1] {
            other.put_in(fact).expect("the fact is out");
        }
        let names = other.book().expect("a book is loaded").names.len();
        let refused = |name: &usize| engine.verdict(2 * name).is_err();
        println!(
            "| {label} | {} | {without:.2} | {with:.2} | {} | {} |",
            (0..names).filter(refused).count(),
            ratio(with, without),
            times_beside(&engine, &other, clash.fact, names).join(" | ")
        );
    }
}

/// Microseconds of two put-ins, the first of which makes no clash and the second does. Each is made on a copy
/// of the desk, which takes as long for both.
fn times_of_put_ins(desk: &Desk, facts: [usize; 2]) -> [f64; 2] {
    let put_in = |fact: usize| copy_with(desk, fact);
    let [without, with] = facts.map(|fact| put_in(fact).model().expect("a book is loaded"));
    assert!(!without.contradictory && with.contradictory);
    let mut put_ins = facts.map(|fact| move || keep(put_in(fact)));
    let [one, other] = &mut put_ins;
    times_in_turns([one, other]).map(micros)
}

/// A copy of a desk, with a fact put in.
fn copy_with(desk: &Desk, fact: usize) -> Desk {
    let mut copy = desk.clone();
    copy.put_in(black_box(fact)).expect("the fact is out");
    copy
}

/// Of a contradictory lesson, the microseconds of a verdict that is given, if there is one, of one that is
/// refused and of the listing, and of the second implementation's refused verdict.
fn times_beside(engine: &Desk, other: &second::Desk, clash: usize, names: usize) -> [String; 4] {
    let given = (0..2 * names).find(|&literal| engine.verdict(literal).is_ok());
    let mut buffer = [0; MOST_LISTING];
    let times = times_in_turns([
        &mut || keep(engine.verdict(black_box(given.unwrap_or(clash)))),
        &mut || keep(engine.verdict(black_box(clash))),
        &mut || keep(engine.listing(&mut buffer)),
        &mut || keep(other.verdict(black_box(clash))),
    ]);
    let [given_time, rest @ ..] = times.map(|time| format!("{:.2}", micros(time)));
    let given_time = given.map_or("none".to_string(), |_| given_time);
    let [refused, listing, second] = rest;
    [given_time, refused, listing, second]
}

/// A preview of putting in beside the calls that show the same without it, on one desk and on a copy, and a
/// preview of taking out.
fn print_previews() {
    println!();
    println!(
        "| book | preview of putting in, µs | put in, listing, take out, µs | preview / these \
         | put in on a copy, µs | listing with the fact, µs | preview / put in and listing \
         | preview of taking out, µs |"
    );
    println!("|---|---|---|---|---|---|---|---|");
    for Sample { label, file } in samples() {
        let mut desk = Desk::fresh();
        desk.load(&file).expect("the book loads");
        let [preview, all_three, put_in, listing, of_taking_out] = times_of_previews(&desk);
        println!(
            "| {label} | {preview:.2} | {all_three:.2} | {} | {put_in:.2} | {listing:.2} | {} \
             | {of_taking_out:.2} |",
            ratio(preview, all_three),
            ratio(preview, put_in + listing)
        );
    }
}

/// Microseconds of a preview of putting in, of putting in, listing and taking out on one desk, of putting in on a
/// copy, of the listing there, and of a preview of taking out there.
fn times_of_previews(desk: &Desk) -> [f64; 5] {
    let with = copy_with(desk, FACT);
    let mut changed = desk.clone();
    let [mut one, mut two, mut three, mut four] = [[0; MOST_LISTING]; 4];
    times_in_turns([
        &mut || keep(desk.preview_put_in(black_box(FACT), &mut one)),
        &mut || {
            changed.put_in(black_box(FACT)).expect("the fact is out");
            keep(changed.listing(&mut two));
            changed.take_out(black_box(FACT)).expect("the fact is in");
        },
        &mut || keep(copy_with(desk, FACT)),
        &mut || keep(with.listing(&mut three)),
        &mut || keep(with.preview_take_out(black_box(FACT), &mut four)),
    ])
    .map(micros)
}

/// A proof sheet made and checked beside a change of the facts, which works one model out, and beside the second
/// implementation's.
fn print_sheets() {
    println!();
    println!(
        "| book | entries | make, µs | check, µs | reasons, µs | change, µs | make / change \
         | check / change | second's make, µs | second's check, µs |"
    );
    println!("|---|---|---|---|---|---|---|---|---|---|");
    for Sample { label, file } in samples().into_iter().chain(books_of_many_rounds()) {
        let (mut engine, mut other) = (Desk::fresh(), second::Desk::fresh());
        engine.load(&file).expect("the book loads");
        other.load(&file).expect("the book loads");
        let (claim, sheet) = longest_sheet(&engine, &other);
        let times = times_of_sheets(&engine, &other, claim, &sheet);
        let [make, check, reasons, change, rest @ ..] = times.map(|time| format!("{time:.2}"));
        println!(
            "| {label} | {} | {make} | {check} | {reasons} | {change} | {} | {} | {} |",
            sheet.len(),
            ratio(times[0], times[3]),
            ratio(times[1], times[3]),
            rest.join(" | ")
        );
    }
}

/// Of the claims about literals of a desk's book that are so, the first with the longest sheet of the engine's, and the sheet.
fn longest_sheet(engine: &Desk, other: &second::Desk) -> (Claim, Vec<SheetEntry>) {
    let literals = other.book().expect("a book is loaded").literals();
    let mut run = vec![SheetEntry::default(); MOST_SHEET];
    let mut longest = None;
    for claim in (0..literals).flat_map(Claim::both) {
        if let Ok(count) = engine.make_sheet(claim, &mut run) {
            if longest.is_none_or(|(_, most)| count > most) {
                longest = Some((claim, count));
            }
        }
    }
    let (claim, count) = longest.expect("some claim is so");
    engine
        .make_sheet(claim, &mut run)
        .expect("it was made before");
    run.truncate(count);
    (claim, run)
}

/// Microseconds of a sheet made, one checked, its reasons and a change, and of the second implementation's sheet made
/// and of its check of the engine's sheet.
///
/// The fact that comes and goes is a rule of the book too, where it has one without a body, so that the model stays.
fn times_of_sheets(
    engine: &Desk,
    other: &second::Desk,
    claim: Claim,
    sheet: &[SheetEntry],
) -> [f64; 6] {
    let fact = fact_of(other);
    let mut changed = engine.clone();
    let [mut run, mut second_run] = [[SheetEntry::default(); MOST_SHEET]; 2];
    let mut times = times_in_turns([
        &mut || keep(engine.make_sheet(black_box(claim), &mut run)),
        &mut || keep(engine.check_sheet(black_box(claim), black_box(sheet))),
        &mut || keep(engine.reasons_by(black_box(claim), black_box(sheet))),
        &mut || put_in_and_out(&mut changed, fact),
        &mut || keep(other.make_sheet(black_box(claim), &mut second_run)),
        &mut || keep(other.check_sheet(black_box(claim), black_box(sheet))),
    ]);
    times[3] /= 2;
    times.map(micros)
}

/// A literal to put in and take out: one that a rule without a body has as its head, where there is one.
fn fact_of(desk: &second::Desk) -> usize {
    let book = desk.book().expect("a book is loaded");
    let fact = book.rules.iter().find(|rule| rule.body.is_empty());
    fact.map_or(FACT, |rule| rule.head)
}

/// Sizing beside the load of the same file, in turns. A file without its last line, which is `end`, is
/// refused by 9 after all lines are read: there neither works out a model or keeps a book.
fn print_sizes() {
    println!();
    println!("| file | load, µs | size, µs | size / load |");
    println!("|---|---|---|---|");
    for Sample { label, file } in samples() {
        print_size(label, &file);
        let without_end = file.strip_suffix(b"end\n").expect("a book ends so");
        print_size(&format!("{label}; without `end`"), without_end);
    }
}

fn print_size(label: &str, file: &[u8]) {
    let mut desk = Desk::fresh();
    let (load, size) = times_of(
        || desk.load(black_box(file)),
        || engine::size(black_box(file)),
    );
    let (load, size) = (micros(load), micros(size));
    println!(
        "| {label} | {load:.2} | {size:.2} | {} |",
        ratio(size, load)
    );
}

/// The rows of the calls that change nothing.
fn print_readings(label: &str, engine: &Desk, other: &second::Desk) {
    let model = times_of(|| engine.model(), || other.model());
    print_row(label, "model", model);
    let verdict = times_of(
        || engine.verdict(black_box(0)),
        || other.verdict(black_box(0)),
    );
    print_row(label, "verdict", verdict);
    let (mut buffer, mut second_buffer) = ([0; MOST_LISTING], [0; MOST_LISTING]);
    let listing = times_of(
        || engine.listing(&mut buffer),
        || other.listing(&mut second_buffer),
    );
    print_row(label, "listing", listing);
}

/// The literal that the rows below put in, and how many verdicts a screen has.
const FACT: usize = 1;
const SCREEN: usize = 128;

/// The rows with putting in and taking out. A fact that is put in has to be taken out before it can be put
/// in again, so an accepted call is measured with its reverse.
fn print_changes(label: &str, engine: &mut Desk, other: &mut second::Desk) {
    let change = times_of(|| put_in_and_out(engine, FACT), || second_in_and_out(other));
    print_row(label, "put in and take out", change);
    let literals = other.book().expect("the book is loaded").literals();
    let screen: Vec<usize> = (0..SCREEN).map(|place| place % literals).collect();
    // In a lesson that the fact makes contradictory some are refused by 24, which is an answer as well.
    let verdicts = times_of(
        || {
            engine.put_in(black_box(FACT)).expect("the fact is out");
            for literal in &screen {
                let _ = black_box(engine.verdict(black_box(*literal)));
            }
            engine.take_out(black_box(FACT)).expect("the fact is in");
        },
        || {
            other.put_in(black_box(FACT)).expect("the fact is out");
            for literal in &screen {
                let _ = black_box(other.verdict(black_box(*literal)));
            }
            other.take_out(black_box(FACT)).expect("the fact is in");
        },
    );
    let name = format!("put in, {SCREEN} verdicts, take out");
    print_row(label, &name, verdicts);
    engine.put_in(FACT).expect("the fact is out");
    other.put_in(FACT).expect("the fact is out");
    let refused = times_of(
        || engine.put_in(black_box(FACT)).expect_err("the fact is in"),
        || other.put_in(black_box(FACT)).expect_err("the fact is in"),
    );
    print_row(label, "put in, refused by 22", refused);
}

fn put_in_and_out(desk: &mut Desk, fact: usize) {
    desk.put_in(black_box(fact)).expect("the fact is out");
    desk.take_out(black_box(fact)).expect("the fact is in");
}

fn second_in_and_out(desk: &mut second::Desk) {
    desk.put_in(black_box(FACT)).expect("the fact is out");
    desk.take_out(black_box(FACT)).expect("the fact is in");
}

fn print_searches() {
    println!();
    println!("| book | questions | mean, µs | most, µs | change, µs | mean / change |");
    println!("|---|---|---|---|---|---|");
    for sample in samples().into_iter().chain(other_examples()) {
        print_questions(sample.label, &[sample.file]);
    }
    print_questions("deep: 60 and 60 names", &[deep_file()]);
    let full: Vec<_> = (1..=20).map(full_file).collect();
    print_questions("full: 20 random books, seeds 1 to 20", &full);
}

/// A row for all questions of some books, beside the changes of the same books.
fn print_questions(label: &str, files: &[Vec<u8>]) {
    let all: Vec<Times> = files.iter().map(|file| times_of_questions(file)).collect();
    let of_questions = all.iter().flat_map(|times| &times.questions);
    let questions: Vec<Duration> = of_questions.map(|(_, time)| *time).collect();
    let most = micros(*questions.iter().max().expect("a book has questions"));
    let mean = mean_micros(questions.iter().copied());
    let change = mean_micros(all.iter().map(|times| times.change));
    println!(
        "| {label} | {} | {mean:.2} | {most:.2} | {change:.2} | {} |",
        questions.len(),
        ratio(mean, change)
    );
}

fn mean_micros(times: impl ExactSizeIterator<Item = Duration>) -> f64 {
    let count = times.len() as f64;
    micros(times.sum()) / count
}

/// What the questions of a book take, and a change beside them.
struct Times {
    questions: Vec<(Question, Duration)>,
    /// Half of putting in and taking out, each of which works the model out.
    change: Duration,
}

/// The time of each question T and TU of a book's literals, and that of a change: the least of five
/// means, in turns.
fn times_of_questions(file: &[u8]) -> Times {
    let mut desk = Desk::fresh();
    desk.load(file).expect("the book loads");
    let book = second::read(file).expect("the book loads");
    let both = |literal| [Tree::T, Tree::TU].map(|tree| plain(tree, literal));
    let questions = (0..book.literals()).flat_map(both);
    let mut times = Times {
        questions: questions.map(|asked| (asked, Duration::MAX)).collect(),
        change: Duration::MAX,
    };
    for _ in 0..5 {
        for (question, least) in &mut times.questions {
            let mut ask = || desk.search(black_box(*question));
            *least = mean_of(RUNS_OF_A_QUESTION, &mut ask).min(*least);
        }
        let changes = mean_of(RUNS_OF_A_CALL, &mut || put_in_and_out(&mut desk, FACT));
        times.change = (changes / 2).min(times.change);
    }
    times
}

fn plain(tree: Tree, literal: usize) -> Question {
    Question {
        literal,
        default: false,
        tree,
    }
}

/// The question that a word such as `TU17` names.
fn question_named(word: &str) -> Question {
    let (tree, literal) = match word.strip_prefix("TU") {
        Some(rest) => (Tree::TU, rest),
        None => (Tree::T, word.strip_prefix("T").expect("a call")),
    };
    plain(tree, literal.parse().expect("a literal's number"))
}

/// Makes a call on a thread with this stack, with the book loaded before. Where the stack is too small
/// the process dies.
fn call_on(call: &str, stack: usize) {
    let file = match call {
        "deep" => deep_file(),
        "clash" | "preview-clash" => clash_file(true),
        "make-longest" | "check-longest" => file_of(gen::bound_book(MOST_NAMES)),
        _ => full_file(1),
    };
    let mut desk = Desk::fresh();
    desk.load(&file).expect("the book loads");
    let mut other = second::Desk::fresh();
    other.load(&file).expect("the book loads");
    // Only these calls have a claim, and on the book `bound` it takes long to find.
    let (claim, sheet) = if call.starts_with("make") || call.starts_with("check") {
        longest_sheet(&desk, &other)
    } else {
        (Claim::both(0)[0], Vec::new())
    };
    let mut run = vec![SheetEntry::default(); MOST_SHEET];
    if matches!(call, "clash" | "preview-clash") {
        desk.put_in(0).expect("the fact is out");
    }
    let mut buffer = vec![0; MOST_LISTING];
    let work = || match call {
        "load" => desk.load(&file),
        "size" => engine::size(&file).map(drop),
        "put-in" | "clash" => desk.put_in(FACT),
        "model" => desk.model().map(drop),
        "listing" => desk.listing(&mut buffer).map(drop),
        "preview" | "preview-clash" => desk.preview_put_in(FACT, &mut buffer).map(drop),
        "make" | "make-longest" => desk.make_sheet(claim, &mut run).map(drop),
        "check" | "check-longest" => desk.check_sheet(claim, &sheet),
        "order" => desk.working_order().map(drop),
        "by-groups" => desk.model_by_groups().map(drop),
        "deep" => desk.search(plain(Tree::TU, 0)).map(drop),
        _ => desk.search(question_named(call)).map(drop),
    };
    thread::scope(|scope| {
        let worker = thread::Builder::new()
            .stack_size(stack)
            .spawn_scoped(scope, work)
            .expect("the system gives a thread with this stack");
        let answer = worker.join().expect("the call ends");
        answer.expect("the call isn't turned down");
    });
}

/// Whether a call ends on a stack of this size, tried in a process of its own.
fn ends_on(call: &str, stack: usize) -> bool {
    let this = env::current_exe().expect("the program knows its file");
    let status = Command::new(this)
        .args(["stack", call, &stack.to_string()])
        .stderr(Stdio::null())
        .status()
        .expect("the program starts again");
    status.success()
}

/// The least stack, to 4 KB, on which a call ends.
fn least_stack(call: &str) -> usize {
    const STEP: usize = 4096;
    // No thread has less than 16 KB.
    let (mut too_small, mut enough) = (3, 2048);
    assert!(ends_on(call, enough * STEP), "8 MB hold every call");
    while enough - too_small > 1 {
        let middle = (too_small + enough) / 2;
        if ends_on(call, middle * STEP) {
            enough = middle;
        } else {
            too_small = middle;
        }
    }
    enough * STEP
}

fn print_stack() {
    println!();
    println!("| call | least stack, bytes |");
    println!("|---|---|");
    for (label, call) in [
        ("load of the full random book", "load"),
        ("size of the full random book", "size"),
        ("put in on the full random book", "put-in"),
        ("put in with a clash that all names reach", "clash"),
        ("model of the full random book", "model"),
        ("listing of the full random book", "listing"),
        ("preview of putting in on the full random book", "preview"),
        (
            "preview of putting in with a clash that all names reach",
            "preview-clash",
        ),
        ("proof sheet made on the full random book", "make"),
        ("proof sheet checked on the full random book", "check"),
        ("proof sheet made on the book `bound`", "make-longest"),
        ("proof sheet checked on the book `bound`", "check-longest"),
        ("working order of the full random book", "order"),
        ("model by groups of the full random book", "by-groups"),
        ("search of the deep book, 60 and 60 names", "deep"),
    ] {
        println!("| {label} | {} |", least_stack(call));
    }
    let times = times_of_questions(&full_file(1)).questions;
    let slowest = times.into_iter().max_by_key(|(_, time)| *time);
    let (Question { tree, literal, .. }, _) = slowest.expect("a book has questions");
    let least = least_stack(&format!("{tree:?}{literal}"));
    println!("| the full random book's slowest search: {tree:?}, literal {literal} | {least} |");
}
