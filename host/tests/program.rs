//! The listing program compared with the second implementation: examples, edges, random and damaged
//! files. The tests say so and pass where the program isn't built and nothing forbids skipping.

mod skip;

use mezhkura::answer::MOST_LISTING;
use mezhkura::gen::{self, Random, FULL, SMALL};
use mezhkura::second::{program_output, MOST_NAMES};
use mezhkura::shrink::shortest_file;
use std::fs;
use std::io::Write;
use std::path::{Path, PathBuf};
use std::process::{Command, Stdio};
use std::thread;

fn repository() -> PathBuf {
    Path::new(env!("CARGO_MANIFEST_DIR")).join("..")
}

/// The program, or nothing with a message where it isn't built.
fn program() -> Option<PathBuf> {
    let path = match std::env::var_os("MEZHKURA_LISTING") {
        Some(path) => PathBuf::from(path),
        None => repository().join("crates/listing/out/listing"),
    };
    if !path.exists() {
        skip::skipped(&format!(
            "no {}: run `rt run` in crates/listing first",
            path.display()
        ));
        return None;
    }
    Some(path)
}

/// What the program prints for a file on standard input.
fn printed(program: &Path, file: &[u8]) -> String {
    let mut child = Command::new(program)
        .stdin(Stdio::piped())
        .stdout(Stdio::piped())
        .spawn()
        .expect("the program starts");
    let mut input = child.stdin.take().expect("standard input is a pipe");
    let bytes = file.to_vec();
    // The program may end before it has read all of a long file, so a failing write is no matter.
    let writer = thread::spawn(move || {
        let _ = input.write_all(&bytes);
    });
    let output = child.wait_with_output().expect("the program ends");
    writer.join().expect("the writer ends");
    assert!(
        output.status.success(),
        "the program ended with {}",
        output.status
    );
    String::from_utf8_lossy(&output.stdout).into_owned()
}

fn compare(program: &Path, file: &[u8]) {
    if printed(program, file) == program_output(file) {
        return;
    }
    let short = shortest_file(file, &mut |f| printed(program, f) != program_output(f));
    panic!(
        "the program and the second implementation differ\ninput: \"{}\"\nprogram: {}\nsecond: {}",
        short.escape_ascii(),
        printed(program, &short),
        program_output(&short)
    );
}

#[test]
fn examples_agree() {
    let Some(program) = program() else { return };
    for entry in fs::read_dir(repository().join("examples")).expect("the folder examples") {
        let path = entry.expect("an entry of examples").path();
        if path.extension().is_some_and(|ending| ending == "book") {
            compare(&program, &fs::read(path).expect("a book of examples"));
        }
    }
}

#[test]
fn edges_agree() {
    let Some(program) = program() else { return };
    let files = gen::edge_files();
    for file in &files {
        compare(&program, file);
    }
    println!("{} files at edges agree", files.len());
}

#[test]
fn random_and_damaged_files_agree() {
    let Some(program) = program() else { return };
    let seed = std::env::var("MEZHKURA_SEED").map_or(71, |s| s.parse().expect("a number"));
    let mut random = Random::new(seed);
    for _ in 0..600 {
        compare(&program, &gen::file(&mut random, SMALL));
    }
    for _ in 0..60 {
        compare(&program, &gen::file(&mut random, FULL));
        let full = gen::full_book_file(&mut random);
        compare(&program, &full);
        compare(&program, &gen::damaged(&mut random, &full));
    }
    println!("780 random and damaged files agree");
}

/// These listings have every count of rounds from 1 to 128, and the even ones to 256.
#[test]
fn books_of_many_rounds_agree() {
    let Some(program) = program() else { return };
    for names in 1..=MOST_NAMES {
        for book in [gen::bound_book(names), gen::rounds_book(names)] {
            compare(&program, book.to_file().as_bytes());
        }
    }
    compare(&program, gen::slow_book().to_file().as_bytes());
}

/// Document 02, A.7. The program puts in no facts, so this listing has two digits fewer than the longest one.
#[test]
fn the_longest_listing_agrees() {
    let Some(program) = program() else { return };
    let file = gen::longest_listing().0.to_file();
    assert_eq!(program_output(file.as_bytes()).len(), MOST_LISTING - 2);
    compare(&program, file.as_bytes());
}

/// The edges reach every number, so that the comparison above looks at all of them.
#[test]
fn edges_reach_every_number() {
    let printed: Vec<String> = gen::edge_files()
        .iter()
        .map(|f| program_output(f))
        .collect();
    for number in [1, 2, 3, 4, 5, 6, 7, 8, 9] {
        let start = format!("refused,{number},");
        assert!(printed.iter().any(|p| p.starts_with(&start)), "{number}");
    }
    assert!(printed.iter().any(|p| p.starts_with("model,128,")));
}
