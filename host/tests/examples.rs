//! The example books have the listings that stand beside them, and the books of the guide the listings,
//! previews, reasons, figures, answer sets and working orders below them.

use mezhkura::answer::{Change, Claim, Refused, MOST_LISTING};
use mezhkura::reasons::Reasons;
use mezhkura::second::{answer_sets, program_output, read, size, Book, Desk, Program};
use std::collections::{BTreeMap, BTreeSet};
use std::fs;
use std::path::{Path, PathBuf};

fn repository() -> PathBuf {
    Path::new(env!("CARGO_MANIFEST_DIR")).join("..")
}

#[test]
fn examples_have_their_listings() {
    let mut seen = Vec::new();
    for entry in fs::read_dir(repository().join("examples")).expect("the folder examples") {
        let path = entry.expect("an entry of examples").path();
        if path.extension().is_some_and(|ending| ending == "book") {
            let book = fs::read(&path).expect("a book of examples");
            let listing = fs::read_to_string(path.with_extension("listing"))
                .unwrap_or_else(|_| panic!("no listing beside {}", path.display()));
            assert_eq!(program_output(&book), listing, "{}", path.display());
            seen.push(listing);
        }
    }
    assert!(seen.len() >= 4, "{} examples", seen.len());
    // A clash, a name that reaches it, and names that keep their verdicts.
    assert!(seen
        .iter()
        .any(|l| l.starts_with("contradiction,") && l.contains(",true,false\n")));
    assert!(seen.iter().any(|l| l.contains("undefined")));
    assert!(!seen.iter().any(|l| l.starts_with("refused")));
    // The guide says that none of them takes more rounds.
    let rounds = |l: &String| l.split([',', '\n']).nth(4).map(str::to_string);
    assert_eq!(seen.iter().filter_map(rounds).max().as_deref(), Some("2"));
}

/// A block of a page between two lines of three backquotes.
struct Block {
    /// What stands behind the first backquotes.
    kind: String,
    text: String,
    /// The line of the page where the block begins.
    line: usize,
}

fn blocks(page: &str) -> Vec<Block> {
    let mut blocks = Vec::new();
    let mut open: Option<Block> = None;
    for (number, line) in page.lines().enumerate() {
        match (line.strip_prefix("```"), open.as_mut()) {
            (Some(kind), None) => {
                open = Some(Block {
                    kind: kind.to_string(),
                    text: String::new(),
                    line: number + 1,
                });
            }
            (Some(_), Some(_)) => blocks.extend(open.take()),
            (None, Some(block)) => block.text += &format!("{line}\n"),
            (None, None) => {}
        }
    }
    assert!(open.is_none(), "every block is closed");
    blocks
}

/// A desk with a book and facts, spelt as in rules.
fn desk_with(book: &[u8], facts: &str) -> Desk {
    let mut desk = Desk::fresh();
    desk.load(book).expect("the book loads");
    for fact in facts.lines() {
        desk.put_in(literal_of(&desk, fact))
            .expect("the fact is put in once");
    }
    desk
}

/// The number of a literal of a desk's book, spelt as in rules.
fn literal_of(desk: &Desk, spelt: &str) -> usize {
    let name = spelt.trim_start_matches('-');
    let number = desk.book().and_then(|book| book.number_of(name));
    let number = number.unwrap_or_else(|| panic!("{name} is declared"));
    2 * number + usize::from(spelt.starts_with('-'))
}

/// The lines of an example's listing whose verdicts are refused by 24.
fn contradictory_lines(path: &str, facts: &str) -> String {
    let listing = listing_with_facts(&example(path), facts);
    let lines = listing
        .lines()
        .filter(|line| line.ends_with(",contradictory"));
    lines.map(|line| format!("{line}\n")).collect()
}

/// The listing of a book after facts were put in.
fn listing_with_facts(book: &[u8], facts: &str) -> String {
    let desk = desk_with(book, facts);
    written(|buffer| desk.listing(buffer)).expect("the buffer is long")
}

/// What a call writes into a long buffer.
fn written(call: impl FnOnce(&mut [u8]) -> Result<usize, Refused>) -> Result<String, Refused> {
    let mut buffer = vec![0; MOST_LISTING];
    let length = call(&mut buffer)?;
    Ok(String::from_utf8(buffer[..length].to_vec()).expect("a listing is ASCII"))
}

/// The preview of a change of a literal, spelt as in rules, or the number and the words of its refusal.
fn preview_of(desk: &Desk, change: Change, spelt: &str) -> String {
    let literal = literal_of(desk, spelt);
    written(|buffer| desk.preview(change, literal, buffer))
        .unwrap_or_else(|refused| format!("{refused}\n"))
}

/// The reasons of a claim, as "may_park is true", or the number and the words of its refusal. Reasons differ with the
/// sheet that they are made from: the guide shows those of the engine's sheets.
fn reasons_of(desk: &Desk, claim: &str) -> String {
    let (spelt, truth) = claim.split_once(" is ").expect("a claim");
    let claim = Claim {
        literal: literal_of(desk, spelt),
        truth: truth == "true",
    };
    let told = engine_reasons(desk, claim).map(|reasons| reasons.to_string());
    told.unwrap_or_else(|refused| format!("{refused}\n"))
}

#[cfg(feature = "engine")]
fn engine_reasons(desk: &Desk, claim: Claim) -> Result<Reasons, Refused> {
    let mut engine = mezhkura::engine::Desk::fresh();
    let book = desk.book().expect("a book is loaded");
    engine.load(book.to_file().as_bytes())?;
    desk.facts()
        .iter()
        .try_for_each(|&fact| engine.put_in(fact))?;
    engine.reasons(claim)
}

/// Without the engine the second implementation stands in for it, and what the guide shows is not compared.
#[cfg(not(feature = "engine"))]
fn engine_reasons(desk: &Desk, claim: Claim) -> Result<Reasons, Refused> {
    desk.reasons(claim)
}

/// The names of a desk's book in working order, a line for each group.
fn order_of(desk: &Desk) -> Vec<String> {
    let book = desk.book().expect("a book is loaded");
    let order = desk.working_order().expect("a book is loaded");
    let line = |group: &Vec<usize>| {
        let names: Vec<&str> = group.iter().map(|&n| book.names[n].as_str()).collect();
        names.join(", ") + "\n"
    };
    order.groups.iter().map(line).collect()
}

fn example(path: &str) -> Vec<u8> {
    fs::read(repository().join(path)).expect("a book of examples")
}

fn figures(file: &[u8]) -> String {
    let size = size(file).expect("the file isn't refused");
    format!("{size}\n")
}

/// The answer sets of a book without facts, a line for each, or `none`.
fn answer_sets_of(book: &str) -> String {
    let book = read(book.as_bytes()).expect("the book loads");
    let sets = answer_sets(&Program::new(&book, &BTreeSet::new()));
    if sets.is_empty() {
        return "none\n".to_string();
    }
    sets.iter().map(|set| set_line(&book, set)).collect()
}

fn set_line(book: &Book, set: &BTreeSet<usize>) -> String {
    let spelt = |&literal: &usize| {
        let mark = if literal % 2 == 1 { "-" } else { "" };
        format!("{mark}{}", book.names[literal / 2])
    };
    let members: Vec<String> = set.iter().map(spelt).collect();
    format!("{{{}}}\n", members.join(", "))
}

/// What the blocks of a page say so far: a book, and facts that stay until the next book.
#[derive(Default)]
struct Said {
    book: String,
    facts: String,
}

impl Said {
    /// What kind of thing a block shows and what has to stand in it, or nothing where it says something.
    fn due(&mut self, block: &Block) -> Option<(&'static str, String)> {
        match block.kind.as_str() {
            "book" => self.begin(&block.text),
            "book without the last line end" => {
                self.begin(block.text.strip_suffix('\n').unwrap_or(""));
            }
            "put-in" => self.facts = block.text.clone(),
            kind => return Some(self.shown(kind, block)),
        }
        None
    }

    /// A book without facts.
    fn begin(&mut self, book: &str) {
        self.book = book.to_string();
        self.facts.clear();
    }

    /// The same of a block that shows something.
    fn shown(&self, kind: &str, block: &Block) -> (&'static str, String) {
        let (book, facts) = (self.book.as_bytes(), &self.facts);
        let preview = |change, spelt| preview_of(&desk_with(book, facts), change, spelt);
        match kind {
            "listing" if facts.is_empty() => ("listing", program_output(book)),
            "listing" => ("listing", listing_with_facts(book, facts)),
            "answer-sets" => ("answer sets", answer_sets_of(&self.book)),
            "size" => ("size", figures(book)),
            "order" => ("order", order_of(&desk_with(book, facts)).concat()),
            _ => {
                if let Some(spelt) = kind.strip_prefix("preview of putting in ") {
                    ("preview", preview(Change::PutIn, spelt))
                } else if let Some(spelt) = kind.strip_prefix("preview of taking out ") {
                    ("preview", preview(Change::TakeOut, spelt))
                } else if let Some(claim) = kind.strip_prefix("why ") {
                    let (claim, desk) = match claim.split_once(" in ") {
                        Some((claim, path)) => (claim, desk_with(&example(path), "")),
                        None => (claim, desk_with(book, facts)),
                    };
                    ("reasons", reasons_of(&desk, claim))
                } else if let Some(path) = kind.strip_prefix("size of ") {
                    ("size", figures(&example(path)))
                } else if let Some(path) = kind.strip_prefix("contradictory lines of ") {
                    ("contradictory lines", contradictory_lines(path, facts))
                } else if let Some(path) = kind.strip_prefix("end of the order of ") {
                    let order = order_of(&desk_with(&example(path), ""));
                    let lines = block.text.lines().count();
                    ("order", order[order.len() - lines..].concat())
                } else {
                    panic!("BOOKS.md, line {}: a block `{kind}`", block.line)
                }
            }
        }
    }
}

#[test]
fn books_of_the_guide_have_what_stands_below_them() {
    let page = fs::read_to_string(repository().join("docs/BOOKS.md")).expect("the guide");
    let mut said = Said::default();
    let mut shown: BTreeMap<&str, usize> = BTreeMap::new();
    for block in blocks(&page) {
        if let Some((kind, due)) = said.due(&block) {
            if kind != "reasons" || cfg!(feature = "engine") {
                assert_eq!(due, block.text, "BOOKS.md, line {}", block.line);
            }
            *shown.entry(kind).or_default() += 1;
        }
    }
    println!("{shown:?}");
    assert!(shown["listing"] >= 20, "{shown:?}");
    for kind in ["preview", "reasons", "size", "answer sets", "order"] {
        assert!(shown[kind] >= 3, "{shown:?}");
    }
}

/// The guide counts the groups of the eleven axles, and says where one name stands.
#[test]
fn the_guide_is_right_about_the_order_of_the_eleven_axles() {
    let order = order_of(&desk_with(&example("examples/eleven_axles.book"), ""));
    let place = order.iter().position(|line| line == "abs_warning\n");
    let several = order.iter().filter(|line| line.contains(','));
    assert_eq!(order.len(), 79);
    assert_eq!(place, Some(49));
    assert_eq!(Vec::from_iter(several), ["slow_to_yard, stop_at_once\n"]);
}

/// The guide says how many names of the eleven axles reach one clash.
#[test]
fn the_guide_is_right_about_a_clash_of_the_eleven_axles() {
    let (path, facts) = ("examples/eleven_axles.book", "-coupled\n");
    assert_eq!(contradictory_lines(path, facts).lines().count(), 3);
    let listing = listing_with_facts(&example(path), facts);
    assert_eq!(listing.lines().count(), 1 + 80);
}

/// The guide has an example for each number that a short file can meet.
#[test]
fn the_guide_shows_every_refusal_of_a_short_file() {
    let page = fs::read_to_string(repository().join("docs/BOOKS.md")).expect("the guide");
    for number in 1..=9 {
        assert!(page.contains(&format!("### {number}: ")), "{number}");
        assert!(page.contains(&format!("refused,{number},")), "{number}");
    }
}
