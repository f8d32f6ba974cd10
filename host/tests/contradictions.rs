//! Contradictory lessons of the second implementation (document 02, A.7): what is listed, and where a clash
//! comes from.

use mezhkura::answer::{Refused, MOST_LISTING};
use mezhkura::gen::{self, Random};
use mezhkura::second::{word, Desk, Program};

/// The seed of the random books; another can be set by hand.
fn seed() -> u64 {
    match std::env::var("MEZHKURA_SEED") {
        Ok(text) => text.parse().expect("MEZHKURA_SEED is a number"),
        Err(_) => 77,
    }
}

/// A desk after a list of calls with clashes.
fn desk_with_clashes(random: &mut Random, most_names: usize) -> Desk {
    let mut desk = Desk::fresh();
    for call in gen::calls_on_clashes(random, most_names) {
        // A literal put in twice, or taken out twice, is refused: that is no matter.
        match call {
            gen::Call::Load(file) => desk.load(&file).expect("the book loads"),
            gen::Call::PutIn(literal) => drop(desk.put_in(literal)),
            gen::Call::TakeOut(literal) => drop(desk.take_out(literal)),
            _ => {}
        }
    }
    desk
}

fn listing_of(desk: &Desk) -> String {
    let mut buffer = [0; MOST_LISTING];
    let length = desk.listing(&mut buffer).expect("the buffer is long");
    String::from_utf8(buffer[..length].to_vec()).expect("a listing is ASCII")
}

/// Each line has the words of both verdicts, whichever header there is, and where one of a name's verdicts is
/// refused the other one is.
#[test]
fn listings_have_the_word_where_24_is_given() {
    let mut random = Random::new(seed() + 2);
    let mut in_part = 0;
    for _ in 0..1_000 {
        let desk = desk_with_clashes(&mut random, 12);
        let text = listing_of(&desk);
        let contradictory = desk.model().expect("a book is loaded").contradictory;
        let book = desk.book().expect("a book is loaded");
        let start = match contradictory {
            true => "contradiction,",
            false => "model,",
        };
        assert!(text.starts_with(start), "{text}");
        let mut lines = text.lines().skip(1);
        let mut refused = 0;
        for (number, name) in book.names.iter().enumerate() {
            let verdicts = [2 * number, 2 * number + 1].map(|literal| desk.verdict(literal));
            let [plain, negated] = verdicts.map(word);
            let line = format!("{number},{name},{plain},{negated}");
            assert_eq!(lines.next(), Some(line.as_str()), "{text}");
            assert_eq!(verdicts[0].is_err(), verdicts[1].is_err(), "{text}");
            refused += usize::from(verdicts[0] == Err(Refused::Contradictory));
        }
        assert_eq!(lines.next(), None, "{text}");
        assert_eq!(refused > 0, contradictory, "{text}");
        in_part += usize::from(0 < refused && refused < book.names.len());
    }
    println!("{in_part} contradictory in part");
    assert!(in_part > 300);
}

/// The guide says so: in working order the first group with a contradictory name has a name with both
/// literals in M, and all groups before it have their verdicts.
#[test]
fn the_first_contradictory_group_has_a_clash_of_its_own() {
    let mut random = Random::new(seed() + 3);
    let (mut found, mut not_in_the_header) = (0, 0);
    for _ in 0..1_000 {
        let desk = desk_with_clashes(&mut random, 12);
        let order = desk.working_order().expect("a book is loaded");
        let refused = |name: &usize| desk.verdict(2 * name).is_err();
        let Some(group) = order.groups.iter().find(|group| group.iter().any(refused)) else {
            continue;
        };
        let book = desk.book().expect("a book is loaded");
        let halves = Program::new(book, desk.facts()).halves();
        let own = group.iter().any(|&name| halves.has_both(name));
        assert!(own, "{group:?} of\n{}{:?}", book.to_file(), desk.facts());
        let header = (0..book.names.len()).find(|&name| halves.has_both(name));
        found += 1;
        not_in_the_header += usize::from(!header.is_some_and(|name| group.contains(&name)));
    }
    println!("{found} contradictory, {not_in_the_header} with another name in the header");
    assert!(found > 300 && not_in_the_header > 30);
}
