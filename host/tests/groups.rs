//! The second implementation's working order and model by groups, held against the words of document 02,
//! A.5.

use mezhkura::answer::{ModelByGroups, Refused};
use mezhkura::gen::{self, Random, MIDDLE, SMALL};
use mezhkura::second::{reach, read, working_order, Book, Desk, MOST_NAMES};

/// The seed of the random books; another can be set by hand.
fn seed() -> u64 {
    match std::env::var("MEZHKURA_SEED") {
        Ok(text) => text.parse().expect("MEZHKURA_SEED is a number"),
        Err(_) => 31,
    }
}

/// Which names a name reaches, without a search: the least relation that has each name with itself, each
/// name with the names in the bodies of its rules, and with two steps also the one over both.
fn reach_by_steps(book: &Book) -> Vec<Vec<bool>> {
    let names = book.names.len();
    let mut reached = vec![vec![false; names]; names];
    for (name, row) in reached.iter_mut().enumerate() {
        row[name] = true;
    }
    for rule in &book.rules {
        for entry in &rule.body {
            reached[rule.head / 2][entry.literal / 2] = true;
        }
    }
    for middle in 0..names {
        let behind = reached[middle].clone();
        for row in reached.iter_mut().filter(|row| row[middle]) {
            row.iter_mut()
                .zip(&behind)
                .for_each(|(one, two)| *one |= two);
        }
    }
    reached
}

/// The groups of a book in working order, after each sentence of the request is looked at.
fn checked_order(book: &Book) -> Vec<Vec<usize>> {
    let names = book.names.len();
    let reached = reach_by_steps(book);
    let file = book.to_file();
    assert_eq!(reach(names, &book.rules), reached, "{file}");
    let order = working_order(names, &reached);
    let mut listed: Vec<usize> = order.concat();
    assert!(
        order.iter().all(|group| group.is_sorted()),
        "{order:?} of\n{file}"
    );
    for (place, group) in order.iter().enumerate() {
        check_place(&order, place, &reached).unwrap_or_else(|fault| {
            panic!("{group:?} in {order:?} {fault}:\n{file}");
        });
    }
    listed.sort();
    assert_eq!(listed, Vec::from_iter(0..names), "{file}");
    order
}

/// A group has the names that reach each other and no others; what else it reaches comes earlier; and a
/// later group with a lower name could not have come in its place.
fn check_place(
    order: &[Vec<usize>],
    place: usize,
    reached: &[Vec<bool>],
) -> Result<(), &'static str> {
    let group = &order[place];
    let earlier = order[..place].concat();
    let later = &order[place + 1..];
    let names = 0..reached.len();
    let together = |one: usize, other: usize| reached[one][other] && reached[other][one];
    if group.is_empty() {
        return Err("has no name");
    }
    for &name in group {
        if !names
            .clone()
            .all(|other| together(name, other) == group.contains(&other))
        {
            return Err("isn't the names that reach each other");
        }
    }
    let waits = |group: &[usize]| {
        names.clone().any(|name| {
            reached[group[0]][name] && !group.contains(&name) && !earlier.contains(&name)
        })
    };
    if waits(group) {
        return Err("comes before what it reaches");
    }
    if later
        .iter()
        .any(|other| other[0] < group[0] && !waits(other))
    {
        return Err("comes before a lower one that may come");
    }
    Ok(())
}

#[test]
fn orders_are_those_of_the_request() {
    let mut random = Random::new(seed());
    let (mut several, mut moved) = (0, 0);
    for turn in 0..4_000 {
        let size = if turn % 4 == 0 { MIDDLE } else { SMALL };
        let order = checked_order(&gen::book(&mut random, size));
        several += usize::from(order.iter().any(|group| group.len() > 1));
        moved += usize::from(!order.concat().is_sorted());
    }
    println!("{several} with a group of several names, {moved} not by number");
    assert!(several > 800 && moved > 400);
    for book in gen::books_in_groups(&mut random) {
        checked_order(&book);
    }
    for _ in 0..5 {
        checked_order(&gen::full_book(&mut random));
    }
    gen::shaped_books().iter().for_each(|book| {
        checked_order(book);
    });
}

#[test]
fn groups_are_those_that_a_book_is_made_of() {
    let mut random = Random::new(seed() + 1);
    for turn in 0..600 {
        let names = if turn % 50 == 0 {
            MOST_NAMES
        } else {
            random.between(1, 20)
        };
        let largest = random.between(1, names);
        let made = gen::book_in_groups(&mut random, names, largest, 5);
        assert_eq!(made.book.rules.len(), 4 * names);
        assert_eq!(made.book.body_literals(), 16 * names);
        assert_eq!(read(made.book.to_file().as_bytes()), Ok(made.book.clone()));
        let mut groups = made.groups;
        groups.iter_mut().for_each(|group| group.sort());
        groups.sort();
        let mut listed = checked_order(&made.book);
        listed.sort();
        assert_eq!(listed, groups, "{}", made.book.to_file());
    }
}

/// Bodies of lower names alone give the order by number, those of higher ones the same order from its
/// end, and the books of most rounds one group, and as many as there are names.
#[test]
fn orders_of_long_books_are_known() {
    let mut random = Random::new(seed() + 2);
    let upwards: Vec<Vec<usize>> = (0..MOST_NAMES).map(|name| vec![name]).collect();
    let downwards: Vec<Vec<usize>> = upwards.iter().rev().cloned().collect();
    assert_eq!(
        checked_order(&gen::one_way_book(&mut random, true)),
        upwards
    );
    assert_eq!(
        checked_order(&gen::one_way_book(&mut random, false)),
        downwards
    );
    assert_eq!(checked_order(&gen::long_model_book()), downwards);
    assert_eq!(checked_order(&gen::rounds_book(MOST_NAMES)), upwards);
    let one = Vec::from_iter(0..MOST_NAMES);
    assert_eq!(checked_order(&gen::bound_book(MOST_NAMES)), [one]);
}

fn desk_with(book: &Book, facts: &[usize]) -> Desk {
    let mut desk = Desk::fresh();
    desk.load(book.to_file().as_bytes())
        .expect("the book loads");
    for &fact in facts {
        // A literal put in twice is refused: that is no matter.
        let _ = desk.put_in(fact);
    }
    desk
}

/// The model by groups is M and N of the whole, and facts leave the order as it is. Answers whether the
/// lesson is contradictory, and whether something is undefined.
fn check_model(book: &Book, facts: &[usize]) -> (bool, bool) {
    let (desk, without) = (desk_with(book, facts), desk_with(book, &[]));
    let whole = desk.model().expect("a book is loaded");
    let undefined = !whole.nonfalse.is_subset(&whole.truths);
    let contradictory = whole.contradictory;
    let input = || format!("{}facts {facts:?}", book.to_file());
    assert_eq!(
        desk.model_by_groups(),
        Ok(ModelByGroups::from(whole)),
        "{}",
        input()
    );
    assert_eq!(desk.working_order(), without.working_order(), "{}", input());
    (contradictory, undefined)
}

#[test]
fn models_by_groups_are_those_of_the_whole() {
    let mut random = Random::new(seed() + 3);
    let (mut contradictory, mut undefined) = (0, 0);
    let mut check = |random: &mut Random, book: &Book| {
        let mut facts = gen::some_literals(random, book);
        // Many facts make a small book contradictory.
        facts.truncate(book.names.len() / 4);
        let (clash, open) = check_model(book, &facts);
        contradictory += usize::from(clash);
        undefined += usize::from(open);
    };
    for turn in 0..6_000 {
        let book = match turn % 4 {
            0 => gen::book(&mut random, SMALL),
            1 => gen::book_with_rounds(&mut random),
            _ => gen::small_book_in_groups(&mut random),
        };
        check(&mut random, &book);
    }
    for _ in 0..4 {
        let mut books = gen::books_in_groups(&mut random);
        books.push(gen::full_book(&mut random));
        books.iter().for_each(|book| check(&mut random, book));
    }
    println!("{contradictory} contradictory, {undefined} with something undefined");
    assert!(contradictory > 800 && undefined > 800);
}

/// The groups of a book that a file says.
fn order_of(file: &str) -> Vec<Vec<usize>> {
    let mut desk = Desk::fresh();
    desk.load(file.as_bytes()).expect("the file loads");
    desk.working_order().expect("a book is loaded").groups
}

#[test]
fn orders_of_short_books() {
    let cases: [(&str, &[&[usize]]); 10] = [
        ("", &[]),
        ("name,a\nend\n", &[&[0]]),
        ("name,a\nname,b\nend\n", &[&[0], &[1]]),
        ("name,a\nname,b\nrule,a,b\nend\n", &[&[1], &[0]]),
        ("name,a\nname,b\nrule,-a,~-b\nend\n", &[&[1], &[0]]),
        ("name,a\nname,b\nrule,b,a\nend\n", &[&[0], &[1]]),
        ("name,a\nname,b\nrule,a,~b\nrule,-b,a\nend\n", &[&[0, 1]]),
        // A name between two of a group, and one that waits for the group.
        (
            "name,a\nname,b\nname,c\nname,d\nrule,a,c\nrule,c,d\nrule,d,a\nrule,b,d\nend\n",
            &[&[0, 2, 3], &[1]],
        ),
        // The lowest name that may come, and not the lowest of those that wait.
        (
            "name,a\nname,b\nname,c\nname,d\nrule,a,d\nrule,c,b\nend\n",
            &[&[1], &[2], &[3], &[0]],
        ),
        // A group comes by its lowest name: here a is lower than c, and b waits for a.
        (
            "name,a\nname,b\nname,c\nname,d\nrule,a,~d\nrule,d,~a\nrule,b,a\nend\n",
            &[&[0, 3], &[1], &[2]],
        ),
    ];
    for (file, groups) in cases {
        assert_eq!(order_of(file), groups, "{file}");
    }
}

/// Case 1 of document 01: `moving` and `locked` are each other's exception, and `fault` waits for them
/// and for `stalled`.
#[test]
fn order_of_case_1() {
    let file = "name,moving\nname,locked\nname,fault\nname,stalled\n\
        rule,moving,~locked\nrule,locked,~moving\nrule,fault,moving,~stalled\n\
        rule,-locked\nrule,stalled,~stalled\nend\n";
    let mut desk = Desk::fresh();
    assert_eq!(desk.working_order(), Err(Refused::NoBook));
    assert_eq!(desk.model_by_groups(), Err(Refused::NoBook));
    desk.load(file.as_bytes()).expect("the file loads");
    let order = desk.working_order().expect("a book is loaded");
    assert_eq!(order.groups, [vec![0, 1], vec![3], vec![2]]);
    assert_eq!(Vec::from_iter(order.names()), [0, 1, 3, 2]);
}
