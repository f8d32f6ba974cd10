//! Books, files and lists of calls from a seed. The same seed gives the same values everywhere.

pub mod sheets;

use crate::answer::{Change, Claim, Question, SheetEntry, Tree};
use crate::second::{complement, Book, Desk, Entry, Rule};
use crate::second::{MOST_BODY_LITERALS, MOST_IN_A_BODY, MOST_NAMES, MOST_RULES};
use std::fmt;

/// A generator of numbers: xorshift of 64 bits with a multiplication at the end.
#[derive(Clone, Debug)]
pub struct Random(u64);

impl Random {
    pub fn new(seed: u64) -> Random {
        // The state is never 0, and neighbouring seeds start far apart.
        let mut random = Random(seed.wrapping_mul(0x9E37_79B9_7F4A_7C15) | 1);
        for _ in 0..8 {
            random.word();
        }
        random
    }

    pub fn word(&mut self) -> u64 {
        self.0 ^= self.0 >> 12;
        self.0 ^= self.0 << 25;
        self.0 ^= self.0 >> 27;
        self.0.wrapping_mul(0x2545_F491_4F6C_DD1D)
    }

    /// A number below `bound`, or 0 where `bound` is 0.
    pub fn below(&mut self, bound: usize) -> usize {
        if bound == 0 {
            return 0;
        }
        ((self.word() >> 32) as usize) % bound
    }

    /// A number from `low` to `high`, both included.
    pub fn between(&mut self, low: usize, high: usize) -> usize {
        low + self.below(high - low + 1)
    }

    /// Yes in `part` of `whole` cases.
    pub fn chance(&mut self, part: usize, whole: usize) -> bool {
        self.below(whole) < part
    }

    pub fn pick<T: Copy>(&mut self, choices: &[T]) -> T {
        choices[self.below(choices.len())]
    }
}

/// Names of a truck school, the one for each number of a book.
pub(crate) fn name(number: usize) -> String {
    const WORDS: [&str; 8] = [
        "brake", "axle", "light", "load", "mirror", "belt", "speed", "gap",
    ];
    let word = WORDS[number % WORDS.len()];
    if number < WORDS.len() {
        word.to_string()
    } else {
        format!("{word}_{}", number / WORDS.len())
    }
}

/// How large a random book may be.
#[derive(Clone, Copy, Debug)]
pub struct Size {
    pub names: usize,
    pub rules: usize,
    /// Body literals of one rule.
    pub body: usize,
}

/// Small enough that plain trees end.
pub const SMALL: Size = Size {
    names: 4,
    rules: 9,
    body: 3,
};

/// Trees of most of these books end within a few thousand visits.
pub const MIDDLE: Size = Size {
    names: 7,
    rules: 16,
    body: 4,
};

/// The limits of document 01.
pub const FULL: Size = Size {
    names: MOST_NAMES,
    rules: MOST_RULES,
    body: MOST_IN_A_BODY,
};

/// A book of at most this size.
pub fn book(random: &mut Random, size: Size) -> Book {
    let names = random.below(size.names + 1);
    let rules = random.below(size.rules + 1);
    let mut room = MOST_BODY_LITERALS;
    let lengths: Vec<usize> = (0..rules)
        .map(|_| {
            let length = random.below(size.body.min(room) + 1);
            room -= length;
            length
        })
        .collect();
    book_of(random, names, &lengths)
}

/// A book with all names, rules and body literals that a file may have.
pub fn full_book(random: &mut Random) -> Book {
    let lengths = lengths_of(random, MOST_RULES, MOST_BODY_LITERALS / MOST_RULES);
    book_of(random, MOST_NAMES, &lengths)
}

/// Lengths of so many bodies, with this mean.
fn lengths_of(random: &mut Random, count: usize, mean: usize) -> Vec<usize> {
    let mut lengths = vec![mean; count];
    // Moving a body literal from rule to rule keeps their number.
    for _ in 0..4 * count {
        let (from, to) = (random.below(count), random.below(count));
        if lengths[from] > 0 && lengths[to] < MOST_IN_A_BODY {
            lengths[from] -= 1;
            lengths[to] += 1;
        }
    }
    lengths
}

/// A book with pairs of literals that are each other's exception, and some rules more, each with a body.
/// Many such books have several answer sets. There are few names, so that every set of literals can be
/// tried.
fn book_with_circles(random: &mut Random) -> Book {
    let names = random.between(2, 6);
    let lengths: Vec<usize> = (0..random.below(6)).map(|_| random.between(1, 3)).collect();
    let mut book = book_of(random, names, &lengths);
    for _ in 0..random.between(1, 3) {
        let (one, other) = (random.below(2 * names), random.below(2 * names));
        for (head, exception) in [(one, other), (other, one)] {
            let body = vec![default(exception)];
            book.rules.push(Rule { head, body });
        }
    }
    book
}

/// A book with so many names, most of which reach few others: most bodies are of names that come before in
/// some order. A clash leaves some names of such a book with their verdicts.
pub fn book_of_few_reached(random: &mut Random, names: usize) -> Book {
    let mut order: Vec<usize> = (0..names).collect();
    shuffle(random, &mut order);
    let negated = random.pick(NEGATED);
    let mut rules = Vec::new();
    for (place, &head) in order.iter().enumerate() {
        for _ in 0..random.below(3) {
            let among = match random.chance(1, 8) {
                true => &order[..],
                false => &order[..place],
            };
            let length = random.between(1, 2).min(among.len());
            rules.push(rule_among(random, head, among, length, negated));
        }
    }
    shuffle(random, &mut rules);
    Book {
        names: (0..names).map(name).collect(),
        rules,
    }
}

/// A book with so many names, and a rule for each length of a body.
fn book_of(random: &mut Random, names: usize, lengths: &[usize]) -> Book {
    let negated = random.pick(NEGATED);
    let lengths = if names == 0 { &[] } else { lengths };
    Book {
        names: (0..names).map(name).collect(),
        rules: lengths
            .iter()
            .map(|&length| rule_of(random, names, length, negated))
            .collect(),
    }
}

/// In how many of 16 literals `-` stands. In some books it is rare or absent, so that many of them
/// aren't contradictory.
const NEGATED: &[usize] = &[0, 1, 3, 8];

fn rule_of(random: &mut Random, names: usize, length: usize, negated: usize) -> Rule {
    let head = literal_of(random, names, negated);
    let body = (0..length)
        .map(|_| Entry {
            literal: literal_of(random, names, negated),
            default: random.chance(1, 2),
        })
        .collect();
    Rule { head, body }
}

/// A rule of a book with so many names, with few body literals.
pub(crate) fn some_rule(random: &mut Random, names: usize) -> Rule {
    let length = random.below(3);
    rule_of(random, names, length, 8)
}

/// A literal that has `-` in `negated` of 16 cases.
fn literal_of(random: &mut Random, names: usize, negated: usize) -> usize {
    let name = random.below(names);
    signed(random, name, negated)
}

/// The same of one name.
fn signed(random: &mut Random, name: usize, negated: usize) -> usize {
    2 * name + usize::from(random.chance(negated, 16))
}

/// A book whose model takes many rounds: each name holds unless the next one is shown, and for each
/// name there are three rules more that never apply.
pub fn long_model_book() -> Book {
    let names = MOST_NAMES;
    let mut book = Book {
        names: (0..names).map(name).collect(),
        rules: Vec::new(),
    };
    for n in 0..names - 1 {
        book.rules.push(Rule {
            head: 2 * n,
            body: vec![default(2 * (n + 1))],
        });
        for _ in 0..3 {
            let body = [2 * n, 2 * (n + 1), 2 * (names - 1)].map(objective);
            book.rules.push(Rule {
                head: 2 * n,
                body: body.to_vec(),
            });
        }
    }
    book
}

/// A book whose model takes as many rounds as it has distinct heads, which are all its literals. With n
/// names these are x 0 to x (2n - 1): the names, and behind them their explicit negations. It is
/// contradictory.
///
/// The first rule is the fact x 0. Each x (j + 1) follows from `not` of the complement of x j, and each x
/// but the first from `not` of its own complement. So Γs(S) has every x but the complements of S, and Γ of
/// that has x 0, S, and for each x j of S also x (j + 1). From x 0 to x j that is one literal more, so each
/// round adds one until all are there.
pub fn bound_book(names: usize) -> Book {
    assert!((1..=MOST_NAMES).contains(&names));
    let x: Vec<usize> = (0..names)
        .map(|n| 2 * n)
        .chain((0..names).map(|n| 2 * n + 1))
        .collect();
    let unless = |head, shown| Rule {
        head,
        body: vec![default(complement(shown))],
    };
    let mut rules = vec![fact(x[0])];
    rules.extend(x.windows(2).map(|pair| unless(pair[1], pair[0])));
    rules.extend(x[1..].iter().map(|&literal| unless(literal, literal)));
    Book {
        names: (0..names).map(name).collect(),
        rules,
    }
}

/// A book and facts to put in, with the longest listing that there is: every name has 16 bytes and both
/// literals in M, and each count of the header has three digits.
///
/// It is [`bound_book`] with its first rule once more, and with the names as facts. The names are in I(1),
/// and each round from there on adds one of their explicit negations.
pub fn longest_listing() -> (Book, Vec<usize>) {
    let mut book = bound_book(MOST_NAMES);
    book.rules.push(fact(0));
    for (number, name) in book.names.iter_mut().enumerate() {
        *name = format!("{:x<16}", format!("n{number}_"));
    }
    let facts = (0..MOST_NAMES).map(|number| 2 * number).collect();
    (book, facts)
}

/// A book whose model takes a round for each name. It isn't contradictory, and no such book takes more: a
/// round adds a literal to M, which has at most one literal of each name.
///
/// The first rule is the fact name 0. Each name but the last is shown not to be unless it is shown, and the
/// next name follows unless that is so. So Γs(S) has all names, and `-` of those outside S but for the last
/// name; and Γ of that has name 0 and the name behind each name of S. From the first names that is one more,
/// so each round adds one name.
pub fn rounds_book(names: usize) -> Book {
    assert!((1..=MOST_NAMES).contains(&names));
    let mut rules = vec![fact(0)];
    for n in 0..names - 1 {
        for literal in [2 * n, 2 * n + 1] {
            rules.push(Rule {
                head: literal + 1,
                body: vec![default(literal)],
            });
        }
    }
    Book {
        names: (0..names).map(name).collect(),
        rules,
    }
}

/// One of the two books above with few names, in which some rules stand in other places and some are left
/// out, so that there are more counts of rounds to meet. A random book seldom takes more than three.
pub fn book_with_rounds(random: &mut Random) -> Book {
    let names = random.between(2, 12);
    let mut book = random.pick(&[bound_book, rounds_book])(names);
    for _ in 0..random.below(4) {
        let rules = book.rules.len();
        book.rules.swap(random.below(rules), random.below(rules));
    }
    for _ in 0..random.below(3) {
        book.rules.remove(random.below(book.rules.len()));
    }
    book
}

/// A book whose model takes long: there are many rounds, and each takes many passes over many rules. It is
/// contradictory.
///
/// Half of the names are those of [`bound_book`], and make a round for each of their literals. The literals
/// of the other half, but the last, follow from each other. The first of them is its own exception, so all
/// are undefined: no round keeps one of them, and the next round has to find them again. A literal's rule
/// stands before the rule of the literal that it follows from, so that a pass over the rules in their order
/// adds one of them. The rules behind them have the last literal as head and in the last place of the body,
/// so they never apply, and a pass looks at their bodies to the end.
pub fn slow_book() -> Book {
    let mut book = bound_book(MOST_NAMES / 2);
    let first = book.literals();
    book.names = (0..MOST_NAMES).map(name).collect();
    let last = book.literals() - 1;
    book.rules.extend((first + 1..last).rev().map(|head| Rule {
        head,
        body: vec![objective(head - 1)],
    }));
    book.rules.push(Rule {
        head: first,
        body: vec![default(first)],
    });
    let mut room = MOST_BODY_LITERALS - book.body_literals();
    while room > 0 && book.rules.len() < MOST_RULES {
        let length = room.min(MOST_IN_A_BODY);
        let mut body = vec![default(last); length - 1];
        body.push(objective(last));
        book.rules.push(Rule { head: last, body });
        room -= length;
    }
    book
}

/// A book whose TU-search of literal 0 is about n squared nodes deep and visits few more nodes.
///
/// Names x 0 to x (n - 1) follow from each other, the last of them from `not` of every y and from a
/// name that nothing shows; each y follows from `not` of x 0. So a TU-tree has a path of n literals,
/// and below its end stands a T-tree for the next y, which opens a TU-tree for x 0 again.
pub fn deep_book(n: usize) -> Book {
    let groups = n.div_ceil(MOST_IN_A_BODY);
    let names = 2 * n + groups + 1;
    assert!(names <= MOST_NAMES && groups < MOST_IN_A_BODY);
    let (x, y, group) = (|k| 2 * k, |k| 2 * (n + k), |k| 2 * (2 * n + k));
    let mut rules = Vec::new();
    for k in 0..n - 1 {
        rules.push(Rule {
            head: x(k),
            body: vec![objective(x(k + 1))],
        });
    }
    // The name behind the groups has no rule.
    rules.push(Rule {
        head: x(n - 1),
        body: (0..=groups).map(|k| objective(group(k))).collect(),
    });
    for k in 0..groups {
        let members = MOST_IN_A_BODY * k..n.min(MOST_IN_A_BODY * (k + 1));
        rules.push(Rule {
            head: group(k),
            body: members.map(|m| default(y(m))).collect(),
        });
    }
    for k in 0..n {
        rules.push(Rule {
            head: y(k),
            body: vec![default(x(0))],
        });
    }
    Book {
        names: (0..names).map(name).collect(),
        rules,
    }
}

/// A book with two names a level, each of which follows from both names of the next level; the last
/// two hold. A plain T-tree of literal 0 has 2^(levels + 1) - 1 nodes.
pub fn layered_book(levels: usize) -> Book {
    let names = 2 * (levels + 1);
    assert!(names <= MOST_NAMES);
    let rule = |n: usize| {
        let below = 2 * (n / 2 + 1);
        let body = if below == names {
            Vec::new()
        } else {
            vec![objective(2 * below), objective(2 * below + 2)]
        };
        Rule { head: 2 * n, body }
    };
    Book {
        names: (0..names).map(name).collect(),
        rules: (0..names).map(rule).collect(),
    }
}

/// A book and its groups (document 02, A.5): whatever else a group reaches stands before it.
pub struct InGroups {
    pub book: Book,
    pub groups: Vec<Vec<usize>>,
}

/// A book with so many names, in groups of at most `largest`. The names of a group follow from each other
/// in a circle. For each name there are three rules more, with `mean` body literals on average, of its
/// group and of groups before it; a name alone has a fourth. So the book is full with 128 names and a
/// mean of 5.
pub fn book_in_groups(random: &mut Random, names: usize, largest: usize, mean: usize) -> InGroups {
    let mut rest: Vec<usize> = (0..names).collect();
    shuffle(random, &mut rest);
    let negated = random.pick(NEGATED);
    let mut lengths = lengths_of(random, 3 * names, mean);
    let (mut groups, mut rules, mut before) = (Vec::new(), Vec::new(), Vec::new());
    while !rest.is_empty() {
        let group = rest.split_off(rest.len() - random.between(1, largest.min(rest.len())));
        before.extend(&group);
        for (place, &name) in group.iter().enumerate() {
            let next = match group.len() {
                1 => random.pick(&before),
                count => group[(place + 1) % count],
            };
            rules.push(rule_among(random, name, &[next], 1, negated));
            for length in lengths.split_off(lengths.len() - 3) {
                rules.push(rule_among(random, name, &before, length, negated));
            }
        }
        groups.push(group);
    }
    shuffle(random, &mut rules);
    let names = (0..names).map(name).collect();
    InGroups {
        book: Book { names, rules },
        groups,
    }
}

/// Such a book with few names and short bodies.
pub fn small_book_in_groups(random: &mut Random) -> Book {
    let names = random.between(1, 12);
    let (largest, mean) = (random.between(1, names), random.between(1, 4));
    book_in_groups(random, names, largest, mean).book
}

/// A rule for a name, with so many body literals of some names.
fn rule_among(
    random: &mut Random,
    head: usize,
    names: &[usize],
    length: usize,
    negated: usize,
) -> Rule {
    let head = signed(random, head, negated);
    let entry = |_| {
        let name = random.pick(names);
        Entry {
            literal: signed(random, name, negated),
            default: random.chance(1, 2),
        }
    };
    let body = (0..length).map(entry).collect();
    Rule { head, body }
}

fn shuffle<T>(random: &mut Random, list: &mut [T]) {
    for place in (1..list.len()).rev() {
        list.swap(place, random.below(place + 1));
    }
}

/// A book of 128 groups with 512 rules: each name has four, whose bodies have four literals of names with
/// lower numbers, or with higher ones, and the first of the four has those of its neighbour alone. The
/// name that has no neighbour has four rules without a body.
pub fn one_way_book(random: &mut Random, lower: bool) -> Book {
    let names: Vec<usize> = (0..MOST_NAMES).collect();
    let negated = random.pick(NEGATED);
    let mut rules = Vec::new();
    for n in 0..MOST_NAMES {
        let (others, neighbour) = match lower {
            true => (&names[..n], &names[n.saturating_sub(1)..n]),
            false => (&names[n + 1..], &names[n + 1..MOST_NAMES.min(n + 2)]),
        };
        let length = match others {
            [] => 0,
            _ => MOST_BODY_LITERALS / MOST_RULES,
        };
        rules.push(rule_among(random, n, neighbour, length, negated));
        for _ in 1..MOST_RULES / MOST_NAMES {
            rules.push(rule_among(random, n, others, length, negated));
        }
    }
    Book {
        names: (0..MOST_NAMES).map(name).collect(),
        rules,
    }
}

/// A full book without `-`, in which the name at one end is reached by all names and has no rule, and that at
/// the other end is reached by no other name: bodies are of names with lower numbers, or with higher ones, and
/// each has the neighbour. It is contradictory where both literals of a name are put in, and nowhere else.
pub fn clash_book(random: &mut Random, lower: bool) -> Book {
    // Name 0 is reached by all, and the other names come behind it; from the last name down it is the same.
    let number = |place: usize| match lower {
        true => place,
        false => MOST_NAMES - 1 - place,
    };
    let order: Vec<usize> = (0..MOST_NAMES).map(number).collect();
    let mut rules = Vec::new();
    for r in 0..MOST_RULES {
        let place = 1 + r % (MOST_NAMES - 1);
        let length = MOST_BODY_LITERALS / MOST_RULES - 1;
        let mut rule = rule_among(random, order[place], &order[..place], length, 0);
        rule.body.push(default(2 * order[place - 1]));
        rules.push(rule);
    }
    Book {
        names: (0..MOST_NAMES).map(name).collect(),
        rules,
    }
}

/// Large books with many small groups, with few large ones and with one, and books in which each name
/// reaches those with lower numbers, or those with higher ones.
pub fn books_in_groups(random: &mut Random) -> Vec<Book> {
    let mut books: Vec<Book> = [1, 3, 16, MOST_NAMES]
        .map(|largest| book_in_groups(random, MOST_NAMES, largest, 5).book)
        .into();
    books.extend([true, false].map(|lower| one_way_book(random, lower)));
    books.extend([bound_book(MOST_NAMES), rounds_book(MOST_NAMES), slow_book()]);
    books
}

/// Books of a shape, the largest of each kind and small ones beside it.
pub fn shaped_books() -> Vec<Book> {
    let mut books = vec![long_model_book()];
    books.extend([1, 7, 63].map(layered_book));
    books.extend([1, 17, 60].map(deep_book));
    books
}

/// Literals of a book to put in, at times one of them twice. They are few, since many make most books
/// contradictory.
pub fn some_literals(random: &mut Random, book: &Book) -> Vec<usize> {
    let count = random.pick(&[0, 1, 2, 12]);
    (0..count).map(|_| random.below(book.literals())).collect()
}

/// A file of a book. Half of the files are spelt as the book is. In the others the names have capitals,
/// other ones each time that a line declares or uses them.
pub fn written(random: &mut Random, book: &Book) -> Vec<u8> {
    let file = book.to_file().into_bytes();
    if random.chance(1, 2) {
        return file;
    }
    with_lines(file, |lines| {
        for line in lines {
            respell_names(random, line);
        }
    })
}

/// A file with all names, rules and body literals that a file may have.
pub fn full_book_file(random: &mut Random) -> Vec<u8> {
    let book = full_book(random);
    written(random, &book)
}

/// Gives each field behind the first other capitals.
fn respell_names(random: &mut Random, line: &mut [u8]) {
    for field in line.split_mut(|&byte| byte == b',').skip(1) {
        respell(random, field);
    }
}

/// Gives the letters of a field other capitals: none, all, the first letter, or each by chance.
fn respell(random: &mut Random, field: &mut [u8]) {
    field.make_ascii_lowercase();
    let how = random.below(4);
    let letters = field.iter_mut().filter(|byte| byte.is_ascii_lowercase());
    for (place, letter) in letters.enumerate() {
        let capital = match how {
            0 => false,
            1 => true,
            2 => place == 0,
            _ => random.chance(1, 2),
        };
        if capital {
            letter.make_ascii_uppercase();
        }
    }
}

fn fact(head: usize) -> Rule {
    Rule {
        head,
        body: Vec::new(),
    }
}

fn objective(literal: usize) -> Entry {
    Entry {
        literal,
        default: false,
    }
}

fn default(literal: usize) -> Entry {
    Entry {
        literal,
        default: true,
    }
}

/// A file: often a book's, often a damaged one, at times a few lines of random fields.
pub fn file(random: &mut Random, size: Size) -> Vec<u8> {
    let book = book(random, size);
    let written = written(random, &book);
    match random.below(8) {
        0..=2 => written,
        3..=6 => damaged(random, &written),
        _ => some_lines(random),
    }
}

/// A file with one to three faults; a fault may by chance leave a file that loads.
pub fn damaged(random: &mut Random, file: &[u8]) -> Vec<u8> {
    let mut file = file.to_vec();
    for _ in 0..random.between(1, 3) {
        file = damaged_once(random, file);
    }
    file
}

fn damaged_once(random: &mut Random, mut file: Vec<u8>) -> Vec<u8> {
    match random.below(13) {
        0 => flip(random, &mut file),
        1 => file.truncate(random.below(file.len() + 1)),
        2 => replace_byte(random, &mut file),
        3 => insert_byte(random, &mut file),
        4 => file = with_lines(file, |lines| swap_lines(random, lines)),
        5 => file = with_lines(file, |lines| drop_line(random, lines)),
        6 => file = with_lines(file, |lines| repeat_line(random, lines)),
        7 => file = with_lines(file, |lines| drop_field(random, lines)),
        8 => file = with_lines(file, |lines| add_field(random, lines)),
        9 => file = with_lines(file, |lines| one_more(random, lines)),
        10 => file = with_lines(file, |lines| respell_field(random, lines)),
        11 => file = with_lines(file, |lines| declare_again(random, lines)),
        _ => file = with_lines(file, |lines| add_line(random, lines)),
    }
    file
}

/// Bytes at and beside the edges of what a file, a field and a name may hold.
const EDGE_BYTES: &[u8] = b"\x00\x09\n\n\r\x1f !,,,~~--_az`{09/:AZ@[\x7e\x7f\x80\xffenrul";

fn flip(random: &mut Random, file: &mut [u8]) {
    if !file.is_empty() {
        let place = random.below(file.len());
        file[place] ^= 1 << random.below(8);
    }
}

fn replace_byte(random: &mut Random, file: &mut [u8]) {
    if !file.is_empty() {
        let place = random.below(file.len());
        file[place] = random.pick(EDGE_BYTES);
    }
}

fn insert_byte(random: &mut Random, file: &mut Vec<u8>) {
    let place = random.below(file.len() + 1);
    file.insert(place, random.pick(EDGE_BYTES));
}

/// The lines of a file, each with its newline where it has one.
pub fn lines_of(file: &[u8]) -> Vec<Vec<u8>> {
    file.split_inclusive(|&byte| byte == b'\n')
        .map(<[u8]>::to_vec)
        .collect()
}

fn with_lines(file: Vec<u8>, change: impl FnOnce(&mut Vec<Vec<u8>>)) -> Vec<u8> {
    let mut lines = lines_of(&file);
    change(&mut lines);
    lines.concat()
}

fn swap_lines(random: &mut Random, lines: &mut [Vec<u8>]) {
    if !lines.is_empty() {
        let (one, other) = (random.below(lines.len()), random.below(lines.len()));
        lines.swap(one, other);
    }
}

fn drop_line(random: &mut Random, lines: &mut Vec<Vec<u8>>) {
    if !lines.is_empty() {
        lines.remove(random.below(lines.len()));
    }
}

fn repeat_line(random: &mut Random, lines: &mut Vec<Vec<u8>>) {
    if !lines.is_empty() {
        let line = lines[random.below(lines.len())].clone();
        lines.insert(random.below(lines.len() + 1), line);
    }
}

/// Declares a name once more, most often in other capitals.
fn declare_again(random: &mut Random, lines: &mut Vec<Vec<u8>>) {
    let declares = |line: &&Vec<u8>| line.starts_with(b"name,");
    let declaring: Vec<Vec<u8>> = lines.iter().filter(declares).cloned().collect();
    if !declaring.is_empty() {
        let mut line = declaring[random.below(declaring.len())].clone();
        respell_names(random, &mut line);
        lines.insert(random.below(lines.len() + 1), line);
    }
}

fn add_line(random: &mut Random, lines: &mut Vec<Vec<u8>>) {
    let line = line_of_fields(random);
    lines.insert(random.below(lines.len() + 1), line);
}

/// One name, rule or body literal more: too many where the tables are full.
fn one_more(random: &mut Random, lines: &mut Vec<Vec<u8>>) {
    let line = random.pick(&["name,one_more\n", "rule,brake\n", "rule,brake,~axle\n"]);
    let mut line = line.as_bytes().to_vec();
    if random.chance(1, 2) {
        respell_names(random, &mut line);
    }
    let before_end = lines.len().saturating_sub(1);
    lines.insert(before_end, line);
}

/// Gives a field other capitals: a name stays the same name, a first field becomes an unknown one.
fn respell_field(random: &mut Random, lines: &mut [Vec<u8>]) {
    change_fields(random, lines, |random, fields| {
        let place = random.below(fields.len());
        respell(random, &mut fields[place]);
    });
}

/// Removes a field of a line, with the comma before or behind it.
fn drop_field(random: &mut Random, lines: &mut [Vec<u8>]) {
    change_fields(random, lines, |random, fields| {
        fields.remove(random.below(fields.len()));
    });
}

fn add_field(random: &mut Random, lines: &mut [Vec<u8>]) {
    change_fields(random, lines, |random, fields| {
        let count = random.pick(&[1, 1, 1, 14, 15, 16, 17, 18]);
        let place = random.below(fields.len() + 1);
        for _ in 0..count {
            fields.insert(place, field(random));
        }
    });
}

fn change_fields(
    random: &mut Random,
    lines: &mut [Vec<u8>],
    change: impl FnOnce(&mut Random, &mut Vec<Vec<u8>>),
) {
    if lines.is_empty() {
        return;
    }
    let place = random.below(lines.len());
    let line = lines[place].strip_suffix(b"\n").unwrap_or(&lines[place]);
    let mut fields: Vec<Vec<u8>> = line
        .split(|&byte| byte == b',')
        .map(<[u8]>::to_vec)
        .collect();
    change(random, &mut fields);
    lines[place] = fields.join(&b',');
    lines[place].push(b'\n');
}

/// A field that is a word, a literal, or nearly one, at times with capitals.
fn field(random: &mut Random) -> Vec<u8> {
    const FIELDS: &[&str] = &[
        "",
        "name",
        "rule",
        "end",
        "names",
        "en",
        "brake",
        "-brake",
        "~brake",
        "~-brake",
        "axle",
        "~axle",
        "-~axle",
        "~~axle",
        "--axle",
        "~",
        "-",
        "~-",
        "light ",
        " light",
        "@light",
        "light[",
        "9light",
        "_light",
        "light_9",
        "a234567890123456",
        "a2345678901234567",
        "-a234567890123456",
        "~-a234567890123456",
        "~-a2345678901234567",
    ];
    let mut field = random.pick(FIELDS).as_bytes().to_vec();
    if random.chance(1, 3) {
        respell(random, &mut field);
    }
    field
}

fn line_of_fields(random: &mut Random) -> Vec<u8> {
    const FIRST: &[&str] = &[
        "name", "name", "rule", "rule", "rule", "end", "", "rules", "Name",
    ];
    let first = random.pick(FIRST);
    let mut line = first.as_bytes().to_vec();
    for _ in 0..random.pick(&[0, 1, 1, 2, 3, 16, 17, 18]) {
        line.push(b',');
        line.extend(field(random));
    }
    line.push(b'\n');
    line
}

fn some_lines(random: &mut Random) -> Vec<u8> {
    let count = random.below(6);
    let mut file: Vec<u8> = (0..count).flat_map(|_| line_of_fields(random)).collect();
    if random.chance(3, 4) {
        file.extend(b"end\n");
    }
    file
}

/// Files at the edges of every limit, and of every number from 1 to 9.
pub fn edge_files() -> Vec<Vec<u8>> {
    let texts = [table_edges(), name_edges(), capital_edges(), length_edges()].concat();
    texts
        .into_iter()
        .map(String::into_bytes)
        .chain(byte_edges())
        .collect()
}

fn names_declared(count: usize) -> String {
    (0..count).map(|n| format!("name,n{n}\n")).collect()
}

/// Names, rules and body literals, around the size of their tables.
fn table_edges() -> Vec<String> {
    let rules = |count: usize| "rule,n0\n".repeat(count);
    let body = |count: usize| format!("rule,n0{}\n", ",~-n0".repeat(count));
    let one = names_declared(1);
    let mut files = Vec::new();
    for count in [0, 1, 127, 128, 129, 130] {
        files.push(names_declared(count) + "end\n");
    }
    files.push(names_declared(128) + "name,n0\nend\n");
    files.push(names_declared(128) + "name,N127\nend\n");
    for count in [511, 512, 513] {
        files.push(format!("{one}{}end\n", rules(count)));
        files.push(format!("{one}{}rule,absent\nend\n", rules(count)));
        files.push(format!("{one}{}rule,N0\nend\n", rules(count)));
    }
    for count in [15, 16, 17, 18, 600] {
        files.push(format!("{one}{}end\n", body(count)));
    }
    for more in [0, 1, 16] {
        files.push(format!("{one}{}{}end\n", body(16).repeat(128), body(more)));
    }
    let one_less = body(15) + &body(16).repeat(127);
    files.push(format!("{one}{one_less}{}end\n", body(1)));
    files.push(format!("{one}{one_less}{}end\n", body(2)));
    files
}

/// Names around the lengths that a name and a byte can have.
fn name_edges() -> Vec<String> {
    let lengths = [0, 1, 15, 16, 17, 18, 255, 256, 257, 300];
    let of_length = |length| {
        let name = "x".repeat(length);
        let capitals = "X".repeat(length);
        [
            format!("name,{name}\nrule,{name},~-{name}\nend\n"),
            format!("name,a\nrule,a,{name}\nend\n"),
            format!("name,a\nrule,-{name}\nend\n"),
            format!("name,{capitals}\nrule,{name},~-{capitals}\nend\n"),
            format!("name,{name}\nname,{capitals}\nend\n"),
        ]
    };
    lengths.into_iter().flat_map(of_length).collect()
}

/// Each letter, small and as a capital, at the first place of a name and at its last; names whose last
/// bytes are all that differs; and names that begin with another one in other capitals.
fn capital_edges() -> Vec<String> {
    let of_letter = |small: char| {
        let capital = small.to_ascii_uppercase();
        [("", "_9"), ("q234567890_2345", "")].map(|(before, behind)| {
            let (one, other) = (
                format!("{before}{small}{behind}"),
                format!("{before}{capital}{behind}"),
            );
            [
                format!("name,{one}\nname,{other}\nend\n"),
                format!("name,{other}\nname,{one}\nend\n"),
                format!("name,{one}\nrule,-{other},~{one},{other}\nend\n"),
                format!("name,{other}\nrule,{one},~-{one},-{other}\nend\n"),
            ]
        })
    };
    let mut files: Vec<String> = ('a'..='z').flat_map(of_letter).flatten().collect();
    let last_bytes = ('A'..='Z').chain('0'..='9').chain(['_']);
    let names: String = last_bytes.map(|last| format!("name,x{last}\n")).collect();
    files.push(names.clone() + "rule,XA,xb,~x_,-X9\nend\n");
    files.push(names + "name,xa\nend\n");
    files.push("name,Ab\nname,aBc\nname,A\nrule,AB,abc,~a\nend\n".to_string());
    files.push("name,Ab\nrule,aBC\nend\n".to_string());
    files.push("name,Abc\nrule,aB\nend\n".to_string());
    files
}

/// A file of no bytes, and files around 60,000 bytes and around the size of a buffer of 65,536.
fn length_edges() -> Vec<String> {
    let lengths = [
        59_999, 60_000, 60_001, 60_002, 65_535, 65_536, 65_537, 70_000,
    ];
    let of_length = |length: usize| {
        [
            ",".repeat(length - 1) + "\n",
            "\n".repeat(length),
            format!("end\n{}\n", "x".repeat(length - 5)),
            "a".repeat(length),
            format!("end\n{}", "\u{7f}".repeat(length - 4)),
        ]
    };
    let mut files = vec![String::new()];
    files.extend(lengths.into_iter().flat_map(of_length));
    files
}

/// Every byte as a name, behind a name, and both in a rule; and every byte alone.
fn byte_edges() -> impl Iterator<Item = Vec<u8>> {
    (0..=255u8).flat_map(|byte| {
        [
            [b"name,a", &[byte][..], b"\nend\n"].concat(),
            [b"name,", &[byte][..], b"\nend\n"].concat(),
            [b"name,a\nname,aB\nrule,a", &[byte][..], b"\nend\n"].concat(),
            [b"name,a\nname,aB\nrule,a,", &[byte][..], b"\nend\n"].concat(),
            vec![byte],
        ]
    })
}

/// One call on a desk.
#[derive(Clone, PartialEq, Eq)]
pub enum Call {
    Load(Vec<u8>),
    PutIn(usize),
    TakeOut(usize),
    Verdict(usize),
    Search(Question),
    Model,
    /// A listing into a buffer that is this many bytes longer (or shorter) than the listing.
    Listing {
        margin: isize,
    },
    /// A preview of a change into a buffer that is this many bytes longer (or shorter) than the listing that
    /// would follow.
    Preview {
        change: Change,
        literal: usize,
        margin: isize,
    },
    WorkingOrder,
    ModelByGroups,
    /// A check of a claim by a proof sheet.
    CheckSheet {
        claim: Claim,
        sheet: Vec<SheetEntry>,
    },
    /// A proof sheet made for a claim, in a run of so many entries.
    MakeSheet {
        claim: Claim,
        length: usize,
    },
}

impl Call {
    /// Whether the call changes the book or the facts where it isn't refused.
    pub fn is_a_change(&self) -> bool {
        matches!(self, Call::Load(_) | Call::PutIn(_) | Call::TakeOut(_))
    }

    /// Makes the call on a desk, where it is a change. One that is refused changes nothing.
    fn change(&self, desk: &mut Desk) {
        let _ = match self {
            Call::Load(file) => desk.load(file),
            Call::PutIn(literal) => desk.put_in(*literal),
            Call::TakeOut(literal) => desk.take_out(*literal),
            _ => Ok(()),
        };
    }
}

impl fmt::Debug for Call {
    fn fmt(&self, f: &mut fmt::Formatter<'_>) -> fmt::Result {
        match self {
            Call::Load(file) => write!(f, "load \"{}\"", file.escape_ascii()),
            Call::PutIn(literal) => write!(f, "put in {literal}"),
            Call::TakeOut(literal) => write!(f, "take out {literal}"),
            Call::Verdict(literal) => write!(f, "verdict {literal}"),
            Call::Search(q) => {
                let tilde = if q.default { "~" } else { "" };
                write!(f, "{:?}-search {tilde}{}", q.tree, q.literal)
            }
            Call::Model => write!(f, "model"),
            Call::Listing { margin } => write!(f, "listing, buffer longer by {margin}"),
            Call::Preview {
                change,
                literal,
                margin,
            } => write!(f, "preview: {change} {literal}, buffer longer by {margin}"),
            Call::WorkingOrder => write!(f, "working order"),
            Call::ModelByGroups => write!(f, "model by groups"),
            Call::CheckSheet { claim, sheet } => {
                write!(f, "check that {claim} by {}", sheets::spelt(sheet))
            }
            Call::MakeSheet { claim, length } => {
                write!(f, "make a sheet that {claim} in {length} entries")
            }
        }
    }
}

/// A list of calls on one desk. Files are small, most of them load, and most literals are the
/// book's.
pub fn calls(random: &mut Random, size: Size) -> Vec<Call> {
    let mut calls = Vec::new();
    // Proof sheets are about what the calls before them leave.
    let mut desk = Desk::fresh();
    // A few lists start with calls on a desk that has no book.
    if random.chance(7, 8) {
        let book = book(random, size);
        calls.push(Call::Load(written(random, &book)));
        calls[0].change(&mut desk);
    }
    for _ in 0..random.between(1, 24) {
        let call = call(random, size, &desk);
        call.change(&mut desk);
        calls.push(call);
    }
    calls
}

/// A load of a book with circles, and at most two facts put in.
pub fn calls_on_circles(random: &mut Random) -> Vec<Call> {
    let book = book_with_circles(random);
    let mut calls = vec![Call::Load(written(random, &book))];
    let facts = random.below(3);
    calls.extend((0..facts).map(|_| Call::PutIn(random.below(book.literals()))));
    calls
}

/// A load of a book with at most so many names, most of which reach few others, and facts put in, most often
/// both literals of a name among them. Some facts are taken out again. Before and after that some verdicts, some
/// previews and a listing are asked.
pub fn calls_on_clashes(random: &mut Random, most_names: usize) -> Vec<Call> {
    let names = random.between(2, most_names);
    let book = book_of_few_reached(random, names);
    let mut facts: Vec<usize> = (0..random.below(3))
        .map(|_| random.below(2 * names))
        .collect();
    if random.chance(7, 8) {
        let clash = random.below(names);
        facts.extend([2 * clash, 2 * clash + 1]);
        shuffle(random, &mut facts);
    }
    let mut calls = vec![Call::Load(written(random, &book))];
    for (place, &fact) in facts.iter().enumerate() {
        if random.chance(1, 4) {
            calls.push(preview(random, fact));
        }
        calls.push(Call::PutIn(fact));
        calls.push(Call::Verdict(random.below(2 * names)));
        if random.chance(1, 8) {
            calls.push(Call::TakeOut(facts[random.below(place + 1)]));
        }
    }
    calls.push(Call::Listing {
        margin: random.pick(&[-1, 0, 5]),
    });
    if !facts.is_empty() {
        // Taken out, this fact may end the clash.
        let fact = random.pick(&facts);
        calls.push(preview(random, fact));
    }
    calls
}

/// A call on a desk with what the calls before it leave.
fn call(random: &mut Random, size: Size, desk: &Desk) -> Call {
    match random.below(36) {
        0 => Call::Load(file(random, size)),
        1..=7 => Call::PutIn(any_literal(random, size)),
        8..=12 => Call::TakeOut(any_literal(random, size)),
        13..=15 => Call::Verdict(any_literal(random, size)),
        16..=19 => Call::Search(Question {
            literal: any_literal(random, size),
            default: random.chance(1, 2),
            tree: random.pick(&[Tree::T, Tree::TU]),
        }),
        20..=21 => Call::Model,
        22..=23 => Call::WorkingOrder,
        24..=25 => Call::ModelByGroups,
        26..=27 => Call::Listing {
            margin: margin(random),
        },
        28..=31 => {
            let literal = any_literal(random, size);
            preview(random, literal)
        }
        32..=33 => make_sheet(random, size, desk),
        _ => check_sheet(random, size, desk),
    }
}

/// A proof sheet to make, most often for a claim about a literal of the book.
fn make_sheet(random: &mut Random, size: Size, desk: &Desk) -> Call {
    let literals = desk.book().map_or(0, |book| book.literals());
    let mut claim = sheets::any_claim(random, size);
    if random.chance(3, 4) {
        claim.literal = random.below(literals);
    }
    Call::MakeSheet {
        claim,
        length: sheets::any_run(random, literals),
    }
}

/// A proof sheet to check, at times for a claim that it wasn't made for.
fn check_sheet(random: &mut Random, size: Size, desk: &Desk) -> Call {
    let (made_for, sheet) = sheets::claim_and_sheet(random, desk.matter(0).ok());
    let claim = match random.chance(1, 4) {
        true => sheets::any_claim(random, size),
        false => made_for,
    };
    Call::CheckSheet { claim, sheet }
}

/// How much longer (or shorter) than a listing a buffer is.
fn margin(random: &mut Random) -> isize {
    random.pick(&[0, 0, 1, 7, -1, -1, -5, -10_000, 300])
}

/// A preview of a literal put in or taken out.
fn preview(random: &mut Random, literal: usize) -> Call {
    Call::Preview {
        change: random.pick(&Change::BOTH),
        literal,
        margin: margin(random),
    }
}

/// A literal number, at times one that no book has.
fn any_literal(random: &mut Random, size: Size) -> usize {
    const EDGES: &[usize] = &[
        127,
        128,
        254,
        255,
        256,
        257,
        65_535,
        65_536,
        1 << 32,
        usize::MAX - 1,
        usize::MAX,
    ];
    if random.chance(1, 24) {
        return random.pick(EDGES);
    }
    random.below(2 * size.names + 1)
}

#[cfg(test)]
mod tests {
    use super::*;
    use crate::answer::Refused;
    use crate::second::{listing, program_output, read};
    use std::collections::{BTreeMap, BTreeSet};

    /// The figures of a book with all names, rules and body literals that a file may have.
    const FULL_SIZE: &str =
        "names 128 of 128 (100 %), rules 512 of 512 (100 %), body literals 2048 of 2048 (100 %)";

    #[test]
    fn a_generated_book_is_read_as_itself() {
        let mut random = Random::new(1);
        for _ in 0..2_000 {
            let small = book(&mut random, SMALL);
            assert_eq!(read(small.to_file().as_bytes()), Ok(small));
        }
        for _ in 0..20 {
            let full = full_book(&mut random);
            assert_eq!(full.body_literals(), MOST_BODY_LITERALS);
            assert_eq!(read(full.to_file().as_bytes()), Ok(full));
        }
    }

    /// The names of a book with small letters alone.
    fn small_names(book: Book) -> Book {
        let names = book.names.iter().map(|name| name.to_ascii_lowercase());
        Book {
            names: names.collect(),
            ..book
        }
    }

    fn has_capitals(text: &[u8]) -> bool {
        text.iter().any(u8::is_ascii_uppercase)
    }

    #[test]
    fn a_written_file_is_its_books_whatever_its_capitals() {
        let mut random = Random::new(5);
        let mut with_capitals = 0;
        for turn in 0..2_000 {
            let book = match turn % 100 {
                0 => full_book(&mut random),
                _ => book(&mut random, SMALL),
            };
            let file = written(&mut random, &book);
            with_capitals += usize::from(has_capitals(&file));
            assert_eq!(read(&file).map(small_names), Ok(book));
        }
        assert!((600..1_400).contains(&with_capitals), "{with_capitals}");
    }

    /// What capitals there are in a file, where they matter.
    fn spelling(file: &[u8]) -> &'static str {
        let lines = lines_of(file);
        let line = |refused: Refused| refused.line() - 1;
        match read(file) {
            Ok(_) if !has_capitals(file) => "small letters alone",
            Ok(book) => {
                let as_declared = book.to_file().into_bytes();
                if as_declared != file && as_declared.eq_ignore_ascii_case(file) {
                    "a rule in other capitals than the declaration"
                } else {
                    "other"
                }
            }
            Err(refused) => match refused.number() {
                6 if !lines[..line(refused)].contains(&lines[line(refused)]) => {
                    "declared again in other capitals"
                }
                7 if has_capitals(&lines[line(refused)]) => "undeclared with capitals",
                _ => "other",
            },
        }
    }

    #[test]
    fn files_have_names_in_every_spelling() {
        let mut random = Random::new(6);
        let mut met: BTreeMap<&str, usize> = BTreeMap::new();
        for _ in 0..20_000 {
            let file = file(&mut random, SMALL);
            *met.entry(spelling(&file)).or_default() += 1;
        }
        println!("{met:?}");
        assert!(met["small letters alone"] > 2_000);
        assert!(met["a rule in other capitals than the declaration"] > 1_000);
        assert!(met["declared again in other capitals"] > 100);
        assert!(met["undeclared with capitals"] > 100);
    }

    #[test]
    fn a_clash_is_reached_by_all_names_or_by_none() {
        for lower in [true, false] {
            let book = clash_book(&mut Random::new(7), lower);
            assert_eq!(book.size().to_string(), FULL_SIZE);
            let (all, none) = match lower {
                true => (0, MOST_NAMES - 1),
                false => (MOST_NAMES - 1, 0),
            };
            for (clash, refused) in [(all, MOST_NAMES), (none, 1)] {
                let text = listing(&book, &BTreeSet::from([2 * clash, 2 * clash + 1]));
                assert!(text.starts_with("contradiction,"), "{text}");
                assert_eq!(text.matches(",contradictory\n").count(), refused, "{text}");
            }
            assert!(listing(&book, &BTreeSet::from([2 * all, 2 * none])).starts_with("model,"));
        }
    }

    #[test]
    fn damaged_full_books_meet_number_8() {
        let mut random = Random::new(4);
        let mut met = 0;
        for _ in 0..100 {
            let full = full_book_file(&mut random);
            let file = damaged(&mut random, &full);
            met += usize::from(read(&file).is_err_and(|refused| refused.number() == 8));
        }
        assert!(met >= 5, "number 8 was met {met} times");
    }

    #[test]
    fn full_books_have_models_and_contradictions() {
        let mut random = Random::new(3);
        let outputs: Vec<String> = (0..60)
            .map(|_| program_output(full_book(&mut random).to_file().as_bytes()))
            .collect();
        let starting = |with: &str| outputs.iter().filter(|o| o.starts_with(with)).count();
        let undefined = outputs.iter().filter(|o| o.contains("undefined")).count();
        println!("{} models, {undefined} with undefined", starting("model,"));
        assert!(starting("model,") >= 10 && starting("contradiction,") >= 10);
        assert!(undefined >= 5);
    }

    #[test]
    fn files_meet_every_number_that_lines_can_meet() {
        let mut random = Random::new(2);
        let mut met = [0usize; 10];
        for _ in 0..20_000 {
            match read(&file(&mut random, SMALL)) {
                Ok(_) => met[0] += 1,
                Err(refused) => met[usize::from(refused.number())] += 1,
            }
        }
        // Numbers 1 and 8 need a large file.
        for number in [0, 2, 3, 4, 5, 6, 7, 9] {
            assert!(met[number] > 20, "number {number} was met {met:?}");
        }
    }
}
