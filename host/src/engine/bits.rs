//! Desks of whatever bits. The working order, the model by groups and proof sheets are those of what the bits mean.
//! Verdicts, the model call and the listing are those of the sets that stand. A preview is the change and the listing
//! on a copy.

use super::meaning::{name_of, names_of, rules_of, CAPACITY};
use super::{exports, members, Desk};
use crate::answer::{Change, Claim, Model, ModelByGroups, Refused, SheetEntry, Verdict};
use crate::answer::{MOST_LISTING, MOST_NAMES, MOST_RULES};
use crate::gen::{self, Random};
use crate::previews::{previews_of, Previewed};
use crate::second::{self, Halves, Matter, Program, Rule};
use crate::second::{
    contradictory_name, model_by_groups, reach, read, verdict, word, working_order,
};
use crate::sheets::UNTOUCHED;
use std::collections::{BTreeMap, BTreeSet};

/// The program of a desk's book and facts, which may have every literal that a set has room for.
fn program_of(desk: &exports::Desk) -> Program {
    let mut rules = rules_of(&desk.shelf.book);
    rules.extend(members(desk.lesson.facts).into_iter().map(|head| Rule {
        head,
        body: Vec::new(),
    }));
    Program {
        literals: CAPACITY,
        rules,
    }
}

/// What a desk means, to print beside a difference.
fn meaning(desk: &exports::Desk) -> String {
    let exports::Shelf { loaded, book } = &desk.shelf;
    let (names, rules) = (names_of(book), rules_of(book));
    let facts = members(desk.lesson.facts);
    format!("loaded {loaded}, {names} names, {rules:?}, facts {facts:?}")
}

/// The order of so many names by some rules, place by place. Names past these are passed through and not
/// listed.
fn order_by(names: usize, rules: &[Rule]) -> exports::Order {
    let mut order = exports::Order {
        names: 0,
        groups: 0,
        name: [0; MOST_NAMES],
        group: [0; MOST_NAMES],
    };
    let short = |number: usize| u16::try_from(number).expect("names are few");
    for group in working_order(names, &reach(CAPACITY / 2, rules)) {
        for name in group {
            order.name[order.names] = short(name);
            order.group[order.names] = short(order.groups);
            order.names += 1;
        }
        order.groups += 1;
    }
    order
}

/// The order that is due of a desk.
fn order_due(desk: &exports::Desk) -> exports::Order {
    let exports::Shelf { loaded, book } = &desk.shelf;
    match loaded {
        0 => order_by(0, &[]),
        _ => order_by(names_of(book), &rules_of(book)),
    }
}

/// The model by groups that is due of a desk, which is M and N in one piece too.
fn model_due(desk: &exports::Desk) -> ModelByGroups {
    let program = match desk.shelf.loaded {
        0 => Program {
            literals: CAPACITY,
            rules: Vec::new(),
        },
        _ => program_of(desk),
    };
    let due = model_by_groups(&program);
    let halves = program.halves();
    let flags = |set: &BTreeSet<usize>| Vec::from_iter((0..CAPACITY).map(|l| set.contains(&l)));
    assert_eq!(flags(&due.truths), halves.truths, "{}", meaning(desk));
    assert_eq!(flags(&due.nonfalse), halves.nonfalse, "{}", meaning(desk));
    due
}

/// Compares both replies, with all their numbers, with what is due of a desk.
fn check(desk: &exports::Desk) -> (exports::Order, ModelByGroups) {
    let number = if desk.shelf.loaded == 0 { 20 } else { 0 };
    let reply = unsafe { exports::mezhkura_working_order(*desk) };
    assert_eq!(reply.number, number, "{}", meaning(desk));
    assert_eq!(reply.order, order_due(desk), "{}", meaning(desk));
    let groups = unsafe { exports::mezhkura_model_by_groups(*desk) };
    let due = model_due(desk);
    assert_eq!(groups.number, number, "{}", meaning(desk));
    assert_eq!(members(groups.truths), due.truths, "{}", meaning(desk));
    assert_eq!(members(groups.nonfalse), due.nonfalse, "{}", meaning(desk));
    let contradictory = u8::from(due.contradictory);
    assert_eq!(groups.contradictory, contradictory, "{}", meaning(desk));
    (reply.order, due)
}

/// A desk of random bits. In plain bits nearly every body is empty or has hundreds of literals, so most
/// desks have chosen starts, and literals that are few by remainder.
fn desk_of_bits(random: &mut Random) -> exports::Desk {
    let mut desk = plain_bits(random);
    if random.chance(1, 8) {
        return desk;
    }
    let book = &mut desk.shelf.book;
    book.names = random.pick(&[0, 1, 5, 16, 40, 64, 100, 127, 128, 129, 1 << 32, usize::MAX]);
    book.rules = random.pick(&[0, 1, 20, 100, 100, 511, 512, 513, 1 << 32, usize::MAX]);
    let few = random.pick(&[16, 64, 256]);
    let negated = random.below(2) as u16;
    for head in &mut book.heads {
        *head -= *head % 256 - *head % few;
        *head &= !1 | negated;
    }
    for entry in &mut book.entries {
        *entry -= *entry % 512 - *entry % (2 * few);
    }
    let (mut start, strays) = (random.pick(&[0, 0, 1_900]), random.pick(&[0, 0, 1, 6]));
    for place in &mut book.starts {
        start += random.pick(&[0, 1, 1, 2, 3, 4]);
        *place = match random.chance(strays, 64) {
            true => random.below(2_100) as u16,
            false => start,
        };
    }
    let bits = random.pick(&[0, 0, 1, u64::MAX]);
    for word in &mut desk.lesson.facts.words {
        *word &= bits << random.below(64);
    }
    desk
}

/// A desk of plain random bits.
fn plain_bits(random: &mut Random) -> exports::Desk {
    let mut desk = *Desk::fresh().0;
    desk.shelf.loaded = random.pick(&[0, 1, 1, 2, 128, 255]);
    let book = &mut desk.shelf.book;
    book.names = random.word() as usize;
    book.rules = random.word() as usize;
    book.text.fill_with(|| random.word() as u8);
    book.lengths.fill_with(|| random.word() as u8);
    book.heads.fill_with(|| random.word() as u16);
    book.starts.fill_with(|| random.word() as u16);
    book.entries.fill_with(|| random.word() as u16);
    let exports::Lesson { facts, marks } = &mut desk.lesson;
    let exports::Marks {
        model,
        contradictory,
    } = marks;
    let exports::Model {
        truths, nonfalse, ..
    } = model;
    for set in [facts, truths, nonfalse, contradictory] {
        set.words.fill_with(|| random.word());
    }
    model.rounds = random.word() as usize;
    desk
}

/// How many desks are of which kind.
#[derive(Debug, Default)]
struct Kinds {
    refused: usize,
    contradictory: usize,
    /// Some group has several names.
    joined: usize,
    /// The names aren't listed by number.
    moved: usize,
    /// The order is another one without the rules for names past the book's.
    passed_through: usize,
}

impl Kinds {
    fn count(&mut self, desk: &exports::Desk, order: exports::Order, model: &ModelByGroups) {
        let names = order.names;
        let mut listed = rules_of(&desk.shelf.book);
        listed.retain(|rule| rule.head / 2 < names);
        self.refused += usize::from(desk.shelf.loaded == 0);
        self.contradictory += usize::from(model.contradictory);
        self.joined += usize::from(order.groups < names);
        self.moved += usize::from(!order.name[..names].is_sorted());
        self.passed_through += usize::from(order_by(names, &listed) != order);
    }
}

#[test]
fn working_order_and_model_by_groups_are_settled_for_all_bits() {
    let mut random = Random::new(11);
    let mut kinds = Kinds::default();
    for _ in 0..1_000 {
        let desk = desk_of_bits(&mut random);
        let (order, model) = check(&desk);
        kinds.count(&desk, order, &model);
    }
    println!("{kinds:?}");
    assert!(
        kinds.refused > 100 && kinds.passed_through > 50,
        "{kinds:?}"
    );
    let either = 200..800;
    for count in [kinds.contradictory, kinds.joined, kinds.moved] {
        assert!(either.contains(&count), "{kinds:?}");
    }
}

/// A change on such a desk leaves the M and N that the groups of the desk give.
#[test]
fn a_change_of_whatever_bits_leaves_the_model_by_groups() {
    let mut random = Random::new(12);
    let mut changed = 0;
    for _ in 0..500 {
        let mut desk = Desk(Box::new(desk_of_bits(&mut random)));
        let literal = random.below(2 * names_of(&desk.0.shelf.book));
        let change = random.pick(&[Desk::put_in, Desk::take_out]);
        if change(&mut desk, literal).is_ok() {
            let model = desk.model().map(ModelByGroups::from);
            assert_eq!(model, desk.model_by_groups(), "{}", meaning(&desk.0));
            changed += 1;
        }
    }
    assert!(changed > 100, "{changed}");
}

/// The reading above has of a loaded book what the file says.
#[test]
fn the_bits_of_a_loaded_book_mean_its_file() {
    let mut random = Random::new(13);
    let mut books = gen::books_in_groups(&mut random);
    books.push(gen::full_book(&mut random));
    for book in books {
        let mut desk = Desk::fresh();
        let file = book.to_file();
        desk.load(file.as_bytes()).expect("the book loads");
        for literal in gen::some_literals(&mut random, &book) {
            // A literal put in twice is refused: that is no matter.
            let _ = desk.put_in(literal);
        }
        let loaded = &desk.0.shelf.book;
        assert_eq!(names_of(loaded), book.names.len());
        assert_eq!(read(file.as_bytes()).map(|b| b.rules), Ok(rules_of(loaded)));
        check(&desk.0);
    }
}

/// The literals of the book whose verdicts are refused by 24, by the desk's book and facts: both of a name
/// that is, or reaches, one with both literals in M. Names past the book's are passed through.
fn contradictory_due(desk: &exports::Desk) -> BTreeSet<usize> {
    let program = program_of(desk);
    let halves = program.halves();
    // The search for what a name reaches is long, so it is made only where it can matter.
    if contradictory_name(&halves).is_none() {
        return BTreeSet::new();
    }
    (0..names_of(&desk.shelf.book))
        .filter(|&name| verdict(&program, &halves, 2 * name).is_err())
        .flat_map(|name| [2 * name, 2 * name + 1])
        .collect()
}

fn has(set: &exports::LitSet, literal: usize) -> bool {
    set.words[literal / 64] >> (literal % 64) & 1 == 1
}

/// What the sets that stand say of a literal: each set is read by itself, whatever is in the others.
fn standing(lesson: &exports::Lesson, literal: usize) -> Result<Verdict, Refused> {
    if has(&lesson.marks.contradictory, literal) {
        return Err(Refused::Contradictory);
    }
    let truly = has(&lesson.marks.model.truths, literal);
    let possibly = has(&lesson.marks.model.nonfalse, literal);
    Ok(match (truly, possibly) {
        (true, _) => Verdict::True,
        (false, true) => Verdict::Undefined,
        (false, false) => Verdict::False,
    })
}

fn verdict_due(desk: &exports::Desk, literal: usize) -> Result<Verdict, Refused> {
    let exports::Shelf { loaded, book } = &desk.shelf;
    match loaded {
        0 => Err(Refused::NoBook),
        _ if literal >= 2 * names_of(book) => Err(Refused::NoSuchLiteral),
        _ => standing(&desk.lesson, literal),
    }
}

/// The lowest-numbered name with both literals among the truths that stand.
fn clash_of(lesson: &exports::Lesson) -> Option<usize> {
    let truths = &lesson.marks.model.truths;
    (0..CAPACITY / 2).find(|n| has(truths, 2 * n) && has(truths, 2 * n + 1))
}

/// The listing by the sets that stand.
fn listing_due(desk: &exports::Desk) -> Vec<u8> {
    let exports::Desk { shelf, lesson } = desk;
    let book = &shelf.book;
    let names = names_of(book);
    let (rules, facts) = (book.rules.min(MOST_RULES), members(lesson.facts).len());
    let counts = format!("{names},{rules},{facts},{}", lesson.marks.model.rounds);
    let mut text = match clash_of(lesson) {
        Some(clash) => {
            let start = format!("contradiction,{counts},");
            [start.as_bytes(), name_of(book, clash), b"\n"].concat()
        }
        None => format!("model,{counts}\n").into_bytes(),
    };
    for number in 0..names {
        text.extend(format!("{number},").into_bytes());
        text.extend(name_of(book, number));
        let [plain, negated] = [0, 1].map(|sign| word(standing(lesson, 2 * number + sign)));
        text.extend(format!(",{plain},{negated}\n").into_bytes());
    }
    text
}

/// Compares what a desk answers to verdicts, the model call and a listing with what is due of its sets.
fn check_standing(desk: &exports::Desk) {
    let model = &desk.lesson.marks.model;
    let ours = Desk(Box::new(*desk));
    let verdicts: Vec<_> = (0..CAPACITY + 2).map(|l| ours.verdict(l)).collect();
    let due: Vec<_> = (0..CAPACITY + 2).map(|l| verdict_due(desk, l)).collect();
    assert_eq!(verdicts, due, "{ours:?}");
    // The rounds that stand may have as many digits as a number has, which is 20.
    let mut buffer = [0xA5; MOST_LISTING + 20];
    if desk.shelf.loaded == 0 {
        assert_eq!(ours.model(), Err(Refused::NoBook));
        assert_eq!(ours.listing(&mut buffer), Err(Refused::NoBook));
        return;
    }
    let whole = Model {
        truths: members(model.truths),
        nonfalse: members(model.nonfalse),
        contradictory: clash_of(&desk.lesson).is_some(),
        rounds: model.rounds,
    };
    assert_eq!(ours.model(), Ok(whole), "{ours:?}");
    let text = listing_due(desk);
    assert_eq!(ours.listing(&mut buffer), Ok(text.len()), "{ours:?}");
    let (listed, behind) = buffer.split_at(text.len());
    assert_eq!(
        listed.escape_ascii().to_string(),
        text.escape_ascii().to_string()
    );
    assert!(behind.iter().all(|&byte| byte == 0xA5));
    let short = &mut buffer[..text.len() - 1];
    assert_eq!(
        ours.listing(short),
        Err(Refused::BufferTooShort),
        "{ours:?}"
    );
}

/// Sets that few calls leave: no name with both literals, one literal of a name refused, or none at all.
fn with_other_sets(random: &mut Random, mut desk: exports::Desk) -> exports::Desk {
    const PLAIN: u64 = 0x5555_5555_5555_5555;
    let exports::Marks {
        model,
        contradictory,
    } = &mut desk.lesson.marks;
    let kept = random.pick(&[u64::MAX, PLAIN, !PLAIN, 0]);
    model.truths.words.iter_mut().for_each(|word| *word &= kept);
    let kept = random.pick(&[u64::MAX, PLAIN, !PLAIN, 0]);
    contradictory
        .words
        .iter_mut()
        .for_each(|word| *word &= kept);
    model.rounds >>= random.below(64);
    desk
}

#[test]
fn verdicts_and_listings_are_settled_for_all_bits() {
    let mut random = Random::new(14);
    let (mut models, mut contradictions) = (0, 0);
    for _ in 0..600 {
        let desk = desk_of_bits(&mut random);
        let desk = with_other_sets(&mut random, desk);
        check_standing(&desk);
        let clash = clash_of(&desk.lesson).is_some();
        models += usize::from(desk.shelf.loaded != 0 && !clash);
        contradictions += usize::from(desk.shelf.loaded != 0 && clash);
    }
    println!("{models} without a clash, {contradictions} with one");
    assert!(models > 100 && contradictions > 100);
}

/// How the set of a changed desk refuses the names of its book.
#[derive(Debug, Default)]
struct Refusals {
    none: usize,
    some: usize,
    all: usize,
}

/// A change on such a desk works out which literals are refused by 24, whatever stood there, and one that is
/// refused leaves what stood.
#[test]
fn a_change_of_whatever_bits_leaves_the_contradictory_literals() {
    let mut random = Random::new(15);
    let mut kinds = Refusals::default();
    for _ in 0..600 {
        let bits = desk_of_bits(&mut random);
        let mut desk = Desk(Box::new(bits));
        let names = names_of(&bits.shelf.book);
        let literal = random.below(2 * names);
        let change = random.pick(&[Desk::put_in, Desk::take_out]);
        if change(&mut desk, literal).is_err() {
            assert!(desk.0.lesson == bits.lesson, "{}", meaning(&bits));
            continue;
        }
        let left = members(desk.0.lesson.marks.contradictory);
        assert_eq!(left, contradictory_due(&desk.0), "{}", meaning(&desk.0));
        check_standing(&desk.0);
        match left.len() {
            0 => kinds.none += 1,
            count if count == 2 * names => kinds.all += 1,
            _ => kinds.some += 1,
        }
    }
    println!("{kinds:?}");
    assert!(kinds.none > 50 && kinds.some > 50, "{kinds:?}");
}

/// Literals around the edges of a book and of a set, one of the book, and ones that are another number where only
/// their last bits are looked at.
fn literals_to_preview(random: &mut Random, names: usize) -> [usize; 6] {
    let own = random.below(2 * names);
    let edge = random.pick(&[
        2 * names,
        2 * names + 1,
        CAPACITY - 1,
        CAPACITY,
        CAPACITY + 1,
    ]);
    let far = random.pick(&[1 << 16, 1 << 32, 1 << 63, usize::MAX - CAPACITY + 1]);
    [own, own ^ 1, edge, far, far | own, usize::MAX]
}

/// A preview into one byte is refused by some number, and its reply has length 0.
fn check_refused_reply(desk: &Desk, literal: usize) {
    for preview in [
        exports::mezhkura_preview_put_in,
        exports::mezhkura_preview_take_out,
    ] {
        let reply = unsafe { preview(*desk.0, literal, [0].as_mut_ptr(), 1) };
        let refused = reply.number != exports::ACCEPTED && reply.length == 0;
        assert!(refused, "{literal} of {}", meaning(&desk.0));
    }
}

#[test]
fn previews_are_settled_for_all_bits() {
    let mut random = Random::new(16);
    let mut previewed = Previewed::default();
    for _ in 0..600 {
        let bits = desk_of_bits(&mut random);
        let desk = Desk(Box::new(with_other_sets(&mut random, bits)));
        let names = names_of(&desk.0.shelf.book);
        for literal in literals_to_preview(&mut random, names) {
            check_refused_reply(&desk, literal);
            for change in Change::BOTH {
                let previews = previews_of(&desk, change, literal);
                previewed += previews.unwrap_or_else(|text| panic!("{text}\n{}", meaning(&desk.0)));
            }
        }
    }
    println!("{previewed:?}");
    assert!(previewed.clashing > 100 && previewed.mended > 100);
    for number in [0, 20, 21, 22, 23, 25] {
        assert!(previewed.numbers[&number] > 300, "{number}: {previewed:?}");
    }
}

/// A desk of whatever bits as proof sheets are about it.
struct OfBits {
    desk: exports::Desk,
    literals: usize,
    rules: Vec<Rule>,
    facts: BTreeSet<usize>,
    halves: Halves,
}

impl OfBits {
    fn new(desk: exports::Desk) -> OfBits {
        OfBits {
            desk,
            literals: 2 * names_of(&desk.shelf.book),
            rules: rules_of(&desk.shelf.book),
            facts: members(desk.lesson.facts),
            halves: program_of(&desk).halves(),
        }
    }

    fn matter(&self) -> Matter<'_> {
        Matter {
            literals: self.literals,
            rules: &self.rules,
            facts: &self.facts,
        }
    }

    /// Whether no rule and no fact has a literal that the book doesn't have, as every list of calls leaves it.
    fn is_within(&self) -> bool {
        let bodies = self.rules.iter().flat_map(|rule| &rule.body);
        let of_bodies = bodies.map(|entry| entry.literal);
        let of_heads = self.rules.iter().map(|rule| rule.head);
        let mut all = of_bodies.chain(of_heads).chain(self.facts.iter().copied());
        all.all(|literal| literal < self.literals)
    }

    /// What refuses a claim, whatever the sheet or the run.
    fn refusal(&self, claim: Claim) -> Option<Refused> {
        match self.desk.shelf.loaded {
            0 => Some(Refused::NoBook),
            _ => (claim.literal >= self.literals).then_some(Refused::NoSuchLiteral),
        }
    }

    fn is_so(&self, claim: Claim) -> bool {
        match claim.truth {
            true => self.halves.truths[claim.literal],
            false => !self.halves.nonfalse[claim.literal],
        }
    }

    fn input(&self, claim: Claim) -> String {
        format!("{claim} on a desk with {}", meaning(&self.desk))
    }

    /// Compares a check with all numbers of its reply with what is due, and what is accepted with M and N. Answers the
    /// number.
    fn check(&self, claim: Claim, truth: u8, sheet: &[SheetEntry]) -> u8 {
        let Claim { literal, .. } = claim;
        let (start, length) = (sheet.as_ptr(), sheet.len());
        let reply =
            unsafe { exports::mezhkura_check_sheet(self.desk, literal, truth, start, length) };
        let due = match self.refusal(claim) {
            Some(refused) => Err(refused),
            None => second::check(self.matter(), claim, sheet),
        };
        let due = match due {
            Ok(()) => (0, 0),
            Err(Refused::DoesNotFollow { index }) => (27, index),
            Err(refused) => (refused.number(), 0),
        };
        let input = || format!("{} by {}", self.input(claim), gen::sheets::spelt(sheet));
        assert_eq!((reply.number, reply.index), due, "{}", input());
        assert!(reply.number != 0 || self.is_so(claim), "{}", input());
        reply.number
    }

    /// Has a sheet made in a run of so many entries, and looks at all that doesn't depend on which it is. Answers the
    /// number, and the sheet.
    fn make(&self, claim: Claim, truth: u8, length: usize) -> (u8, Vec<SheetEntry>) {
        let mut run = vec![UNTOUCHED; length];
        let (Claim { literal, .. }, start) = (claim, run.as_mut_ptr());
        let reply =
            unsafe { exports::mezhkura_make_sheet(self.desk, literal, truth, start, length) };
        let input = || {
            format!(
                "{} in {length} entries: {}",
                self.input(claim),
                reply.number
            )
        };
        assert!(reply.count <= 2 * self.literals, "{}", input());
        assert_eq!(reply.count > 0, reply.number == 0, "{}", input());
        let stayed = |entry: &SheetEntry| *entry == UNTOUCHED;
        assert!(run[reply.count..].iter().all(stayed), "{}", input());
        let number = match self.refusal(claim) {
            Some(refused) => refused.number(),
            None if !self.is_so(claim) => 28,
            // The entries that a sheet needs may be of literals that the book doesn't have.
            None if reply.number == 28 && !self.is_within() => 28,
            None if length < 2 * self.literals => 25,
            None => 0,
        };
        assert_eq!(reply.number, number, "{}", input());
        run.truncate(reply.count);
        (number, run)
    }

    /// Looks at the maker with runs around two entries per literal, and at its sheet, as it is and changed. Answers the
    /// number for a long run.
    fn check_made(&self, random: &mut Random, claim: Claim) -> u8 {
        let truth = match claim.truth {
            true => random.pick(&[1, 2, 128, 255]),
            false => 0,
        };
        let bound = 2 * self.literals;
        let (number, mut sheet) = self.make(claim, truth, bound);
        for length in [bound + 5, bound.saturating_sub(1), 0] {
            let (other, _) = self.make(claim, truth, length);
            // Whether there is a sheet doesn't depend on the run.
            let due = if number == 0 && length < bound {
                25
            } else {
                number
            };
            assert_eq!(other, due, "{} in {length}", self.input(claim));
        }
        if number == 0 {
            assert_eq!(self.check(claim, truth, &sheet), 0, "{}", self.input(claim));
        }
        gen::sheets::change(random, Some(self.matter()), &mut sheet);
        self.check(claim, truth, &sheet);
        number
    }
}

#[test]
fn sheets_are_settled_for_all_bits() {
    let mut random = Random::new(17);
    let (mut made, mut checked) = (BTreeMap::new(), BTreeMap::new());
    let mut without_a_sheet = 0;
    for _ in 0..400 {
        let bits = OfBits::new(desk_of_bits(&mut random));
        for literal in literals_to_preview(&mut random, bits.literals / 2) {
            for claim in Claim::both(literal) {
                let number = bits.check_made(&mut random, claim);
                *made.entry(number).or_insert(0) += 1;
                let loaded = bits.refusal(claim).is_none();
                without_a_sheet += usize::from(loaded && number == 28 && bits.is_so(claim));
            }
        }
        for _ in 0..20 {
            let matter = Some(bits.matter()).filter(|matter| matter.literals > 0);
            let (claim, sheet) = gen::sheets::claim_and_sheet(&mut random, matter);
            let number = bits.check(claim, u8::from(claim.truth), &sheet);
            *checked.entry(number).or_insert(0) += 1;
        }
    }
    println!("made {made:?}, {without_a_sheet} without a sheet, checked {checked:?}");
    for number in [0, 20, 21, 28] {
        assert!(made[&number] > 200, "{number}: {made:?}");
    }
    for number in [0, 20, 21, 26, 27, 28] {
        assert!(checked[&number] > 100, "{number}: {checked:?}");
    }
}
