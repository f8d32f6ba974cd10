//! The structs and limits of the Rust declarations, of the C header and of the archive are one: each is compared with
//! the others, place by place. Nothing else checks that, since the linker knows names alone.

mod compiler;
mod skip;

// A caller of the package has no use for the declarations, so they are no part of what it offers. They are read here
// as a module of this test, and find the limits under the name that the package has for them.
#[allow(dead_code)]
#[path = "../src/exports.rs"]
mod exports;

use compiler::{assert_success, compile, printed_by, written_by_a_test};
use exports::*;
use mezhkura::answer::{self, SheetEntry, MOST_BODY_LITERALS, MOST_NAMES, MOST_RULES, MOST_SHEET};
use std::fs;
use std::mem::{offset_of, size_of};
use std::path::Path;

/// A number of the header by its C expression, with what it is on the Rust side.
type Number = (String, usize);

fn size_of_field<T, F>(_: impl Fn(&T) -> &F) -> usize {
    size_of::<F>()
}

/// The size of a struct, and place and size of each of its fields. A field that is left out doesn't compile.
macro_rules! numbers_of {
    ($c:literal, $rust:ident { $($field:ident),+ }) => {{
        let _ = |all: &$rust| {
            let $rust { $($field: _),+ } = all;
        };
        let mut numbers = vec![(format!("sizeof({})", $c), size_of::<$rust>())];
        $(
            let field = stringify!($field);
            numbers.push((format!("offsetof({}, {field})", $c), offset_of!($rust, $field)));
            let size = size_of_field(|all: &$rust| &all.$field);
            numbers.push((format!("sizeof((({} *)0)->{field})", $c), size));
        )+
        numbers
    }};
}

fn numbers_of_structs() -> Vec<Number> {
    [
        numbers_of!("mezhkura_litset", LitSet { words }),
        numbers_of!(
            "mezhkura_book",
            Book {
                names,
                rules,
                text,
                lengths,
                heads,
                starts,
                entries
            }
        ),
        numbers_of!(
            "struct mezhkura_model",
            Model {
                truths,
                nonfalse,
                rounds
            }
        ),
        numbers_of!("mezhkura_shelf", Shelf { loaded, book }),
        numbers_of!(
            "mezhkura_marks",
            Marks {
                model,
                contradictory
            }
        ),
        numbers_of!("mezhkura_lesson", Lesson { facts, marks }),
        numbers_of!("mezhkura_desk", Desk { shelf, lesson }),
        numbers_of!(
            "mezhkura_size_reply",
            SizeReply {
                number,
                line,
                names,
                rules,
                body_literals
            }
        ),
        numbers_of!("mezhkura_load_reply", LoadReply { number, line, desk }),
        numbers_of!("mezhkura_change_reply", ChangeReply { number, desk }),
        numbers_of!("mezhkura_verdict_reply", VerdictReply { number, verdict }),
        numbers_of!("mezhkura_search_reply", SearchReply { number, holds }),
        numbers_of!(
            "mezhkura_model_reply",
            ModelReply {
                number,
                contradictory,
                truths,
                nonfalse,
                rounds
            }
        ),
        numbers_of!("mezhkura_listing_reply", ListingReply { number, length }),
        numbers_of!(
            "mezhkura_order",
            Order {
                names,
                groups,
                name,
                group
            }
        ),
        numbers_of!("mezhkura_order_reply", OrderReply { number, order }),
        numbers_of!(
            "mezhkura_groups_reply",
            GroupsReply {
                number,
                contradictory,
                truths,
                nonfalse
            }
        ),
        numbers_of!(
            "mezhkura_sheet_entry",
            SheetEntry {
                kind,
                literal,
                rule,
                group
            }
        ),
        numbers_of!("mezhkura_check_reply", CheckReply { number, index }),
        numbers_of!("mezhkura_make_reply", MakeReply { number, count }),
    ]
    .concat()
}

fn numbers_of_constants() -> Vec<Number> {
    [
        ("MEZHKURA_MOST_NAMES", MOST_NAMES),
        ("MEZHKURA_MOST_RULES", MOST_RULES),
        ("MEZHKURA_MOST_BODY_LITERALS", MOST_BODY_LITERALS),
        ("MEZHKURA_MOST_SHEET", MOST_SHEET),
        ("MEZHKURA_FALSE", usize::from(SheetEntry::FALSE)),
        ("MEZHKURA_TRUE", usize::from(SheetEntry::TRUE)),
        ("MEZHKURA_UNDEFINED", 2),
        ("MEZHKURA_T", usize::from(TREE_T)),
        ("MEZHKURA_TU", usize::from(TREE_TU)),
    ]
    .map(|(name, value)| (name.to_string(), value))
    .into()
}

/// The structs and constants that the header declares.
fn declared_in(header: &str) -> Vec<String> {
    let structs = header.lines().filter_map(|line| {
        let name = line
            .strip_prefix("} ")
            .and_then(|rest| rest.strip_suffix(';'));
        name.or_else(|| line.strip_suffix(" {").filter(|l| l.starts_with("struct ")))
    });
    let enums = header
        .lines()
        .filter_map(|line| line.strip_prefix("enum { "));
    let constants = enums.flat_map(|list| list.split(", ")).map(|one| {
        let (name, _) = one.split_once(" = ").expect("each has a value");
        name
    });
    structs.chain(constants).map(str::to_string).collect()
}

/// A C program that prints these numbers, one a line.
fn program_of(numbers: &[Number]) -> String {
    let line =
        |(expression, _): &Number| format!("    printf(\"%zu\\n\", (size_t)({expression}));\n");
    let lines: String = numbers.iter().map(line).collect();
    format!("#include <stdio.h>\n#include \"mezhkura.h\"\nint main(void)\n{{\n{lines}    return 0;\n}}\n")
}

#[test]
fn the_header_is_the_rust_declarations() {
    let numbers = [numbers_of_structs(), numbers_of_constants()].concat();
    let header =
        fs::read_to_string(compiler::package().join("include/mezhkura.h")).expect("the header");
    let declared = declared_in(&header);
    assert!(declared.len() > 25, "{declared:?}");
    for name in declared {
        let expressions = [name.clone(), format!("sizeof({name})")];
        assert!(
            numbers.iter().any(|(e, _)| expressions.contains(e)),
            "{name} isn't compared"
        );
    }
    let (source, program) = (written_by_a_test("layout.c"), written_by_a_test("layout"));
    fs::write(&source, program_of(&numbers)).expect("the program is written");
    let Some(output) = compile(&source, &[Path::new("-o"), &program]) else {
        return;
    };
    assert_success(&output);
    let printed = printed_by(&program);
    assert_eq!(printed.lines().count(), numbers.len());
    for ((expression, rust), c) in numbers.iter().zip(printed.lines()) {
        assert_eq!(rust.to_string(), c, "{expression}");
    }
}

#[cfg(feature = "engine")]
mod archive {
    use super::*;
    use mezhkura::answer::{Claim, Verdict, MOST_LISTING};
    use mezhkura::gen;
    use mezhkura::second;
    use std::collections::BTreeSet;

    /// A longest file: all names have 16 bytes, and stand in all rules and body literals that a file may have, with `-` at
    /// each of them and `~` at those of bodies.
    fn longest_file() -> String {
        let name = |number: usize| format!("{:x<16}", format!("n{number}_"));
        let mut file: String = (0..MOST_NAMES)
            .map(|number| format!("name,{}\n", name(number)))
            .collect();
        for rule in 0..MOST_RULES {
            file += &format!("rule,-{}", name(rule % MOST_NAMES));
            // The last body literal of all is of the last name.
            for place in 1..=MOST_BODY_LITERALS / MOST_RULES {
                let number = ((rule + 1) * place - 1) % MOST_NAMES;
                file += &format!(",~-{}", name(number));
            }
            file.push('\n');
        }
        file + "end\n"
    }

    /// The longest file, whose names, rules and body literals fill every place of a book.
    fn full_desks() -> (Desk, second::Desk) {
        let file = longest_file();
        let reply = loaded(&file);
        assert_eq!((reply.number, reply.line), (ACCEPTED, 0));
        let mut second = second::Desk::fresh();
        second.load(file.as_bytes()).expect("the file loads");
        (reply.desk, second)
    }

    /// A load on a fresh desk. Where that isn't as large as declared, the calls that take or return one would write
    /// where they may not, so its size is looked at before.
    fn loaded(file: &str) -> LoadReply {
        #[cfg(all(target_arch = "x86_64", target_os = "linux"))]
        written::assert_size_of_a_desk();
        unsafe { mezhkura_load(mezhkura_fresh(), file.as_ptr(), file.len()) }
    }

    /// The literals of a set, by each of its words.
    fn members(set: LitSet) -> BTreeSet<usize> {
        let bits = |(place, word): (usize, &u64)| {
            let word = *word;
            (0..64)
                .filter(move |bit| word >> bit & 1 == 1)
                .map(move |bit| 64 * place + bit)
        };
        set.words.iter().enumerate().flat_map(bits).collect()
    }

    #[test]
    fn every_place_of_a_full_book_has_what_the_file_says() {
        let (desk, second) = full_desks();
        let due = second.book().expect("a book is loaded");
        let Shelf { loaded, book } = desk.shelf;
        assert_eq!(
            (loaded, book.names, book.rules),
            (1, MOST_NAMES, MOST_RULES)
        );
        assert_eq!(book.text.to_vec(), due.names.concat().into_bytes());
        assert_eq!(book.lengths, [16; MOST_NAMES]);
        let heads: Vec<usize> = book.heads.iter().map(|&head| head.into()).collect();
        assert_eq!(
            heads,
            Vec::from_iter(due.rules.iter().map(|rule| rule.head))
        );
        let four_each = |rule: usize| (rule * MOST_BODY_LITERALS / MOST_RULES) as u16;
        assert_eq!(
            book.starts.to_vec(),
            Vec::from_iter((0..=MOST_RULES).map(four_each))
        );
        let bodies = due.rules.iter().flat_map(|rule| &rule.body);
        let entries = bodies.map(|entry| (2 * entry.literal + usize::from(entry.default)) as u16);
        assert_eq!(book.entries.to_vec(), Vec::from_iter(entries));
        // The last places aren't those of a book that stops before them.
        assert_eq!(
            (heads[MOST_RULES - 1], book.entries[MOST_BODY_LITERALS - 1]),
            (255, 511)
        );
    }

    /// Sets, with their last literal, and what stands behind them in a desk and in replies.
    #[test]
    fn every_place_of_a_lesson_and_of_replies_has_what_is_due() {
        let (desk, mut second) = full_desks();
        let last = 2 * MOST_NAMES - 1;
        let ChangeReply { number, desk } = unsafe { mezhkura_put_in(desk, last) };
        assert_eq!(number, ACCEPTED);
        second.put_in(last).expect("the fact is out");
        let due = second.model().expect("a book is loaded");
        let Lesson { facts, marks } = desk.lesson;
        assert_eq!(members(facts), BTreeSet::from([last]));
        assert_eq!(members(marks.model.truths), due.truths);
        assert_eq!(members(marks.model.nonfalse), due.nonfalse);
        assert_eq!(marks.model.rounds, due.rounds);
        assert_eq!(members(marks.contradictory), BTreeSet::new());
        assert!(due.truths.contains(&last) && !due.contradictory);
        let model = unsafe { mezhkura_model(desk) };
        let groups = unsafe { mezhkura_model_by_groups(desk) };
        for (number, contradictory, truths, nonfalse) in [
            (
                model.number,
                model.contradictory,
                model.truths,
                model.nonfalse,
            ),
            (
                groups.number,
                groups.contradictory,
                groups.truths,
                groups.nonfalse,
            ),
        ] {
            assert_eq!((number, contradictory), (ACCEPTED, 0));
            assert_eq!(
                (members(truths), members(nonfalse)),
                (due.truths.clone(), due.nonfalse.clone())
            );
        }
        assert_eq!(model.rounds, due.rounds);
        let verdict = unsafe { mezhkura_verdict(desk, last) };
        assert_eq!((verdict.number, verdict.verdict), (ACCEPTED, 1));
        assert_eq!(second.verdict(last), Ok(Verdict::True));
        let search = unsafe { mezhkura_search(desk, last, 0, TREE_T) };
        assert_eq!((search.number, search.holds), (ACCEPTED, 1));
        // With its complement the last name clashes, and no other name has a rule for that literal.
        let clash = unsafe { mezhkura_put_in(desk, last - 1) }.desk;
        assert!(members(clash.lesson.marks.contradictory).contains(&last));
        let out = unsafe { mezhkura_take_out(clash, last - 1) };
        assert!(out.number == ACCEPTED && out.desk == desk);
    }

    #[test]
    fn every_place_of_an_order_has_its_name() {
        // Each name waits for the next one.
        let book = gen::long_model_book();
        let desk = loaded(&book.to_file()).desk;
        let OrderReply { number, order } = unsafe { mezhkura_working_order(desk) };
        assert_eq!(
            (number, order.names, order.groups),
            (ACCEPTED, MOST_NAMES, MOST_NAMES)
        );
        let downwards = (0..MOST_NAMES as u16).rev();
        assert_eq!(order.name.to_vec(), Vec::from_iter(downwards));
        assert_eq!(order.group.to_vec(), Vec::from_iter(0..MOST_NAMES as u16));
    }

    /// The last literal of a full book as a fact, in as many entries as a sheet may have and in one more; and a sheet of
    /// the archive's.
    #[test]
    fn runs_of_entries_are_read_and_written_as_declared() {
        let (desk, mut second) = full_desks();
        let last = 2 * MOST_NAMES - 1;
        let desk = unsafe { mezhkura_put_in(desk, last) }.desk;
        second.put_in(last).expect("the fact is out");
        let fact = SheetEntry {
            kind: SheetEntry::TRUE,
            literal: last as u16,
            rule: SheetEntry::fact(last as u16),
            group: 7,
        };
        let sheet = vec![fact; MOST_SHEET + 1];
        let check = |length| {
            let reply = unsafe { mezhkura_check_sheet(desk, last, 1, sheet.as_ptr(), length) };
            (reply.number, reply.index)
        };
        let checked = [check(MOST_SHEET), check(MOST_SHEET + 1)];
        assert_eq!(checked, [(ACCEPTED, 0), (26, 0)]);
        let mut run = vec![SheetEntry::default(); MOST_SHEET];
        let made = unsafe { mezhkura_make_sheet(desk, last, 1, run.as_mut_ptr(), MOST_SHEET) };
        assert_eq!(made.number, ACCEPTED);
        let claim = Claim {
            literal: last,
            truth: true,
        };
        assert_eq!(second.check_sheet(claim, &run[..made.count]), Ok(()));
    }

    #[test]
    fn sizes_and_listings_of_a_full_book_are_those_of_the_file() {
        let (desk, second) = full_desks();
        let file = longest_file();
        let size = unsafe { mezhkura_size(file.as_ptr(), file.len()) };
        let figures = (size.names, size.rules, size.body_literals);
        assert_eq!((size.number, size.line), (ACCEPTED, 0));
        assert_eq!(figures, (MOST_NAMES, MOST_RULES, MOST_BODY_LITERALS));
        let [mut buffer, mut due] = [[0; MOST_LISTING]; 2];
        let listing = unsafe { mezhkura_listing(desk, buffer.as_mut_ptr(), buffer.len()) };
        assert_eq!(listing.number, ACCEPTED);
        assert_eq!(Ok(listing.length), second.listing(&mut due));
        assert_eq!(buffer, due);
    }

    /// A struct of more than 16 bytes is returned through a pointer that is handed over as a first argument, in the C
    /// calls of this system. So the calls are declared once more, with that pointer in sight.
    #[cfg(all(target_arch = "x86_64", target_os = "linux"))]
    mod written {
        use super::*;

        #[allow(clashing_extern_declarations)]
        extern "C" {
            #[link_name = "mezhkura_size"]
            fn size_to(to: *mut u8, file: *const u8, file_len: usize) -> *mut u8;
            #[link_name = "mezhkura_fresh"]
            fn fresh_to(to: *mut u8) -> *mut u8;
            #[link_name = "mezhkura_load"]
            fn load_to(to: *mut u8, desk: Desk, file: *const u8, file_len: usize) -> *mut u8;
            #[link_name = "mezhkura_put_in"]
            fn put_in_to(to: *mut u8, desk: Desk, literal: usize) -> *mut u8;
            #[link_name = "mezhkura_take_out"]
            fn take_out_to(to: *mut u8, desk: Desk, literal: usize) -> *mut u8;
            #[link_name = "mezhkura_model"]
            fn model_to(to: *mut u8, desk: Desk) -> *mut u8;
            #[link_name = "mezhkura_working_order"]
            fn working_order_to(to: *mut u8, desk: Desk) -> *mut u8;
            #[link_name = "mezhkura_model_by_groups"]
            fn model_by_groups_to(to: *mut u8, desk: Desk) -> *mut u8;
        }

        /// How many bytes a call writes: up to the last that is another one than before, with either of two patterns,
        /// since a byte of the reply may be that of one of them.
        fn written_by(call: &dyn Fn(*mut u8) -> *mut u8) -> usize {
            let with = |pattern: u8| {
                let mut area = vec![pattern as u64 * 0x0101_0101_0101_0101; 4_096];
                let start = area.as_mut_ptr().cast::<u8>();
                assert_eq!(call(start), start, "the pointer is the hidden argument");
                let bytes = area.iter().flat_map(|word| word.to_ne_bytes());
                let other = bytes.enumerate().filter(|(_, byte)| *byte != pattern);
                other.map(|(place, _)| place + 1).last().unwrap_or(0)
            };
            with(0xA5).max(with(0x5A))
        }

        pub fn assert_size_of_a_desk() {
            let written = written_by(&|to| unsafe { fresh_to(to) });
            assert_eq!(written, size_of::<Desk>(), "the size of a desk");
        }

        #[test]
        fn the_archive_writes_as_many_bytes_as_are_declared() {
            let (desk, _) = full_desks();
            let file = longest_file();
            let (start, length) = (file.as_ptr(), file.len());
            let last = 2 * MOST_NAMES - 1;
            let with = unsafe { mezhkura_put_in(desk, last) }.desk;
            let calls: [(&dyn Fn(*mut u8) -> *mut u8, usize); 8] = unsafe {
                [
                    (&|to| size_to(to, start, length), size_of::<SizeReply>()),
                    (&|to| fresh_to(to), size_of::<Desk>()),
                    (
                        &|to| load_to(to, desk, start, length),
                        size_of::<LoadReply>(),
                    ),
                    (&|to| put_in_to(to, desk, last), size_of::<ChangeReply>()),
                    (&|to| take_out_to(to, with, last), size_of::<ChangeReply>()),
                    (&|to| model_to(to, desk), size_of::<ModelReply>()),
                    (&|to| working_order_to(to, desk), size_of::<OrderReply>()),
                    (&|to| model_by_groups_to(to, desk), size_of::<GroupsReply>()),
                ]
            };
            for (place, (call, declared)) in calls.into_iter().enumerate() {
                assert_eq!(written_by(call), declared, "call {place}");
            }
        }
    }
}
