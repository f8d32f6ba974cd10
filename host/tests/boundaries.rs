//! The edges that document 01 names under "Run", every refusal number with its line, and what document 02
//! adds to them.

use mezhkura::answer::{Change, Claim, Question, Refused, SheetEntry, Tree, Verdict};
use mezhkura::answer::{MOST_LISTING, MOST_SHEET};
use mezhkura::gen;
use mezhkura::second::{program_output, read, size, Desk};

fn declared(names: usize) -> String {
    (0..names).map(|n| format!("name,n{n}\n")).collect()
}

fn file_with_names(names: usize) -> String {
    declared(names) + "end\n"
}

fn file_with_rules(rules: usize) -> String {
    format!("name,a\n{}end\n", "rule,a\n".repeat(rules))
}

/// A rule with so many body literals.
fn rule_line(body: usize) -> String {
    format!("rule,a{}\n", ",~-a".repeat(body))
}

fn file_with_body(body: usize) -> String {
    format!("name,a\n{}end\n", rule_line(body))
}

/// A file with 128 rules of 16 body literals, and more lines behind them.
fn file_with_2048_body_literals(more: &str) -> String {
    format!("name,a\n{}{more}end\n", rule_line(16).repeat(128))
}

fn refused(number: u8, line: usize) -> String {
    format!("refused,{number},{line}\n")
}

fn assert_loads(file: &str, names: usize, rules: usize) {
    let output = program_output(file.as_bytes());
    let header = format!("model,{names},{rules},0,");
    assert!(output.starts_with(&header), "{output}");
    let size = size(file.as_bytes()).expect("what loads is sized");
    assert_eq!((size.names, size.rules), (names, rules), "{file}");
}

fn assert_body_literals(file: &str, body_literals: usize) {
    let size = size(file.as_bytes()).expect("the file loads");
    assert_eq!(size.body_literals, body_literals, "{file}");
}

fn assert_refused(file: impl AsRef<[u8]>, number: u8, line: usize) {
    let file = file.as_ref();
    assert_eq!(
        program_output(file),
        refused(number, line),
        "of \"{}\"",
        file.escape_ascii()
    );
    let sized = size(file).map_err(|refused| (refused.number(), refused.line()));
    assert_eq!(sized, Err((number, line)), "of \"{}\"", file.escape_ascii());
}

#[test]
fn names_128_and_129() {
    assert_loads(&file_with_names(128), 128, 0);
    assert_refused(file_with_names(129), 8, 129);
}

#[test]
fn rules_512_and_513() {
    assert_loads(&file_with_rules(512), 1, 512);
    assert_refused(file_with_rules(513), 8, 514);
}

#[test]
fn body_literals_16_and_17() {
    assert_loads(&file_with_body(16), 1, 1);
    assert_body_literals(&file_with_body(16), 16);
    assert_body_literals(&file_with_body(0), 0);
    assert_refused(file_with_body(17), 4, 2);
}

#[test]
fn body_literals_in_all_2048_and_2049() {
    assert_loads(&file_with_2048_body_literals(""), 1, 128);
    assert_loads(&file_with_2048_body_literals("rule,a\n"), 1, 129);
    assert_body_literals(&file_with_2048_body_literals("rule,a\n"), 2_048);
    assert_refused(file_with_2048_body_literals("rule,a,a\n"), 8, 130);
}

#[test]
fn name_lengths_16_and_17() {
    let name = |length: usize| "x".repeat(length);
    for length in [1, 16] {
        let file = format!("name,{0}\nrule,{0},~-{0}\nend\n", name(length));
        assert_loads(&file, 1, 1);
    }
    assert_refused(format!("name,{}\nend\n", name(17)), 5, 1);
    assert_refused(format!("name,a\nrule,a,~-{}\nend\n", name(17)), 5, 2);
    // A name of the right length that isn't declared is another fault.
    assert_refused(format!("name,a\nrule,a,~-{}\nend\n", name(16)), 7, 2);
}

#[test]
fn name_lengths_16_and_17_with_capitals() {
    let small = |length: usize| "x".repeat(length);
    for capitals in ["X", "xX"] {
        let name = |length: usize| capitals.repeat(length)[..length].to_string();
        for length in [1, 16] {
            let (declared, used) = (name(length), small(length));
            let file = format!("name,{declared}\nrule,{used},~-{declared}\nend\n");
            assert_loads(&file, 1, 1);
            let again = format!("name,{declared}\nname,{used}\nend\n");
            assert_refused(again, 6, 2);
        }
        assert_refused(format!("name,{}\nend\n", name(17)), 5, 1);
        assert_refused(format!("name,a\nrule,a,~-{}\nend\n", name(17)), 5, 2);
        assert_refused(format!("name,a\nrule,a,~-{}\nend\n", name(16)), 7, 2);
        // Names of other lengths are other names.
        for (one, other) in [(small(15), name(16)), (small(16), name(15))] {
            assert_loads(&format!("name,{one}\nname,{other}\nend\n"), 2, 0);
            assert_refused(format!("name,{one}\nrule,{other}\nend\n"), 7, 2);
        }
    }
}

#[test]
fn bytes_60000_and_60001() {
    // A line of commas has too many fields, so the whole file is looked at and then line 1.
    let commas = |bytes: usize| ",".repeat(bytes - 1) + "\n";
    assert_refused(commas(60_000), 4, 1);
    assert_refused(commas(60_001), 1, 0);
    // Behind `end`, the second line is what is wrong.
    let after_end = |bytes: usize| "end\n".to_string() + &" ".repeat(bytes - 5) + "\n";
    assert_refused(after_end(60_000), 9, 2);
    assert_refused(after_end(60_001), 1, 0);
}

/// The longest file that loads is shorter than 60,000 bytes.
#[test]
fn the_longest_book_loads() {
    let name = |n: usize| format!("{:x<16}", format!("n{n}_"));
    let mut file: String = (0..128).map(|n| format!("name,{}\n", name(n))).collect();
    for rule in 0..512 {
        file += &format!("rule,-{}", name(rule % 128));
        for entry in 0..4 {
            file += &format!(",~-{}", name((rule + entry) % 128));
        }
        file.push('\n');
    }
    file += "end\n";
    assert_eq!(file.len(), 53_508);
    let mut desk = Desk::fresh();
    assert_eq!(desk.load(file.as_bytes()), Ok(()));
    let book = desk.book().expect("a book is loaded");
    assert_eq!((book.names.len(), book.rules.len()), (128, 512));
    assert_eq!(book.body_literals(), 2_048);
    let size = size(file.as_bytes()).expect("the file loads");
    let shares = [
        size.names_share(),
        size.rules_share(),
        size.body_literals_share(),
    ];
    assert!(shares.iter().all(|share| share.percent() == 100), "{size}");
}

#[test]
fn number_1_comes_before_2_and_3() {
    let mut file = vec![b'a'; 60_001];
    assert_refused(&file, 1, 0);
    file[0] = 0;
    assert_refused(&file, 1, 0);
    file.pop();
    assert_refused(&file, 2, 0);
    file[0] = b'a';
    assert_refused(&file, 3, 0);
}

fn assert_output(file: &[u8], expected: &str) {
    assert_eq!(
        program_output(file),
        expected,
        "\"{}\"",
        file.escape_ascii()
    );
}

/// Every byte at the first place of a declared name, and behind another one.
#[test]
fn a_declared_name_has_letters_and_behind_the_first_digits_and_underscores() {
    for byte in 0..=255u8 {
        let listed = |name: &str| format!("model,1,0,0,0\n0,{name},false,false\n");
        let spelt = char::from(byte);
        let first = match byte {
            b'A'..=b'Z' | b'a'..=b'z' => listed(&format!("{spelt}")),
            10 => refused(5, 1),
            b',' => refused(4, 1),
            32..=126 => refused(5, 1),
            _ => refused(2, 0),
        };
        assert_output(&[b"name,", &[byte][..], b"\nend\n"].concat(), &first);
        let later = match byte {
            b'A'..=b'Z' | b'a'..=b'z' | b'0'..=b'9' | b'_' => listed(&format!("b{spelt}")),
            10 => refused(4, 2),
            b',' => refused(4, 1),
            32..=126 => refused(5, 1),
            _ => refused(2, 0),
        };
        assert_output(&[b"name,b", &[byte][..], b"\nend\n"].concat(), &later);
    }
    assert_refused(b"\xFF", 2, 0);
}

/// Every byte at the first place of a name that a rule uses, and behind another one. The declared names
/// are `k` and `bK`.
#[test]
fn a_used_name_has_letters_and_behind_the_first_digits_and_underscores() {
    let outcome = |field: &str, byte: u8| {
        let file = [b"name,k\nname,bK\n", field.as_bytes(), &[byte], b"\nend\n"].concat();
        read(&file).map_or_else(|refused| refused.number(), |_| 0)
    };
    let fields = [
        "rule,",
        "rule,-",
        "rule,k,",
        "rule,k,-",
        "rule,k,~",
        "rule,k,~-",
    ];
    for (byte, field) in (0..=255u8).flat_map(|byte| fields.map(|field| (byte, field))) {
        let first = match byte {
            b'K' | b'k' => 0,
            b'A'..=b'Z' | b'a'..=b'z' => 7,
            10 | 32..=126 => 5,
            _ => 2,
        };
        assert_eq!(outcome(field, byte), first, "{field}, byte {byte}");
        let later = match byte {
            b'K' | b'k' => 0,
            b'A'..=b'Z' | b'a'..=b'z' | b'0'..=b'9' | b'_' => 7,
            // The line ends behind `b`, which isn't declared.
            10 => 7,
            32..=126 => 5,
            _ => 2,
        };
        let field = format!("{field}b");
        assert_eq!(outcome(&field, byte), later, "{field}, byte {byte}");
    }
}

#[test]
fn number_3_is_given_for_no_last_newline() {
    assert_refused("e", 3, 0);
    assert_refused("end", 3, 0);
    assert_refused("name,a\nend", 3, 0);
    assert_refused("nonsense", 3, 0);
}

/// Document 02, A.4.
#[test]
fn a_file_of_no_bytes_loads_and_one_of_one_byte_does_not() {
    assert_loads("", 0, 0);
    assert_body_literals("", 0);
    for byte in 0..=255u8 {
        let (number, line) = match byte {
            10 => (4, 1),
            32..=126 => (3, 0),
            _ => (2, 0),
        };
        assert_refused([byte], number, line);
    }
}

#[test]
fn number_4_is_given_for_first_fields_and_counts() {
    for line in [
        "", " ", ",", "names,a", "nam,a", " name,a", "name", "name,a,b", "name,a,", "rule", "end,",
        "end ", "ends", "en", "end,end", "model,1",
    ] {
        assert_refused(format!("{line}\nend\n"), 4, 1);
    }
    // The first field is in small letters, as no name has to be.
    for line in [
        "Name,a", "NAME,a", "namE,a", "Rule,a", "ruLe,a", "End", "END", "enD",
    ] {
        assert_refused(format!("{line}\nend\n"), 4, 1);
    }
    assert_loads("name,a\nrule,a\nend\n", 1, 1);
}

#[test]
fn number_5_is_given_for_names_and_literals() {
    for field in [
        "", "9a", "_a", "a-", "a b", " a", "a ", "-", "-a", "~a", "a.b", "9A", "_A", "A-", "A b",
        " A", "-A", "~A",
    ] {
        assert_refused(format!("name,{field}\nend\n"), 5, 1);
    }
    // The bytes beside the letters are none.
    for field in ["@", "[", "`", "{", "A@", "Z[", "a`", "z{"] {
        assert_refused(format!("name,{field}\nend\n"), 5, 1);
    }
    for field in [
        "", "~", "-", "~-", "~~a", "--a", "-~a", "~-~a", "~ a", "a~", "9", "~~A", "--A", "-~A",
        "~-~A", "~ A", "A~", "~-9A", "@", "-[", "A`", "-A{",
    ] {
        assert_refused(format!("name,a\nrule,a,{field}\nend\n"), 5, 2);
        assert_refused(format!("name,a\nrule,{field}\nend\n"), 5, 2);
    }
    assert_refused("name,a\nrule,~a\nend\n", 5, 2);
    assert_refused("name,a\nrule,~-a,a\nend\n", 5, 2);
    assert_refused("name,a\nrule,~A\nend\n", 5, 2);
    assert_refused("name,A\nrule,~-A,a\nend\n", 5, 2);
    assert_loads("name,a\nrule,-a,a,~a,-a,~-a\nend\n", 1, 1);
    assert_loads("name,a\nrule,-A,A,~A,-A,~-A\nend\n", 1, 1);
    assert_loads("name,z_09\nend\n", 1, 0);
    assert_loads("name,Z_09_zZ\nend\n", 1, 0);
}

#[test]
fn number_6_is_given_for_a_name_declared_before() {
    assert_refused("name,a\nname,b\nname,a\nend\n", 6, 3);
    assert_refused(declared(128) + "name,n0\nend\n", 6, 129);
}

/// Document 02, A.2.
#[test]
fn number_6_is_given_for_a_name_declared_before_in_other_capitals() {
    assert_refused("name,brake_held\nname,Brake_Held\nend\n", 6, 2);
    assert_refused("name,Brake_Held\nname,brake_held\nend\n", 6, 2);
    assert_refused("name,bRAKE_hELD\nname,b\nname,Brake_Held\nend\n", 6, 3);
    assert_refused(declared(128) + "name,N0\nend\n", 6, 129);
    assert_refused(declared(128) + "name,N127\nend\n", 6, 129);
    assert_refused(declared(128) + "name,N128\nend\n", 8, 129);
    for letter in 'a'..='z' {
        let capital = letter.to_ascii_uppercase();
        assert_refused(format!("name,{letter}\nname,{capital}\nend\n"), 6, 2);
        assert_refused(format!("name,q{capital}\nname,q{letter}\nend\n"), 6, 2);
    }
    // Letters, digits and underscore are 37 names, whichever of the letters are capitals.
    let last_bytes = ('A'..='M').chain('n'..='z').chain('0'..='9').chain(['_']);
    let names: String = last_bytes.map(|last| format!("name,q{last}\n")).collect();
    assert_loads(&format!("{names}end\n"), 37, 0);
}

#[test]
fn number_7_is_given_for_a_name_declared_later_or_never() {
    assert_refused("rule,a\nname,a\nend\n", 7, 1);
    assert_refused("name,a\nrule,a,b\nend\n", 7, 2);
    assert_refused("name,a\nrule,-b\nend\n", 7, 2);
    assert_refused("name,a\nrule,a,~-b\nname,b\nend\n", 7, 2);
    // A malformed field comes before an undeclared name to its left.
    assert_refused("name,a\nrule,b,@\nend\n", 5, 2);
    // An undeclared name comes before a full table.
    assert_refused(
        format!("name,a\n{}rule,b\nend\n", "rule,a\n".repeat(512)),
        7,
        514,
    );
}

/// Document 02, A.2.
#[test]
fn number_7_is_given_for_no_other_capitals_than_the_declaration() {
    let declared = "name,Brake_Held\nname,belt_on\n";
    for rule in [
        "rule,Brake_Held",
        "rule,BRAKE_HELD",
        "rule,-brake_held,Belt_On",
        "rule,bRAKE_hELD,~BELT_ON,-Belt_on,~-belt_oN",
    ] {
        assert_loads(&format!("{declared}{rule}\nend\n"), 2, 1);
    }
    for rule in [
        "rule,Brake",
        "rule,BRAKE_HELD_",
        "rule,BRAKEHELD",
        "rule,belt_on,~-Door_Open",
        "rule,Door_Open,BELT_ON",
    ] {
        assert_refused(format!("{declared}{rule}\nend\n"), 7, 3);
    }
    assert_refused("rule,a\nname,A\nend\n", 7, 1);
    assert_refused("name,a\nrule,A,~B\nname,b\nend\n", 7, 2);
    assert_refused("name,a\nrule,B,@\nend\n", 5, 2);
    let full = "rule,A\n".repeat(512);
    assert_refused(format!("name,a\n{full}rule,B\nend\n"), 7, 514);
    assert_refused(format!("name,a\n{full}rule,A\nend\n"), 8, 514);
}

/// Document 02, A.2.
#[test]
fn the_listing_has_the_spelling_of_the_declaring_line() {
    let lines = "name,Brake_Held\nname,MAY_PARK\nname,chocks_set\n\
        rule,BRAKE_HELD\nrule,may_park,brake_held,~Chocks_Set\n";
    let listing = "model,3,2,0,1\n0,Brake_Held,true,false\n1,MAY_PARK,true,false\n\
        2,chocks_set,false,false\n";
    assert_output(format!("{lines}end\n").as_bytes(), listing);
    // A contradiction names the name in the same spelling.
    let clash = format!("{lines}rule,-bRAKE_hELD\nend\n");
    let listing = "contradiction,3,3,0,1,Brake_Held\n0,Brake_Held,contradictory,contradictory\n\
        1,MAY_PARK,contradictory,contradictory\n2,chocks_set,false,false\n";
    assert_output(clash.as_bytes(), listing);
}

#[test]
fn number_9_is_given_after_end_and_without_it() {
    assert_refused("\n", 4, 1);
    assert_refused("name,a\n", 9, 2);
    assert_refused("name,a\nrule,a\n", 9, 3);
    assert_refused("end\nend\n", 9, 2);
    assert_refused("end\n\n", 9, 2);
    assert_refused("end\nnonsense\n\n", 9, 2);
    assert_refused("name,a\nend\nname,a\n", 9, 3);
    // A fault of an earlier line decides.
    assert_refused("name,9\nend\nname,a\n", 5, 1);
    assert_refused("name,9\n", 5, 1);
}

fn desk(file: &str) -> Desk {
    let mut desk = Desk::fresh();
    desk.load(file.as_bytes()).expect("the file loads");
    desk
}

fn question(literal: usize) -> Question {
    Question {
        literal,
        default: true,
        tree: Tree::TU,
    }
}

#[test]
fn number_20_comes_before_all_others_of_the_state() {
    let mut fresh = Desk::fresh();
    assert_eq!(fresh.put_in(999), Err(Refused::NoBook));
    assert_eq!(fresh.take_out(0), Err(Refused::NoBook));
    assert_eq!(fresh.verdict(0), Err(Refused::NoBook));
    assert_eq!(fresh.search(question(0), 10), Err(Refused::NoBook));
    assert_eq!(fresh.model(), Err(Refused::NoBook));
    assert_eq!(fresh.working_order(), Err(Refused::NoBook));
    assert_eq!(fresh.model_by_groups(), Err(Refused::NoBook));
    assert_eq!(fresh.listing(&mut []), Err(Refused::NoBook));
    for claim in Claim::both(999) {
        assert_eq!(fresh.check_sheet(claim, &[]), Err(Refused::NoBook));
        assert_eq!(fresh.make_sheet(claim, &mut []), Err(Refused::NoBook));
    }
    for (change, literal) in [(Change::PutIn, 999), (Change::TakeOut, 0)] {
        assert_eq!(
            fresh.preview(change, literal, &mut []),
            Err(Refused::NoBook)
        );
    }
    assert!(fresh.load(b"nonsense\n").is_err());
    assert_eq!(fresh, Desk::fresh());
}

#[test]
fn number_21_is_given_from_twice_the_names_on() {
    for names in [0, 1, 64, 128] {
        let mut desk = desk(&file_with_names(names));
        let edge = 2 * names;
        if names > 0 {
            assert_eq!(desk.verdict(edge - 1), Ok(Verdict::False));
            assert_eq!(desk.search(question(edge - 1), 10), Ok(Some(true)));
            let mut buffer = [0; MOST_LISTING];
            assert!(desk.preview(Change::PutIn, edge - 1, &mut buffer).is_ok());
            assert_eq!(desk.put_in(edge - 1), Ok(()));
            assert!(desk.preview(Change::TakeOut, edge - 1, &mut buffer).is_ok());
            assert_eq!(desk.take_out(edge - 1), Ok(()));
        }
        for literal in [edge, edge + 1, usize::MAX] {
            assert_eq!(desk.verdict(literal), Err(Refused::NoSuchLiteral));
            assert_eq!(desk.put_in(literal), Err(Refused::NoSuchLiteral));
            assert_eq!(desk.take_out(literal), Err(Refused::NoSuchLiteral));
            let asked = desk.search(question(literal), 10);
            assert_eq!(asked, Err(Refused::NoSuchLiteral));
            // 21 comes before 22, 23 and 25.
            for change in Change::BOTH {
                let previewed = desk.preview(change, literal, &mut []);
                assert_eq!(previewed, Err(Refused::NoSuchLiteral));
            }
        }
    }
}

#[test]
fn numbers_22_and_23_look_at_what_is_put_in_now() {
    let mut desk = desk("name,a\nrule,a\nend\n");
    assert_eq!(desk.take_out(0), Err(Refused::NotPutIn));
    assert_eq!(desk.put_in(0), Ok(()));
    assert_eq!(desk.put_in(0), Err(Refused::PutInNow));
    assert_eq!(desk.put_in(1), Ok(()));
    assert_eq!(desk.take_out(0), Ok(()));
    assert_eq!(desk.take_out(0), Err(Refused::NotPutIn));
    assert_eq!(desk.facts().len(), 1);
}

#[test]
fn number_24_is_given_to_a_verdict_after_21_and_to_nothing_else() {
    let mut desk = desk("name,a\nname,b\nname,c\nrule,a\nrule,-a\nrule,c,~a\nend\n");
    assert_eq!(desk.verdict(6), Err(Refused::NoSuchLiteral));
    assert_eq!(desk.verdict(1), Err(Refused::Contradictory));
    // `b` reaches no clash, and `c` does.
    assert_eq!(desk.verdict(2), Ok(Verdict::False));
    assert_eq!(desk.verdict(4), Err(Refused::Contradictory));
    assert_eq!(desk.verdict(5), Err(Refused::Contradictory));
    assert_eq!(desk.search(question(1), 100), Ok(Some(false)));
    assert!(desk.model().is_ok_and(|model| model.contradictory));
    assert!(desk
        .model_by_groups()
        .is_ok_and(|model| model.contradictory));
    assert!(desk.working_order().is_ok());
    assert_eq!(desk.put_in(0), Ok(()));
    assert_eq!(desk.listing(&mut [0; 200]), Ok(24 + 32 + 16 + 32));
}

#[test]
fn number_25_is_given_to_a_buffer_one_byte_short() {
    for file in [
        "",
        "end\n",
        "name,a\nend\n",
        "name,a\nrule,a\nrule,-a\nend\n",
        "name,a\nname,b\nrule,a\nrule,-a\nend\n",
    ] {
        let desk = desk(file);
        let text = program_output(file.as_bytes()).into_bytes();
        let mut exact = vec![7; text.len()];
        assert_eq!(desk.listing(&mut exact), Ok(text.len()));
        assert_eq!(exact, text);
        let mut short = vec![7; text.len() - 1];
        assert_eq!(desk.listing(&mut short), Err(Refused::BufferTooShort));
        assert_eq!(short, vec![7; text.len() - 1]);
        let mut long = vec![7; text.len() + 2];
        assert_eq!(desk.listing(&mut long), Ok(text.len()));
        assert_eq!(long, [&text[..], &[7, 7]].concat());
    }
}

/// The preview of a change, and a buffer of so many bytes 7 after it.
fn previewed(
    desk: &Desk,
    change: Change,
    literal: usize,
    lent: usize,
) -> (Result<usize, Refused>, Vec<u8>) {
    let mut buffer = vec![7; lent];
    let answer = desk.preview(change, literal, &mut buffer);
    (answer, buffer)
}

/// Document 02, A.8: a refused change decides, whatever the buffer, and then the listing that would follow, which
/// may be longer or shorter than the one as it is.
#[test]
fn numbers_22_and_23_come_before_25_in_a_preview() {
    let mut desk = desk("name,a\nend\n");
    let without = b"model,1,0,0,0\n0,a,false,false\n";
    let with = b"model,1,0,1,1\n0,a,true,false\n";
    for literal in [0, 1] {
        for lent in [0, 29, 30, 99] {
            let refused = (Err(Refused::NotPutIn), vec![7; lent]);
            assert_eq!(previewed(&desk, Change::TakeOut, literal, lent), refused);
        }
    }
    assert_preview(&desk, Change::PutIn, with);
    assert_eq!(desk.facts().len(), 0);
    assert_eq!(desk.put_in(0), Ok(()));
    for lent in [0, 29, 30, 99] {
        let refused = (Err(Refused::PutInNow), vec![7; lent]);
        assert_eq!(previewed(&desk, Change::PutIn, 0, lent), refused);
    }
    assert_preview(&desk, Change::TakeOut, without);
    assert_eq!(desk.facts().len(), 1);
}

/// A preview of literal 0 is refused by 25 up to one byte less than the listing that would follow, and is
/// accepted from there on; the bytes behind the listing stay.
fn assert_preview(desk: &Desk, change: Change, listing: &[u8]) {
    let length = listing.len();
    for lent in [0, 1, length - 1] {
        let refused = (Err(Refused::BufferTooShort), vec![7; lent]);
        assert_eq!(previewed(desk, change, 0, lent), refused);
    }
    for more in [0, 1, 99] {
        let written = [listing, &vec![7; more]].concat();
        let accepted = (Ok(length), written);
        assert_eq!(previewed(desk, change, 0, length + more), accepted);
    }
}

/// An entry that no sheet has.
const UNTOUCHED: SheetEntry = SheetEntry {
    kind: 7,
    literal: 7,
    rule: 7,
    group: 7,
};

/// What is made for a claim in a run of so many entries, those behind which stay.
fn made(desk: &Desk, claim: Claim, length: usize) -> Result<usize, Refused> {
    let mut run = vec![UNTOUCHED; length];
    let made = desk.make_sheet(claim, &mut run);
    let behind = &run[made.unwrap_or(0)..];
    assert!(behind.iter().all(|entry| *entry == UNTOUCHED));
    made
}

/// Document 02, A.3: literal 2n - 1 and 2n with n names, and runs of 4n - 1 and 4n entries. The largest book has a run
/// as long as the longest sheet.
#[test]
fn sheets_are_made_in_runs_of_two_entries_per_literal() {
    for names in [1, 64, 128] {
        let desk = desk(&file_with_names(names));
        let (edge, bound) = (2 * names, 4 * names);
        let [not_so, is_so] = Claim::both(edge - 1);
        assert_eq!(made(&desk, is_so, bound), Ok(1));
        assert_eq!(made(&desk, is_so, MOST_SHEET + 1), Ok(1));
        assert_eq!(made(&desk, is_so, bound - 1), Err(Refused::BufferTooShort));
        assert_eq!(made(&desk, is_so, 0), Err(Refused::BufferTooShort));
        // 21 comes before 28, and that before 25.
        assert_eq!(made(&desk, not_so, 0), Err(Refused::NotShown));
        for claim in [edge, edge + 1, usize::MAX]
            .into_iter()
            .flat_map(Claim::both)
        {
            assert_eq!(made(&desk, claim, 0), Err(Refused::NoSuchLiteral));
            assert_eq!(desk.check_sheet(claim, &[]), Err(Refused::NoSuchLiteral));
        }
    }
}

/// Document 02, A.3.
#[test]
fn sheets_have_1_to_512_entries() {
    assert_eq!(MOST_SHEET, 512);
    let desk = desk("name,a\nend\n");
    let entry = SheetEntry {
        kind: SheetEntry::FALSE,
        literal: 1,
        ..UNTOUCHED
    };
    for (length, due) in [
        (0, Err(Refused::SheetLength)),
        (1, Ok(())),
        (512, Ok(())),
        (513, Err(Refused::SheetLength)),
    ] {
        let [_, claim] = Claim::both(1);
        assert_eq!(desk.check_sheet(claim, &vec![entry; length]), due);
    }
}

/// Document 02, A.7: 47 bytes for the header, and for each name its number, 16 bytes, twice `contradictory`
/// and what stands between. The counts of the header can't have more digits: no book has more than 128
/// names, 512 rules, 256 facts and 256 rounds.
#[test]
fn the_longest_listing_has_6209_bytes() {
    let (book, facts) = gen::longest_listing();
    let mut desk = desk(&book.to_file());
    for fact in facts {
        assert_eq!(desk.put_in(fact), Ok(()));
    }
    assert_eq!(MOST_LISTING, 6_209);
    let mut buffer = [7; MOST_LISTING];
    let mut short = [7; MOST_LISTING - 1];
    assert_eq!(desk.listing(&mut short), Err(Refused::BufferTooShort));
    assert_eq!(short, [7; MOST_LISTING - 1]);
    assert_eq!(desk.listing(&mut buffer), Ok(MOST_LISTING));
    let text = String::from_utf8(buffer.to_vec()).expect("a listing is ASCII");
    let mut lines = text.lines();
    let header = lines.next().expect("a header");
    assert_eq!(header, "contradiction,128,512,128,129,n0_xxxxxxxxxxxxx");
    for (number, name) in book.names.iter().enumerate() {
        let line = format!("{number},{name},contradictory,contradictory");
        assert_eq!(lines.next(), Some(line.as_str()));
    }
    assert_eq!(lines.next(), None);
    // Document 02, A.8: such a buffer holds a preview too.
    for (change, literal) in [(Change::TakeOut, 0), (Change::PutIn, 1)] {
        let short = desk.preview(change, literal, &mut short);
        assert_eq!(short, Err(Refused::BufferTooShort));
        assert_eq!(desk.preview(change, literal, &mut buffer), Ok(MOST_LISTING));
    }
}

#[test]
fn a_load_empties_the_facts_and_a_refused_one_changes_nothing() {
    let mut desk = desk("name,a\nend\n");
    desk.put_in(0).expect("the literal is the book's");
    let before = desk.clone();
    assert!(desk.load(b"name,b\n").is_err());
    assert_eq!(desk, before);
    assert_eq!(desk.load(b"name,b\nend\n"), Ok(()));
    assert!(desk.facts().is_empty());
    assert_eq!(desk.verdict(0), Ok(Verdict::False));
}

/// Document 02, A.4: what a file of no bytes leaves is what `end` alone leaves, also over a book with facts.
#[test]
fn a_file_of_no_bytes_leaves_what_end_alone_leaves() {
    let mut with_none = desk("name,a\nend\n");
    with_none.put_in(0).expect("the literal is the book's");
    let mut with_end = with_none.clone();
    assert_eq!(with_none.load(b""), Ok(()));
    assert_eq!(with_end.load(b"end\n"), Ok(()));
    assert_eq!(with_none, with_end);
    assert_eq!(with_none.verdict(0), Err(Refused::NoSuchLiteral));
}
