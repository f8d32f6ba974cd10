//! The short books of document 01, its readings that lead astray, and short books with a clash.

use mezhkura::answer::{Change, Question, Refused, Tree, Verdict};
use mezhkura::second::{gamma, program_output, read, Desk, Program};
use std::collections::BTreeSet;
use Verdict::{False, True, Undefined};

const CASE_1: &str = "name,moving
name,locked
name,fault
name,stalled
rule,moving,~locked
rule,locked,~moving
rule,fault,moving,~stalled
rule,-locked
rule,stalled,~stalled
end
";

const CASE_5: &str = "name,a\nname,b\nrule,a,~b\nrule,b,~a\nrule,-a\nend\n";
const CASE_6: &str = "name,f\nname,s\nname,d\nrule,f,s\nrule,s,~d\nrule,d,~d\nrule,-s\nend\n";

fn desk(file: &str) -> Desk {
    let mut desk = Desk::fresh();
    desk.load(file.as_bytes()).expect("the file loads");
    desk
}

fn verdicts(desk: &Desk) -> Vec<Verdict> {
    let literals = desk.book().expect("a book is loaded").literals();
    (0..literals)
        .map(|literal| desk.verdict(literal).expect("the lesson has verdicts"))
        .collect()
}

fn says(desk: &Desk, tree: Tree, literal: usize) -> bool {
    let question = Question {
        literal,
        default: false,
        tree,
    };
    desk.search(question, 100_000)
        .expect("the literal is the book's")
        .expect("the trees end")
}

#[test]
fn case_1_lists_as_printed() {
    let expected = "model,4,5,0,2
0,moving,true,false
1,locked,false,true
2,fault,undefined,false
3,stalled,undefined,false
";
    assert_eq!(program_output(CASE_1.as_bytes()), expected);
}

#[test]
fn cases_2_3_7_8_9_have_their_verdicts() {
    let cases: [(&str, Vec<Verdict>); 5] = [
        ("name,a\nrule,a,a\nend\n", vec![False, False]),
        ("name,a\nrule,a,~a\nend\n", vec![Undefined, False]),
        (
            "name,a\nname,b\nrule,a,~b\nend\n",
            vec![True, False, False, False],
        ),
        ("name,a\nrule,-a,~a\nend\n", vec![False, True]),
        (
            "name,a\nrule,a,~-a\nrule,-a,~a\nend\n",
            vec![Undefined, Undefined],
        ),
    ];
    for (file, expected) in cases {
        assert_eq!(verdicts(&desk(file)), expected, "{file}");
    }
}

#[test]
fn case_4_is_contradictory_and_still_searched() {
    let file = "name,a\nrule,a\nrule,-a\nend\n";
    let listing = "contradiction,1,2,0,1,a\n0,a,contradictory,contradictory\n";
    assert_eq!(program_output(file.as_bytes()), listing);
    let desk = desk(file);
    assert_eq!(desk.verdict(0), Err(Refused::Contradictory));
    assert_eq!(desk.verdict(1), Err(Refused::Contradictory));
    assert!(says(&desk, Tree::T, 0));
    assert!(!says(&desk, Tree::TU, 0));
}

#[test]
fn case_5_has_b_true_and_a_false() {
    assert_eq!(verdicts(&desk(CASE_5)), [False, True, True, False]);
}

#[test]
fn case_6_has_f_and_s_false_and_d_undefined() {
    assert_eq!(
        verdicts(&desk(CASE_6)),
        [False, False, False, True, Undefined, False]
    );
}

#[test]
fn case_10_and_a_file_of_no_bytes_list_a_book_of_nothing() {
    assert_eq!(program_output(b"end\n"), "model,0,0,0,0\n");
    assert_eq!(program_output(b""), "model,0,0,0,0\n");
}

#[test]
fn case_11_puts_in_a_fact_and_takes_it_out() {
    let mut desk = desk(CASE_5);
    assert_eq!(desk.put_in(0), Ok(()));
    // `a` and `b` stand in each other's rules, so `b` reaches the clash at `a`.
    for literal in 0..4 {
        assert_eq!(desk.verdict(literal), Err(Refused::Contradictory));
    }
    assert_eq!(written(|buffer| desk.listing(buffer)), CASE_11);
    assert_eq!(desk.take_out(0), Ok(()));
    assert_eq!(verdicts(&desk), [False, True, True, False]);
}

/// The listing of case 11, in which `a` is put in.
const CASE_11: &str = "contradiction,2,3,1,2,a\n0,a,contradictory,contradictory\n\
    1,b,contradictory,contradictory\n";

/// What a call writes into a buffer.
fn written(call: impl FnOnce(&mut [u8]) -> Result<usize, Refused>) -> String {
    let mut buffer = [0; 100];
    let length = call(&mut buffer).expect("the buffer is long enough");
    String::from_utf8_lossy(&buffer[..length]).into_owned()
}

/// Document 02, A.8. Before case 11 puts in its fact, a preview shows the contradiction; before the fact is taken
/// out, a preview shows a model again.
#[test]
fn case_11_is_previewed() {
    let mut desk = desk(CASE_5);
    let before = written(|buffer| desk.listing(buffer));
    assert_eq!(before, "model,2,3,0,2\n0,a,false,true\n1,b,true,false\n");
    let put_in = written(|buffer| desk.preview(Change::PutIn, 0, buffer));
    assert_eq!(put_in, CASE_11);
    assert_eq!(written(|buffer| desk.listing(buffer)), before);
    assert_eq!(desk.put_in(0), Ok(()));
    let take_out = written(|buffer| desk.preview(Change::TakeOut, 0, buffer));
    assert_eq!(take_out, before);
    assert_eq!(written(|buffer| desk.listing(buffer)), CASE_11);
}

fn rounds(desk: &Desk) -> usize {
    desk.model().expect("a book is loaded").rounds
}

/// Document 02, A.10. Above each case stand I(1), I(2) and so on, as far as they grow.
#[test]
fn cases_have_their_rounds() {
    let cases = [
        // {-locked}; {-locked, moving}
        (CASE_1, 2),
        // In cases 2, 3, 9 and 10 I(1) is empty.
        ("name,a\nrule,a,a\nend\n", 0),
        ("name,a\nrule,a,~a\nend\n", 0),
        // {a, -a}
        ("name,a\nrule,a\nrule,-a\nend\n", 1),
        // {-a}; {-a, b}
        (CASE_5, 2),
        // {-s}
        (CASE_6, 1),
        // {a}
        ("name,a\nname,b\nrule,a,~b\nend\n", 1),
        // {-a}
        ("name,a\nrule,-a,~a\nend\n", 1),
        ("name,a\nrule,a,~-a\nrule,-a,~a\nend\n", 0),
        ("end\n", 0),
    ];
    for (file, expected) in cases {
        assert_eq!(rounds(&desk(file)), expected, "{file}");
    }
    // Case 11: {a, -a}; {a, -a, b}. Then case 5 again.
    let mut case_11 = desk(CASE_5);
    assert_eq!(case_11.put_in(0), Ok(()));
    assert_eq!(rounds(&case_11), 2);
    assert_eq!(case_11.take_out(0), Ok(()));
    assert_eq!(rounds(&case_11), 2);
}

#[test]
fn astray_gamma_in_place_of_gamma_s_loses_b_in_case_5() {
    let book = read(CASE_5.as_bytes()).expect("the file loads");
    let program = Program::new(&book, &BTreeSet::new());
    let mut astray = vec![false; program.literals];
    loop {
        let next = gamma(&program, &gamma(&program, &astray));
        if next == astray {
            break;
        }
        astray = next;
    }
    assert!(!astray[2], "the wrong reading doesn't show b");
    assert!(program.halves().truths[2], "the right one does");
}

#[test]
fn astray_without_the_added_leaf_f_of_case_6_isnt_false() {
    let desk = desk(CASE_6);
    assert!(!says(&desk, Tree::TU, 0));
    assert!(!says(&desk, Tree::TU, 2));
    assert!(says(&desk, Tree::TU, 4));
}

/// `a ← ~a`: the TU-tree for a stands under the T-ancestor a. If that failed it, "not a" would
/// hold and a would be true.
#[test]
fn astray_a_tu_node_isnt_failed_by_a_global_t_ancestor() {
    let desk = desk("name,a\nrule,a,~a\nend\n");
    assert!(!says(&desk, Tree::T, 0));
    assert!(says(&desk, Tree::TU, 0));
}

#[test]
fn astray_undefined_is_printed_as_such() {
    let text = program_output(b"name,a\nrule,a,~a\nend\n");
    assert_eq!(text, "model,1,1,0,0\n0,a,undefined,false\n");
}

#[test]
fn astray_a_contradiction_without_facts_is_found() {
    let file = b"name,x\nname,a\nrule,a,~x\nrule,-a,~x\nend\n";
    let listing = "contradiction,2,2,0,1,a\n0,x,false,false\n1,a,contradictory,contradictory\n";
    assert_eq!(program_output(file), listing);
}

#[test]
fn the_lowest_contradictory_name_is_printed() {
    let file = b"name,c\nname,b\nname,a\nrule,a\nrule,-a\nrule,-b\nrule,b\nend\n";
    let listing = "contradiction,3,4,0,1,b\n0,c,false,false\n1,b,contradictory,contradictory\n\
        2,a,contradictory,contradictory\n";
    assert_eq!(program_output(file), listing);
}

/// Document 02, A.7. Each book has a clash at `a`, and a name `b` beside it.
#[test]
fn the_names_that_reach_a_clash_have_no_verdicts_and_the_others_do() {
    let cases = [
        // `b` doesn't reach `a`: it has no rule, a fact, or a circle of its own.
        ("", "1,b,false,false"),
        ("rule,-b\n", "1,b,false,true"),
        ("rule,b,~b\n", "1,b,undefined,false"),
        // `a` reaches `b`, which is not the same thing. The rule shows nothing, since `b` isn't shown.
        ("rule,a,b\n", "1,b,false,false"),
        // `a` stands in a rule for `b` or for `-b`, in whatever form, whether or not the rule applies.
        ("rule,b,a\n", "1,b,contradictory,contradictory"),
        ("rule,b,-a\n", "1,b,contradictory,contradictory"),
        ("rule,b,~a\n", "1,b,contradictory,contradictory"),
        ("rule,-b,~-a\n", "1,b,contradictory,contradictory"),
        ("rule,b\nrule,-b,a,b\n", "1,b,contradictory,contradictory"),
        // Through `c`.
        ("rule,b,~c\nrule,-c,a\n", "1,b,contradictory,contradictory"),
    ];
    for (rules, line) in cases {
        let file = format!("name,a\nname,b\nname,c\nrule,a\nrule,-a\n{rules}end\n");
        let text = program_output(file.as_bytes());
        let lines: Vec<&str> = text.lines().collect();
        assert!(lines[0].starts_with("contradiction,3,"), "{file}{text}");
        assert!(lines[0].ends_with(",a"), "{file}{text}");
        assert_eq!(lines[1], "0,a,contradictory,contradictory", "{file}{text}");
        assert_eq!(lines[2], line, "{file}{text}");
        assert_eq!(lines.len(), 4, "{file}{text}");
    }
}

/// The header has the lowest-numbered name with both literals in M, which may be a consequence.
#[test]
fn the_name_of_the_header_may_follow_from_the_clash() {
    let file = b"name,far\nname,near\nname,other\nrule,near\nrule,-near\nrule,far,near\n\
        rule,-far,-near\nrule,other,~far\nend\n";
    let listing = "contradiction,3,5,0,2,far\n0,far,contradictory,contradictory\n\
        1,near,contradictory,contradictory\n2,other,contradictory,contradictory\n";
    assert_eq!(program_output(file), listing);
}
