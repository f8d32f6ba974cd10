//! The C header is one that a C compiler accepts, and a C program runs over the engine's archive.
//! The tests say so and pass where no C compiler is found and nothing forbids skipping.

mod skip;

use std::path::{Path, PathBuf};
use std::process::{Command, Output};

fn package() -> &'static Path {
    Path::new(env!("CARGO_MANIFEST_DIR"))
}

/// Runs the C compiler with strict words on the program of the tests, or says that there is none.
fn compile(more: &[&str]) -> Option<Output> {
    let compiler = std::env::var("CC").unwrap_or_else(|_| "cc".to_string());
    let output = Command::new(&compiler)
        .args(["-std=c11", "-Wall", "-Wextra", "-pedantic", "-Werror", "-I"])
        .arg(package().join("include"))
        .arg(package().join("tests/c/desk.c"))
        .args(more)
        .output();
    match output {
        Ok(output) => Some(output),
        Err(error) => {
            skip::skipped(&format!(
                "the C compiler `{compiler}` doesn't start: {error}"
            ));
            None
        }
    }
}

fn archive() -> PathBuf {
    let folder = match std::env::var_os("MEZHKURA_ARCHIVE_DIR") {
        Some(folder) => PathBuf::from(folder),
        None => package().join("../crates/mezhkura/out"),
    };
    folder.join("libmezhkura.a")
}

fn assert_success(output: &Output) {
    let text = String::from_utf8_lossy(&output.stderr);
    assert!(output.status.success(), "{text}");
}

#[test]
fn a_c_compiler_accepts_the_header() {
    if let Some(output) = compile(&["-fsyntax-only"]) {
        assert_success(&output);
    }
}

#[test]
#[cfg_attr(not(feature = "engine"), ignore = "needs the engine's archive")]
fn a_c_program_works_on_a_desk() {
    let archive = archive();
    let program = Path::new(env!("CARGO_TARGET_TMPDIR")).join("desk");
    let words = [archive.as_path(), Path::new("-o"), program.as_path()]
        .map(|p| p.to_str().expect("a path in UTF-8"));
    let Some(output) = compile(&words) else {
        return;
    };
    assert_success(&output);
    let run = Command::new(program).output().expect("the program starts");
    assert_success(&run);
    // Literals 0 and 2 are true: word 0 of M and of N is 1 + 4, and the second round adds nothing. Without a
    // book the model call is refused by 20. The verdict of the written sets is 2, and the written rounds are 300.
    let expected = "0 0 22 23\n0 1\n0 1\n0 0 5 5 1\n20 0 0 0 0\n0 2\n0 0 1 5 300\n0 25\n\
        model,2,1,1,1\n0,Brake_Held,true,false\n1,may_park,true,false\n0 0\nmodel,0,0,0,0\n\
        0 0 2 1 1\n0 0 0 0 0\n9 4 0 0 0\n\
        0 2 2: 0 in 0 1 in 1\n0 0 5 5\n20 0 0:\n20 0 0 0\n\
        0 3 2: 1 in 0 2 in 0 0 in 1\n0 0 0 21\n";
    // The set has both literals of names 0 and 1, which are refused by 24, and name 2 is false. In M are both
    // literals of name 0, and name 1, so with a set that has literal 4 alone the first two are true. Without
    // the second fact name 0 is true and name 1 false.
    let clash = "1 15: 24 0 24 0 0 0\ncontradiction,3,1,2,2,a\n0,a,contradictory,contradictory\n\
        1,b,contradictory,contradictory\n2,c,false,false\n\
        1 16: 0 1 0 1 24 0\n0 0: 0 1 0 0 0 0\n";
    // Where a preview is refused, the buffer has the byte 7 that stood there, and so has the byte behind a listing.
    let previews = "20 0 7\n21 0 7\n22 0 7\n23 0 7\n25 0 7\n\
        0 56 7\ncontradiction,1,0,2,1,a\n0,a,contradictory,contradictory\n\
        25 0 7\n0 30 7\nmodel,1,0,0,0\n0,a,false,false\nmodel,1,0,1,1\n0,a,true,false\n";
    // An index stands behind each number of a check: without its reason, and with the reason behind it, entry 0 doesn't
    // follow, and the literal that the book doesn't have is in entry 1. A made sheet shows its claim, and what is refused
    // has none; all entries behind it stay.
    let sheets = " 0 0 0 0 0 0 27 0 27 0 27 1\n \
        0 1 1 0 1 1 28 0 1 25 0 1 21 0 1 20 0 1\n \
        20 0 21 0 26 0 26 0 0 0 28 0\n";
    let printed = String::from_utf8_lossy(&run.stdout);
    assert_eq!(printed, format!("{expected}{clash}{previews}{sheets}"));
}
