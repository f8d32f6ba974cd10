//! The C compiler for tests, or a message where there is none and nothing forbids skipping.

use crate::skip;
use std::path::{Path, PathBuf};
use std::process::{Command, Output};

pub fn package() -> &'static Path {
    Path::new(env!("CARGO_MANIFEST_DIR"))
}

/// A file that a test writes.
pub fn written_by_a_test(name: &str) -> PathBuf {
    Path::new(env!("CARGO_TARGET_TMPDIR")).join(name)
}

/// Runs the C compiler with strict words on a program that includes the header, or says that there is none.
pub fn compile(source: &Path, more: &[&Path]) -> Option<Output> {
    let compiler = std::env::var("CC").unwrap_or_else(|_| "cc".to_string());
    let output = Command::new(&compiler)
        .args(["-std=c11", "-Wall", "-Wextra", "-pedantic", "-Werror", "-I"])
        .arg(package().join("include"))
        .arg(source)
        .args(more)
        .output();
    match output {
        Ok(output) => Some(output),
        Err(error) => {
            skip::skipped(&format!(
                "the C compiler `{compiler}` doesn't start: {error}"
            ));
            None
        }
    }
}

pub fn assert_success(output: &Output) {
    let text = String::from_utf8_lossy(&output.stderr);
    assert!(output.status.success(), "{text}");
}

/// What a compiled program prints.
pub fn printed_by(program: &Path) -> String {
    let run = Command::new(program).output().expect("the program starts");
    assert_success(&run);
    String::from_utf8_lossy(&run.stdout).into_owned()
}
