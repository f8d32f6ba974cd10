//! A test that lacks what it needs.

/// Says that a test is skipped. A gate has all that the tests need and sets MEZHKURA_NO_SKIP, and
/// there the test fails, so that nothing is passed over in silence.
pub fn skipped(why: &str) {
    let needed = std::env::var_os("MEZHKURA_NO_SKIP").is_some();
    assert!(!needed, "{why}");
    println!("SKIPPED: {why}");
}
