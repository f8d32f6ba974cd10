//! Links the engine's archive where the feature `engine` asks for it.

use std::env;
use std::path::PathBuf;

fn main() {
    println!("cargo:rerun-if-changed=build.rs");
    println!("cargo:rerun-if-env-changed=MEZHKURA_ARCHIVE_DIR");
    if env::var_os("CARGO_FEATURE_ENGINE").is_none() {
        return;
    }
    let folder = match env::var_os("MEZHKURA_ARCHIVE_DIR") {
        Some(folder) => PathBuf::from(folder),
        None => {
            let package = env::var_os("CARGO_MANIFEST_DIR").expect("cargo names the package");
            PathBuf::from(package).join("../crates/mezhkura/out")
        }
    };
    let archive = folder.join("libmezhkura.a");
    println!("cargo:rerun-if-changed={}", archive.display());
    assert!(
        archive.exists(),
        "no {}: run `rt lib` in crates/mezhkura first",
        archive.display()
    );
    println!("cargo:rustc-link-search=native={}", folder.display());
    println!("cargo:rustc-link-lib=static=mezhkura");
}
