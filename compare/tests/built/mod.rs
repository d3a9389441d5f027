//! Programs in C and C++ over the library, built for a test.

use std::path::{Path, PathBuf};
use std::process::Command;

pub fn top() -> PathBuf {
    Path::new(env!("CARGO_MANIFEST_DIR")).join("..")
}

/// A file of this test's own.
pub fn kept(name: &str) -> PathBuf {
    Path::new(env!("CARGO_TARGET_TMPDIR")).join(name)
}

/// A program from one source of the repository, with every warning an error. Its name says the source and how it was built.
pub fn program(compiler: &str, source: &str, flags: &[&str]) -> PathBuf {
    let program = kept(&format!("{}{}", source.replace('/', "-"), flags.concat()));
    let built = Command::new(compiler)
        .args(["-Wall", "-Wextra", "-Werror", "-pedantic", "-pthread"])
        .args(flags)
        .arg("-I")
        .arg(top().join("rhoikandra"))
        .arg("-o")
        .arg(&program)
        .arg(top().join(source))
        .arg(top().join("target/staticlib/librhoikandra.a"))
        .status();
    let built = built.unwrap_or_else(|error| panic!("{compiler}: {error}"));
    assert!(built.success(), "{compiler} {flags:?} {source}");
    program
}
