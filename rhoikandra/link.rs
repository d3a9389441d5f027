//! Links static archives of a folder. Both build scripts use it.

use std::path::{Path, PathBuf};

/// Where `tools/build` lays the archives in a clone, from its top.
pub const WRITTEN: &str = "target/staticlib";

/// The top of the clone that a crate stands in.
pub fn clone() -> PathBuf {
    Path::new(env!("CARGO_MANIFEST_DIR")).join("..")
}

pub fn archives(folder: &Path, names: &[&str]) {
    println!("cargo:rustc-link-search=native={}", folder.display());
    for name in names {
        let archive = folder.join(format!("lib{name}.a"));
        println!("cargo:rerun-if-changed={}", archive.display());
        if !archive.is_file() {
            fail(&format!("{} is not there: `tools/build {name}` writes it", archive.display()));
        }
        println!("cargo:rustc-link-lib=static={name}");
    }
}

pub fn fail(why: &str) -> ! {
    eprintln!("{why}");
    std::process::exit(1);
}
