//! Links the proved calls: from the folder that RHOIKANDRA_LIB_DIR names, from the clone that this crate stands in, or from where
//! pkg-config finds them installed.

mod link;

use std::env;
use std::path::PathBuf;
use std::process::Command;

const WANTED: &str = "librhoikandra.a is not found: build and install it by `make install PREFIX=..`, and put PREFIX/lib/pkgconfig \
                      into PKG_CONFIG_PATH; or name its folder in RHOIKANDRA_LIB_DIR";

/// A variable of the environment; another value of it runs this script again.
fn variable(name: &str) -> Option<String> {
    println!("cargo:rerun-if-env-changed={name}");
    env::var(name).ok().filter(|value| !value.is_empty())
}

/// The folder of the archive in the clone. Where this crate stands in one, an archive that comes or goes runs this script again.
fn in_clone() -> Option<PathBuf> {
    let folder = link::clone().join(link::WRITTEN);
    let archive = folder.join("librhoikandra.a");
    if link::clone().join("crates.txt").is_file() {
        println!("cargo:rerun-if-changed={}", archive.display());
    }
    archive.is_file().then_some(folder)
}

/// The folder of the archive as pkg-config tells it.
fn installed() -> Option<PathBuf> {
    let program = variable("PKG_CONFIG").unwrap_or("pkg-config".into());
    for name in ["PKG_CONFIG_PATH", "PKG_CONFIG_LIBDIR"] {
        variable(name);
    }
    let told = Command::new(&program).args(["--variable=libdir", "rhoikandra"]).output();
    let told = told.unwrap_or_else(|error| link::fail(&format!("{WANTED} ({program}: {error})")));
    let folder = String::from_utf8(told.stdout).ok()?;
    (told.status.success() && !folder.trim().is_empty()).then(|| folder.trim().into())
}

fn main() {
    let named = variable("RHOIKANDRA_LIB_DIR").map(PathBuf::from);
    let folder = named.or_else(in_clone).or_else(installed).unwrap_or_else(|| link::fail(WANTED));
    link::archives(&folder, &["rhoikandra"]);
}
