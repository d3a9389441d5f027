//! The library as a program outside the repository has it: installed into a prefix, found by pkg-config, and gone after `make uninstall`.

use std::fs;
use std::path::{Path, PathBuf};
use std::process::Command;

const REPOSITORY: &str = concat!(env!("CARGO_MANIFEST_DIR"), "/..");
const KEPT: &str = env!("CARGO_TARGET_TMPDIR");

/// Runs a command, which must end well, and gives what it printed.
fn told(command: &mut Command) -> String {
    let ran = command.output().unwrap_or_else(|error| panic!("{command:?}: {error}"));
    let errors = String::from_utf8_lossy(&ran.stderr);
    assert!(ran.status.success(), "{command:?}: {}\n{errors}", ran.status);
    String::from_utf8(ran.stdout).unwrap()
}

/// `make` in the repository. It proves nothing here: an archive that is older than its sources fails the test.
fn make(words: &[&str]) -> String {
    let fresh = Command::new("make").args(["-q", "-C", REPOSITORY]).status().expect("make");
    assert!(fresh.success(), "the archive is older than its sources: `make` proves it anew");
    told(Command::new("make").arg("-C").arg(REPOSITORY).arg("RT=false").args(words))
}

/// A folder with nothing in it.
fn empty(folder: PathBuf) -> PathBuf {
    let _ = fs::remove_dir_all(&folder);
    fs::create_dir_all(&folder).unwrap();
    folder
}

/// All files below a folder, by their names from there, in order.
fn files(folder: &Path) -> Vec<String> {
    let mut names = Vec::new();
    for entry in fs::read_dir(folder).unwrap() {
        let path = entry.unwrap().path();
        let name = path.file_name().unwrap().to_str().unwrap().to_string();
        if path.is_dir() {
            names.extend(files(&path).into_iter().map(|below| format!("{name}/{below}")));
        } else {
            names.push(name);
        }
    }
    names.sort();
    names
}

/// A file that each of the parts of an installation has.
const INSTALLED: [&str; 12] = [
    "include/rhoikandra.h",
    "include/rhoikandra_saved.h",
    "lib/librhoikandra.a",
    "lib/pkgconfig/rhoikandra.pc",
    "share/rhoikandra/examples/kept_day.c",
    "share/rhoikandra/examples/kept_day.cpp",
    "share/rhoikandra/examples/kept_day.rs",
    "share/rhoikandra/numbers.tsv",
    "share/rhoikandra/rules.tsv",
    "share/rhoikandra/rust/Cargo.toml",
    "share/rhoikandra/rust/build.rs",
    "share/rhoikandra/rust/src/lib.rs",
];

/// A prefix with the library, and a folder outside the repository for programs that use it.
struct Place {
    prefix: PathBuf,
    outside: PathBuf,
}

impl Place {
    fn new() -> Place {
        let prefix = empty(Path::new(KEPT).join("prefix"));
        make(&["install", &format!("PREFIX={}", prefix.display())]);
        let outside = std::env::temp_dir().join(format!("rhoikandra-{}", std::process::id()));
        Place { prefix, outside: empty(outside) }
    }

    /// A command outside the repository, which finds the library by pkg-config alone.
    fn command(&self, program: &str) -> Command {
        let mut command = Command::new(program);
        command
            .current_dir(&self.outside)
            .env("PKG_CONFIG_PATH", self.prefix.join("lib/pkgconfig"))
            .env("CARGO_NET_OFFLINE", "true")
            .env("CARGO_TARGET_DIR", self.outside.join("target"))
            .env_remove("RHOIKANDRA_LIB_DIR");
        command
    }

    fn example(&self, ending: &str) -> PathBuf {
        self.prefix.join("share/rhoikandra/examples/kept_day").with_extension(ending)
    }

    /// What the installed example prints, built as a program of this folder.
    fn from_c(&self, compiler: &str, ending: &str) -> String {
        let flags = told(self.command("pkg-config").args(["--cflags", "--libs", "rhoikandra"]));
        let program = self.outside.join(ending);
        let mut build = self.command(compiler);
        build.args(["-O2", "-o"]).arg(&program).arg(self.example(ending));
        told(build.args(flags.split_whitespace()));
        told(self.command(program.to_str().unwrap()).arg(format!("{ending}.book")))
    }

    /// A package whose program is the installed example, over the installed crate.
    fn package(&self) {
        let rust = told(self.command("pkg-config").args(["--variable=rustdir", "rhoikandra"]));
        let manifest = format!(
            "[package]\nname = \"outside\"\nversion = \"0.1.0\"\nedition = \"2021\"\n\n[dependencies]\nrhoikandra = {{ path = {:?} }}\n",
            rust.trim()
        );
        fs::create_dir_all(self.outside.join("src")).unwrap();
        fs::write(self.outside.join("Cargo.toml"), manifest).unwrap();
        fs::copy(self.example("rs"), self.outside.join("src/main.rs")).unwrap();
    }

    fn cargo(&self, verb: &str) -> Command {
        let mut command = self.command(env!("CARGO"));
        command.args([verb, "--quiet"]);
        command
    }
}

/// C, C++ and Rust outside the repository: each opens a book and sends it a day, and they print the same.
#[test]
fn programs_outside_the_repository() {
    let place = Place::new();
    let version = told(place.command("pkg-config").args(["--modversion", "rhoikandra"]));
    let manifest = fs::read_to_string(Path::new(REPOSITORY).join("rhoikandra/Cargo.toml")).unwrap();
    assert!(manifest.contains(&format!("version = \"{}\"", version.trim())), "{version}");

    let printed = place.from_c("cc", "c");
    assert_eq!(printed.lines().count(), 5, "{printed}");
    assert_eq!(place.from_c("c++", "cpp"), printed);

    place.package();
    // Rust says what a refusal means, the others its number alone.
    let from_rust = told(&mut place.cargo("run")).replace(": no live pool under the target", "");
    assert_eq!(from_rust, printed);

    // Where nothing is installed the build script says what to do.
    let missing = place
        .cargo("build")
        .env("PKG_CONFIG_PATH", "")
        .env("PKG_CONFIG_LIBDIR", "")
        .output()
        .unwrap();
    assert!(!missing.status.success());
    assert!(String::from_utf8_lossy(&missing.stderr).contains("`make install PREFIX=..`"));
    // A folder that is named by hand is enough.
    let mut named = place.cargo("run");
    named
        .env("PKG_CONFIG_PATH", "")
        .env("PKG_CONFIG_LIBDIR", "")
        .env("RHOIKANDRA_LIB_DIR", place.prefix.join("lib"));
    assert_eq!(told(&mut named).replace(": no live pool under the target", ""), printed);
    fs::remove_dir_all(&place.outside).unwrap();
}

/// A staged installation stands below DESTDIR and speaks of its prefix alone; what was installed goes again, and nothing else.
#[test]
fn staged_and_gone() {
    let stage = empty(Path::new(KEPT).join("stage"));
    let words = [&format!("DESTDIR={}", stage.display())[..], "PREFIX=/opt/book"];
    make(&[&["install"], &words[..]].concat());
    let top = stage.join("opt/book");
    let installed = files(&top);
    for name in INSTALLED {
        assert!(installed.iter().any(|other| other == name), "{name} is not among {installed:?}");
    }
    let told = fs::read_to_string(top.join("lib/pkgconfig/rhoikandra.pc")).unwrap();
    assert!(told.starts_with("prefix=/opt/book\n") && !told.contains('@'), "{told}");

    fs::write(top.join("lib/other"), "").unwrap();
    make(&[&["uninstall"], &words[..]].concat());
    assert_eq!(files(&stage), ["opt/book/lib/other"]);
    assert!(!top.join("share/rhoikandra").exists());
}
