//! Says where the static library is, and which build it is: in the folder that the
//! environment names, in the repository that the crate lies in, or in a release that is
//! installed. It is needed only when a program is linked.

use std::env;
use std::ffi::OsString;
use std::fs;
use std::path::{Path, PathBuf};
use std::process::Command;

/// Names the folder of the library by its whole path.
const VARIABLE: &str = "PARALLEL_MOVES_LIB_DIR";
/// What pkg-config reads, beside its own folders.
const PKG_CONFIG_VARIABLES: &[&str] = &["PKG_CONFIG", "PKG_CONFIG_PATH", "PKG_CONFIG_LIBDIR"];
/// What is linked of a repository: whole jobs, calls patch by patch, patches asked for or by groups, whole jobs by groups, formulas
/// that share a frame, jobs written, what edits cost, settings tried, and lists of edits examined. `c/stamp`
/// has their sums in this order.
const LIBRARIES: &[&str] = &[
    "parallel_moves_c",
    "calls_c",
    "asking_c",
    "groups_c",
    "answer_groups_c",
    "frame_c",
    "job_writer_c",
    "price_c",
    "trying_c",
    "examine_c",
];
/// What is linked of a release, which `c/install` makes: all of them in one archive.
const RELEASE: &[&str] = &["parallel_moves"];
/// What `c/stamp` writes beside the archives, and `c/install` to the headers.
const STAMP: &str = "parallel_moves_build.h";

/// The library as it is found.
struct Library {
    folder: PathBuf,
    names: &'static [&'static str],
    stamp: PathBuf,
}

impl Library {
    /// What a folder has: a release, or the archives of a repository.
    fn in_folder(folder: PathBuf) -> Self {
        if folder.join("libparallel_moves.a").is_file() {
            return Library {
                stamp: folder.join("../include").join(STAMP),
                names: RELEASE,
                folder,
            };
        }
        Library {
            stamp: folder.join(STAMP),
            names: LIBRARIES,
            folder,
        }
    }

    fn archives(&self) -> Vec<PathBuf> {
        let archive = |name: &&str| self.folder.join(format!("lib{name}.a"));
        self.names.iter().map(archive).collect()
    }

    fn is_release(&self) -> bool {
        self.names == RELEASE
    }
}

fn main() {
    let here = PathBuf::from(env::var_os("CARGO_MANIFEST_DIR").expect("cargo sets it"));
    let library = Library::in_folder(folder(&here));
    println!("cargo::rerun-if-changed=build.rs");
    println!("cargo::rerun-if-changed=src/sys/calls.rs");
    println!("cargo::rerun-if-changed={}", library.stamp.display());

    // Not bundled: it is looked for when a program is linked, and not before.
    println!(
        "cargo::rustc-link-search=native={}",
        library.folder.display()
    );
    for name in library.names {
        println!("cargo::rustc-link-lib=static:-bundle={name}");
    }
    let archives = library.archives();
    for archive in &archives {
        println!("cargo::rerun-if-changed={}", archive.display());
    }
    if let Some(missing) = archives.iter().find(|archive| !archive.is_file()) {
        println!(
            "cargo::warning={} is not there, so no program can be linked: run `./build` in the repository's \
             root, install a release that pkg-config finds, or let {VARIABLE} name the folder that has it",
            missing.display()
        );
    }
    println!(
        "cargo::rustc-env=PARALLEL_MOVES_BUILD={}",
        build(&here, &library)
    );
}

/// The folder of the library: the one that the environment names, else that of the
/// repository which the crate lies in, where it was built, else that of a release.
fn folder(here: &Path) -> PathBuf {
    println!("cargo::rerun-if-env-changed={VARIABLE}");
    if let Some(folder) = env::var_os(VARIABLE) {
        return PathBuf::from(folder);
    }
    // The package that cargo verifies lies deeper in the repository than the crate.
    let mut above = here.ancestors().skip(1);
    let repository = above
        .clone()
        .map(|above| above.join("target/staticlib"))
        .find(|folder| folder.is_dir());
    let unbuilt = above.next().unwrap_or(here).join("target/staticlib");
    repository.or_else(installed).unwrap_or(unbuilt)
}

/// The folder of an installed release, if pkg-config knows one.
fn installed() -> Option<PathBuf> {
    for variable in PKG_CONFIG_VARIABLES {
        println!("cargo::rerun-if-env-changed={variable}");
    }
    let program = env::var_os("PKG_CONFIG").unwrap_or_else(|| OsString::from("pkg-config"));
    let asked = Command::new(program)
        .args(["--variable=libdir", "parallel_moves"])
        .output()
        .ok()?;
    let folder = String::from_utf8(asked.stdout).ok()?;
    let folder = folder.trim_end();
    (asked.status.success() && !folder.is_empty()).then(|| PathBuf::from(folder))
}

/// Which build it is: the one that is stamped, if the stamp is these archives'.
fn build(here: &Path, library: &Library) -> String {
    let version = env::var("CARGO_PKG_VERSION").expect("cargo sets it");
    let calls = fs::read_to_string(here.join("src/sys/calls.rs")).expect("it is the crate's");
    let interface =
        between(&calls, "link_name = \"parallel_moves_open_", "\"").expect("it is declared there");
    let start = format!("parallel_moves {version} interface {interface} library");
    let sums: Option<Vec<String>> = library.archives().iter().map(|path| sum(path)).collect();
    let Some(sums) = sums else {
        return format!("{start} none");
    };
    let sums = sums.join(" ");
    let stamp = fs::read_to_string(&library.stamp).unwrap_or_default();
    let stamped = between(&stamp, "#define PARALLEL_MOVES_BUILD \"", "\"")
        .and_then(|line| line.split_once(&format!(" interface {interface} library ")))
        .map(|(_, rest)| rest);
    // The line has the sums of a repository's archives, also in a release of them.
    let of_these = match library.is_release() {
        true => between(&stamp, "#define PARALLEL_MOVES_RELEASE_SHA256 \"", "\"") == Some(&sums),
        false => stamped.is_some_and(|rest| rest.starts_with(&format!("{sums} "))),
    };
    match stamped {
        Some(rest) if of_these => format!("{start} {rest}"),
        _ => format!("{start} {sums} not stamped"),
    }
}

/// The SHA-256 sum of a file.
fn sum(file: &Path) -> Option<String> {
    if !file.is_file() {
        return None;
    }
    let printed = Command::new("sha256sum")
        .arg("--")
        .arg(file)
        .output()
        .ok()?;
    let printed = String::from_utf8(printed.stdout).ok()?;
    let sum = printed.trim_start_matches('\\').split(' ').next()?;
    (sum.len() == 64).then(|| sum.to_owned())
}

/// What stands between `start` and the next `end`.
fn between<'a>(text: &'a str, start: &str, end: &str) -> Option<&'a str> {
    let (_, after) = text.split_once(start)?;
    Some(after.split_once(end)?.0)
}
