//! The programs `price_job` and `try_settings` beside the commands.

use std::fs::{self, File};
use std::path::Path;
use std::process::Command;

use crate::common::{jobs, options, root};
use crate::{SWAP, UNFIT, run};

/// What a program of `target/bin` prints that is given the job of a file and words.
fn printed(program: &str, file: &str, words: &str) -> String {
    let path = root().join("target/bin").join(program);
    assert!(path.is_file(), "run `./build`");
    let job = File::open(root().join(file)).unwrap();
    let given = words.split(' ');
    let printed = Command::new(path).args(given).stdin(job).output().unwrap();
    assert!(printed.stderr.is_empty());
    String::from_utf8(printed.stdout).unwrap()
}

/// Gives the command what a program is given: it prints the same, whether or not something
/// is refused, and says the number. `try` prints nothing where it is refused.
fn same(program: &str, command: &str, file: &str, words: &str) -> bool {
    let printed = printed(program, file, words);
    let output = run(&format!("{command} {} {file}", options(command, words)));
    let last = printed.lines().last().unwrap();
    let refused = last
        .strip_prefix("refused ")
        .filter(|_| !last.contains("  "));
    let expected = match (command, refused) {
        ("try", Some(_)) => "",
        _ => &printed[..],
    };
    let result = String::from_utf8_lossy(&output.stdout);
    assert_eq!(result, expected, "{file} {words}");
    let said = String::from_utf8(output.stderr).unwrap();
    let Some(number) = refused else {
        assert_eq!(
            (output.status.code(), &said[..]),
            (Some(0), ""),
            "{file} {words}"
        );
        return true;
    };
    assert_eq!(output.status.code(), Some(1), "{file} {words}");
    assert_eq!(said.lines().count(), 1, "{file} {words}: {said}");
    assert!(
        said.contains(&format!("refused {number}: ")),
        "{file} {words}: {said}"
    );
    false
}

/// Run counts that are fewer or more than the job's patches are refused, and nothing is priced.
#[test]
fn run_counts_are_those_of_the_patches() {
    let path = root().join("target/bin/price_job");
    for (runs, refused) in [("7 7 7", false), ("7 7", true), ("7 7 7 7", true)] {
        let job = File::open(root().join("examples/enough-two-sizes.job")).unwrap();
        let given = "1 4 6 16 12".split(' ').chain(runs.split(' '));
        let printed = Command::new(&path).args(given).stdin(job).output().unwrap();
        assert_eq!(printed.stdout == b"refused 2\n", refused, "{runs}");
    }
}

#[test]
fn price_job_prints_the_same() {
    let mut priced = 0;
    for (name, _) in jobs("compare/trials") {
        let file = format!("compare/trials/{name}.job");
        for words in ["1 4 6 16 12", "2 65535 0 1 65535 7"] {
            priced += u32::from(same("price_job", "price", &file, words));
        }
    }
    assert!(priced > 100, "{priced}");
    // Refused before a patch, by the first, by a later one, and behind the last.
    let refused = [
        "examples/refused-17",
        "compare/trials/refused-10",
        "compare/trials/refused-8",
    ];
    let refused = refused.map(|name| format!("{name}.job"));
    let refused = refused.iter().map(|file| &file[..]);
    // A second patch that goes from r0 to r0: the first one's price is printed all the same.
    let swap = fs::read(root().join(SWAP)).unwrap();
    let second = [&swap[..46], &[2], &swap[47..], &[0, 1, 0, 1, 1, 0]].concat();
    let path = Path::new(env!("CARGO_TARGET_TMPDIR")).join("second.job");
    fs::write(&path, second).unwrap();
    let second = path.to_str().unwrap();
    let prices = printed("price_job", second, "1 4 6 16 12");
    assert_eq!(prices, "patch 1 edits 3 total 12\nrefused 10\n");
    for file in refused.chain([second, SWAP, UNFIT, "examples/enough-two-sizes.job"]) {
        for kept in ["1", "2", "0"] {
            for words in [
                "4 6 16 12",
                "4 6 16 65536",
                "4 6 16 1x",
                "4 6 16 12 67108863",
                "4 6 16 12 67108864",
                "4 6 16 12 7 7",
                "4 6 16 12 7 67108864",
                "4 6 16 12 1 2 3",
                "4 6 16 12 1 x 3",
                "0 0 0 65536 1 2 3 4",
            ] {
                same("price_job", "price", file, &format!("{kept} {words}"));
            }
        }
    }
}

#[test]
fn try_settings_prints_the_same() {
    let mut tried = 0;
    for (name, _) in jobs("compare/trials") {
        let file = format!("compare/trials/{name}.job");
        tried += u32::from(same("try_settings", "try", &file, "7 30 4 6 16 12"));
    }
    assert!(tried > 50, "{tried}");
    // A function alone, and jobs that are refused behind it, which a reader sees.
    let swap = fs::read(root().join(SWAP)).unwrap();
    let path = Path::new(env!("CARGO_TARGET_TMPDIR")).join("behind.job");
    let behind = |bytes: &[u8]| {
        fs::write(&path, bytes).unwrap();
        same(
            "try_settings",
            "try",
            path.to_str().unwrap(),
            "7 30 4 6 16 12",
        )
    };
    assert!(behind(&swap[..46]));
    assert!(behind(&swap));
    // A function, a job and an entry cut off; a byte left over; a second patch that goes from r0
    // to r0.
    assert!(!behind(&swap[..45]));
    assert!(!behind(&swap[..47]));
    assert!(!behind(&swap[..56]));
    assert!(!behind(&[&swap[..], &[0]].concat()));
    let again = [&swap[..46], &[2], &swap[47..], &[0, 1, 0, 1, 1, 0]].concat();
    assert!(!behind(&again));
    for words in [
        "0 1024 4 6 16 12",
        "4294967295 10 1 2 3 65535",
        "4294967296 10 1 2 3 4",
        "7 0 1 2 3 65536",
        "7 1025 1 2 3 4",
        "x 1 1 2 3 4",
        "1 1 1 2 3 65536",
    ] {
        same("try_settings", "try", SWAP, words);
        same("try_settings", "try", UNFIT, words);
    }
}
