//! The commands `parallel-moves resolve`, `price` and `try`, and the programs `resolve`,
//! `price_job` and `try_settings`, which print the same.

#[path = "command/checks.rs"]
mod checks;
mod common;
#[path = "command/examines.rs"]
mod examines;
#[path = "command/programs.rs"]
mod programs;
#[path = "command/several.rs"]
mod several;

use std::io::Write;
use std::path::Path;
use std::process::{Command, Output, Stdio};

use common::{jobs, kept_evictions, positions_met, printed, root};

fn run(words: &str) -> Output {
    Command::new(env!("CARGO_BIN_EXE_parallel-moves"))
        .args(words.split(' '))
        .current_dir(root())
        .output()
        .unwrap()
}

/// The same with something on standard input.
fn run_with(words: &str, input: &[u8]) -> Output {
    let mut child = Command::new(env!("CARGO_BIN_EXE_parallel-moves"))
        .args(words.split(' '))
        .current_dir(root())
        .stdin(Stdio::piped())
        .stdout(Stdio::piped())
        .stderr(Stdio::piped())
        .spawn()
        .unwrap();
    let mut stdin = child.stdin.take().unwrap();
    // It need not be read to its end.
    let _ = stdin.write_all(input);
    drop(stdin);
    child.wait_with_output().unwrap()
}

/// What is printed.
fn prints(words: &str, expected: &str) {
    let output = run(words);
    assert_eq!(String::from_utf8_lossy(&output.stdout), expected, "{words}");
    assert_eq!(output.status.code(), Some(0), "{words}");
    assert!(output.stderr.is_empty());
}

/// What has no result: the status, and how the line on standard error begins.
fn says(words: &str, status: i32, expected: &str) {
    let output = run(words);
    let said = String::from_utf8_lossy(&output.stderr);
    assert_eq!(output.status.code(), Some(status), "{words}: {said}");
    assert!(
        said.starts_with(&format!("parallel-moves: {expected}")),
        "{words}: {said}"
    );
    assert!(output.stdout.is_empty());
}

/// What is refused: what is printed all the same, and how the line on standard error begins.
fn refuses(words: &str, expected: &str, why: &str) {
    let output = run(words);
    assert_eq!(String::from_utf8_lossy(&output.stdout), expected, "{words}");
    assert_eq!(output.status.code(), Some(1), "{words}");
    let said = String::from_utf8_lossy(&output.stderr);
    assert!(
        said.starts_with(&format!("parallel-moves: {why}")),
        "{words}: {said}"
    );
}

const SWAP: &str = "examples/swap-full.job";
const UNFIT: &str = "compare/trials/refused-7-top-without-slots.job";

#[test]
fn prices() {
    assert!(Path::new(&root().join(UNFIT)).is_file());
    prints(
        &format!("price --kept 1 --prices 4,6,16,12 {SWAP}"),
        "patch 1 edits 3 total 12\n",
    );
    prints(
        &format!("price --kept 2 --prices 4,6,16,12 --runs 67108863 {SWAP}"),
        "patch 1 edits 3 total 12 runs 67108863 product 805306356\n",
    );
    prints(
        &format!("price --kept 1 --prices 65535,0,0,0 --runs 67108863 {SWAP}"),
        "patch 1 edits 3 total 196605 runs 67108863 product 13193938010115\n",
    );
    // 19 for a run count comes when its patch is resolved, and says if it is no number.
    let outside = "patch 1: refused 19: a price is above 65,535, ";
    let runs = |runs: &str| format!("price --kept 1 --prices 4,6,16,12 --runs {runs} {SWAP}");
    refuses(&runs("67108864"), "refused 19\n", outside);
    let none = "patch 1: refused 19: --runs is given whole numbers in digits, and `";
    refuses(&runs("-1"), "refused 19\n", &format!("{none}-1` is none"));
    refuses(
        &runs("1,2"),
        "refused 2\n",
        "refused 2: 2 run counts for 1 patch",
    );
    // So do prices.
    let prices = |prices: &str| format!("price --kept 1 --prices {prices} {SWAP}");
    let outside = "refused 19: a price is above 65,535, ";
    refuses(&prices("4,6,65536,12"), "refused 19\n", outside);
    refuses(&prices("4,6,4294967296,12"), "refused 19\n", outside);
    let none = "refused 19: --prices is given whole numbers in digits, and `";
    for (list, part) in [
        ("x,6,16,12", "x"),
        ("4.5,6,16,12", "4.5"),
        ("4,6,16,", ""),
        ("4,+6,16,65536", "+6"),
    ] {
        refuses(
            &prices(list),
            "refused 19\n",
            &format!("{none}{part}` is none"),
        );
        says(
            &format!("try --seed 0 --patches 1 --prices {list} {SWAP}"),
            1,
            &format!("{none}{part}` is none"),
        );
    }
    for list in ["4,6,16", "4,6,16,12,0", "4.5", "4;6;16;12"] {
        let four = "--prices is given four numbers with commas between them; ";
        says(&prices(list), 2, four);
    }
    refuses(
        &format!("price --kept 3 --prices 65536,6,16,12 {SWAP}"),
        "refused 22\n",
        "refused 22: ",
    );
    // 7 before 19, and 19 before the patch's own number.
    refuses(
        &format!("price --kept 1 --prices 4,6,16,65536 {UNFIT}"),
        "refused 7\n",
        "byte 11: class 0: refused 7: ",
    );
    refuses(
        "price --kept 1 --prices 4,6,16,12 examples/refused-17.job",
        "patch 1 edits 1 total 4\nrefused 17\n",
        "byte 55: patch 2: refused 17: ",
    );
    refuses(
        "price --kept 1 --prices 4,6,16,65536 examples/refused-17.job",
        "refused 19\n",
        "refused 19: ",
    );
    // 2 for the run counts before what a patch is refused by.
    refuses(
        "price --prices 4,6,16,12 --runs 7,7 compare/trials/refused-10.job",
        "refused 2\n",
        "refused 2: 2 run counts for 1 patch",
    );
    // Of the several jobs of a call each has its own.
    let output = run(&format!(
        "price --prices 1,1,1,1 --runs 7 examples/refused-17.job {SWAP}"
    ));
    let printed = String::from_utf8(output.stdout).unwrap();
    assert_eq!(
        printed,
        "refused 2\npatch 1 edits 3 total 3 runs 7 product 21\n"
    );
    assert_eq!(output.status.code(), Some(1));
    says("price --kept 1 --prices 4,6,16,12 /nowhere/at.all", 2, "");
}

#[test]
fn tries() {
    prints(
        &format!("try --seed 0 --patches 1024 --prices 4,6,16,12 {SWAP}"),
        "seed 0 patches 1024
kept                   1           2
accepted               1           1
M                      1           1
R                      0           0
S                      0           0
L                      0           0
evictions              0           0
price                  4           4
refused 10          7547        7547
refused 12          1661        1661
",
    );
    says(
        &format!("try --seed 0 --patches 0 --prices 4,6,16,12 {SWAP}"),
        1,
        "refused 2: ",
    );
    says(
        &format!("try --seed 0 --patches 1025 --prices 4,6,16,65536 {SWAP}"),
        1,
        "refused 2: ",
    );
    says(
        &format!("try --seed 4294967296 --patches 1 --prices 4,6,16,12 {SWAP}"),
        1,
        "refused 2: ",
    );
    says(
        &format!("try --seed 0 --patches 1 --prices 4,6,16,65536 {SWAP}"),
        1,
        "refused 19: ",
    );
    says(
        &format!("try --seed 0 --patches 1 --prices 4,6,16,65536 {UNFIT}"),
        1,
        "byte 11: class 0: refused 7: ",
    );
    says(
        &format!("try --seed 0 --patches 1 --prices 4,6,16 {SWAP}"),
        2,
        "",
    );
}

/// `resolve` prints of each trial what the program does.
#[test]
fn resolves() {
    for (name, _) in jobs("compare/trials") {
        let file = format!("compare/trials/{name}.job");
        let expected = printed(&name);
        let output = run(&format!("resolve --kept {} {file}", kept_evictions(&name)));
        assert_eq!(String::from_utf8_lossy(&output.stdout), expected, "{name}");
        let refused = expected
            .lines()
            .last()
            .and_then(|line| line.strip_prefix("refused "));
        let said = String::from_utf8(output.stderr).unwrap();
        match refused {
            None => assert_eq!((output.status.code(), &said[..]), (Some(0), ""), "{name}"),
            Some(number) => {
                assert_eq!(output.status.code(), Some(1), "{name}");
                assert_eq!(said.lines().count(), 1, "{name}");
                // All but 22 says where.
                let start = match number {
                    "22" => "parallel-moves: refused 22: ".to_owned(),
                    number => {
                        assert!(said.starts_with("parallel-moves: byte "), "{name}: {said}");
                        format!(": refused {number}: ")
                    }
                };
                assert!(said.contains(&start), "{name}: {said}");
            }
        }
    }
}

/// `groups` prints the joined edits of a patch's groups, and otherwise what `resolve` does.
#[test]
fn groups() {
    let slots = "examples/pictures/slot-handed-on.job";
    let swapped =
        "S s3 r3\nM r3 s1 1\nM s2 r3 1\nM r3 s0 0\nM s1 r3 0\nM r3 s2 1\nM s0 r3 1\nL r3 s3\n";
    prints(
        &format!("groups {slots}"),
        &format!("patch 1 edits 11 made 2\n{swapped}M s3 r1 3\nM r1 r0 2\nM r0 s3 3\n"),
    );
    // One group each.
    for name in ["swap-full", "slots-swapped", "rebuild-into-slot"] {
        let file = format!("examples/{name}.job");
        let whole = String::from_utf8(run(&format!("resolve {file}")).stdout).unwrap();
        prints(&format!("groups {file}"), &whole);
    }
    let output = run("groups examples/refused-17.job");
    assert_eq!(output.status.code(), Some(1));
    assert_eq!(output.stdout, run("resolve examples/refused-17.job").stdout);
    let said = String::from_utf8(output.stderr).unwrap();
    assert!(
        said.starts_with("parallel-moves: patch 2: refused 17: "),
        "{said}"
    );
    let output = run(&format!("groups {UNFIT}"));
    assert_eq!(output.stdout, b"refused 7\n");
    let said = String::from_utf8(output.stderr).unwrap();
    assert!(
        said.starts_with("parallel-moves: byte 11: class 0: refused 7: "),
        "{said}"
    );
    assert_eq!(
        run(&format!("groups --kept 3 {slots}")).stdout,
        b"refused 22\n"
    );
    // Several, a folder among them.
    let output = run(&format!("groups {slots} examples"));
    assert_eq!(output.status.code(), Some(1));
    let text = String::from_utf8(output.stdout).unwrap();
    assert!(
        text.lines()
            .filter(|line| line.starts_with("patch 1 "))
            .count()
            > 6
    );
}

/// The positions of the trials that say them.
#[test]
fn positions() {
    let mut met = 0;
    for (name, _) in jobs("compare/trials") {
        let Some(positions) = positions_met(&name) else {
            continue;
        };
        let lines = (1..).zip(positions);
        let expected: String = lines
            .map(|(patch, position)| format!("patch {patch} position {position}\n"))
            .collect();
        let kept = kept_evictions(&name);
        prints(
            &format!("positions --kept {kept} compare/trials/{name}.job"),
            &expected,
        );
        met += 1;
    }
    assert!(met > 5);
    let output = run("positions examples/refused-17.job");
    assert_eq!(output.status.code(), Some(1));
    assert_eq!(output.stdout, b"patch 1 position 0\n");
}

#[test]
fn stamp() {
    prints("stamp", &format!("{}\n", parallel_moves::BUILD));
}
