//! Lists of edits examined: what is printed and said, and the exit status.

use std::fs;
use std::path::Path;

use crate::common::{encoded, jobs, numbers, root};
use crate::{SWAP, UNFIT, run, run_with};

/// What `examine` prints of a job and an answer, what it says, and its status.
fn examined(words: &str, answer: &str) -> (String, String, Option<i32>) {
    let output = run_with(&format!("examine {words}"), answer.as_bytes());
    let text = |bytes: Vec<u8>| String::from_utf8(bytes).unwrap();
    let (printed, said) = (text(output.stdout), text(output.stderr));
    for line in said.lines() {
        assert!(line.starts_with("parallel-moves: "), "{line}");
    }
    let said = said.replace("parallel-moves: ", "");
    (printed, said, output.status.code())
}

/// What is printed, the beginnings of the lines that are said, and the status.
fn is(words: &str, answer: &str, printed: &str, said: &[&str], status: i32) {
    let (found, lines, code) = examined(words, answer);
    assert_eq!(found, printed, "{words}: {answer}: {lines}");
    assert_eq!(code, Some(status), "{words}: {answer}");
    let lines: Vec<&str> = lines.lines().collect();
    assert_eq!(lines.len(), said.len(), "{words}: {answer}: {lines:?}");
    for (line, start) in lines.iter().zip(said) {
        assert!(line.starts_with(start), "{line} is not {start}");
    }
}

const OURS: &str = "patch 1 edits 3 made 1\nM s0 r1 1\nM r1 r0 0\nM r0 s0 1\n";
const NO_EDIT: &str = "refused 24: ";

/// A job of three patches, each swap-full's, in a file of this name.
fn three_swaps(name: &str) -> String {
    let path = Path::new(env!("CARGO_TARGET_TMPDIR")).join(name);
    let mut job = fs::read(root().join(SWAP)).unwrap();
    let patch = job.split_off(job.len() - 10);
    assert_eq!(job.pop(), Some(1));
    job.push(3);
    job.extend(patch.repeat(3));
    fs::write(&path, job).unwrap();
    path.to_str().unwrap().to_owned()
}

#[test]
fn yes_and_no() {
    is(SWAP, OURS, "patch 1 yes\n", &[], 0);
    is(
        SWAP,
        OURS.split_once('\n').unwrap().1,
        "patch 1 yes\n",
        &[],
        0,
    );
    is(
        SWAP,
        &OURS.replace("patch 1 edits 3 made 1", "patch"),
        "patch 1 yes\n",
        &[],
        0,
    );
    // Where a no first goes wrong.
    is(
        SWAP,
        &OURS.replace("M r0 s0 1", "M r0 r1 1"),
        "patch 1 no\n",
        &["patch 1: in the end r0 does not hold value 1"],
        1,
    );
    is(
        SWAP,
        &OURS.replace("M r1 r0 0\n", "M r1 r0 0\nL r2 s0\n"),
        "patch 1 no\n",
        &["patch 1: in the end unit 2, of r2, does not hold what it began with"],
        1,
    );
    is(
        SWAP,
        "patch 1 edits 3 made 1\nM r1 r0 0\nM r0 s0 1\n",
        "patch 1 no\n",
        &["patch 1: line 3: edit 2, `M r0 s0 1`, cannot be done: \
           what is read may have any number of words"],
        1,
    );
    is(
        SWAP,
        "M r1 r0 0\nR r0 1\n",
        "patch 1 no\n",
        &["patch 1: line 2: edit 2, `R r0 1`, cannot be done: the value cannot be rebuilt"],
        1,
    );
}

/// 24 says the line of the first edit that gets it.
#[test]
fn no_edits() {
    for line in [
        "M r1 r9 0",
        "M r1",
        "",
        "refused",
        "refused 17 18",
        "M r1 r0 0 0",
        "x\x1b[31m",
    ] {
        let list = OURS.replace("M r1 r0 0\n", &format!("{line}\n"));
        let said = format!("patch 1: line 3: {NO_EDIT}");
        is(SWAP, &list, "patch 1 24\n", &[&said], 1);
    }
    // `refused` and a number is no edit either, but at the end of all.
    let list = OURS.replace("M r1 r0 0\n", "refused 17\n");
    let said = format!("patch 1: line 3: {NO_EDIT}");
    is(SWAP, &list, "patch 1 24\n", &[&said], 1);
    for last in ["refused 0", "refused 256", "refused -1", "refused x"] {
        let said = format!("patch 1: line 5: {NO_EDIT}");
        is(
            SWAP,
            &format!("{OURS}{last}\n"),
            "patch 1 24\n",
            &[&said],
            1,
        );
    }
}

/// Patches that have no list, a list that has no patch, and two lists of a patch.
#[test]
fn lists_and_patches() {
    is(SWAP, "", "patch 1 missing\n", &["patch 1 is missing"], 1);
    let three = three_swaps("three-lists.job");
    let list = |number: u32| OURS.replace("patch 1", &format!("patch {number}"));
    let all = list(1) + &list(2) + &list(3);
    is(
        &three,
        &all,
        "patch 1 yes\npatch 2 yes\npatch 3 yes\n",
        &[],
        0,
    );
    is(
        &three,
        "",
        "patch 1 missing\npatch 2 missing\npatch 3 missing\n",
        &["patches 1 to 3 are missing"],
        1,
    );
    is(
        &three,
        &(list(1) + &list(3)),
        "patch 1 yes\npatch 3 yes\npatch 2 missing\n",
        &["patch 2 is missing"],
        1,
    );
    is(
        &three,
        &list(2),
        "patch 2 yes\npatch 1 missing\npatch 3 missing\n",
        &["patch 1 is missing", "patch 3 is missing"],
        1,
    );
    is(
        &three,
        &(all.clone() + &list(4)),
        "patch 1 yes\npatch 2 yes\npatch 3 yes\npatch 4 2\n",
        &["patch 4: the job has 3 patches"],
        1,
    );
    is(
        &three,
        &(all.clone() + &list(2)),
        "patch 1 yes\npatch 2 twice\npatch 3 yes\n",
        &["patch 2: line 13 begins it a second time"],
        1,
    );
    is(
        SWAP,
        &list(0),
        "patch 0 2\npatch 1 missing\n",
        &["patch 0: the job has 1 patch", "patch 1 is missing"],
        1,
    );
}

/// An answer that ends in a refusal: what stands before it is examined, and the refusal said.
#[test]
fn refused_answers() {
    is(
        "examples/refused-17.job",
        "patch 1 edits 1 made 0\nM r1 r0 0\nrefused 17\n",
        "patch 1 yes\nrefused 17\n",
        &["patch 2: the answer ends in refused 17: "],
        1,
    );
    is(
        &three_swaps("three-refused.job"),
        "refused 17\n",
        "refused 17\n",
        &[
            "patch 1: the answer ends in refused 17: ",
            "patches 2 to 3 are missing",
        ],
        1,
    );
    // A patch that is refused, and a job whose patches cannot be told.
    let twice = "compare/trials/refused-12.job";
    let (printed, said, status) = examined(twice, "patch 1\nM r1 r0 0\n");
    assert_eq!((&printed[..], status), ("patch 1 12\n", Some(1)));
    assert!(
        said.contains("patch 1") && said.contains("refused 12: "),
        "{said}"
    );
    // A patch that is refused once it is read: of unit 1, which is a destination's, 13 comes of
    // the patches behind it, too.
    let free = Path::new(env!("CARGO_TARGET_TMPDIR")).join("free.job");
    let mut job = fs::read(three_swaps("three-free.job")).unwrap();
    let second = job.len() - 20;
    job.splice(second..=second, [1, 1]);
    fs::write(&free, job).unwrap();
    let answer = ["", "patch\n", "patch\n"].map(|head| format!("{head}{}", &OURS[23..]));
    is(
        free.to_str().unwrap(),
        &answer.concat(),
        "patch 1 yes\npatch 2 13\npatch 3 13\n",
        &[
            "patch 2: byte 58: patch 2, free unit 1: refused 13: ",
            "patch 3: byte 58: patch 2, free unit 1: refused 13: ",
        ],
        1,
    );
    is(UNFIT, "", "", &["byte 11: class 0: refused 7: "], 1);
    is(
        UNFIT,
        "patch 1\n",
        "patch 1 7\n",
        &["patch 1: byte 11: class 0: refused 7: "],
        1,
    );
    // Bytes left over: perhaps a patch too few is counted.
    let left_over = Path::new(env!("CARGO_TARGET_TMPDIR")).join("left-over.job");
    fs::write(
        &left_over,
        [&fs::read(root().join(SWAP)).unwrap()[..], b"\n"].concat(),
    )
    .unwrap();
    let left_over = left_over.to_str().unwrap();
    is(
        left_over,
        OURS,
        "patch 1 yes\n",
        &["byte 57: the job: refused 8: "],
        1,
    );
    let ours = format!("{OURS}refused 8\n");
    is(
        left_over,
        &ours,
        "patch 1 yes\nrefused 8\n",
        &["the answer ends in refused 8: "],
        1,
    );
}

/// Each answer of ours gets a yes of every patch that is resolved; status 0 if all are.
#[test]
fn ours() {
    let (mut answered, mut refused) = (0, 0);
    for (name, _) in jobs("compare/trials") {
        let file = format!("compare/trials/{name}.job");
        for kept in [1, 2] {
            let output = run(&format!("resolve --kept {kept} {file}"));
            let answer = String::from_utf8(output.stdout).unwrap();
            let (printed, said, status) = examined(&file, &answer);
            assert_eq!(status, output.status.code(), "{name}: {said}");
            let kept_lines =
                |line: &&str| line.starts_with("patch ") || line.starts_with("refused ");
            let heads: Vec<String> = answer
                .lines()
                .filter(kept_lines)
                .map(|line| match line.split_once(" edits ") {
                    Some((patch, _)) => format!("{patch} yes"),
                    None => line.to_owned(),
                })
                .collect();
            assert_eq!(printed.lines().collect::<Vec<_>>(), heads, "{name}");
            assert_eq!(said.is_empty(), status == Some(0), "{name}: {said}");
            answered += u32::from(status == Some(0));
            refused += u32::from(status == Some(1));
        }
    }
    assert!(answered > 100 && refused > 50, "{answered} {refused}");
}

/// With a frame's limit, slots below N plus it may be named, whatever L is.
#[test]
fn with_a_limit() {
    let list = OURS.replace("s0", "s2");
    let no_edit = format!("patch 1: line 2: {NO_EDIT}");
    is(SWAP, &list, "patch 1 24\n", &[&no_edit], 1);
    is(&format!("--limit 3 {SWAP}"), &list, "patch 1 yes\n", &[], 0);
    is(
        &format!("--limit 2 {SWAP}"),
        &list,
        "patch 1 24\n",
        &[&no_edit],
        1,
    );
    is(
        &format!("--limit 0 {SWAP}"),
        OURS,
        "patch 1 24\n",
        &[&no_edit],
        1,
    );
    is(
        &format!("--limit=2048 {SWAP}"),
        OURS,
        "patch 1 yes\n",
        &[],
        0,
    );
    for wrong in ["2049", "-1", "x", "1.5", ""] {
        let words = format!("--limit={wrong} {SWAP}");
        is(
            &words,
            OURS,
            "",
            &["--limit is given a number from 0 to 2048; "],
            2,
        );
    }
}

/// What is not read, or not said as it should be.
#[test]
fn wrong_words() {
    is(
        "/nowhere/at.all",
        OURS,
        "",
        &["/nowhere/at.all was not read: "],
        2,
    );
    is(
        "-",
        OURS,
        "",
        &["the job is a file: standard input has the answer; "],
        2,
    );
    is(
        &format!("{SWAP} {SWAP}"),
        OURS,
        "",
        &["examine is given a job, "],
        2,
    );
    let output = run_with(&format!("examine {SWAP}"), b"patch 1\n\xff\n");
    assert_eq!(output.status.code(), Some(2));
    assert_eq!(output.stderr, b"parallel-moves: the answer is not UTF-8\n");
}

/// A job of more patches than there may be is refused, and none of them called missing.
#[test]
fn too_many_patches() {
    let job = "3 1 3 0 1 3 0 0 1 0 0 0 1 1 0 0 1 2 2 0 1 3 0 1 2 3 0 1 2 0 0 3 0 1 2 3 0 1 2 \
               0 0 0 4294967295 0 0";
    let path = Path::new(env!("CARGO_TARGET_TMPDIR")).join("too-many.job");
    fs::write(&path, encoded(numbers(job))).unwrap();
    let path = path.to_str().unwrap();
    is(
        path,
        "",
        "",
        &["byte 42: the number of patches: refused 2: "],
        1,
    );
    is(
        path,
        "patch 1\n",
        "patch 1 2\n",
        &["patch 1: byte 42: the number of patches: refused 2: "],
        1,
    );
}
