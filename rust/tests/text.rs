//! Jobs as text and back, by the functions and by the command `parallel-moves`.

mod common;

use std::fs::{self, File};
use std::path::{Path, PathBuf};
use std::process::{Command, Output};

use common::{generated, jobs, root};
use parallel_moves::text::{self, TextError};
use parallel_moves::{JobBuilder, Part, Refusal, Resolver};

fn swap_full() -> (Vec<u8>, String) {
    let job = fs::read(root().join("examples/swap-full.job")).unwrap();
    let text = text::from_bytes(&job).unwrap();
    (job, text)
}

/// The text that `docs/JOB.md` shows.
#[test]
fn swap_full_is_as_the_paper_shows() {
    let paper = fs::read_to_string(root().join("docs/JOB.md")).unwrap();
    let (_, after) = paper.split_once("```job-text\n").unwrap();
    let (shown, _) = after.split_once("```").unwrap();
    let (job, text) = swap_full();
    assert_eq!(text, shown);
    assert_eq!(text::to_bytes(shown).unwrap(), job);
}

/// Every other word.
#[test]
fn each_word() {
    let text = "\
units 6
bank b0 slots 2^2 top-level c0 stack c1
register r0 bank b0 units 0 1
register r1 bank b0 memory units 4
class c0 bank b0 with-slots members r0 r1 order r0
class c1 bank b0 members r0 order r0
slots 300
emergency-slots 2048
value v0 bank b0
value v1 bank b0 rebuilt cheaper-than-move by c0
value v2 bank b0 rebuilt cheaper-than-load by c1
patch 1 free 2 3 5
  move v0 from s299 to r1
  rebuild v2 in r0
patch 2
patch 3 free 0 1
";
    let job = text::to_bytes(text).unwrap();
    let numbers = [
        6, 1, 2, 0, 1, 2, 0, 0, 2, 0, 1, 1, 0, 1, 4, 2, 0, 1, 2, 0, 1, 1, 0, 0, 0, 1, 0, 1, 0, 3,
        300, 2048, 0, 0, 0, 1, 0, 0, 2, 1, 3, 3, 2, 3, 5, 2, 0, 598, 3, 0, 1, 1, 2, 0, 0, 2, 0, 1,
        0,
    ];
    assert_eq!(job, common::encoded(numbers));
    assert_eq!(text::from_bytes(&job).unwrap(), text);
    // Remarks, empty lines and spaces are no part of it.
    let remarks = text.replace("patch 2", "\n# the next is empty\n   patch   2 # really");
    assert_eq!(text::to_bytes(&remarks).unwrap(), job);
    assert_eq!(remarks.parse::<JobBuilder>().unwrap().to_string(), text);
}

/// All jobs of the repository, the refused ones too: bytes, text and back.
#[test]
fn trials() {
    let mut written = 0;
    let mut resolver = Resolver::new();
    for (name, job) in jobs("compare/trials").into_iter().chain(jobs("examples")) {
        if round_trip(&mut resolver, &job, &name) == Trip::Written {
            written += 1;
        }
    }
    assert!(written > 80, "{written}");
}

#[derive(PartialEq)]
enum Trip {
    /// The text gives the bytes again.
    Written,
    /// It has a text, and is refused.
    Refused,
    /// It has none.
    NoText,
}

/// Whether a refusal is of such a part: that it is found, and not just the target or the
/// patch in which it is.
fn is_of_kind(number: u8, part: Part) -> bool {
    match number {
        2 => true,
        3 => matches!(
            part,
            Part::Register(_) | Part::Class(_) | Part::FreeUnit(..)
        ),
        4 | 6 => matches!(part, Part::Register(_)),
        5 => matches!(part, Part::Bank(_) | Part::Class(_)),
        7 => matches!(part, Part::Class(_)),
        9 => matches!(part, Part::Value(_) | Part::Entry(..)),
        10..=12 | 14 | 21 => matches!(part, Part::Entry(..)),
        13 => matches!(part, Part::FreeUnit(..)),
        15 => matches!(part, Part::Entry(_, 129)),
        _ => false,
    }
}

/// Whether the job is refused as well where it ends with this line, and not so where it
/// ends before it: 13 and 14 are of whole patches, and 15 of the entry after.
fn is_the_first(text: &str, line: usize, refusal: Refusal, name: &str) {
    let up_to = |line: usize| {
        let lines: Vec<&str> = text.lines().take(line).collect();
        let bytes = text::to_bytes(&lines.join("\n"));
        bytes.map_err(|error| match error {
            TextError::Refused { error, line } => (error.refusal(), line),
            other => panic!("{name}: {other}"),
        })
    };
    assert_eq!(up_to(line).unwrap_err(), (refusal, Some(line)), "{name}");
    match up_to(line - 1) {
        Ok(_) => {}
        Err((other, _)) => assert!(
            matches!(other.number(), 13 | 14) && other != refusal,
            "{name}: {other}, before {refusal}"
        ),
    }
}

/// Makes the text of a job and the bytes of that, and sees that they are the same; or that
/// the job is refused.
fn round_trip(resolver: &mut Resolver, job: &[u8], name: &str) -> Trip {
    let answer = resolver.answer(1, job);
    let refusal = answer.err().map(|refused| refused.refusal());
    let text = match text::from_bytes(job) {
        Ok(text) => text,
        Err(none) => {
            assert!(none.byte() <= job.len(), "{name}");
            assert!(refusal.is_some(), "{name}: {none}");
            assert!(matches!(none.refusal().number(), 1 | 2 | 8), "{name}");
            return Trip::NoText;
        }
    };
    // Reading the text alone gives it again, whether or not the job is refused.
    assert_eq!(
        text.parse::<JobBuilder>().unwrap().to_string(),
        text,
        "{name}"
    );
    match text::to_bytes(&text) {
        Ok(bytes) => {
            assert_eq!(bytes, job, "{name}");
            assert_eq!(text::from_bytes(&bytes).unwrap(), text, "{name}");
            // 17 is a matter of resolving.
            assert!(
                matches!(refusal, None | Some(Refusal::OutOfSlots)),
                "{name}"
            );
            Trip::Written
        }
        Err(TextError::Refused { line, error }) => {
            let refusal = refusal.expect(name);
            let same = error.refusal() == refusal || refusal == Refusal::OutOfSlots;
            assert!(same, "{name}: {error}, {refusal}");
            let (number, part) = (error.refusal().number(), error.part());
            assert!(is_of_kind(number, part), "{name}: {error}");
            // A count of none, and what is wrong with the whole, have no line.
            let no_line = matches!(
                part,
                Part::Job | Part::Banks | Part::Registers | Part::Classes | Part::Patches
            );
            assert!(line.is_some() || no_line, "{name}: {error}");
            if let (Part::Entry(..), Some(line)) = (part, line) {
                is_the_first(&text, line, error.refusal(), name);
            }
            Trip::Refused
        }
        Err(other) => panic!("{name}: {other}"),
    }
}

/// Text, bytes and text again are the same on generated jobs.
#[test]
fn generated_jobs() {
    let modes = [
        "small",
        "big",
        "shared",
        "memory",
        "remat",
        "patches",
        "evictions",
        "fans",
        "refused",
        "limits",
        "damaged",
    ];
    let mut resolver = Resolver::new();
    let [mut written, mut refused, mut no_text] = [0; 3];
    for (seed, mode) in (400..).zip(modes) {
        let count = if matches!(mode, "big" | "patches" | "fans") {
            100
        } else {
            1000
        };
        let Some(jobs) = generated(seed, count, mode) else {
            return;
        };
        for (index, job) in jobs.iter().enumerate() {
            let name = format!("job {index} of generate {seed} {count} {mode}");
            match round_trip(&mut resolver, job, &name) {
                Trip::Written => written += 1,
                Trip::Refused => refused += 1,
                Trip::NoText => no_text += 1,
            }
        }
    }
    assert!(
        written > 5000 && refused > 500 && no_text > 300,
        "{written} {refused} {no_text}"
    );
}

/// What is wrong with swap-full's text once a part of it is replaced.
fn wrong(part: &str, other: &str) -> TextError {
    let (_, text) = swap_full();
    assert!(text.contains(part), "{part}");
    text::to_bytes(&text.replacen(part, other, 1)).unwrap_err()
}

#[test]
fn mistakes_have_lines() {
    let check = |part: &str, other: &str, said: &str| {
        assert_eq!(wrong(part, other).to_string(), said);
    };
    check(
        "units 3",
        "unit 3",
        "line 1: `unit` begins no line of a job",
    );
    check(
        "units 3",
        "units",
        "line 1: a number below 2^32 is due, and the line ends",
    );
    check(
        "units 3",
        "units -3",
        "line 1: a number below 2^32 is due, and not `-3`",
    );
    check(
        "units 3",
        "units +3",
        "line 1: a number below 2^32 is due, and not `+3`",
    );
    check(
        "units 3",
        "units 4294967296",
        "line 1: a number below 2^32 is due, and not `4294967296`",
    );
    check(
        "units 3",
        "units 3 3",
        "line 1: the line's end is due, and not `3`",
    );
    check(
        "units 3\n",
        "units 3\nunits 3\n",
        "line 2: the number of units is said a second time",
    );
    check(
        "units 3\n",
        "",
        "line 13: the text ends, and has no line `units`",
    );
    check(
        "slots 0\n",
        "",
        "line 13: the text ends, and has no line `slots`",
    );
    check(
        "emergency-slots 1\n",
        "",
        "line 13: the text ends, and has no line `emergency-slots`",
    );
    check(
        "2^3",
        "3",
        "line 2: `2^` and a number below 2^32 is due, and not `3`",
    );
    check(
        "r1 bank",
        "r3 bank",
        "line 4: the name `r1` is due, and not `r3`",
    );
    check(
        "r1 bank",
        "r01 bank",
        "line 4: the name `r1` is due, and not `r01`",
    );
    check(
        "order r0 r1 r2",
        "r3",
        "line 6: `order` is due, and the line ends",
    );
    check(
        "order r0 r1 r2",
        "order r0 s1",
        "line 6: the line's end is due, and not `s1`",
    );
    check(
        "value v1 bank b0",
        "value v1 bank b0 rebuilt cheaply by c0",
        "line 11: `cheaper-than-move` or `cheaper-than-load` is due, and not `cheaply`",
    );
    check("patch 1", "patch 2", "line 12: the next patch is 1");
    check("patch 1\n", "", "line 12: an entry before the first patch");
    check(
        "from r0",
        "from 1",
        "line 13: a register `r0` or a slot `s0` is due, and not `1`",
    );
    check(
        "from r0",
        "from r2147483648",
        "line 13: 2147483648 is too high for a register or slot",
    );
}

#[test]
fn refusals_have_lines() {
    let check = |part: &str, other: &str, line: Option<usize>, number: u8| {
        let error = wrong(part, other);
        assert_eq!(error.line(), line, "{error}");
        let TextError::Refused { error, .. } = error else {
            panic!("{error}");
        };
        assert_eq!(error.refusal().number(), number, "{error}");
    };
    check("units 3", "units 513", Some(1), 2);
    check("top-level c0", "top-level c2", Some(2), 2);
    check("b0 units 1", "b0 units 3", Some(4), 2);
    check("b0 units 1", "b0 units 1 1", Some(4), 3);
    check("b0 units 1", "b0 units 1 2", Some(4), 4);
    check("b0 units 1", "b0 memory units 1", Some(7), 7);
    check("b0 units 1", "b0 memory units 0", Some(4), 6);
    check("b0 members", "b0 with-slots members", Some(7), 7);
    check("emergency-slots 1", "emergency-slots 2049", Some(9), 2);
    check("value v1 bank b0", "value v1 bank b1", Some(11), 2);
    check("patch 1", "patch 1 free 0 2 1", Some(12), 3);
    check("patch 1", "patch 1 free 1", Some(12), 13);
    check("move v1 from r1 to r0", "rebuild v1 in r0", Some(14), 11);
    check("r1 to r0", "r2 to r1", Some(14), 12);
    check("from r0 to r1", "from s0 to r1", Some(13), 2);
    // Without patches, entries or banks there is no line of theirs.
    let (_, text) = swap_full();
    let (opening, _) = text.split_once("patch").unwrap();
    let none = text::to_bytes(opening).unwrap_err();
    assert_eq!(
        (
            none.line(),
            none.to_string()
                .starts_with("the number of patches: refused 2")
        ),
        (None, true)
    );
}

#[test]
fn bytes_without_text() {
    let (job, _) = swap_full();
    let check = |bytes: &[u8], byte: usize, part: &str, number: u8| {
        let none = text::from_bytes(bytes).unwrap_err();
        assert_eq!((none.byte(), none.refusal().number()), (byte, number));
        let printed = format!("byte {byte}: {part}: {}", none.refusal());
        assert_eq!(none.to_string(), printed);
    };
    check(&[], 0, "the number of units", 1);
    check(&[128, 0], 0, "the number of units", 1);
    check(&[255, 255, 255, 255, 16], 0, "the number of units", 1);
    check(&[255, 255, 255, 255, 15], 5, "the number of banks", 1);
    check(&[&job[..], &[0]].concat(), 57, "the job", 8);
    check(&vec![0; 65_537], 0, "the job", 2);
    let changed = |at: usize, byte: u8| {
        let mut job = job.clone();
        job[at] = byte;
        job
    };
    // A register's flag, a class's flag, a cost, an entry's kind.
    check(&changed(6, 2), 6, "register 0", 2);
    check(&changed(20, 2), 20, "class 0", 2);
    check(&changed(43, 3), 43, "value 0", 2);
    check(&changed(49, 2), 49, "patch 1, entry 1", 2);
}

fn command(words: &[&str], input: &Path, output: Option<&str>) -> Output {
    let mut command = Command::new(env!("CARGO_BIN_EXE_parallel-moves"));
    command.args(words).stdin(File::open(input).unwrap());
    if let Some(output) = output {
        command.stdout(File::create(output).unwrap());
    }
    command.output().unwrap()
}

fn file(name: &str, content: impl AsRef<[u8]>) -> PathBuf {
    let path = Path::new(env!("CARGO_TARGET_TMPDIR")).join(name);
    fs::write(&path, content).unwrap();
    path
}

fn said(output: &Output) -> &str {
    std::str::from_utf8(&output.stderr).unwrap()
}

#[test]
fn the_command() {
    let (job, text) = swap_full();
    let (job_file, text_file) = (file("swap-full.job", &job), file("swap-full.txt", &text));
    let none = Path::new("/dev/null");
    let ended = |output: &Output| output.status.code().unwrap();

    for words in [vec!["text"], vec!["text", "-"]] {
        let output = command(&words, &job_file, None);
        assert_eq!((ended(&output), &output.stdout[..]), (0, text.as_bytes()));
        assert_eq!(said(&output), "");
    }
    let output = command(&["text", job_file.to_str().unwrap()], none, None);
    assert_eq!((ended(&output), &output.stdout[..]), (0, text.as_bytes()));
    let output = command(&["bytes"], &text_file, None);
    assert_eq!((ended(&output), &output.stdout), (0, &job));
    let output = command(&["bytes", text_file.to_str().unwrap()], none, None);
    assert_eq!((ended(&output), &output.stdout), (0, &job));

    // What is refused has no result.
    let output = command(
        &["bytes"],
        &file("wrong.txt", text.replace("r0 to", "r1 to")),
        None,
    );
    assert_eq!((ended(&output), output.stdout.len()), (1, 0));
    assert_eq!(
        said(&output),
        "parallel-moves: line 13: patch 1, entry 1: refused 10: a move's source is its destination\n"
    );
    let output = command(&["text"], &file("wrong.job", &job[..30]), None);
    assert_eq!((ended(&output), output.stdout.len()), (1, 0));
    assert!(said(&output).starts_with("parallel-moves: byte 30: class 1: refused 1: "));
    let output = command(&["bytes"], &file("wrong.latin", [b'#', 0xe9]), None);
    assert_eq!(
        (ended(&output), said(&output)),
        (1, "parallel-moves: the text is not UTF-8\n")
    );

    // What cannot be done.
    for words in [
        vec![],
        vec!["texts"],
        vec!["text", "a", "b"],
        vec!["text", "/nowhere/at.all"],
        vec!["bytes", "/"],
    ] {
        let output = command(&words, none, None);
        assert_eq!((ended(&output), output.stdout.len()), (2, 0), "{words:?}");
        assert!(said(&output).starts_with("parallel-moves: "), "{words:?}");
    }
    let output = command(&["text"], &job_file, Some("/dev/full"));
    assert_eq!(ended(&output), 2);
    assert!(said(&output).starts_with("parallel-moves: the result was not written: "));

    // Help names all commands.
    let help = command(&["--help"], none, None);
    let help_of_all = String::from_utf8(help.stdout.clone()).unwrap();
    assert_eq!(ended(&help), 0);
    for name in [
        "resolve",
        "price",
        "try",
        "text",
        "bytes",
        "positions",
        "show",
        "stamp",
    ] {
        let help = command(&[name, "--help"], none, None);
        let help_of_one = String::from_utf8(help.stdout).unwrap();
        assert!(help_of_one.starts_with(&format!("parallel-moves {name}")));
        assert!(help_of_all.contains(&help_of_one));
    }
}
