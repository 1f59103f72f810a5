//! The program `resolve` as it is built: recorded jobs byte for byte, its stack,
//! and what it does where a read or write fails. It is `target/bin/resolve`, or
//! the one that `RESOLVE` names.

mod common;

use std::collections::HashMap;
use std::env;
use std::ffi::OsStr;
use std::fs::{self, File};
use std::os::unix::ffi::OsStrExt;
use std::path::{Path, PathBuf};
use std::process::{Command, Output};

use common::{deep_chain, jobs, many_swaps, printed, root, text_of};
use parallel_moves::Resolver;

fn program() -> PathBuf {
    let program = env::var_os("RESOLVE").map_or(root().join("target/bin/resolve"), PathBuf::from);
    assert!(
        program.is_file(),
        "{} is not there: run `./build`",
        program.display()
    );
    program
}

/// A file for a test.
fn file(name: &str, bytes: &[u8]) -> PathBuf {
    let path = Path::new(env!("CARGO_TARGET_TMPDIR")).join(name);
    fs::write(&path, bytes).unwrap();
    path
}

/// The settings and jobs of the program `replay`, with the text that each is answered.
fn records() -> Vec<(u32, Vec<u8>, Vec<u8>)> {
    let stream = fs::read(root().join("crates/replay/stdin")).unwrap();
    let mut rest = &stream[..];
    let mut records = Vec::new();
    let number = |bytes: &[u8]| u32::from_le_bytes(bytes.try_into().unwrap());
    while !rest.is_empty() {
        let [setting, job, text] = [0, 4, 8].map(|at| number(&rest[at..at + 4]));
        let (job, after) = rest[12..].split_at(job as usize);
        let (text, after) = after.split_at(text as usize);
        records.push((setting, job.to_owned(), text.to_owned()));
        rest = after;
    }
    records
}

/// The number on a text's last line, or 0.
fn refused(text: &[u8]) -> u8 {
    let text = std::str::from_utf8(text).unwrap();
    let last = text.lines().last().unwrap();
    let number = last.strip_prefix("refused ");
    number.map_or(0, |number| number.parse().unwrap())
}

/// The program in a shell, which has its name as `$0`, after some commands.
fn in_shell(before: &str, redirected: &str, job: &Path) -> Output {
    Command::new("bash")
        .args(["-c", &format!("{before}\nexec \"$0\" {redirected}")])
        .arg(program())
        .env("JOB", job)
        .output()
        .unwrap()
}

/// The program with reads and writes that fail or move few bytes.
struct Faulty {
    library: PathBuf,
    notes: PathBuf,
}

impl Faulty {
    fn new(name: &str) -> Self {
        let folder = Path::new(env!("CARGO_TARGET_TMPDIR"));
        let library = folder.join(format!("{name}.so"));
        let source = Path::new(env!("CARGO_MANIFEST_DIR")).join("tests/faulty.c");
        let status = Command::new("gcc")
            .args([
                "-std=c11", "-Wall", "-Wextra", "-Werror", "-O2", "-shared", "-fPIC", "-o",
            ])
            .args([&library, &source])
            .status()
            .unwrap();
        assert!(status.success());
        let notes = folder.join(format!("{name}.notes"));
        Faulty { library, notes }
    }

    /// What it prints of a job, and what each write to standard output returned.
    fn run(&self, job: &Path, faults: &[(&str, usize)]) -> (Output, Vec<i64>) {
        fs::write(&self.notes, "").unwrap();
        let mut command = Command::new(program());
        command.env("LD_PRELOAD", &self.library);
        command.env("NOTES", &self.notes);
        for (name, number) in faults {
            command.env(name, number.to_string());
        }
        let output = command.stdin(File::open(job).unwrap()).output().unwrap();
        let notes = fs::read_to_string(&self.notes).unwrap();
        (
            output,
            notes.lines().map(|line| line.parse().unwrap()).collect(),
        )
    }
}

/// How many records at the end of `crates/replay/stdin` are wrong on purpose.
const WRONG: usize = 6;

/// The whole answer on standard output, and nothing on standard error.
fn answers(output: &Output, job: &[u8]) {
    let text = text_of(&Resolver::new().answer(1, job));
    assert!(output.stdout == text.as_bytes(), "it answers otherwise");
    assert!(output.stderr.is_empty(), "it says something");
}

/// Nothing on standard output, and something on standard error.
fn says_so(output: &Output) {
    assert!(output.stdout.is_empty(), "it prints an answer");
    assert!(!output.stderr.is_empty(), "it says nothing");
}

#[test]
fn recorded_jobs() {
    let mut seen: HashMap<u8, usize> = HashMap::new();
    let mut settings = [0; 2];
    let records = records();
    let right = records.len() - WRONG;
    for (index, (setting, job, text)) in records.into_iter().enumerate() {
        let path = file("recorded.job", &job);
        let mut command = Command::new(program());
        // 1 is the setting without an argument too.
        if setting != 1 || index % 2 == 0 {
            command.arg(setting.to_string());
        }
        if let Some(count) = settings.get_mut((setting as usize).wrapping_sub(1)) {
            *count += 1;
        }
        let output = command.stdin(File::open(path).unwrap()).output().unwrap();
        assert_eq!(
            output.stdout == text,
            index < right,
            "record {index} of crates/replay/stdin"
        );
        assert!(output.stderr.is_empty());
        *seen.entry(refused(&text)).or_default() += 1;
    }
    assert!(settings.iter().all(|&count| count > 200), "{settings:?}");
    for number in (0..=17).chain([21, 22]) {
        let count = seen.get(&number).copied().unwrap_or(0);
        assert!(
            if number == 16 { count == 0 } else { count >= 5 },
            "{number}"
        );
    }
}

/// The trials, with the arguments that they say: none, a setting, or what is refused.
#[test]
fn trials() {
    let mut refused = 0;
    for (name, job) in jobs("compare/trials") {
        let given = root().join("compare/trials").join(&name);
        let given = fs::read_to_string(given.with_extension("given")).unwrap_or_default();
        let output = Command::new(program())
            .args(given.lines())
            .stdin(File::open(file("trial.job", &job)).unwrap())
            .output()
            .unwrap();
        assert_eq!(
            String::from_utf8(output.stdout).unwrap(),
            printed(&name),
            "{name}"
        );
        assert!(output.stderr.is_empty());
        refused += usize::from(printed(&name) == "refused 22\n");
    }
    assert!(refused >= 10, "{refused}");
}

/// 22 comes before 2 for a job that is too long, and an argument may be any bytes.
#[test]
fn arguments() {
    let long = file("long.job", &vec![0; 65_537]);
    let swap = file("swap.job", &many_swaps());
    let shown = |arguments: &[&[u8]], job: &Path| {
        let arguments = arguments.iter().map(|bytes| OsStr::from_bytes(bytes));
        let output = Command::new(program())
            .args(arguments)
            .stdin(File::open(job).unwrap())
            .output()
            .unwrap();
        assert!(output.stderr.is_empty());
        String::from_utf8(output.stdout).unwrap()
    };
    assert_eq!(shown(&[b"2"], &long), "refused 2\n");
    assert_eq!(shown(&[b"3"], &long), "refused 22\n");
    let many = vec![b'1'; 100_000];
    let none: [&[&[u8]]; 8] = [
        &[&many],
        &[b"1\xff"],
        &[b"\xff"],
        &[b" 2"],
        &[b"2\n"],
        &[b"12"],
        &[b"2", b""],
        &[b"1", b"1", b"1"],
    ];
    for arguments in none {
        assert_eq!(shown(arguments, &swap), "refused 22\n");
    }
    assert_eq!(shown(&[b"1"], &swap), shown(&[], &swap));
}

/// The stack that README names is enough.
#[test]
fn stack() {
    let readme = fs::read_to_string(root().join("README.md")).unwrap();
    let (_, after) = readme.split_once("The program `resolve` needs ").unwrap();
    let (kilobytes, _) = after.split_once(" KB of stack.").unwrap();
    let before = format!("ulimit -s {}", kilobytes.parse::<u32>().unwrap());
    for job in [many_swaps(), deep_chain()] {
        let path = file("stack.job", &job);
        let output = in_shell(&before, "< \"$JOB\"", &path);
        answers(&output, &job);
    }
}

/// Bytes that come and go a few at a time are all there.
#[test]
fn few_bytes_at_a_time() {
    let job = many_swaps();
    let path = file("few.job", &job);
    let (output, notes) = Faulty::new("few").run(&path, &[("FEW", 7)]);
    answers(&output, &job);
    assert!(notes.len() > 1000);
}

#[test]
fn full_device() {
    let path = file("full.job", &many_swaps());
    says_so(&in_shell("", "< \"$JOB\" > /dev/full", &path));
}

/// A file that may not grow has the answer's beginning, and nothing else.
#[test]
fn file_limit() {
    let job = many_swaps();
    let path = file("limit.job", &job);
    let out = file("limit.out", b"");
    let before = format!("trap '' XFSZ; ulimit -f 8; exec > '{}'", out.display());
    says_so(&in_shell(&before, "< \"$JOB\"", &path));
    let printed = fs::read(out).unwrap();
    assert!(printed.len() <= 8192);
    let text = text_of(&Resolver::new().answer(1, &job));
    assert!(text.as_bytes().starts_with(&printed));
}

/// A reader that goes away.
#[test]
fn closed_pipe() {
    let path = file("pipe.job", &many_swaps());
    let before = "trap '' PIPE; exec 3> >(:); wait $!";
    says_so(&in_shell(before, "< \"$JOB\" >&3", &path));
}

#[test]
fn nothing_after_a_failed_write() {
    let faulty = Faulty::new("writes");
    let job = many_swaps();
    let path = file("writes.job", &job);
    let text = text_of(&Resolver::new().answer(1, &job));
    for few in [64, 5000, 1 << 20] {
        for failing in [1, 2, 3, 10] {
            let (output, notes) = faulty.run(&path, &[("FEW", few), ("FAIL_WRITE", failing)]);
            assert!(text.as_bytes().starts_with(&output.stdout));
            if notes.len() < failing {
                // It was written with fewer calls.
                answers(&output, &job);
            } else {
                assert_eq!(notes.len(), failing, "writes after a failed one");
                assert!(output.stdout.len() < text.len());
                assert!(!output.stderr.is_empty());
            }
        }
    }
}

/// A call that a signal interrupts is made again.
#[test]
fn interrupted_calls() {
    let faulty = Faulty::new("interrupted");
    let job = many_swaps();
    let path = file("interrupted.job", &job);
    for call in [1, 2, 3] {
        let (output, notes) = faulty.run(&path, &[("FEW", 5000), ("INTERRUPT", call)]);
        answers(&output, &job);
        assert!(notes[call - 1] == -1 && notes.len() > call);
    }
}

/// What cannot be read is no job, and not refused as one.
#[test]
fn failed_reads() {
    let path = file("reads.job", &many_swaps());
    says_so(&in_shell("", "< /", &path));
    says_so(&in_shell("", "<&-", &path));
    let faulty = Faulty::new("reads");
    for failing in [1, 2, 3] {
        let (output, _) = faulty.run(&path, &[("FEW", 100), ("FAIL_READ", failing)]);
        says_so(&output);
    }
}
