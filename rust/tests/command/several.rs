//! Several jobs and folders at once, and what is wrong with words and files.

use std::fs::{self, File};
use std::path::{Path, PathBuf};
use std::process::Command;

use crate::common::{encoded, jobs, numbers, root};
use crate::{SWAP, prints, run, says};

/// A folder for a test, with nothing in it.
fn folder(name: &str) -> PathBuf {
    let path = Path::new(env!("CARGO_TARGET_TMPDIR")).join(name);
    let _ = fs::remove_dir_all(&path);
    fs::create_dir_all(&path).unwrap();
    path
}

/// What a job's file is answered alone: the text and what is said.
fn alone(file: &str) -> (String, String) {
    let output = run(&format!("resolve {file}"));
    let said = String::from_utf8(output.stderr).unwrap();
    let said = said.replace("parallel-moves: ", &format!("parallel-moves: {file}: "));
    (String::from_utf8(output.stdout).unwrap(), said)
}

/// Several jobs and folders of jobs, however many at once: what comes out is what comes out
/// of each alone, one after the other.
#[test]
fn many() {
    let (mut text, mut said) = (String::new(), String::new());
    for (name, _) in jobs("compare/trials") {
        let (of_one, said_of_one) = alone(&format!("compare/trials/{name}.job"));
        text += &of_one;
        said += &said_of_one;
    }
    for at_once in ["", "--jobs 1 ", "--jobs 2 ", "--jobs=7 ", "--jobs 1000 "] {
        let output = run(&format!("resolve {at_once}compare/trials"));
        assert_eq!(output.status.code(), Some(1));
        assert!(output.stdout == text.as_bytes(), "{at_once}");
        assert_eq!(String::from_utf8_lossy(&output.stderr), said, "{at_once}");
    }
    // A file and a folder, and an order that is the words'.
    let twice = run(&format!("resolve {SWAP} compare/trials {SWAP}"));
    let swap = alone(SWAP).0;
    assert!(twice.stdout == [&swap[..], &text, &swap].concat().as_bytes());

    let out = folder("many");
    let output = run(&format!("resolve --to {} compare/trials", out.display()));
    assert_eq!((output.status.code(), output.stdout.len()), (Some(1), 0));
    assert_eq!(String::from_utf8_lossy(&output.stderr), said);
    let mut written = String::new();
    for (name, _) in jobs("compare/trials") {
        written += &fs::read_to_string(out.join(format!("{name}.out"))).unwrap();
    }
    assert!(written == text);

    // Texts have no file where there is none, and bytes come back from them.
    let texts = folder("texts");
    fs::write(texts.join("refused-1-empty.txt"), "of an earlier time").unwrap();
    let output = run(&format!("text --to {} compare/trials", texts.display()));
    assert_eq!(output.status.code(), Some(1));
    assert!(!texts.join("refused-1-empty.txt").exists());
    let back = folder("back");
    run(&format!(
        "bytes --to {} {}",
        back.display(),
        texts.display()
    ));
    for (name, job) in jobs("compare/trials") {
        if let Ok(bytes) = fs::read(back.join(format!("{name}.job"))) {
            assert_eq!(bytes, job, "{name}");
        }
    }
    assert!(fs::read_dir(&back).unwrap().count() > 90);
}

/// What is wrong with words and files; the jobs that can be answered are.
#[test]
fn wrong_words() {
    says(
        "resolve --jobs 0 examples",
        2,
        "--jobs is given a number from 1 on; ",
    );
    says(
        "resolve --jobs x examples",
        2,
        "--jobs is given a number from 1 on; ",
    );
    says("resolve --jobs", 2, "--jobs is given N; ");
    says("resolve --what", 2, "--what is no option; ");
    says("resolve --kept 1 --kept 2", 2, "--kept is said twice; ");
    says("resolve - -", 2, "standard input is named twice; ");
    says("resolve crates", 2, "crates has no file that ends in .job");
    says("price --kept 1", 2, "--prices is missing; ");
    says("try --seed 1 --prices 1,2,3,4", 2, "--patches is missing; ");
    says("stamp it", 2, "stamp is given nothing; ");
    says(
        &format!("resolve --to /dev/null/no {SWAP}"),
        2,
        "/dev/null/no was not made: ",
    );
    let both = "compare/trials/swap-full.job";
    says(
        &format!("resolve --to /tmp {SWAP} {both}"),
        2,
        "examples/swap-full.job and compare/trials/swap-full.job have results of one name",
    );
    let output = run(&format!(
        "resolve /nowhere/at.all {SWAP} examples/refused-17.job"
    ));
    assert_eq!(output.status.code(), Some(2));
    let expected = alone(SWAP).0 + &alone("examples/refused-17.job").0;
    assert_eq!(String::from_utf8_lossy(&output.stdout), expected);
    let said = String::from_utf8(output.stderr).unwrap();
    let lines: Vec<&str> = said.lines().collect();
    assert_eq!(lines.len(), 2);
    assert!(lines[0].starts_with("parallel-moves: /nowhere/at.all was not read: "));
    assert!(lines[1].starts_with("parallel-moves: examples/refused-17.job: byte 55: patch 2: "));
    // A word after `--` is a file, whatever it is.
    says("resolve -- --kept", 2, "--kept was not read: ");
}

/// However much there is to be read: of a job no more than tells that it is too long, and of a
/// text or an answer no more than a bound.
#[test]
fn endless_input() {
    let endless = || File::open("/dev/zero").unwrap();
    let zeros = |words: &str, input: File| {
        let output = Command::new(env!("CARGO_BIN_EXE_parallel-moves"))
            .args(words.split(' '))
            .current_dir(root())
            .stdin(input)
            .output()
            .unwrap();
        let said = String::from_utf8(output.stderr).unwrap();
        (output.status.code(), said)
    };
    for words in [
        "resolve",
        "groups",
        "positions",
        "price --prices 1,2,3,4",
        "try --seed 1 --patches 1 --prices 1,2,3,4",
        "text",
        "show",
    ] {
        for (words, input) in [
            (
                format!("{words} /dev/zero"),
                File::open("/dev/null").unwrap(),
            ),
            (format!("{words} -"), endless()),
        ] {
            let (status, said) = zeros(&words, input);
            assert_eq!(status, Some(1), "{words}: {said}");
            assert!(said.contains(": refused 2: "), "{words}: {said}");
        }
    }
    let (status, said) = zeros("examine /dev/zero", File::open("/dev/null").unwrap());
    assert_eq!(status, Some(1), "{said}");
    assert!(said.contains(": refused 2: "), "{said}");
    let (status, said) = zeros(&format!("examine {SWAP}"), endless());
    let expected = "parallel-moves: standard input was not read: it has more than 67108864 bytes\n";
    assert_eq!((status, &said[..]), (Some(2), expected));
    let (status, said) = zeros("bytes /dev/zero", endless());
    let expected = "parallel-moves: /dev/zero was not read: it has more than 4194304 bytes\n";
    assert_eq!((status, &said[..]), (Some(2), expected));
}

/// A job of exactly 65,536 bytes is read to its end, and one of a byte more is too long. Its text
/// is within the bound of texts, also where the lines are long.
#[test]
fn longest_jobs() {
    let folder = folder("longest");
    let file = |name: &str, bytes: &[u8]| {
        let path = folder.join(name);
        fs::write(&path, bytes).unwrap();
        path.to_str().unwrap().to_owned()
    };
    let mut job = fs::read(root().join(SWAP)).unwrap();
    job.resize(65_536, 0);
    let output = run(&format!("resolve {}", file("most.job", &job)));
    assert!(output.stdout.ends_with(b"\nrefused 8\n"));
    job.push(0);
    let output = run(&format!("resolve {}", file("more.job", &job)));
    assert_eq!(output.stdout, b"refused 2\n");
    // No job's text is longer for its bytes than that of values that can be rebuilt.
    let mut values = numbers("1 0 0 0 21840 0 0");
    values.extend([0, 1, 0].repeat(21_840));
    values.push(0);
    let values = encoded(values);
    assert!((65_500..65_537).contains(&values.len()));
    let output = run(&format!("text {}", file("values.job", &values)));
    assert_eq!(output.status.code(), Some(0));
    assert!(output.stdout.len() > 17 * values.len() && output.stdout.len() < 18 * values.len());
    // A text with remarks, up to the bound.
    let mut text = run(&format!("text {SWAP}")).stdout;
    text.push(b'#');
    text.resize(4_194_304, b' ');
    let output = run(&format!("bytes {}", file("most.txt", &text)));
    assert_eq!(output.stdout, fs::read(root().join(SWAP)).unwrap());
    text.push(b' ');
    let output = run(&format!("bytes {}", file("more.txt", &text)));
    assert_eq!((output.status.code(), output.stdout.len()), (Some(2), 0));
}

/// Each command's part of the help, alone; and what is no command.
#[test]
fn help() {
    let whole = String::from_utf8(run("help").stdout).unwrap();
    prints("--help", &whole);
    prints("-h", &whole);
    let names = "resolve groups price try text bytes positions show examine stamp";
    for name in names.split(' ') {
        let part = String::from_utf8(run(&format!("help {name}")).stdout).unwrap();
        assert!(
            part.starts_with(&format!("parallel-moves {name}")),
            "{part}"
        );
        assert!(whole.contains(&part), "{name}");
        prints(&format!("{name} --help"), &part);
        prints(&format!("--help {name}"), &part);
    }
    let known = names.replace(' ', ", ");
    let wrong = |name: &str| format!("`{name}` is no command; one of these is: {known}; ");
    says("nothing", 2, &wrong("nothing"));
    says("--what", 2, &wrong("--what"));
    says("help nothing", 2, &wrong("nothing"));
    says("help --what", 2, &wrong("--what"));
    says("help resolve text", 2, "help is given one command\n");
    says("--help nothing", 2, &wrong("nothing"));
    let version = env!("CARGO_PKG_VERSION");
    let build = parallel_moves::BUILD;
    for word in ["--version", "-V"] {
        prints(word, &format!("parallel-moves {version}\n{build}\n"));
    }
    says("--version it", 2, "--version is given nothing\n");
}

/// A text for a job, and a job for a text, are refused as they are, with a hint.
#[test]
fn one_for_the_other() {
    let folder = folder("one-for-the-other");
    let text = folder.join("swap.txt");
    fs::write(&text, run(&format!("text {SWAP}")).stdout).unwrap();
    let text = text.to_str().unwrap();
    let hint = "; it looks like the text of a job: `parallel-moves bytes` makes the job of it\n";
    for words in [
        "resolve",
        "groups",
        "positions",
        "price --prices 1,2,3,4",
        "try --seed 1 --patches 1 --prices 1,2,3,4",
        "text",
        "show",
    ] {
        let output = run(&format!("{words} {text}"));
        let said = String::from_utf8(output.stderr).unwrap();
        assert_eq!(output.status.code(), Some(1), "{words}: {said}");
        assert!(
            said.contains(": refused ") && said.ends_with(hint),
            "{words}: {said}"
        );
        assert_eq!(said.lines().count(), 1, "{words}: {said}");
    }
    assert_eq!(run(&format!("resolve {text}")).stdout, b"refused 2\n");
    // What is refused otherwise gets none.
    for job in [SWAP, "compare/trials/refused-12.job", "README.md"] {
        let said = String::from_utf8(run(&format!("resolve {job}")).stderr).unwrap();
        assert!(!said.contains("looks like"), "{job}: {said}");
    }
    let hint = "; it looks like the bytes of a job: `parallel-moves text` prints their text\n";
    for (name, job) in jobs("compare/trials")
        .into_iter()
        .filter(|(_, job)| job.len() > 10)
    {
        let output = run(&format!("bytes compare/trials/{name}.job"));
        let said = String::from_utf8(output.stderr).unwrap();
        assert_eq!(
            (output.status.code(), output.stdout.len()),
            (Some(1), 0),
            "{name}"
        );
        assert!(said.ends_with(hint), "{name} of {}: {said}", job.len());
        assert_eq!(said.lines().count(), 1, "{name}: {said}");
    }
    let plain = folder.join("plain.txt");
    fs::write(&plain, "units 3\nbanks\n").unwrap();
    says(
        &format!("bytes {}", plain.display()),
        1,
        "line 2: `banks` begins no line of a job\n",
    );
}

/// What is cited of the input shows what cannot be seen, and is no longer than a line.
#[test]
fn escaped() {
    let folder = folder("escaped");
    let file = folder.join("odd\x1b[31m.txt");
    let input = |text: &str| {
        fs::write(&file, text).unwrap();
        let words = ["bytes".as_ref(), file.as_os_str()];
        let output = Command::new(env!("CARGO_BIN_EXE_parallel-moves"))
            .args(words)
            .output()
            .unwrap();
        assert_eq!(output.status.code(), Some(1));
        String::from_utf8(output.stderr).unwrap()
    };
    let odd = "x\u{1b}[31m\u{7}\u{0}\u{202e}\u{9b}";
    let shown = "x\\u{1b}[31m\\u{7}\\0\\u{202e}\\u{9b}";
    let hint = "; it looks like the bytes of a job: `parallel-moves text` prints their text\n";
    assert_eq!(
        input(odd),
        format!("parallel-moves: line 1: `{shown}` begins no line of a job{hint}")
    );
    assert_eq!(
        input(&format!("units {odd}")),
        format!("parallel-moves: line 1: a number below 2^32 is due, and not `{shown}`{hint}")
    );
    let long = "y".repeat(100_000);
    assert_eq!(
        input(&long),
        format!(
            "parallel-moves: line 1: `{}..` begins no line of a job\n",
            "y".repeat(40)
        )
    );
    // Words of the command and names of files are cited too.
    let output = Command::new(env!("CARGO_BIN_EXE_parallel-moves"))
        .args(["resolve", "\u{1b}[31m\n.job"])
        .output()
        .unwrap();
    let said = String::from_utf8(output.stderr).unwrap();
    assert!(
        said.starts_with("parallel-moves: \\u{1b}[31m\\n.job was not read: "),
        "{said}"
    );
    assert_eq!(output.status.code(), Some(2));
}
