//! What several tests need: the jobs of the repository, and the answers of
//! `compare` to others.

#![allow(dead_code)]

use std::fs::{self, File};
use std::io::{self, Write};
use std::path::{Path, PathBuf};
use std::process::Command;

use parallel_moves::{Answer, RefusedJob, Resolver};

pub mod machine;

/// The bytes of a job's numbers.
pub fn encoded(numbers: impl IntoIterator<Item = u32>) -> Vec<u8> {
    let mut job = Vec::new();
    for mut number in numbers {
        while number >= 128 {
            job.push((number % 128) as u8 + 128);
            number /= 128;
        }
        job.push(number as u8);
    }
    job
}

/// The numbers of a text, in base ten.
pub fn numbers(text: &str) -> Vec<u32> {
    text.split_whitespace()
        .map(|word| word.parse().unwrap())
        .collect()
}

/// The repository's root.
pub fn root() -> &'static Path {
    let here = Path::new(env!("CARGO_MANIFEST_DIR"));
    here.parent().expect("the crate lies in a repository")
}

/// The jobs of a folder, by name.
pub fn jobs(folder: &str) -> Vec<(String, Vec<u8>)> {
    let mut jobs = Vec::new();
    for entry in fs::read_dir(root().join(folder)).expect("the folder is there") {
        let path = entry.unwrap().path();
        if path.extension().is_some_and(|extension| extension == "job") {
            let name = path.file_stem().unwrap().to_str().unwrap();
            jobs.push((name.to_owned(), fs::read(&path).unwrap()));
        }
    }
    assert!(!jobs.is_empty(), "{folder} has no jobs");
    jobs.sort();
    jobs
}

/// Swap-full's job with its patch 1,024 times.
pub fn many_swaps() -> Vec<u8> {
    let (_, mut job) = jobs("examples")
        .into_iter()
        .find(|(name, _)| name == "swap-full")
        .unwrap();
    // The patch count 1 is followed by the patch, which has 10 bytes.
    let patch = job.split_off(job.len() - 10);
    assert_eq!(job.pop(), Some(1));
    job.extend([128, 8]);
    job.extend(patch.repeat(1024));
    job
}

/// A chain of 128 moves, last one first, so that each visit leads to the next.
pub fn deep_chain() -> Vec<u8> {
    let mut numbers = vec![129, 1, 3, 0, 1, 129];
    numbers.extend((0..129).flat_map(|register| [0, 0, 1, register]));
    numbers.push(2);
    for includes_slots in [1, 0] {
        numbers.extend([0, includes_slots]);
        for _ in 0..2 {
            numbers.push(129);
            numbers.extend(0..129);
        }
    }
    numbers.extend([128, 0, 0]);
    numbers.extend([0; 2 * 128]);
    numbers.extend([1, 0, 128]);
    let register = |number| 2 * number + 1;
    numbers.extend(
        (0..128)
            .rev()
            .flat_map(|n| [0, register(n), register(n + 1), n]),
    );
    encoded(numbers)
}

/// What is printed of the trial with a name.
pub fn printed(name: &str) -> String {
    let path = root().join("compare/trials").join(name);
    fs::read_to_string(path.with_extension("out")).expect("each trial has a .out")
}

/// The number of kept evictions that the trial with a name is given: 1 unless it says
/// so, and 0, which is refused, where it says no number.
pub fn kept_evictions(name: &str) -> u32 {
    let path = root().join("compare/trials").join(name);
    match fs::read_to_string(path.with_extension("given")) {
        Err(_) => 1,
        Ok(given) => {
            let number: u32 = given.trim_end().parse().unwrap_or(0);
            if given == format!("{number}\n") {
                number
            } else {
                0
            }
        }
    }
}

/// The positions of a trial's patches, if it says them.
pub fn positions_met(name: &str) -> Option<Vec<usize>> {
    let path = root().join("compare/trials").join(name);
    let text = fs::read_to_string(path.with_extension("met")).ok()?;
    Some(text.lines().map(|line| line.parse().unwrap()).collect())
}

/// The words of the programs `price_job` and `try_settings` as options of the commands
/// `price` and `try`.
pub fn options(command: &str, words: &str) -> String {
    let words: Vec<&str> = words.split(' ').collect();
    match (command, &words[..]) {
        ("price", [kept, m, r, s, l, runs @ ..]) => {
            let options = format!("--kept {kept} --prices {m},{r},{s},{l}");
            match runs {
                [] => options,
                runs => format!("{options} --runs {}", runs.join(",")),
            }
        }
        ("try", [seed, patches, m, r, s, l]) => {
            format!("--seed {seed} --patches {patches} --prices {m},{r},{s},{l}")
        }
        _ => panic!("{command} is given {words:?}"),
    }
}

/// An answer, or a refused one.
pub type Answered = Result<Answer, RefusedJob>;

/// The patches that were resolved, whether or not the job was refused.
pub fn resolved(answer: &Answered) -> &Answer {
    match answer {
        Ok(answer) => answer,
        Err(refused) => refused.before(),
    }
}

/// The text of an answer, by the library.
pub fn text_of(answer: &Answered) -> String {
    match answer {
        Ok(answer) => answer.text(),
        Err(refused) => refused.text(),
    }
}

/// The text of an answer, made of its patches, edits and refusal rather than by
/// the library.
pub fn text_of_parts(answer: &Answered) -> String {
    let mut text = String::new();
    for (patch, number) in resolved(answer).into_iter().zip(1..) {
        let (count, made) = (patch.edits().len(), patch.made());
        text += &format!("patch {number} edits {count} made {made}\n");
        for edit in patch {
            text += &format!("{edit}\n");
        }
    }
    if let Err(refused) = answer {
        let refusal = refused.refusal();
        assert!(matches!(refusal.number(), 1..=17 | 21 | 22));
        assert!(!refusal.words().is_empty());
        text += &format!("refused {}\n", refusal.number());
    }
    text
}

/// Answers a job and checks that the answer says the same as text, printed, and
/// taken apart.
pub fn text(resolver: &mut Resolver, kept_evictions: u32, job: &[u8]) -> String {
    let answer = resolver.answer(kept_evictions, job);
    let text = text_of(&answer);
    assert_eq!(text, text_of_parts(&answer));
    if let Ok(answer) = answer {
        assert_eq!(text, answer.to_string());
    }
    text
}

/// The program `compare`, if it is built; else says what is left out.
fn compare(what: &str) -> Option<PathBuf> {
    let path = root().join("compare/target/compare");
    if path.is_file() {
        return Some(path);
    }
    // Written so that it is seen when the test passes, too.
    let line = format!("skipped: {what}; compare/target/compare is not there, run compare/build\n");
    io::stderr().write_all(line.as_bytes()).unwrap();
    None
}

/// Jobs that `compare` makes, or `None` if it is not built.
pub fn generated(seed: u64, count: usize, mode: &str) -> Option<Vec<Vec<u8>>> {
    let program = compare("generated jobs")?;
    let words = [
        "generate".to_owned(),
        seed.to_string(),
        count.to_string(),
        mode.to_owned(),
    ];
    let output = Command::new(program).args(words).output().unwrap();
    assert!(output.status.success());
    let jobs = unframed(&output.stdout);
    assert_eq!(jobs.len(), count);
    Some(jobs)
}

/// What `compare` answers to jobs with so many kept evictions, or `None` if it is not
/// built. `what` says what is asked, in one word.
pub fn answers(what: &str, kept_evictions: u32, jobs: &[Vec<u8>]) -> Option<Vec<String>> {
    let program = compare(&format!("the answers of compare, {what}"))?;
    let mut framed = Vec::new();
    for job in jobs {
        framed.extend((job.len() as u32).to_le_bytes());
        framed.extend(job);
    }
    let path = Path::new(env!("CARGO_TARGET_TMPDIR")).join(format!("{what}.jobs"));
    fs::write(&path, framed).unwrap();
    let output = Command::new(program)
        .args(["answer-batch", &kept_evictions.to_string()])
        .stdin(File::open(&path).unwrap())
        .output()
        .unwrap();
    assert!(output.status.success());
    fs::remove_file(&path).unwrap();
    let answers = unframed(&output.stdout);
    assert_eq!(answers.len(), jobs.len());
    let text = |answer| String::from_utf8(answer).unwrap();
    Some(answers.into_iter().map(text).collect())
}

/// The parts of a stream in which each follows its length.
fn unframed(mut stream: &[u8]) -> Vec<Vec<u8>> {
    let mut parts = Vec::new();
    while let Some((length, rest)) = stream.split_first_chunk() {
        let (part, rest) = rest.split_at(u32::from_le_bytes(*length) as usize);
        parts.push(part.to_owned());
        stream = rest;
    }
    assert!(stream.is_empty());
    parts
}
