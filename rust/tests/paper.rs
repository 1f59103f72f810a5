//! What `docs/JOB.md` shows: its jobs have the answers that stand there, its table of
//! stops is what the machine holds, and its patches cost what it says. `docs/CRATES.md` is
//! what `bench/crates` prints, README counts what there is, and no cell of
//! `docs/STATEMENTS.md` is too long to be read.

mod common;

use std::collections::{HashMap, HashSet};
use std::fs;
use std::io::Write;
use std::process::{Command, Stdio};

use common::machine::{Machine, Place, Register};
use common::{encoded, numbers, options, root, text};
use parallel_moves::Resolver;

fn paper() -> String {
    fs::read_to_string(root().join("docs/JOB.md")).unwrap()
}

/// The blocks of a paper that begin with a word, in order.
fn blocks<'a>(paper: &'a str, word: &str) -> Vec<&'a str> {
    let start = format!("```{word}\n");
    let after = paper.split(start.as_str()).skip(1);
    after
        .map(|rest| rest.split_once("```").unwrap().0)
        .collect()
}

/// The jobs of the paper with their answers, with one kept eviction.
fn shown(paper: &str) -> Vec<(Vec<u8>, &str)> {
    let jobs = blocks(paper, "job");
    let answers = blocks(paper, "answer");
    assert_eq!(jobs.len(), answers.len());
    let bytes = jobs.into_iter().map(|job| encoded(numbers(job)));
    bytes.zip(answers).collect()
}

/// Registers 0 to 2 with the words a, b and c, and what is in slots 0 to 2.
fn three(slots: &[(u16, u32)]) -> Machine {
    let register = |unit| Register {
        memory: false,
        bank: 0,
        units: vec![unit],
    };
    Machine {
        registers: (0..3).map(register).collect(),
        units: "abc".chars().map(u32::from).collect(),
        words: HashMap::new(),
        slots: slots.iter().map(|&(s, word)| (s, vec![word])).collect(),
    }
}

#[test]
fn answers_are_as_shown() {
    let paper = paper();
    let shown = shown(&paper);
    assert!(shown.len() >= 4);
    let mut resolver = Resolver::new();
    for (job, answer) in shown {
        assert_eq!(text(&mut resolver, 1, &job), answer);
    }
}

/// What follows an answer as one with two kept evictions is that of the same job.
#[test]
fn with_two_kept_evictions() {
    let paper = paper();
    let with_two = blocks(&paper, "answer-with-two");
    assert!(!with_two.is_empty());
    let mut resolver = Resolver::new();
    let mut found = 0;
    for part in paper.split("```job\n").skip(1) {
        let Some(&answer) = blocks(part, "answer-with-two").first() else {
            continue;
        };
        let (job, _) = part.split_once("```").unwrap();
        let job = encoded(numbers(job));
        assert_eq!(text(&mut resolver, 2, &job), answer);
        assert_ne!(text(&mut resolver, 1, &job), answer);
        found += 1;
    }
    assert_eq!(found, with_two.len());
}

/// The rows of the table of stops: the edits done, and what each place holds.
#[test]
fn swap_full_stop_by_stop() {
    let paper = paper();
    let (job, _) = &shown(&paper)[0];
    let answer = Resolver::new().answer(1, job).unwrap();
    let patch = answer.patches().next().unwrap();
    let mut machine = three(&[(0, '?'.into())]);
    let after = paper.split("| edits done |").nth(1).unwrap();
    let mut rows = after.lines().skip(2);
    let mut check = |machine: &Machine, done: String| {
        let row = rows.next().unwrap().trim_matches('|');
        let cells: Vec<&str> = row.split('|').map(str::trim).collect();
        assert_eq!(cells[0], done);
        let places = [
            Place::Register(0),
            Place::Register(1),
            Place::Register(2),
            Place::Slot(0),
        ];
        for (place, cell) in places.into_iter().zip(&cells[1..]) {
            let word = char::from_u32(machine.read(place)[0]).unwrap();
            assert_eq!(word.to_string(), cell.replace("anything", "?"));
        }
    };
    check(&machine, "0".into());
    for (edit, done) in patch.edits().iter().zip(1..) {
        machine.step(edit, &|_| unreachable!());
        check(&machine, format!("{done}: `{edit}`"));
    }
    assert!(!rows.next().unwrap().starts_with('|'));
}

/// Every refusal has a row with its cause and cure, and the crate has a name for it.
#[test]
fn refusals_have_rows() {
    let paper = paper();
    let (_, rest) = paper
        .split_once("| no. | cause | cure |\n|---|---|---|\n")
        .unwrap();
    let rows = rest.lines().take_while(|line| line.starts_with('|'));
    let rows: Vec<Vec<&str>> = rows
        .map(|row| row.trim_matches('|').split(" | ").map(str::trim).collect())
        .collect();
    let numbers: Vec<u8> = rows.iter().map(|row| row[0].parse().unwrap()).collect();
    let named = fs::read_to_string(root().join("rust/src/refusal.rs")).unwrap();
    let (_, named) = named.split_once("\nrefusals! {\n").unwrap();
    let named = named.lines().take_while(|line| *line != "}");
    let named = named.map(|line| line.split_whitespace().next().unwrap().parse().unwrap());
    assert_eq!(numbers, named.collect::<Vec<u8>>());
    for row in rows {
        assert_eq!(row.len(), 3, "{row:?}");
        assert!(row.iter().all(|cell| !cell.is_empty()), "{row:?}");
    }
}

/// The two wrong splits lose a value, as the paper says.
#[test]
fn wrong_splits_lose_a_value() {
    let paper = paper();
    let (_, rest) = paper.split_once("## Splitting a patch").unwrap();
    let shown = shown(rest);
    let end = |job: &[u8], slots: &[(u16, u32)]| -> (Vec<u32>, HashMap<u16, Vec<u32>>) {
        let mut machine = three(slots);
        for patch in Resolver::new().answer(1, job).unwrap().patches() {
            machine.run(patch.edits(), &|_| unreachable!());
        }
        (machine.units, machine.slots)
    };
    let [a, b, c] = ['a', 'b', 'c'].map(u32::from);
    assert_eq!(end(&shown[0].0, &[]).0, [a, a, c]);
    let (units, slots) = end(&shown[1].0, &[(0, 7), (1, 8), (2, 9)]);
    assert_eq!(units, [8, b, c]);
    // Slot 0 should have had a.
    assert_eq!([0, 1, 2].map(|s| slots[&s][0]), [8, 8, 8]);
}

/// What the paper's commands `price_job` and `try_settings` print stands below them: so say
/// `parallel-moves`, and these programs.
#[test]
fn commands_print_what_is_shown() {
    let paper = paper();
    for (program, command, block) in [
        ("price_job", "price", "```price\n"),
        ("try_settings", "try", "```tries\n"),
    ] {
        let start = format!("`{program} ");
        let mut shown = 0;
        for part in paper.split(&start).skip(1) {
            let (given, rest) = part.split_once('`').unwrap();
            let (_, rest) = rest.split_once(block).unwrap();
            let (expected, _) = rest.split_once("```").unwrap();
            let (given, file) = given.split_once(" < ").unwrap();
            let job = fs::read(root().join(file)).unwrap();
            let ours = Command::new(env!("CARGO_BIN_EXE_parallel-moves"));
            let options = options(command, given);
            let with_command: Vec<&str> = [command].into_iter().chain(options.split(' ')).collect();
            assert_eq!(printed(ours, &with_command, &job), expected);
            let given: Vec<&str> = given.split(' ').collect();
            let path = root().join("target/bin").join(program);
            assert!(path.is_file(), "run `./build`");
            assert_eq!(printed(Command::new(path), &given, &job), expected);
            shown += 1;
        }
        assert!(shown > 0, "{program}");
    }
}

/// What a program prints that is given a job on standard input.
fn printed(mut program: Command, given: &[&str], job: &[u8]) -> String {
    let program = program
        .args(given)
        .stdin(Stdio::piped())
        .stdout(Stdio::piped());
    let mut child = program.spawn().unwrap();
    child.stdin.take().unwrap().write_all(job).unwrap();
    let output = child.wait_with_output().unwrap();
    String::from_utf8(output.stdout).unwrap()
}

/// The names of what is in a folder of the repository.
fn entries(folder: &str) -> Vec<String> {
    let entries = fs::read_dir(root().join(folder)).unwrap();
    let names = entries.map(|entry| entry.unwrap().file_name().into_string().unwrap());
    let mut names: Vec<String> = names.collect();
    names.sort();
    names
}

/// Every crate stands in the drawing of `docs/CRATES.md`, but those for C and Rust, which it names
/// together, and in its tables, once; and no other does.
#[test]
fn every_crate_is_drawn() {
    let map = fs::read_to_string(root().join("docs/CRATES.md")).unwrap();
    let is_name = |c: char| c.is_ascii_alphanumeric() || c == '_';
    let drawn: HashSet<&str> = blocks(&map, "text")[0].split(|c| !is_name(c)).collect();
    let crates = entries("crates");
    for name in &crates {
        assert!(
            name.trim_end_matches("_exports").ends_with("_c") || drawn.contains(&name[..]),
            "{name} is not drawn"
        );
    }
    let rows = map.lines().filter_map(|line| line.strip_prefix("| `"));
    let mut named: Vec<&str> = rows.map(|row| row.split('`').next().unwrap()).collect();
    named.sort();
    assert_eq!(named, crates);
}

/// The map is what its script prints.
#[test]
fn the_map_is_made() {
    let script = root().join("bench/crates");
    let Ok(output) = Command::new("python3").arg(script).output() else {
        println!("python3 is not there: docs/CRATES.md is not held against bench/crates");
        return;
    };
    let printed = String::from_utf8(output.stdout).unwrap();
    let map = fs::read_to_string(root().join("docs/CRATES.md")).unwrap();
    assert!(output.status.success());
    assert!(map == printed, "run `bench/crates > docs/CRATES.md`");
}

/// How many crates, must-fail edits and programs README says that there are.
#[test]
fn readme_counts_what_there_is() {
    let readme = fs::read_to_string(root().join("README.md")).unwrap();
    let readme = readme.split_whitespace().collect::<Vec<_>>().join(" ");
    let crates = entries("crates");
    let folder = |name: &str, part: &str| root().join("crates").join(name).join(part);
    let edited = crates
        .iter()
        .filter(|name| folder(name, "must-fail").exists());
    let edits: usize = edited
        .map(|name| entries(&format!("crates/{name}/must-fail")).len())
        .sum();
    let programs = crates
        .iter()
        .filter(|name| folder(name, "src/main.rt").exists());
    let counts = format!(
        "{} crates are proved from nothing, {edits} must-fail edits refused and {} programs run",
        crates.len(),
        programs.count()
    );
    assert!(readme.contains(&counts), "{counts}");
}

/// A cell of `docs/STATEMENTS.md` has at most this many characters.
const MOST_OF_A_CELL: usize = 400;

#[test]
fn cells_can_be_read() {
    let statements = fs::read_to_string(root().join("docs/STATEMENTS.md")).unwrap();
    let rows: Vec<&str> = statements
        .lines()
        .filter(|line| line.starts_with('|'))
        .collect();
    assert!(rows.len() > 200);
    for cell in rows.iter().flat_map(|row| row.split('|')) {
        let length = cell.trim().chars().count();
        assert!(length <= MOST_OF_A_CELL, "{length} characters: {cell}");
    }
}
