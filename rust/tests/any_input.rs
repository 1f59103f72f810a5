//! Damaged jobs, texts and answers for what no proof covers: the reading of texts and of answers,
//! `JobBuilder`, `locate`, `first_fault` and pictures. Each ends, and in a result or an error.
//!
//! `ANY_INPUT=1000000 cargo test --release --test any_input` tries as many of each.

mod common;
#[allow(dead_code)]
#[path = "../src/bin/parallel-moves/lists.rs"]
mod lists;

use std::fs;
use std::path::Path;
use std::process::Command;
use std::thread;

use common::{jobs, root};
use lists::Lists;
use parallel_moves::{
    Class, JobBuilder, PhysReg, Picture, RegClass, RematCost, Resolver, SpillSlot, examine,
    first_fault, patch_count, text,
};

/// How many are made of each kind.
fn count() -> usize {
    let said = std::env::var("ANY_INPUT").ok();
    said.map_or(20_000, |said| said.parse().expect("ANY_INPUT is a number"))
}

/// Numbers from a seed: xorshift.
struct Draws(u64);

impl Draws {
    fn next(&mut self) -> u64 {
        self.0 ^= self.0 << 13;
        self.0 ^= self.0 >> 7;
        self.0 ^= self.0 << 17;
        self.0
    }

    fn below(&mut self, limit: usize) -> usize {
        (self.next() % limit.max(1) as u64) as usize
    }

    /// Mostly small, sometimes at a limit.
    fn number(&mut self) -> u32 {
        match self.below(40) {
            0 => self.next() as u32,
            1 => u32::MAX,
            2 => 1 << 31,
            3 => [64, 65, 128, 129, 512, 513, 2049, 4096, 4097][self.below(9)],
            _ => self.below(4) as u32,
        }
    }

    /// A part of something so long.
    fn part(&mut self, length: usize) -> std::ops::Range<usize> {
        let start = self.below(length + 1);
        let most = (length - start).min(1 << self.below(9));
        start..start + self.below(most + 1)
    }

    /// Bytes with one to three changes.
    fn damaged(&mut self, bytes: &[u8], others: &[u8]) -> Vec<u8> {
        let mut bytes = bytes.to_owned();
        for _ in 0..=self.below(3) {
            let at = self.part(bytes.len());
            let start = at.start;
            match self.below(8) {
                0 | 1 if start < bytes.len() => bytes[start] ^= 1 << self.below(8),
                2 if start < bytes.len() => bytes[start] = self.next() as u8,
                3 => bytes.truncate(start),
                4 => drop(bytes.drain(at)),
                5 => {
                    let again = bytes[at.clone()].to_owned();
                    let to = self.below(bytes.len() + 1);
                    bytes.splice(to..to, again);
                }
                6 => {
                    let from = self.part(others.len());
                    bytes.splice(at, others[from].iter().copied());
                }
                _ => {
                    let odd: [&[u8]; 6] = [
                        b"4294967295",
                        b"4294967296",
                        &[255, 255, 255, 255, 15],
                        &[128, 8],
                        &[128; 9],
                        "\u{1b}[31m\u{202e}\u{0}".as_bytes(),
                    ];
                    bytes.splice(start..start, odd[self.below(6)].iter().copied());
                }
            }
        }
        bytes
    }

    /// The same with two lines changed for each other, or one left out or doubled.
    fn damaged_text(&mut self, text: &str, other: &str) -> String {
        let mut lines: Vec<&str> = text.lines().collect();
        let (one, two) = (self.below(lines.len()), self.below(lines.len()));
        match self.below(5) {
            0 if !lines.is_empty() => lines.swap(one, two),
            1 if !lines.is_empty() => drop(lines.remove(one)),
            2 if !lines.is_empty() => lines.insert(one, lines[two]),
            3 => lines.extend(other.lines().take(one)),
            _ => {
                let bytes = self.damaged(text.as_bytes(), other.as_bytes());
                return String::from_utf8_lossy(&bytes).into_owned();
            }
        }
        lines.join("\n") + "\n"
    }
}

/// Says what was given where a test fails.
struct Given<'a>(&'a [u8]);

impl Drop for Given<'_> {
    fn drop(&mut self) {
        if thread::panicking() {
            eprintln!("given {:?}", String::from_utf8_lossy(self.0));
            eprintln!("that is {:?}", self.0);
        }
    }
}

/// Short jobs, taken and refused.
fn short_jobs() -> Vec<Vec<u8>> {
    let all = jobs("compare/trials").into_iter().chain(jobs("examples"));
    let all = all.map(|(_, job)| job).filter(|job| job.len() < 300);
    let all: Vec<Vec<u8>> = all.collect();
    assert!(all.len() > 100);
    all
}

/// A message is one line of a few hundred characters that a terminal only shows.
fn is_message(message: &str) {
    assert!(!message.chars().any(char::is_control), "{message:?}");
    assert!(!message.is_empty() && message.len() < 600, "{message}");
}

#[test]
fn any_job() {
    let (base, mut draws, mut resolver) = (short_jobs(), Draws(31), Resolver::new());
    let (mut answered, mut located) = (0, 0);
    for round in 0..count() {
        let (one, other) = (draws.below(base.len()), draws.below(base.len()));
        let job = draws.damaged(&base[one], &base[other]);
        let _given = Given(&job);
        let kept = 1 + (round % 2) as u32;
        let answer = resolver.answer(kept, &job);
        let built = JobBuilder::from_bytes(&job);
        let text = text::from_bytes(&job);
        assert_eq!(built.is_ok(), text.is_ok());
        if let Ok(built) = &built {
            assert_eq!(patch_count(&job), Ok(built.patches() as u32));
            assert_eq!(text.as_ref().unwrap().parse().as_ref(), Ok(built));
        }
        let before = match &answer {
            Ok(answer) => answer,
            Err(error) => error.before(),
        };
        if let Err(error) = &answer {
            let refusal = error.refusal();
            let location = resolver.locate(kept, &job, refusal);
            assert!(location.is_none_or(|location| location.byte() <= job.len()));
            located += usize::from(location.is_some());
        } else {
            // What is answered is written and printed, and comes back.
            answered += 1;
            assert_eq!(built.as_ref().unwrap().bytes().as_ref(), Ok(&job));
            assert_eq!(text::to_bytes(text.as_ref().unwrap()).as_ref(), Ok(&job));
        }
        let Ok(built) = built else { continue };
        // Written or not, it is with the number that reading gives.
        let written = (round % 4 == 0).then(|| built.bytes());
        if let Some(Err(error)) = written {
            is_message(&error.to_string());
        }
        if round % 8 != 0 {
            continue;
        }
        let edits = before.patches().next().map(|patch| patch.edits());
        let words = edits.map_or(&[][..], |edits| edits.words());
        match first_fault(&job, 0, words) {
            Some(fault) => is_message(&fault.to_string()),
            None => assert!(examine(&job, 0, words) != Ok(false)),
        }
        let picture = edits.and_then(|edits| Picture::of("any", &built, 1, edits));
        if let Some(picture) = picture {
            assert!(picture.to_string().lines().count() > 3);
            assert!(picture.page().contains("</svg>") && picture.drawing().contains("</svg>"));
        }
    }
    let few = count() / 100;
    assert!(answered > few && located > few, "{answered} {located}");
}

#[test]
fn any_text() {
    let base: Vec<String> = short_jobs()
        .iter()
        .filter_map(|job| text::from_bytes(job).ok())
        .collect();
    let (mut draws, mut taken) = (Draws(32), 0);
    for _ in 0..count() {
        let (one, other) = (draws.below(base.len()), draws.below(base.len()));
        let given = draws.damaged_text(&base[one], &base[other]);
        let _given = Given(given.as_bytes());
        match text::to_bytes(&given) {
            Ok(job) => {
                taken += 1;
                let printed = text::from_bytes(&job).unwrap();
                assert_eq!(text::to_bytes(&printed), Ok(job));
            }
            Err(error) => {
                is_message(&error.to_string());
                let lines = given.lines().count();
                assert!(error.line().is_none_or(|line| line <= lines));
            }
        }
    }
    assert!(taken * 20 > count());
}

#[test]
fn any_answer() {
    let mut resolver = Resolver::new();
    let base: Vec<(Vec<u8>, String)> = short_jobs()
        .into_iter()
        .map(|job| {
            let answer = common::text(&mut resolver, 1, &job);
            (job, answer)
        })
        .collect();
    let (mut draws, mut verdicts) = (Draws(33), [0; 3]);
    for round in 0..count() {
        let (job, answer) = &base[draws.below(base.len())];
        let (_, other) = &base[draws.below(base.len())];
        let given = draws.damaged_text(answer, other);
        let _given = Given(given.as_bytes());
        let lists = Lists::of(&given);
        let words: usize = lists.of_patches.values().map(|list| list.words.len()).sum();
        assert!(words <= given.lines().count());
        for (number, list) in &lists.of_patches {
            assert!((0..list.words.len()).all(|index| list.line(index).is_some()));
            if round % 16 != 0 || *number == 0 {
                continue;
            }
            let verdict = examine(job, number - 1, &list.words);
            verdicts[verdict.map_or(2, usize::from)] += 1;
            if let Some(fault) = first_fault(job, number - 1, &list.words) {
                is_message(&list.located(fault));
            }
        }
    }
    assert!(verdicts.iter().all(|count| *count > 20), "{verdicts:?}");
}

/// Jobs built of any numbers: what is written is read again, what is not has a message.
#[test]
fn any_builder() {
    let (mut draws, mut written) = (Draws(34), 0);
    for _ in 0..count() {
        let mut job = JobBuilder::new();
        let target = job.target();
        let bank = target.bank(draws.number() % 40);
        let size = 1 + draws.below(2);
        for register in 0..3 {
            let first = (register * size) as u32;
            let units: Vec<u32> = (first..first + size as u32).collect();
            match draws.below(12) {
                0 => target.register(&[draws.number(), draws.number()]),
                1 => target.memory_register(draws.number()),
                _ => target.register(&units),
            };
        }
        let mut any_register = || match draws.below(60) {
            0 => PhysReg::new(draws.number() as usize >> 1),
            _ => PhysReg::new(draws.below(3)),
        };
        let members: Vec<PhysReg> = (0..2).map(|_| any_register()).collect();
        let mut all = [0, 1, 2].map(PhysReg::new).to_vec();
        if members[0] == members[1] {
            all = members;
        }
        let top = target.class(Class::of(&all).with_slots());
        let stack = target.class(Class::of(&all));
        target.top_level_class(bank, top);
        target.stack_class(bank, stack);
        if draws.below(20) == 0 {
            target.units(draws.number());
        }
        let function = job.function();
        let values = [
            function.value(bank),
            function.remat_value(bank, RematCost::CheaperThanMove, stack),
            function.remat_value(
                bank,
                RematCost::CheaperThanLoad,
                RegClass::new(draws.below(3)),
            ),
        ];
        function.slots(draws.number());
        if draws.below(2) == 0 {
            function.emergency_slots(draws.number());
        }
        for _ in 0..1 + draws.below(2) {
            let patch = job.patch();
            if draws.below(4) == 0 {
                patch.free(&[draws.number()]);
            }
            for _ in 0..draws.below(3) {
                let value = values[draws.below(3)];
                let (from, to) = (PhysReg::new(draws.below(3)), PhysReg::new(draws.below(3)));
                let slot = SpillSlot::new(draws.number() as usize >> 1);
                match draws.below(4) {
                    0 => patch.remat(to, value),
                    1 => patch.move_(slot, to, value),
                    _ => patch.move_(from, to, value),
                };
            }
        }
        let text = job.to_string();
        let _given = Given(text.as_bytes());
        match job.bytes() {
            Ok(bytes) => {
                written += 1;
                assert_eq!(JobBuilder::from_bytes(&bytes).unwrap().to_string(), text);
                assert_eq!(text::to_bytes(&text), Ok(bytes));
            }
            Err(error) => is_message(&error.to_string()),
        }
    }
    assert!(written * 20 > count(), "{written}");
}

/// A job that says of billions of units or slots is refused, and has no picture and no fault.
#[test]
fn billions() {
    for (units, slots) in [(u32::MAX, 0), (3, u32::MAX), (513, 0), (3, 4097)] {
        let text = format!(
            "units {units}\nbank b0 slots 2^3 top-level c0 stack c1\nregister r0 bank b0 units 0\n\
             class c0 bank b0 with-slots members r0 order r0\nclass c1 bank b0 members r0 order r0\n\
             slots {slots}\nemergency-slots 1\nvalue v0 bank b0\npatch 1\n  move v0 from r0 to s0\n"
        );
        let job: JobBuilder = text.parse().unwrap();
        let bytes = common::encoded(job.numbers());
        let (_, answer) = jobs("examples").swap_remove(0);
        let answer = Resolver::new().answer(1, &answer).unwrap();
        let edits = answer.patches().next().unwrap().edits();
        assert_eq!(Picture::of("billions", &job, 1, edits), None);
        assert_eq!(first_fault(&bytes, 0, &[]), None);
        assert_eq!(job.bytes().unwrap_err().refusal().number(), 2);
    }
}

/// The command ends in 0, 1 or 2, and says so in lines of its own, for damaged files too.
#[test]
fn any_file() {
    let folder = Path::new(env!("CARGO_TARGET_TMPDIR")).join("any-file");
    let _ = fs::remove_dir_all(&folder);
    fs::create_dir_all(&folder).unwrap();
    let (base, mut draws) = (short_jobs(), Draws(35));
    for number in 0..100 {
        let (one, other) = (draws.below(base.len()), draws.below(base.len()));
        let job = draws.damaged(&base[one], &base[other]);
        let text = text::from_bytes(&base[one]).unwrap_or_default();
        let text = draws.damaged(text.as_bytes(), &base[other]);
        fs::write(folder.join(format!("{number}.job")), job).unwrap();
        fs::write(folder.join(format!("{number}.txt")), text).unwrap();
    }
    for words in [
        "resolve",
        "groups",
        "price --prices 1,2,3,4",
        "try --seed 1 --patches 1 --prices 1,2,3,4",
        "text",
        "bytes",
        "positions",
    ] {
        let output = Command::new(env!("CARGO_BIN_EXE_parallel-moves"))
            .args(words.split(' '))
            .arg(&folder)
            .current_dir(root())
            .output()
            .unwrap();
        let said = String::from_utf8(output.stderr).unwrap();
        assert_eq!(output.status.code(), Some(1), "{words}: {said}");
        assert!(said.lines().count() > 30, "{words}");
        for line in said.lines() {
            assert!(line.starts_with("parallel-moves: "), "{words}: {line}");
            assert!(!line.chars().any(char::is_control), "{words}: {line:?}");
        }
    }
}
