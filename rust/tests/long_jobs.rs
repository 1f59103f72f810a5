//! Jobs of 65,536 bytes, which may be so long, and of 65,537, which may not: through the
//! programs, the command and the library. But for its length the longer one is right.

mod common;

use std::fs::{self, File};
use std::path::{Path, PathBuf};
use std::process::Command;

use common::{encoded, jobs, numbers, root};
use parallel_moves::{
    ParallelMoves, Patch, PhysReg, Prices, Refusal, Resolver, Value, examine, examine_in,
    patch_count, priced_job, text::from_bytes, try_settings, write,
};

const PRICES: Prices = Prices {
    moves: 4,
    remats: 6,
    spills: 16,
    reloads: 12,
};

/// Three registers and one value; 127 patches with one move 128 times each, and then some more.
fn job(patches: u32, more: &str) -> Vec<u32> {
    let opening = "3 1 3 0 1 3 0 0 1 0 0 0 1 1 0 0 1 2 2 0 1 3 0 1 2 3 0 1 2 0 0 3 0 1 2 3 0 1 2 \
         1 0 1 0 0";
    let patch = format!("0 128 {}", "0 1 3 0 ".repeat(128));
    let text = format!("{opening} {patches} {} {more}", patch.repeat(127));
    numbers(&text)
}

/// 129 patches in 65,536 bytes.
fn longest() -> Vec<u32> {
    job(129, &format!("0 0 1 2 20 {}", "0 1 3 0 ".repeat(20)))
}

/// 128 patches in 65,537 bytes.
fn too_long() -> Vec<u32> {
    job(128, &format!("0 21 {}", "0 1 3 0 ".repeat(21)))
}

/// Both, as bytes.
fn both() -> [Vec<u8>; 2] {
    let both = [longest(), too_long()].map(encoded);
    assert_eq!([both[0].len(), both[1].len()], [65_536, 65_537]);
    both
}

/// A function, and so many bytes behind it as make it so long.
fn function(length: usize) -> Vec<u8> {
    let (_, job) = jobs("examples")
        .into_iter()
        .find(|(name, _)| name == "swap-full")
        .unwrap();
    let mut bytes = job[..46].to_vec();
    bytes.resize(length, 0);
    bytes
}

fn file(name: &str, bytes: &[u8]) -> PathBuf {
    let path = Path::new(env!("CARGO_TARGET_TMPDIR")).join(name);
    fs::write(&path, bytes).unwrap();
    path
}

/// What a program of `target/bin` prints of the job in a file.
fn printed(program: &str, words: &[&str], job: &Path) -> String {
    let path = root().join("target/bin").join(program);
    assert!(path.is_file(), "run `./build`");
    let job = File::open(job).unwrap();
    let output = Command::new(path).args(words).stdin(job).output().unwrap();
    assert!(output.stderr.is_empty(), "{program} says something");
    String::from_utf8(output.stdout).unwrap()
}

#[test]
fn programs() {
    let [longest, too_long] = both();
    let (fits, over) = (file("fits.job", &longest), file("over.job", &too_long));
    // Bytes that are no job have the same two numbers.
    let zeros = [65_536, 65_537].map(|length| file(&format!("{length}.job"), &vec![0; length]));
    for (program, words, lines) in [
        ("resolve", &["1"][..], 129 + 128),
        ("resolve", &[], 129 + 128),
        ("price_job", &["1", "4", "6", "16", "12"], 129),
        ("try_settings", &["7", "3", "4", "6", "16", "12"], 10),
    ] {
        let answer = printed(program, words, &fits);
        assert!(!answer.starts_with("refused"), "{program}: {answer}");
        assert!(answer.lines().count() >= lines, "{program}: {answer}");
        assert!(!answer.contains("\nrefused 2"), "{program}: {answer}");
        assert_eq!(printed(program, words, &over), "refused 2\n", "{program}");
        for zeros in &zeros {
            assert_eq!(printed(program, words, zeros), "refused 2\n", "{program}");
        }
        // One that goes on for long.
        let longer = file(&format!("longer-{program}.job"), &longest.repeat(20));
        assert_eq!(printed(program, words, &longer), "refused 2\n", "{program}");
    }
    // An empty patch, and bytes left over behind it: 8, up to 65,536 of all.
    let words = ["7", "3", "4", "6", "16", "12"];
    for (length, refused) in [(65_536, "refused 8\n"), (65_537, "refused 2\n")] {
        let mut bytes = function(length);
        bytes[46] = 1;
        let job = file("left-over.job", &bytes);
        assert_eq!(printed("try_settings", &words, &job), refused);
        let answer = printed("resolve", &[], &job);
        assert_eq!(answer.lines().count(), if length > 65_536 { 1 } else { 2 });
        assert!(answer.ends_with(refused), "{answer}");
    }
}

#[test]
fn command() {
    let [longest, too_long] = both();
    let (fits, over) = (file("fits-c.job", &longest), file("over-c.job", &too_long));
    for (words, prints) in [
        ("resolve", true),
        ("groups", true),
        ("positions", false),
        ("price --prices 4,6,16,12", true),
        ("try --seed 7 --patches 3 --prices 4,6,16,12", false),
        ("text", false),
    ] {
        let run = |job: &Path| {
            let mut command = Command::new(env!("CARGO_BIN_EXE_parallel-moves"));
            command.args(words.split(' ')).arg(job).output().unwrap()
        };
        let output = run(&fits);
        assert_eq!(output.status.code(), Some(0), "{words}");
        assert!(output.stdout.len() > 300, "{words}");
        let output = run(&over);
        assert_eq!(output.status.code(), Some(1), "{words}");
        let stdout = String::from_utf8(output.stdout).unwrap();
        assert_eq!(stdout.contains("refused 2\n"), prints, "{words}: {stdout}");
        assert!(stdout.len() < 20, "{words}: {stdout}");
        let said = String::from_utf8(output.stderr).unwrap();
        assert!(said.contains("refused 2"), "{words}: {said}");
    }
}

#[test]
fn library() {
    let [longest, too_long] = both();
    let refused = Refusal::NamesNothing;
    let mut resolver = Resolver::new();
    assert_eq!(resolver.answer(1, &longest).unwrap().patches().count(), 129);
    let by_groups = resolver.answer_by_groups(2, &longest).unwrap();
    assert_eq!(by_groups.patches().count(), 129);
    for answer in [
        resolver.answer(1, &too_long),
        resolver.answer_by_groups(2, &too_long),
    ] {
        let error = answer.unwrap_err();
        assert_eq!(error.refusal(), refused);
        assert_eq!(error.before().patches().count(), 0);
    }
    assert_eq!(priced_job(1, PRICES, &longest), Ok(129));
    assert_eq!(priced_job(1, PRICES, &too_long), Err(refused));
    assert!(try_settings(&longest, PRICES, 7, 3).is_ok());
    assert_eq!(try_settings(&too_long, PRICES, 7, 3), Err(refused));
    let list = [((1_u64 << 14) + 3) * 8 + 1];
    for (patch, list, said) in [(0, &list[..], true), (127, &[], true), (128, &[], false)] {
        assert_eq!(examine(&longest, patch, list), Ok(said), "{patch}");
        assert_eq!(examine_in(1, &longest, patch, list), Ok(said), "{patch}");
        assert_eq!(examine(&too_long, patch, list), Err(refused));
        assert_eq!(examine_in(1, &too_long, patch, list), Err(refused));
    }
    assert_eq!(patch_count(&longest), Ok(129));
    assert!(patch_count(&too_long).is_err());
    assert!(from_bytes(&longest).is_ok() && from_bytes(&too_long).is_err());
    assert_eq!(write(&self::longest()), Ok(longest.clone()));
    assert_eq!(write(&self::too_long()), Err(refused));

    // The same of the opened function.
    let moves = ParallelMoves::open(1, &longest[..44]).unwrap();
    let [r0, r1] = [0, 1].map(PhysReg::new);
    let patch = |count, free: &[u32]| {
        let mut patch = Patch::new();
        patch.free(free);
        for _ in 0..count {
            patch.move_(r0, r1, Value::new(0));
        }
        patch
    };
    let mut patches = vec![patch(128, &[]); 127];
    let shorter = [&patches[..], &[patch(0, &[]), patch(20, &[2])]].concat();
    assert_eq!(moves.write_job(&shorter), Ok(longest));
    patches.push(patch(21, &[]));
    assert_eq!(moves.write_job(&patches), Err(refused));

    // Of a function, bytes left over, and too many.
    let (left, beyond) = (function(65_536), function(65_537));
    for (bytes, refusal) in [(left, Refusal::LeftOver), (beyond, refused)] {
        assert_eq!(ParallelMoves::open(1, &bytes).err(), Some(refusal));
        let priced = ParallelMoves::open_priced(1, PRICES, &bytes);
        assert_eq!(priced.err(), Some(refusal));
        assert_eq!(ParallelMoves::enough_slots(1, &bytes), Err(refusal));
    }
}
