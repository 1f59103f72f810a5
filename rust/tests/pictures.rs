//! Pictures of patches: each cell of one is held against a machine that does the edits, at
//! every stop, and the kept ones of `examples/pictures` are those that the command prints.

#[path = "pictures/check.rs"]
mod check;
mod common;
#[path = "pictures/job.rs"]
mod job;
#[path = "pictures/meant.rs"]
mod meant;

use std::fs;
use std::process::Command;

use check::{cells, check};
use common::{jobs, kept_evictions, resolved, root};
use job::Job;
use parallel_moves::{Edit, JobBuilder, Picture, Resolver};

/// Each patch of each job that is answered, at both settings, whole and by groups, but for
/// those with very many edits.
#[test]
fn every_stop_is_as_the_machine_has_it() {
    let (mut patches, mut shown) = (0, 0);
    let mut resolver = Resolver::new();
    for folder in ["examples", "examples/pictures", "compare/trials"] {
        for (name, bytes) in jobs(folder) {
            for (kept, by_groups) in [(1, false), (2, false), (1, true), (2, true)] {
                let answer = match by_groups {
                    true => resolver.answer_by_groups(kept, &bytes),
                    false => resolver.answer(kept, &bytes),
                };
                let Ok(builder) = JobBuilder::from_bytes(&bytes) else {
                    continue;
                };
                let job = Job::of(&bytes);
                for (index, patch) in resolved(&answer).patches().enumerate() {
                    let edits: Vec<Edit> = patch.edits().iter().collect();
                    if edits.len() > 64 {
                        continue;
                    }
                    let picture = Picture::of(&name, &builder, index + 1, patch.edits()).unwrap();
                    let page = picture.page();
                    let count = check(&page, &job, index + 1, &edits);
                    assert_eq!(cells(&picture.drawing()).len(), count);
                    patches += 1;
                    shown += count;
                }
            }
        }
    }
    assert!(patches > 300 && shown > 10_000, "{patches} {shown}");
}

fn show(words: &[&str]) -> Vec<u8> {
    let output = Command::new(env!("CARGO_BIN_EXE_parallel-moves"))
        .arg("show")
        .args(words)
        .current_dir(root())
        .output()
        .unwrap();
    assert_eq!(output.status.code(), Some(0), "{words:?}");
    assert!(output.stderr.is_empty());
    output.stdout
}

#[test]
fn kept_pictures() {
    let mut kept = 0;
    for entry in fs::read_dir(root().join("examples/pictures")).unwrap() {
        let path = entry.unwrap().path();
        let (Some(name), Some(ending)) = (path.file_stem(), path.extension()) else {
            continue;
        };
        let name = name.to_str().unwrap();
        let (name, groups) = match name.strip_suffix("-by-groups") {
            Some(name) => (name, &["--groups"][..]),
            None => (name, &[][..]),
        };
        let beside = format!("examples/pictures/{name}.job");
        let file = match root().join(&beside).is_file() {
            true => beside,
            false => format!("examples/{name}.job"),
        };
        let shown = match ending.to_str().unwrap() {
            "html" => show(&[groups, &[&file]].concat()),
            "svg" => show(&[groups, &["--svg", &file]].concat()),
            "txt" => show(&[groups, &["--plain", &file]].concat()),
            _ => continue,
        };
        let page = fs::read(&path).unwrap();
        assert!(shown == page, "{} is another picture", path.display());
        let page = String::from_utf8(page).unwrap();
        if ending == "html" {
            let bytes = fs::read(root().join(&file)).unwrap();
            let (kept_evictions, mut resolver) = (kept_evictions(name), Resolver::new());
            let answer = match groups.is_empty() {
                true => resolver.answer(kept_evictions, &bytes),
                false => resolver.answer_by_groups(kept_evictions, &bytes),
            };
            let answer = answer.unwrap();
            let edits: Vec<Edit> = answer.patches().next().unwrap().edits().iter().collect();
            assert!(check(&page, &Job::of(&bytes), 1, &edits) > 0);
            // Nothing is fetched or run.
            assert!(page.contains("@media print"));
            for word in ["<script", "href", "src=", "url(", "@import", "<link"] {
                assert!(!page.contains(word), "{name} has {word}");
            }
            kept += 1;
        }
    }
    assert!(kept >= 4);
}

#[test]
fn what_cannot_be_shown() {
    let said = |words: &str| {
        let output = Command::new(env!("CARGO_BIN_EXE_parallel-moves"))
            .args(words.split(' '))
            .current_dir(root())
            .output()
            .unwrap();
        let said = String::from_utf8(output.stderr).unwrap();
        (output.status.code().unwrap(), said, output.stdout.len())
    };
    let (status, what, length) = said("show examples/swap-full.job 2");
    assert_eq!((status, length), (2, 0));
    assert!(
        what.starts_with("parallel-moves: the job has 1 patches; "),
        "{what}"
    );
    // The first patch stands, and the second is refused.
    let (status, what, length) = said("show examples/refused-17.job 1");
    assert!(status == 1 && length > 1000);
    assert!(what.contains("patch 2: refused 17"), "{what}");
    let (status, _, length) = said("show examples/refused-17.job 2");
    assert_eq!((status, length), (1, 0));
    let (status, what, length) = said("show --groups examples/refused-17.job 2");
    assert_eq!((status, length), (1, 0));
    assert!(
        what.starts_with("parallel-moves: patch 2: refused 17: "),
        "{what}"
    );
    for words in [
        "show",
        "show a b c",
        "show --plain=1 a",
        "show /nowhere/at.all",
    ] {
        assert_eq!(said(words).0, 2, "{words}");
    }
}
