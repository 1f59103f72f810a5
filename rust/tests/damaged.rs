//! Bytes that are no job, or another than was meant.

mod common;

use common::{answers, jobs, text};
use parallel_moves::Resolver;

/// A job with bytes changed, and cut off after each.
fn damaged(job: &[u8]) -> Vec<Vec<u8>> {
    let mut damaged = Vec::new();
    for at in 0..job.len() {
        damaged.push(job[..at].to_owned());
        let byte = job[at];
        for other in [0, 1, 2, 127, 128, 255, byte.wrapping_add(1), byte ^ 128] {
            if other != byte {
                let mut job = job.to_owned();
                job[at] = other;
                damaged.push(job);
            }
        }
    }
    damaged
}

#[test]
fn damaged_jobs() {
    let mut jobs: Vec<Vec<u8>> = jobs("compare/trials")
        .iter()
        .filter(|(_, job)| job.len() < 200)
        .flat_map(|(_, job)| damaged(job))
        .collect();
    jobs.sort();
    jobs.dedup();
    let mut resolver = Resolver::new();
    for setting in [1, 2] {
        let given = |job: &Vec<u8>| text(&mut resolver, setting, job);
        let texts: Vec<String> = jobs.iter().map(given).collect();
        if let Some(expected) = answers("damaged", setting, &jobs) {
            for ((job, text), expected) in jobs.iter().zip(&texts).zip(&expected) {
                assert_eq!(text, expected, "{job:?}");
            }
        }
    }
}

#[test]
fn empty_job() {
    assert_eq!(text(&mut Resolver::new(), 1, &[]), "refused 1\n");
}

/// A job of one byte too many is refused before it is read.
#[test]
fn job_too_long() {
    let (_, mut job) = jobs("examples").swap_remove(0);
    let mut resolver = Resolver::new();
    job.resize(65_536, 0);
    assert!(text(&mut resolver, 1, &job).ends_with("refused 8\n"));
    job.push(0);
    assert_eq!(text(&mut resolver, 1, &job), "refused 2\n");
    // 22 comes before it.
    assert_eq!(text(&mut resolver, 3, &job), "refused 22\n");
    job.resize(1 << 24, 0);
    assert_eq!(text(&mut resolver, 2, &job), "refused 2\n");
}
