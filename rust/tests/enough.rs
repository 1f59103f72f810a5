//! The L to plan with: as counted here, from a reading of the bytes of its own, and
//! enough for every job; and 17 comes where a job may make one slot fewer than it does.

mod common;

use std::collections::BTreeSet;
use std::ops::Range;

use common::{encoded, generated, jobs, numbers, resolved};
use parallel_moves::{ParallelMoves, Refusal, Resolver};

/// A target and a function, as they stand at a job's front.
struct Opening {
    length: usize,
    /// The bytes of L.
    limit: Range<usize>,
    /// The different slot sizes among the banks of the values.
    sizes: BTreeSet<u32>,
}

/// Stands on bytes and the next offset.
struct Reader<'a>(&'a [u8], usize);

impl Reader<'_> {
    fn number(&mut self) -> Option<u32> {
        let mut number = 0;
        for group in 0..5 {
            let byte = *self.0.get(self.1)?;
            self.1 += 1;
            number += u64::from(byte % 128) << (7 * group);
            if byte < 128 {
                return number.try_into().ok();
            }
        }
        None
    }

    fn list(&mut self) -> Option<Vec<u32>> {
        (0..self.number()?).map(|_| self.number()).collect()
    }
}

/// What a job's target and function are, if their numbers can be read. They need not
/// be accepted.
fn opening(job: &[u8]) -> Option<Opening> {
    let mut reader = Reader(job, 0);
    reader.number()?;
    let mut bank_sizes = Vec::new();
    for _ in 0..reader.number()? {
        bank_sizes.push(reader.number()?);
        reader.number()?;
        reader.number()?;
    }
    for _ in 0..reader.number()? {
        reader.number()?;
        reader.number()?;
        reader.list()?;
    }
    for _ in 0..reader.number()? {
        reader.number()?;
        reader.number()?;
        reader.list()?;
        reader.list()?;
    }
    let values = reader.number()?;
    reader.number()?;
    let before = reader.1;
    reader.number()?;
    let limit = before..reader.1;
    let mut sizes = BTreeSet::new();
    for _ in 0..values {
        sizes.insert(*bank_sizes.get(reader.number()? as usize)?);
        if reader.number()? != 0 {
            reader.number()?;
        }
    }
    Some(Opening {
        length: reader.1,
        limit,
        sizes,
    })
}

/// A job with another L.
fn with_limit(job: &[u8], opening: &Opening, limit: u32) -> Vec<u8> {
    let Range { start, end } = opening.limit;
    [&job[..start], &encoded([limit]), &job[end..]].concat()
}

/// The trials, the examples, and jobs of each mode, if `compare` is there.
fn all_jobs(of_each: usize) -> Vec<Vec<u8>> {
    let folders = ["compare/trials", "examples"];
    let kept = folders.into_iter().flat_map(jobs).map(|(_, job)| job);
    let mut all: Vec<Vec<u8>> = kept.collect();
    let modes = [
        "small",
        "big",
        "shared",
        "memory",
        "remat",
        "patches",
        "evictions",
        "fans",
        "refused",
        "limits",
        "damaged",
    ];
    for (seed, mode) in (200..).zip(modes) {
        match generated(seed, of_each, mode) {
            Some(jobs) => all.extend(jobs),
            None => break,
        }
    }
    all
}

/// Of bytes that are a target and a function, or are not: the number is that counted
/// here, or the refusal is that of opening them.
fn check(kept_evictions: u32, bytes: &[u8]) -> Result<u16, Refusal> {
    let given = ParallelMoves::enough_slots(kept_evictions, bytes);
    let expected = ParallelMoves::open(kept_evictions, bytes).map(|_| {
        let sizes = opening(bytes).unwrap().sizes.len();
        (128 + kept_evictions as u16) * sizes as u16
    });
    assert_eq!(given, expected, "{bytes:?}");
    given
}

#[test]
fn counted() {
    let mut refusals = BTreeSet::new();
    let mut counts = BTreeSet::new();
    for job in all_jobs(60) {
        let length = opening(&job).map_or(job.len(), |opening| opening.length);
        let bytes = &job[..length];
        for kept_evictions in [1, 2] {
            let given = check(kept_evictions, bytes);
            // Whole jobs have bytes left over, if they are not too long.
            let whole = check(kept_evictions, &job);
            if given.is_ok() && (length + 1..=65_536).contains(&job.len()) {
                assert_eq!(whole, Err(Refusal::LeftOver));
            }
            refusals.extend([given.err(), whole.err()].into_iter().flatten());
            counts.extend(given.ok());
        }
        let setting = [0, 3, 257, 65_538, u32::MAX][length % 5];
        let no_setting = Err(Refusal::NoSuchSetting);
        assert_eq!(ParallelMoves::enough_slots(setting, bytes), no_setting);
        assert_eq!(ParallelMoves::enough_slots(setting, &job), no_setting);
    }
    let refusals: Vec<u8> = refusals.into_iter().map(Refusal::number).collect();
    assert_eq!(refusals, [1, 2, 3, 4, 5, 6, 7, 8, 9]);
    assert!(counts.is_superset(&BTreeSet::from([129, 130, 258, 260])));
}

/// Changed and cut off, byte by byte.
#[test]
fn damaged() {
    let (_, job) = jobs("compare/trials")
        .into_iter()
        .find(|(name, _)| name == "enough-two-sizes")
        .unwrap();
    let bytes = &job[..opening(&job).unwrap().length];
    assert_eq!(check(1, bytes), Ok(258));
    assert_eq!(check(2, bytes), Ok(260));
    let mut accepted = 0;
    for at in 0..bytes.len() {
        assert_eq!(check(1, &bytes[..at]), Err(Refusal::NotANumber));
        for other in [0, 1, 2, 3, 127, 128, 255] {
            let mut changed = bytes.to_vec();
            changed[at] = other;
            accepted += usize::from(check(2, &changed).is_ok());
        }
    }
    assert!(accepted > 100, "{accepted}");
}

/// Banks of one size count once, and only those of values; at most there are eight
/// sizes, and without values none.
#[test]
fn sizes() {
    // Eight registers of one unit, a bank and two classes each, with these sizes.
    let bytes = |sizes: [u32; 8], values: &str| {
        let mut all = vec![8, 8];
        all.extend((0..8).flat_map(|bank: u32| [sizes[bank as usize], 2 * bank, 2 * bank + 1]));
        all.push(8);
        all.extend((0..8).flat_map(|bank| [0, bank, 1, bank]));
        all.push(16);
        all.extend((0..8).flat_map(|bank| [bank, 1, 0, 0, bank, 0, 1, bank, 1, bank]));
        all.extend(numbers(values));
        encoded(all)
    };
    let each = "8 0 0 0 0 1 0 2 0 3 0 4 0 5 0 6 0 7 0";
    let different = [31, 0, 1, 2, 3, 4, 5, 6];
    for (sizes, values, count) in [
        (different, each, 8),
        ([7; 8], each, 1),
        ([2, 3, 2, 3, 2, 3, 2, 31], each, 3),
        (different, "0 0 0", 0),
        (different, "1 0 2048 5 0", 1),
        (different, "3 4096 0 5 0 0 0 5 0", 2),
        ([9, 9, 1, 1, 1, 1, 1, 1], "2 0 0 0 0 1 0", 1),
    ] {
        let bytes = bytes(sizes, values);
        assert_eq!(check(1, &bytes), Ok(129 * count));
        assert_eq!(check(2, &bytes), Ok(130 * count));
    }
}

#[test]
fn enough() {
    let mut resolver = Resolver::new();
    let mut answer = |kept_evictions, job: &[u8]| {
        let answer = resolver.answer(kept_evictions, job);
        let made = resolved(&answer).patches().last().map_or(0, |p| p.made());
        (made, answer.err().map(|refused| refused.refusal()))
    };
    let out_of_slots = Some(Refusal::OutOfSlots);
    let (mut planned, mut fewer, mut most) = (0, 0, 0);
    for job in all_jobs(1500) {
        let Some(opening) = opening(&job) else {
            continue;
        };
        for kept_evictions in [1, 2] {
            let enough = ParallelMoves::enough_slots(kept_evictions, &job[..opening.length]);
            let Ok(enough) = enough else {
                continue;
            };
            planned += 1;
            let with = |limit: usize| with_limit(&job, &opening, limit as u32);
            let (made, refusal) = answer(kept_evictions, &with(enough.into()));
            assert_ne!(refusal, out_of_slots, "{job:?}");
            most = most.max(made);
            // So many are made: as many are enough, and one fewer is not.
            if made > 0 && planned % 4 == 0 {
                assert_eq!(answer(kept_evictions, &with(made)), (made, refusal));
                assert_eq!(answer(kept_evictions, &with(made - 1)).1, out_of_slots);
                fewer += 1;
            }
        }
    }
    assert!(
        planned > 200 && fewer > 30 && most >= 224,
        "{planned} {fewer} {most}"
    );
}
