//! Which jobs are compared, in parts that can be done apart from each other.

use std::ops::ControlFlow;
use std::path::Path;
use std::sync::Arc;
use std::{fs, io};

use judge::answer;
use judge::generate::{Generator, MODES, Mode};
use judge::random::Random;

/// How many jobs of a mode are made in one part.
const PART: usize = 500;

/// Some jobs.
#[derive(Clone)]
pub enum Task {
    /// The first `count` jobs of a seed and a mode.
    Generated {
        seed: u64,
        mode: Mode,
        name: &'static str,
        count: usize,
    },
    /// A job, with one of its bytes changed in every way.
    Changed {
        name: Arc<str>,
        job: Arc<[u8]>,
        offset: usize,
    },
    /// A job, cut off everywhere.
    Cut { name: Arc<str>, job: Arc<[u8]> },
    /// A job as it is.
    Whole { name: Arc<str>, job: Arc<[u8]> },
}

impl Task {
    /// How many jobs there are.
    pub fn count(&self) -> usize {
        match self {
            Task::Generated { count, .. } => *count,
            Task::Changed { .. } => 255,
            Task::Cut { job, .. } => job.len(),
            Task::Whole { .. } => 1,
        }
    }

    /// The mode that its jobs are of.
    pub fn mode(&self) -> &'static str {
        match self {
            Task::Generated { name, .. } => name,
            _ => "damaged",
        }
    }

    /// Gives each job in turn, until one breaks off.
    pub fn each<B>(&self, mut give: impl FnMut(&[u8]) -> ControlFlow<B>) -> ControlFlow<B> {
        match self {
            Task::Generated {
                seed, mode, count, ..
            } => {
                let mut generator = Generator::new(*seed, *mode);
                for _ in 0..*count {
                    give(&generator.job())?;
                }
            }
            Task::Changed { job, offset, .. } => {
                let mut changed = job.to_vec();
                for step in 1..=255 {
                    changed[*offset] = job[*offset].wrapping_add(step);
                    give(&changed)?;
                }
            }
            Task::Cut { job, .. } => {
                for length in 0..job.len() {
                    give(&job[..length])?;
                }
            }
            Task::Whole { job, .. } => give(job)?,
        }
        ControlFlow::Continue(())
    }

    /// What the job at `index` is.
    pub fn job_name(&self, index: usize) -> String {
        match self {
            Task::Generated {
                seed, name, count, ..
            } => {
                let number = index + 1;
                format!("job {number} of `compare generate {seed} {count} {name}`")
            }
            Task::Changed { name, job, offset } => {
                let byte = job[*offset].wrapping_add(index as u8 + 1);
                format!("{name} with byte {offset} changed to {byte}")
            }
            Task::Cut { name, .. } => format!("{name} cut off after {index} bytes"),
            Task::Whole { name, .. } => name.to_string(),
        }
    }
}

/// `count` jobs, equally many of each mode but `mixed`.
pub fn generated(seed: u64, count: usize) -> Vec<Task> {
    let modes: Vec<_> = MODES
        .into_iter()
        .filter(|&(_, mode, _)| mode != Mode::Mixed)
        .collect();
    let mut left: Vec<usize> = (0..modes.len())
        .map(|index| (count + index) / modes.len())
        .collect();
    let mut seeds = Random::new(seed);
    let mut tasks = Vec::new();
    while left.iter().any(|&left| left > 0) {
        for (&(name, mode, _), left) in modes.iter().zip(&mut left) {
            let seed = seeds.next();
            let count = PART.min(*left);
            *left -= count;
            if count > 0 {
                tasks.push(Task::Generated {
                    seed,
                    mode,
                    name,
                    count,
                });
            }
        }
    }
    tasks
}

/// Trials that are damaged.
const TRIALS: [&str; 12] = [
    "swap-full",
    "sources-equal",
    "words-diverted-through",
    "slots-swapped",
    "rebuild-into-slot",
    "slot-of-the-stack-first",
    "diversion-with-two-writers",
    "join-counts-its-writers",
    "scratch-lies-on-evicted",
    "rebuild-scratch-stays-unavailable",
    "same-move-128-times",
    "evictions-overlap-makes-room",
];

/// Generated jobs that are damaged: the first accepted one of a mode that has so
/// many bytes, and in its answer an edit of such a kind.
const CHOSEN: [(&str, usize, usize, char); 9] = [
    ("small", 80, 150, 'S'),
    ("small", 150, 250, 'R'),
    ("shared", 150, 300, 'L'),
    ("shared", 450, 600, 'R'),
    ("memory", 100, 200, 'S'),
    ("memory", 300, 500, 'R'),
    ("remat", 350, 600, 'S'),
    ("patches", 450, 600, 'L'),
    ("limits", 80, 250, 'R'),
];

/// One more: the first accepted one of a mode that has so many bytes, and is
/// refused by such a number if one byte is changed.
const CHOSEN_BY_REFUSAL: (&str, usize, usize, &str) = ("remat", 100, 250, "refused 14\n");

/// The seed that they are chosen by.
const CHOSEN_BY: u64 = 20;

/// Twenty-two good jobs, with each byte changed in every way, and cut off
/// everywhere.
pub fn damaged(trials: &Path) -> io::Result<Vec<Task>> {
    let mut jobs: Vec<(Arc<str>, Arc<[u8]>)> = Vec::new();
    for name in TRIALS {
        let job = fs::read(trials.join(format!("{name}.job")))?;
        jobs.push((name.into(), job.into()));
    }
    for (mode, least, most, kind) in CHOSEN {
        let job = first(mode, least, most, |_, text| {
            text.lines().any(|line| line.starts_with(kind))
        });
        jobs.push((format!("a {mode} job of {} bytes", job.len()).into(), job));
    }
    let (mode, least, most, refused) = CHOSEN_BY_REFUSAL;
    let job = first(mode, least, most, |job, _| {
        let job: Arc<[u8]> = job.into();
        (0..job.len()).any(|offset| {
            let changed = Task::Changed {
                name: mode.into(),
                job: job.clone(),
                offset,
            };
            let test = |job: &[u8]| match answer::text(1, job).ends_with(refused) {
                true => ControlFlow::Break(()),
                false => ControlFlow::Continue(()),
            };
            changed.each(test).is_break()
        })
    });
    jobs.push((format!("a {mode} job of {} bytes", job.len()).into(), job));

    let mut tasks = Vec::new();
    for (name, job) in jobs {
        tasks.push(Task::Whole {
            name: name.clone(),
            job: job.clone(),
        });
        tasks.push(Task::Cut {
            name: name.clone(),
            job: job.clone(),
        });
        for offset in 0..job.len() {
            tasks.push(Task::Changed {
                name: name.clone(),
                job: job.clone(),
                offset,
            });
        }
    }
    Ok(tasks)
}

/// The first accepted job of a mode that has so many bytes and is such.
fn first(mode: &str, least: usize, most: usize, such: impl Fn(&[u8], &str) -> bool) -> Arc<[u8]> {
    let known = MODES.iter().find(|(name, _, _)| *name == mode);
    let &(_, mode, _) = known.expect("the mode is one of the table");
    let mut generator = Generator::new(CHOSEN_BY, mode);
    loop {
        let job = generator.job();
        if (least..=most).contains(&job.len()) {
            let text = answer::text(1, &job);
            if !text.contains("refused") && such(&job, &text) {
                return job.into();
            }
        }
    }
}
