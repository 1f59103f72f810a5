//! Jobs compared, by several threads, and the first difference made small.

use std::collections::BTreeMap;
use std::error::Error;
use std::io;
use std::ops::ControlFlow;
use std::process::ExitCode;
use std::sync::Mutex;
use std::sync::atomic::{AtomicUsize, Ordering};
use std::thread;
use std::time::Instant;

use crate::compare::{Difference, Outcome, Way};
use crate::counts::Counts;
use crate::options::Options;
use crate::ours::Ours;
use crate::tasks::Task;
use crate::{Ended, STACK, compare, parse, planned, priced, reduce, rewrite, tried};

/// A job with different answers.
struct Found {
    task: usize,
    index: usize,
    kept_evictions: u32,
    job: Vec<u8>,
    way: Way,
}

/// What was counted, by setting.
type BySetting = BTreeMap<u32, Counts>;

/// What the threads share.
struct Work<'a> {
    tasks: &'a [Task],
    /// How many jobs come before each task.
    before: Vec<usize>,
    options: &'a Options,
    next: AtomicUsize,
    /// The first task with a difference.
    first: AtomicUsize,
    found: Mutex<Option<Found>>,
}

impl Work<'_> {
    /// Does tasks until there are no more.
    fn take_part(&self) -> Result<BySetting, String> {
        let mut ours = Ours::new();
        let mut counts = BySetting::default();
        loop {
            let number = self.next.fetch_add(1, Ordering::SeqCst);
            if number >= self.tasks.len() || number > self.first.load(Ordering::SeqCst) {
                return Ok(counts);
            }
            let task = &self.tasks[number];
            if let Some(found) = self.do_task(number, &mut ours, &mut counts) {
                self.first.fetch_min(number, Ordering::SeqCst);
                let mut first = self.found.lock().map_err(|_| "a thread failed")?;
                if first.as_ref().is_none_or(|first| number < first.task) {
                    *first = Some(found);
                }
            }
            if !ours.kept_to_its_own() {
                let name = task.job_name(0);
                return Err(format!(
                    "ours wrote past the end of its memory at {name} or up to {} jobs later",
                    task.count()
                ));
            }
        }
    }

    fn do_task(&self, number: usize, ours: &mut Ours, counts: &mut BySetting) -> Option<Found> {
        let task = &self.tasks[number];
        let mut index = 0;
        let ended = task.each(|job| {
            let way = self.options.way(self.before[number] + index);
            let mut before = None;
            for &kept_evictions in &self.options.settings {
                match compare_one(ours, kept_evictions, job, way) {
                    Ok(outcome) => {
                        let differs = before.is_some_and(|text| text != outcome.text);
                        let counts = counts.entry(kept_evictions).or_default();
                        counts.add(&outcome, task.mode(), differs);
                        before = Some(outcome.text);
                    }
                    Err(_) => {
                        return ControlFlow::Break(Found {
                            task: number,
                            index,
                            kept_evictions,
                            job: job.to_vec(),
                            way,
                        });
                    }
                }
            }
            index += 1;
            ControlFlow::Continue(())
        });
        ended.break_value()
    }
}

/// Compares the answers to a job at a setting, in such a way.
fn compare_one(
    ours: &mut Ours,
    kept_evictions: u32,
    job: &[u8],
    way: Way,
) -> Result<Outcome, Box<Difference>> {
    match way {
        Way {
            rewritten: true, ..
        } => rewrite::compare(ours, job, way),
        Way { planned: true, .. } => planned::compare(ours, kept_evictions, job, way),
        Way {
            priced: Some(seed), ..
        } => priced::compare(ours, kept_evictions, job, way, seed),
        Way {
            tried: Some(seed), ..
        } => tried::compare(ours, job, seed),
        _ => compare::compare(ours, kept_evictions, job, way),
    }
}

/// Compares the answers to all jobs, and prints counts or the first difference.
pub fn compare_all(tasks: &[Task], options: &Options) -> Ended {
    let mut before = Vec::new();
    let mut jobs = 0;
    for task in tasks {
        before.push(jobs);
        jobs += task.count();
    }
    let work = Work {
        tasks,
        before,
        options,
        next: AtomicUsize::new(0),
        first: AtomicUsize::new(usize::MAX),
        found: Mutex::new(None),
    };

    let start = Instant::now();
    let mut counts = BySetting::new();
    thread::scope(|scope| -> Result<(), Box<dyn Error>> {
        let mut threads = Vec::new();
        for _ in 0..options.threads {
            let builder = thread::Builder::new().stack_size(STACK);
            threads.push(builder.spawn_scoped(scope, || work.take_part())?);
        }
        for thread in threads {
            for (setting, part) in thread.join().map_err(|_| "a thread panicked")?? {
                counts.entry(setting).or_default().add_all(&part);
            }
        }
        Ok(())
    })?;
    let seconds = start.elapsed().as_secs_f64();
    let done: u64 = counts.values().map(|counts| counts.jobs).sum();
    let rate = done as f64 / seconds;
    eprintln!("{seconds:.0} seconds, {rate:.0} jobs a second");

    let found = work.found.into_inner().map_err(|_| "a thread failed")?;
    match found {
        None if done == (options.settings.len() * jobs) as u64 => {
            for (setting, counts) in &counts {
                match options.rewritten {
                    true => counts.print_rewritten(),
                    false => {
                        println!("setting {setting}");
                        counts.print();
                    }
                }
            }
            println!("no difference");
            Ok(ExitCode::SUCCESS)
        }
        None => Err(format!("{done} answers to {jobs} jobs").into()),
        Some(found) => {
            report(&tasks[found.task], found, options)?;
            Ok(ExitCode::FAILURE)
        }
    }
}

/// Makes a job with different answers small, and prints it.
fn report(task: &Task, found: Found, options: &Options) -> Result<(), Box<dyn Error>> {
    println!("DIFFERENCE");
    println!("at {}", task.job_name(found.index));
    let kept_evictions = found.kept_evictions;
    if !options.rewritten {
        println!("setting {kept_evictions}");
    }
    let length = found.job.len();
    let mut ours = Ours::new();
    let small = thread::scope(|scope| {
        let ours = &mut ours;
        let make_small = move || {
            reduce::reduce(found.job, |job| {
                compare_one(ours, kept_evictions, job, found.way).is_err()
            })
        };
        let builder = thread::Builder::new().stack_size(STACK);
        builder
            .spawn_scoped(scope, make_small)?
            .join()
            .map_err(|_| io::Error::other("a thread panicked"))
    })?;
    println!("made small: {} bytes of {length}", small.len());
    println!("job, as words of `compare encode`:");
    println!("{}", parse::words(&small));
    if let Some(file) = &options.difference {
        std::fs::write(file, &small)?;
        println!("written to {}", file.display());
    }
    match compare_one(&mut ours, kept_evictions, &small, found.way) {
        Ok(_) => println!("the answers to it differ no longer"),
        Err(difference) => {
            println!("what differs: {}", difference.what);
            print!("judge:\n{}", difference.judged);
            print!("ours, as printed:\n{}", difference.printed);
            print!("ours, from the words:\n{}", difference.decoded);
        }
    }
    Ok(())
}
