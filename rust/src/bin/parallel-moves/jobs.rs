//! The jobs that a command is given, and the cores that they are spread over.

use std::collections::BTreeMap;
use std::ffi::OsString;
use std::fs::{self, File};
use std::io::{self, IsTerminal, Read, Write};
use std::num::NonZeroUsize;
use std::path::{Path, PathBuf};
use std::sync::atomic::{AtomicBool, AtomicUsize, Ordering};
use std::sync::mpsc;
use std::thread;
use std::time::{Duration, Instant};

use parallel_moves::Resolver;

use crate::command::{Each, Failure, Outcome, parted};
use crate::given::{Given, JOBS, TO};
use crate::{print, say};

/// Where a job is read.
pub enum Source {
    StandardInput,
    File(PathBuf),
}

impl Source {
    /// Of a word, which is no folder.
    pub fn of(word: &OsString) -> Source {
        match word == "-" {
            true => Source::StandardInput,
            false => Source::File(word.into()),
        }
    }

    pub fn name(&self) -> String {
        match self {
            Source::StandardInput => "standard input".to_owned(),
            Source::File(path) => path.display().to_string(),
        }
    }

    /// What is read of it. Of a job that is longer than any, a byte more: it is refused for
    /// its length, and nothing behind is needed for that.
    pub fn read(&self, kind: Kind) -> Result<Vec<u8>, Failure> {
        let mut bytes = Vec::new();
        let most = kind.most() + 1;
        let read = match self {
            Source::StandardInput => io::stdin().lock().take(most).read_to_end(&mut bytes),
            Source::File(path) => {
                File::open(path).and_then(|file| file.take(most).read_to_end(&mut bytes))
            }
        };
        let failed = |why: String| Failure::Failed(format!("{} was not read: {why}", self.name()));
        match read {
            Err(error) => Err(failed(error.to_string())),
            Ok(read) if read as u64 == most && kind != Kind::Job => {
                Err(failed(format!("it has more than {} bytes", kind.most())))
            }
            Ok(_) => Ok(bytes),
        }
    }
}

/// What is read.
#[derive(Clone, Copy, PartialEq, Eq)]
pub enum Kind {
    Job,
    /// A job's text.
    Text,
    /// Lists of edits.
    Answer,
}

impl Kind {
    /// How the files of a folder end that are read.
    pub fn ending(self) -> &'static str {
        match self {
            Kind::Job => "job",
            Kind::Text => "txt",
            Kind::Answer => "out",
        }
    }

    /// How many bytes it may have.
    fn most(self) -> u64 {
        match self {
            Kind::Job => 65_536,
            // Of no byte of a job come more than 18 of its text: a value that can be rebuilt
            // takes 3, and its line at most 53. The rest is for remarks and spaces.
            Kind::Text => 64 * 65_536,
            // Ours have at most 132,096 lines of at most 25. Others may have more edits.
            Kind::Answer => 64 * 1_048_576,
        }
    }
}

/// What is named, or standard input.
fn sources(given: &Given, ending: &str) -> Result<Vec<Source>, Failure> {
    if given.words.is_empty() {
        return Ok(vec![Source::StandardInput]);
    }
    if given.words.iter().filter(|&word| word == "-").count() > 1 {
        return Err(given.wrong("standard input is named twice"));
    }
    let mut sources = Vec::new();
    for word in &given.words {
        if Path::new(word).is_dir() {
            sources.extend(in_folder(Path::new(word), ending)?);
        } else {
            sources.push(Source::of(word));
        }
    }
    Ok(sources)
}

/// The files of a folder with this ending, by name.
fn in_folder(folder: &Path, ending: &str) -> Result<Vec<Source>, Failure> {
    let files = || -> io::Result<Vec<PathBuf>> {
        let entries = fs::read_dir(folder)?;
        let mut paths: Vec<PathBuf> = entries
            .map(|entry| entry.map(|entry| entry.path()))
            .collect::<io::Result<_>>()?;
        paths.retain(|path| path.extension().is_some_and(|end| end == ending) && path.is_file());
        paths.sort_by(|one, other| one.file_stem().cmp(&other.file_stem()));
        Ok(paths)
    };
    let name = folder.display();
    match files() {
        Err(error) => Err(Failure::Failed(format!("{name} was not read: {error}"))),
        Ok(files) if files.is_empty() => Err(Failure::Failed(format!(
            "{name} has no file that ends in .{ending}"
        ))),
        Ok(files) => Ok(files.into_iter().map(Source::File).collect()),
    }
}

/// Does what is done with each job: the exit status.
pub fn run_each(given: &Given, each: Each) -> u8 {
    let prepared =
        sources(given, each.kind.ending()).and_then(|sources| Work::new(given, each, sources));
    match prepared {
        Ok(work) => work.run(),
        Err(failure) => {
            say(&failure.what());
            failure.status()
        }
    }
}

/// What is to be done.
struct Work<'a> {
    given: &'a Given,
    each: Each,
    sources: Vec<Source>,
    at_once: usize,
    folder: Option<PathBuf>,
}

impl<'a> Work<'a> {
    fn new(given: &'a Given, each: Each, sources: Vec<Source>) -> Result<Self, Failure> {
        let cores = thread::available_parallelism().map_or(1, NonZeroUsize::get);
        let at_once = match given.has(&JOBS) {
            true => given.number(&JOBS, 0),
            false => cores,
        };
        if at_once == 0 {
            return Err(given.wrong("--jobs is given a number from 1 on"));
        }
        let folder = given.value(&TO).map(PathBuf::from);
        if let Some(folder) = &folder {
            fs::create_dir_all(folder).map_err(|error| {
                Failure::Failed(format!("{} was not made: {error}", folder.display()))
            })?;
            distinct(&sources)?;
        }
        Ok(Work {
            given,
            each,
            at_once: at_once.min(sources.len()),
            sources,
            folder,
        })
    }

    /// Spreads the jobs over the cores, and prints what comes out in their order.
    fn run(&self) -> u8 {
        let (next, stop) = (AtomicUsize::new(0), AtomicBool::new(false));
        let mut ends = Ends::new(self.sources.len());
        thread::scope(|scope| {
            let (send, receive) = mpsc::channel();
            for _ in 0..self.at_once {
                let send = send.clone();
                let (next, stop) = (&next, &stop);
                scope.spawn(move || {
                    let mut resolver = Resolver::new();
                    while !stop.load(Ordering::Relaxed) {
                        let index = next.fetch_add(1, Ordering::Relaxed);
                        let Some(source) = self.sources.get(index) else {
                            break;
                        };
                        let outcome = self.outcome(source, &mut resolver);
                        if send.send((index, outcome)).is_err() {
                            break;
                        }
                    }
                });
            }
            drop(send);
            let mut waiting = BTreeMap::new();
            let mut printed = 0;
            for (index, outcome) in receive {
                waiting.insert(index, outcome);
                while let Some(outcome) = waiting.remove(&printed) {
                    if !ends.take(&self.sources[printed], outcome) {
                        stop.store(true, Ordering::Relaxed);
                        return;
                    }
                    printed += 1;
                }
            }
        });
        ends.status()
    }

    fn outcome(&self, source: &Source, resolver: &mut Resolver) -> Outcome {
        let bytes = source.read(self.each.kind)?;
        let outcome = (self.each.run)(self.given, resolver, &bytes);
        let Some(folder) = &self.folder else {
            return outcome;
        };
        let (result, said) = parted(outcome);
        let path = folder
            .join(file_name(source))
            .with_extension(self.each.writes);
        // What has no result leaves none from an earlier time.
        let done = match &said {
            Some(_) if result.is_empty() => remove(&path),
            _ => fs::write(&path, result),
        };
        done.map_err(|error| {
            Failure::Failed(format!("{} was not written: {error}", path.display()))
        })?;
        said.map_or(Ok(Vec::new()), Err)
    }
}

fn remove(path: &Path) -> io::Result<()> {
    match fs::remove_file(path) {
        Err(error) if error.kind() != io::ErrorKind::NotFound => Err(error),
        _ => Ok(()),
    }
}

/// The name of the file that a result is written to, but for its ending.
fn file_name(source: &Source) -> OsString {
    let name = match source {
        Source::StandardInput => None,
        Source::File(path) => path.file_name(),
    };
    name.unwrap_or("standard-input".as_ref()).to_owned()
}

/// Whether no two results go to one file.
fn distinct(sources: &[Source]) -> Result<(), Failure> {
    let mut seen = BTreeMap::new();
    for source in sources {
        let stem = Path::new(&file_name(source)).with_extension("");
        if let Some(other) = seen.insert(stem, source) {
            return Err(Failure::Failed(format!(
                "{} and {} have results of one name",
                other.name(),
                source.name()
            )));
        }
    }
    Ok(())
}

/// How the jobs ended so far.
struct Ends {
    jobs: usize,
    done: usize,
    refused: usize,
    status: u8,
    /// When progress was last shown, where it is.
    shown: Option<Instant>,
}

/// How long progress is not shown again.
const PAUSE: Duration = Duration::from_millis(100);

impl Ends {
    fn new(jobs: usize) -> Self {
        let seen = jobs > 1 && io::stderr().is_terminal();
        Ends {
            jobs,
            done: 0,
            refused: 0,
            status: 0,
            shown: seen.then(Instant::now),
        }
    }

    /// Prints what came out of a job, and says what is wrong with it: whether more can be
    /// printed.
    fn take(&mut self, source: &Source, outcome: Outcome) -> bool {
        let (result, said) = parted(outcome);
        let written = match result.is_empty() {
            true => Ok(()),
            false => print(&result),
        };
        let failed = written.is_err();
        self.done += 1;
        self.refused += usize::from(matches!(said, Some(Failure::Refused(..))));
        for failure in said.into_iter().chain(written.err()) {
            self.status = self.status.max(failure.status());
            self.wipe();
            say(&self.named(source, &failure));
        }
        self.show();
        !failed
    }

    /// What is wrong, with the job's name if there are several.
    fn named(&self, source: &Source, failure: &Failure) -> String {
        match failure {
            Failure::Refused(_, what) | Failure::Broken(what) if self.jobs > 1 => {
                format!("{}: {what}", source.name())
            }
            failure => failure.what(),
        }
    }

    fn show(&mut self) {
        if self.shown.is_some_and(|last| last.elapsed() >= PAUSE) {
            let Ends {
                jobs,
                done,
                refused,
                ..
            } = self;
            let _ = write!(io::stderr(), "\r{done} of {jobs} jobs, {refused} refused");
            self.shown = Some(Instant::now());
        }
    }

    /// Takes the line of progress away.
    fn wipe(&self) {
        if self.shown.is_some() {
            let _ = write!(io::stderr(), "\r\x1b[K");
        }
    }

    fn status(&self) -> u8 {
        self.wipe();
        self.status
    }
}
