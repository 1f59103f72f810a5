//! Holds ours, the static library, against the judge of each setting: the original,
//! or the rules written a second time. The same jobs, in one process.

#[path = "beside/calls.rs"]
mod calls;
#[path = "beside/compare.rs"]
mod compare;
#[path = "beside/counts.rs"]
mod counts;
#[path = "beside/many_calls.rs"]
mod many_calls;
#[path = "beside/options.rs"]
mod options;
#[path = "beside/ours.rs"]
mod ours;
#[path = "beside/parse.rs"]
mod parse;
#[path = "beside/planned.rs"]
mod planned;
#[path = "beside/priced.rs"]
mod priced;
#[path = "beside/reduce.rs"]
mod reduce;
#[path = "beside/rewrite.rs"]
mod rewrite;
#[path = "beside/tasks.rs"]
mod tasks;
#[path = "beside/tried.rs"]
mod tried;
#[path = "beside/work.rs"]
mod work;

use std::error::Error;
use std::io::{self, Read, Write};
use std::path::Path;
use std::process::ExitCode;

use judge::{answer, encode};
use many_calls::compare_calls;
use options::Options;
use ours::Ours;
use work::compare_all;

const HELP: &str = "\
beside run SEED COUNT [OPTION..]
    Compares COUNT random jobs over all modes, each at both settings. The same
    SEED and COUNT give the same jobs.
beside damaged FOLDER [OPTION..]
    Compares twenty-two good jobs, some of them trials of the folder, with each byte
    changed in every way, and cut off everywhere.
beside rewrite SEED COUNT [OPTION..]
    Takes COUNT such jobs apart into their numbers and has ours write these: it must
    give the job's own bytes, or the number of reading alone.
beside calls SEED COUNT [OPTION..]
    Compares COUNT calls that open a function or give it a patch, about a tenth
    of them refused. The same SEED and COUNT give the same calls.
beside answer [SETTING]
    Reads a job on standard input and prints ours' answer, at setting 1 unless said.
Options:
    --setting S     at this setting only; 1 or 2
    --threads N     how many at a time (as many as there are processors)
    --planned       with the L to plan with in the place of each job's own: ours must
                    give that number, and never 17
    --priced        what each patch costs is asked for too, and which of two costs less,
                    with prices and run counts in range and not
    --tried         both settings are tried on patches drawn for each job's function, and
                    nothing else
    --difference F  the file that a job with different answers is written to
    --spoil text N, --spoil words N
                    spoils ours' text of the N-th job, or its words, which must
                    then be found
Ends with 1 if there is a difference.
";

/// Of the threads that jobs and calls are compared in.
const STACK: usize = 64 << 20;

fn main() -> ExitCode {
    let arguments: Vec<String> = std::env::args().skip(1).collect();
    let arguments: Vec<&str> = arguments.iter().map(String::as_str).collect();
    answer::silence_panics();
    let outcome = match arguments[..] {
        ["run", seed, count, ref options @ ..] => run(seed, count, options),
        ["rewrite", seed, count, ref options @ ..] => rewrite_all(seed, count, options),
        ["damaged", folder, ref options @ ..] => damaged(Path::new(folder), options),
        ["calls", seed, count, ref options @ ..] => compare_calls(seed, count, options),
        ["answer", ref given @ ..] => answer_one(given),
        _ => {
            eprint!("{HELP}");
            return ExitCode::from(2);
        }
    };
    match outcome {
        Ok(code) => code,
        Err(error) => {
            eprintln!("beside: {error}");
            ExitCode::from(2)
        }
    }
}

type Ended = Result<ExitCode, Box<dyn Error>>;

fn run(seed: &str, count: &str, options: &[&str]) -> Ended {
    let seed = seed.parse().map_err(|_| "SEED is not a number")?;
    let count = count.parse().map_err(|_| "COUNT is not a number")?;
    let options = Options::read(options)?;
    compare_all(&tasks::generated(seed, count), &options)
}

fn rewrite_all(seed: &str, count: &str, options: &[&str]) -> Ended {
    let seed = seed.parse().map_err(|_| "SEED is not a number")?;
    let count = count.parse().map_err(|_| "COUNT is not a number")?;
    let mut options = Options::read(options)?;
    // There is no setting in writing.
    options.settings.truncate(1);
    options.rewritten = true;
    compare_all(&tasks::generated(seed, count), &options)
}

fn damaged(folder: &Path, options: &[&str]) -> Ended {
    let options = Options::read(options)?;
    compare_all(&tasks::damaged(folder)?, &options)
}

fn answer_one(given: &[&str]) -> Ended {
    let given = (!given.is_empty()).then(|| encode::lines_of(given));
    let kept_evictions = encode::setting(given.as_deref()).unwrap_or(0);
    let mut job = Vec::new();
    io::stdin().read_to_end(&mut job)?;
    let mut ours = Ours::new();
    let (count, refusal) = ours.answer(kept_evictions, &job, None);
    let text = ours.text(count, refusal, None).ok_or("no text")?;
    io::stdout().write_all(text)?;
    Ok(ExitCode::SUCCESS)
}
