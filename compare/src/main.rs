//! Answers jobs with the original module or the rules written a second time, and
//! makes jobs to answer.

use std::error::Error;
use std::fs;
use std::io::{self, BufReader, BufWriter, Read, Write};
use std::path::Path;
use std::process::ExitCode;

use judge::answer::{Judge, SETTINGS};
use judge::equations::{self, Asked as Equations};
use judge::generate::calls::session;
use judge::generate::{Generator, MODES};
use judge::plain::Slip;
use judge::random::Random;
use judge::replay::{self, Record};
use judge::tally::Tally;
use judge::tries::Asked;
use judge::{answer, calls, encode, frame, tries};

const HELP: &str = "\
compare answer [SETTING]
    Reads a job on standard input and prints what document 01 says, with 1 kept
    eviction unless said: by the original. With 2: by the rules written a second
    time. With other arguments: `refused 22`, as the program `resolve` does.
    A panic of the original is printed as a last line `panic MESSAGE`.
compare second [SETTING]
    The same, by the rules written a second time at 1 too.
compare met [SETTING]
    Reads a job on standard input and prints for each resolved patch the greatest
    position that its searches met.
compare answer-batch SETTING [--text]
    The answers to many jobs. In: each job after its length as 4 bytes, lowest
    first. Out: each answer in the same form, or with --text each answer and
    then a line `--`.
compare generate SEED COUNT MODE [--dir FOLDER]
    Writes COUNT random jobs, each after its length as 4 bytes, lowest first;
    or each into a file 000000.job, 000001.job .. of the folder. The same
    SEED, COUNT and MODE give the same jobs. MODE is one of those below.
compare encode
    Reads a job written in words on standard input and writes the job.
    Words: 12 (a number), 0x8f (a byte), ( 0 1 3 0 )*128 (repeated), in these
    @2+5 (5, 7, 9 and so on), # comment.
compare trials FILE FOLDER
    Writes NAME.job and NAME.out into the folder for each trial in the file,
    NAME.met for those that say which positions they meet, and NAME.given, an
    argument a line, for those that say what the program is given.
compare replay SEED FOLDER
    Writes a fixed choice of jobs and answers: each as the setting, the job's
    length and the answer's, as 4 bytes, lowest first, then the job and the
    answer. The trials of the folder are among them. Says on standard error what
    was chosen.
compare replay-trials FILE
    Writes the same of the trials in the file.
compare calls SEED COUNT
    Writes COUNT random calls that open a function or give it a patch, with what
    they should come to, a line each, all numbers in base ten:
    open REFUSAL ENOUGH SETTING COUNT BYTE..
    call REFUSAL MADE POSITION ROOM COUNT FREE-UNIT.. COUNT NUMBER.. COUNT WORD..
    ROOM is the length of the lent list; the words are those of the edits.
    POSITION is the greatest that the patch met, and 0 if it is refused. ENOUGH is
    the L to plan with, and 0 if the function is refused.
compare tries SEED PATCHES M R S L
    Reads a job on standard input, draws patches of its function from the seed, and
    prints the counts at both settings, with these prices; or `refused` and the
    number. An argument that is no decimal number is outside its range.
compare equations SEED COUNT SETTING MOST BATCH FOLDER [--wrong]
    Writes COUNT random jobs of at most MOST bytes as equations of the rules, BATCH
    a crate, and prints counts over their answers. With --wrong each is wrong.
compare tally
    Reads answers, each after its length, and prints counts over them.
    Fails if there is a panic among them.
";

type Outcome = Result<(), Box<dyn Error>>;

fn main() -> ExitCode {
    let arguments: Vec<String> = std::env::args().skip(1).collect();
    let arguments: Vec<&str> = arguments.iter().map(String::as_str).collect();
    let outcome = match arguments[..] {
        ["answer", ref given @ ..] => {
            answer_one(|job| answer::answer(Judge::of(setting(given)), job).text)
        }
        ["second", ref given @ ..] => {
            let judge = Judge::plain(setting(given), Slip::None);
            answer_one(|job| answer::answer(judge, job).text)
        }
        ["met", ref given @ ..] => {
            let judge = Judge::of(setting(given));
            answer_one(|job| encode::lines_of(answer::answer(judge, job).positions))
        }
        ["answer-batch", given] => answer_batch(setting(&[given]), false),
        ["answer-batch", given, "--text"] => answer_batch(setting(&[given]), true),
        ["generate", seed, count, mode] => generate(seed, count, mode, None),
        ["generate", seed, count, mode, "--dir", folder] => {
            generate(seed, count, mode, Some(Path::new(folder)))
        }
        ["encode"] => encode(),
        ["trials", file, folder] => write_trials(file, Path::new(folder)),
        ["replay", seed, folder] => write_replay(seed, Path::new(folder)),
        ["replay-trials", file] => write_replay_of_trials(file),
        ["calls", seed, count] => write_calls(seed, count),
        ["tries", seed, patches, m, r, s, l] => try_settings(seed, patches, [m, r, s, l]),
        ["equations", ref numbers @ .., folder, "--wrong"] => {
            write_equations(numbers, folder, true)
        }
        ["equations", ref numbers @ .., folder] => write_equations(numbers, folder, false),
        ["tally"] => tally(),
        ["--help" | "help"] => io::stdout()
            .write_all(help().as_bytes())
            .map_err(Into::into),
        _ => {
            eprint!("{}", help());
            return ExitCode::from(2);
        }
    };
    match outcome {
        Ok(()) => ExitCode::SUCCESS,
        Err(error) => {
            eprintln!("compare: {error}");
            ExitCode::FAILURE
        }
    }
}

/// The setting of a program's arguments; 0, which is none, if they say none.
fn setting(given: &[&str]) -> u32 {
    let lines = (!given.is_empty()).then(|| encode::lines_of(given));
    encode::setting(lines.as_deref()).unwrap_or(0)
}

fn help() -> String {
    let mut help = format!("{HELP}Modes:\n");
    for (name, _, what) in MODES {
        help.push_str(&format!("    {name:8} {what}\n"));
    }
    help
}

fn write_calls(seed: &str, count: &str) -> Outcome {
    let seed = seed.parse().map_err(|_| "SEED is not a number")?;
    let mut left: usize = count.parse().map_err(|_| "COUNT is not a number")?;
    let mut random = Random::new(seed);
    let mut output = BufWriter::new(io::stdout().lock());
    while left > 0 {
        let session = session(&mut random, left, &SETTINGS);
        left -= session.count();
        output.write_all(calls::record(&session).as_bytes())?;
    }
    output.flush()?;
    Ok(())
}

fn answer_one(answered: impl Fn(&[u8]) -> String) -> Outcome {
    answer::silence_panics();
    // One byte past the limit is enough to see that a job is too long.
    let mut job = Vec::new();
    io::stdin()
        .take(answer::MOST_BYTES as u64 + 1)
        .read_to_end(&mut job)?;
    io::stdout().write_all(answered(&job).as_bytes())?;
    Ok(())
}

fn answer_batch(kept_evictions: u32, as_text: bool) -> Outcome {
    answer::silence_panics();
    let mut input = BufReader::new(io::stdin().lock());
    let mut output = BufWriter::new(io::stdout().lock());
    while let Some(job) = frame::read(&mut input)? {
        let text = answer::text(kept_evictions, &job);
        if as_text {
            output.write_all(text.as_bytes())?;
            output.write_all(b"--\n")?;
        } else {
            frame::write(&mut output, text.as_bytes())?;
        }
    }
    output.flush()?;
    Ok(())
}

fn generate(seed: &str, count: &str, mode: &str, folder: Option<&Path>) -> Outcome {
    let seed = seed.parse().map_err(|_| "SEED is not a number")?;
    let count: usize = count.parse().map_err(|_| "COUNT is not a number")?;
    let &(_, mode, _) = MODES
        .iter()
        .find(|(name, _, _)| *name == mode)
        .ok_or("no such MODE")?;
    let mut generator = Generator::new(seed, mode);
    let mut output = BufWriter::new(io::stdout().lock());
    for index in 0..count {
        let job = generator.job();
        match folder {
            Some(folder) => fs::write(folder.join(format!("{index:06}.job")), job)?,
            None => frame::write(&mut output, &job)?,
        }
    }
    output.flush()?;
    Ok(())
}

fn encode() -> Outcome {
    let mut text = String::new();
    io::stdin().read_to_string(&mut text)?;
    io::stdout().write_all(&encode::job(&text)?)?;
    Ok(())
}

fn write_trials(file: &str, folder: &Path) -> Outcome {
    for trial in encode::trials(&fs::read_to_string(file)?)? {
        fs::write(folder.join(format!("{}.job", trial.name)), trial.job)?;
        fs::write(folder.join(format!("{}.out", trial.name)), trial.printed)?;
        for (kind, lines) in [("met", trial.met), ("given", trial.given)] {
            if let Some(lines) = lines {
                fs::write(folder.join(format!("{}.{kind}", trial.name)), lines)?;
            }
        }
    }
    Ok(())
}

fn write_replay(seed: &str, folder: &Path) -> Outcome {
    let seed = seed.parse().map_err(|_| "SEED is not a number")?;
    let mut records = replay::records(seed, replay::trials(folder)?)?;
    eprint!("{}", replay::table(&records));
    let wrong = replay::wrong(&records)?;
    records.extend(wrong);
    write_records(&records)
}

fn write_replay_of_trials(file: &str) -> Outcome {
    let mut records = Vec::new();
    for trial in encode::trials(&fs::read_to_string(file)?)? {
        let given = encode::setting(trial.given.as_deref());
        let kept_evictions = given.ok_or("a trial without a setting")?;
        let record = Record::new("trials", kept_evictions, trial.job);
        if record.text != trial.printed {
            return Err(format!("{} prints something else", trial.name).into());
        }
        records.push(record);
    }
    eprint!("{}", replay::table(&records));
    write_records(&records)
}

fn write_records(records: &[Record]) -> Outcome {
    let mut output = BufWriter::new(io::stdout().lock());
    for record in records {
        record.write(&mut output)?;
    }
    output.flush()?;
    Ok(())
}

fn try_settings(seed: &str, patches: &str, prices: [&str; 4]) -> Outcome {
    let outside = u64::MAX;
    let asked = Asked {
        seed: seed.parse().unwrap_or(outside),
        patches: patches.parse().unwrap_or(outside),
        prices: prices.map(|price| price.parse().unwrap_or(outside)),
    };
    answer_one(|job| match tries::tried(asked, job) {
        Ok(tried) => tried.to_string(),
        Err(refused) => format!("refused {}\n", refused.0),
    })
}

fn write_equations(numbers: &[&str], folder: &str, wrong: bool) -> Outcome {
    answer::silence_panics();
    let numbers: Result<Vec<u64>, _> = numbers.iter().map(|number| number.parse()).collect();
    let Ok(&[seed, count, setting @ 1..=2, most_bytes, batch @ 1..=1000]) = numbers.as_deref()
    else {
        return Err("five numbers are needed, SETTING 1 or 2 and BATCH 1 to 1,000".into());
    };
    let asked = Equations {
        seed,
        count: count as usize,
        setting: setting as u32,
        most_bytes: most_bytes as usize,
        batch: batch as usize,
        wrong,
    };
    print!("{}", equations::write(&asked, Path::new(folder))?);
    Ok(())
}

fn tally() -> Outcome {
    let mut input = BufReader::new(io::stdin().lock());
    let mut tally = Tally::default();
    while let Some(answer) = frame::read(&mut input)? {
        tally.add(&String::from_utf8(answer)?);
    }
    write!(io::stdout(), "{tally}")?;
    match tally.panics() {
        0 => Ok(()),
        panics => Err(format!("{panics} panics").into()),
    }
}
