//! `parallel-moves show`.

use std::ffi::OsStr;
use std::path::Path;

use parallel_moves::{JobBuilder, Picture, Resolver};

use crate::command::{Command, Failure, Outcome, Run, located, refused};
use crate::given::{Given, KEPT, Opt};
use crate::groups;
use crate::jobs::{Kind, Source};

const PLAIN: Opt = Opt {
    name: "--plain",
    value: "",
    needed: false,
    about: "as text for a terminal",
};

const SVG: Opt = Opt {
    name: "--svg",
    value: "",
    needed: false,
    about: "the drawing alone, for a page of another's",
};

const GROUPS: Opt = Opt {
    name: "--groups",
    value: "",
    needed: false,
    about: "of the patches resolved by groups, as `groups` does",
};

pub const COMMAND: Command = Command {
    name: "show",
    words: "[--kept K] [--groups] [--plain] [--svg] JOB [PATCH]",
    options: &[KEPT, GROUPS, PLAIN, SVG],
    about: &[
        "Prints a page with a picture of a patch, the first unless its number is given:",
        "which value stands in which place before the first edit and after each.",
        "`parallel-moves show my.job > my.html` and a browser show it; it needs no network",
        "and no script, and can be printed.",
    ],
    run: Run::Once(run),
};

fn run(given: &Given) -> Outcome {
    let (job_name, number) = match &given.words[..] {
        [job_name] => (job_name, 1_usize),
        [job_name, number] => {
            let number = number.to_str().and_then(|word| word.parse().ok());
            (job_name, number.unwrap_or(0))
        }
        _ => return Err(given.wrong("show is given a job and the number of a patch")),
    };
    let bytes = Source::of(job_name).read(Kind::Job)?;
    let (kept, mut resolver) = (given.kept(), Resolver::new());
    let by_groups = given.has(&GROUPS);
    let answered = match by_groups {
        true => resolver.answer_by_groups(kept, &bytes),
        false => resolver.answer(kept, &bytes),
    };
    let (answer, why) = match &answered {
        Ok(answer) => (answer, None),
        Err(error) if by_groups => {
            let why = groups::located(&mut resolver, kept, &bytes, error);
            (error.before(), Some(why))
        }
        Err(error) => {
            let why = located(&mut resolver, kept, &bytes, error.refusal());
            (error.before(), Some(why))
        }
    };
    let Some(patch) = number
        .checked_sub(1)
        .and_then(|index| answer.patches().nth(index))
    else {
        // One that is refused has no picture.
        return Err(match why {
            Some(why) => refused(why),
            None => given.wrong(format!("the job has {} patches", answer.patches().count())),
        });
    };
    let job = JobBuilder::from_bytes(&bytes).map_err(refused)?;
    let picture = Picture::of(&title(job_name), &job, number, patch.edits());
    let picture = picture.ok_or_else(|| given.wrong("there is no such patch"))?;
    let shown = match (given.has(&PLAIN), given.has(&SVG)) {
        (true, _) => picture.to_string(),
        (false, true) => picture.drawing(),
        (false, false) => picture.page(),
    };
    match why {
        None => Ok(shown.into_bytes()),
        Some(why) => Err(Failure::Refused(shown.into_bytes(), why)),
    }
}

/// What a job is called in its picture: its file's name without folder and ending.
fn title(job_name: &OsStr) -> String {
    match Path::new(job_name).file_stem() {
        Some(stem) if job_name != "-" => stem.to_string_lossy().into_owned(),
        _ => "standard input".to_owned(),
    }
}
