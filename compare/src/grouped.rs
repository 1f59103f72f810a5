//! Holds patches, and whole jobs, that our static library resolves by groups against request
//! 02 k, as `judge::grouping` has it.

use std::error::Error;
use std::process::ExitCode;

use judge::answer::{Judge, SETTINGS};
use judge::calls::MOST_EDITS;
use judge::generate::{Generator, Mode, groups};
use judge::grouping::{self, FAULTS, Fault, Given, Grouping, Job, Joined};
use judge::random::Random;

const HELP: &str = "\
grouped SEED COUNT [FAULT]
    Makes COUNT random jobs, half of them of patches of several groups, and resolves their
    patches by groups, one by one and as a whole job, at both settings. Prints counts and `no difference`, or the first
    difference, and ends with 1. FAULT is one of the judge that must be found:
    destinations, own-sources, no-chain or last-entry.
";

#[link(name = "calls_c", kind = "static")]
#[link(name = "groups_c", kind = "static")]
#[link(name = "answer_groups_c", kind = "static")]
unsafe extern "C" {
    #[link_name = "parallel_moves_open_5"]
    fn parallel_moves_open(
        kept_evictions: u32,
        bytes: *const u8,
        bytes_len: usize,
        target: *mut u16,
        function: *mut u16,
        cache: *mut u16,
    ) -> u8;

    #[link_name = "parallel_moves_made_5"]
    fn parallel_moves_made(cache: *const u16) -> u16;

    #[link_name = "parallel_moves_resolve_groups_5"]
    fn parallel_moves_resolve_groups(
        target: *const u16,
        function: *const u16,
        free_units: *const u32,
        free_units_len: usize,
        numbers: *const u32,
        numbers_len: usize,
        cache: *mut u16,
        list: *mut u64,
        list_len: usize,
        refusal: *mut u8,
        position: *mut u16,
        units: *mut u8,
        entries: *mut u16,
        writers: *mut u16,
        available: *mut u8,
        sources: *mut u8,
        edits: *mut u64,
        slots: *mut u16,
        diverted: *mut u16,
        marks: *mut u8,
        carried: *mut u16,
        owners: *mut u8,
        labels: *mut u8,
        next: *mut u8,
        common: *mut u8,
        work: *mut u16,
        joined: *mut u64,
    ) -> usize;

    #[link_name = "parallel_moves_answer_groups_5"]
    fn parallel_moves_answer_groups(
        kept_evictions: u32,
        bytes: *const u8,
        bytes_len: usize,
        words: *mut u64,
        words_len: usize,
        refusal: *mut u8,
        target: *mut u16,
        function: *mut u16,
        cache: *mut u16,
        free: *mut u8,
        entries: *mut u16,
        writers: *mut u16,
        available: *mut u8,
        sources: *mut u8,
        edits: *mut u64,
        slots: *mut u16,
        diverted: *mut u16,
        marks: *mut u8,
        carried: *mut u16,
        owners: *mut u8,
        labels: *mut u8,
        next: *mut u8,
        common: *mut u8,
        work: *mut u16,
        joined: *mut u64,
        numbers: *mut u32,
    ) -> usize;
}

/// Ours, with memory that is used again from call to call.
struct Ours {
    target: Vec<u16>,
    function: Vec<u16>,
    cache: Vec<u16>,
    list: Vec<u64>,
    units: Vec<u8>,
    entries: Vec<u16>,
    writers: Vec<u16>,
    available: Vec<u8>,
    sources: Vec<u8>,
    edits: Vec<u64>,
    slots: Vec<u16>,
    diverted: Vec<u16>,
    marks: Vec<u8>,
    carried: Vec<u16>,
    owners: Vec<u8>,
    labels: Vec<u8>,
    next: Vec<u8>,
    common: Vec<u8>,
    work: Vec<u16>,
    joined: Vec<u64>,
    numbers: Vec<u32>,
    words: Vec<u64>,
}

fn shorts(length: usize) -> Vec<u16> {
    vec![0xa5a5; length]
}

impl Ours {
    fn new() -> Self {
        Ours {
            target: shorts(107_520),
            function: shorts(16_388),
            cache: shorts(65_600),
            list: vec![UNWRITTEN; MOST_EDITS],
            units: vec![1; 512],
            entries: shorts(1541),
            writers: shorts(6657),
            available: vec![1; 512],
            sources: vec![1; 512],
            edits: vec![u64::MAX / 3; 1025],
            slots: shorts(32_835),
            diverted: shorts(12_288),
            marks: vec![0xa5; 129],
            carried: shorts(2049),
            owners: vec![0xa5; 4608],
            labels: vec![0xa5; 128],
            next: vec![0xa5; 128],
            common: vec![1; 512],
            work: shorts(65_600),
            joined: vec![u64::MAX / 3; 1024],
            numbers: vec![u32::MAX / 3; 512],
            words: vec![UNWRITTEN; MOST_WORDS],
        }
    }

    fn open(&mut self, kept_evictions: u32, bytes: &[u8]) -> u8 {
        // SAFETY: each array is as long as the function says, and none lies on another.
        unsafe {
            parallel_moves_open(
                kept_evictions,
                bytes.as_ptr(),
                bytes.len(),
                self.target.as_mut_ptr(),
                self.function.as_mut_ptr(),
                self.cache.as_mut_ptr(),
            )
        }
    }

    fn made(&self) -> usize {
        // SAFETY: the table is as long as the function says.
        unsafe { parallel_moves_made(self.cache.as_ptr()) }.into()
    }

    fn resolve(&mut self, given: &Given, room: usize) -> Result<Joined, u8> {
        self.list.fill(UNWRITTEN);
        let (mut refusal, mut position) = (0x5a, 0x5a5a);
        // SAFETY: each array is as long as the function says, the flags are 0 or 1, and none
        // lies on another. Target, function and cache are as the last calls left them.
        let count = unsafe {
            parallel_moves_resolve_groups(
                self.target.as_ptr(),
                self.function.as_ptr(),
                given.free.as_ptr(),
                given.free.len(),
                given.numbers.as_ptr(),
                given.numbers.len(),
                self.cache.as_mut_ptr(),
                self.list.as_mut_ptr(),
                room,
                &mut refusal,
                &mut position,
                self.units.as_mut_ptr(),
                self.entries.as_mut_ptr(),
                self.writers.as_mut_ptr(),
                self.available.as_mut_ptr(),
                self.sources.as_mut_ptr(),
                self.edits.as_mut_ptr(),
                self.slots.as_mut_ptr(),
                self.diverted.as_mut_ptr(),
                self.marks.as_mut_ptr(),
                self.carried.as_mut_ptr(),
                self.owners.as_mut_ptr(),
                self.labels.as_mut_ptr(),
                self.next.as_mut_ptr(),
                self.common.as_mut_ptr(),
                self.work.as_mut_ptr(),
                self.joined.as_mut_ptr(),
            )
        };
        match refusal {
            0 => Ok(Joined {
                words: self.list[..count].to_vec(),
                position: position.into(),
                made: self.made(),
            }),
            number => Err(number),
        }
    }
}

impl Ours {
    /// A whole job with room for so many words: those of its patches, and the refusal's
    /// number or 0. The words behind them must be as they were.
    fn answer(&mut self, setting: u32, bytes: &[u8], room: usize) -> Result<Whole, String> {
        self.words[..room].fill(UNWRITTEN);
        let mut refusal = 0x5a;
        // SAFETY: each array is as long as the function says, the flags are 0 or 1, and none
        // lies on another.
        let count = unsafe {
            parallel_moves_answer_groups(
                setting,
                bytes.as_ptr(),
                bytes.len(),
                self.words.as_mut_ptr(),
                room,
                &mut refusal,
                self.target.as_mut_ptr(),
                self.function.as_mut_ptr(),
                self.cache.as_mut_ptr(),
                self.units.as_mut_ptr(),
                self.entries.as_mut_ptr(),
                self.writers.as_mut_ptr(),
                self.available.as_mut_ptr(),
                self.sources.as_mut_ptr(),
                self.edits.as_mut_ptr(),
                self.slots.as_mut_ptr(),
                self.diverted.as_mut_ptr(),
                self.marks.as_mut_ptr(),
                self.carried.as_mut_ptr(),
                self.owners.as_mut_ptr(),
                self.labels.as_mut_ptr(),
                self.next.as_mut_ptr(),
                self.common.as_mut_ptr(),
                self.work.as_mut_ptr(),
                self.joined.as_mut_ptr(),
                self.numbers.as_mut_ptr(),
            )
        };
        let (words, rest) = self.words[..room].split_at(count);
        let unwritten = rest.iter().all(|&word| word == UNWRITTEN);
        same("words behind a job's left", unwritten, true)?;
        Ok(Whole {
            words: words.to_vec(),
            refusal,
        })
    }
}

/// What a whole job is answered with.
#[derive(PartialEq, Eq, Debug, Default)]
struct Whole {
    words: Vec<u64>,
    refusal: u8,
}

impl Whole {
    fn refused(mut self, number: u8) -> Self {
        self.refusal = number;
        self
    }

    /// One more patch.
    fn with(&mut self, joined: &Joined) {
        let numbers = joined.position << 16 | joined.made;
        self.words
            .push(((numbers << 16 | joined.words.len()) * 8) as u64);
        self.words.extend(&joined.words);
    }
}

/// As many words are enough for every job, and for one of these bytes.
const MOST_WORDS: usize = 2 * 65_536 + 1024;

fn enough(bytes: &[u8]) -> usize {
    MOST_WORDS.min(2 * bytes.len() + 1024)
}

/// A word that no edit has.
const UNWRITTEN: u64 = u64::MAX / 5;

/// Jobs refused before their first patch; patches resolved, of several groups, their groups;
/// patches refused, by 17, and 16 by a list too short.
#[derive(Default)]
struct Counts {
    unopened: usize,
    resolved: usize,
    several: usize,
    groups: usize,
    refused: usize,
    out: usize,
    short: usize,
}

type Checked = Result<(), String>;

fn same<T: PartialEq + std::fmt::Debug>(what: &str, ours: T, judges: T) -> Checked {
    if ours == judges {
        Ok(())
    } else {
        Err(format!("{what}: {ours:?}\nof the judge: {judges:?}"))
    }
}

/// A call that must be refused, and leave cache and list.
fn refused(ours: &mut Ours, given: &Given, room: usize, number: u8) -> Checked {
    let before = ours.cache.clone();
    same("refused", ours.resolve(given, room), Err(number))?;
    same("a refused call's cache", ours.cache == before, true)?;
    let unwritten = ours.list.iter().all(|&word| word == UNWRITTEN);
    same("a refused call's list left", unwritten, true)
}

/// A job as a judge answers it by groups, with room for so many words.
fn judged(job: &Job, fault: Fault, room: usize) -> Whole {
    let mut judge = Grouping::new(job, fault);
    let (mut whole, mut rest) = (Whole::default(), job.behind);
    for _ in 0..job.patches {
        let (patch, length) = match judge.read(rest) {
            Ok(read) => read,
            Err(number) => return whole.refused(number.0),
        };
        rest = &rest[length..];
        if room < whole.words.len() + 1 + patch.bound {
            return whole.refused(16);
        }
        match judge.resolve(&patch) {
            Ok(joined) => whole.with(&joined),
            Err(number) => return whole.refused(number.0),
        }
    }
    match rest {
        [] => whole,
        _ => whole.refused(8),
    }
}

/// The whole job, with words enough and with too few for some.
fn answered(
    job: &Job,
    bytes: &[u8],
    setting: u32,
    fault: Fault,
    ours: &mut Ours,
    random: &mut Random,
) -> Checked {
    let whole = judged(job, fault, MOST_WORDS);
    let few = random.below(whole.words.len() + 2);
    same("a job", ours.answer(setting, bytes, enough(bytes))?, whole)?;
    same(
        "a job with few words",
        ours.answer(setting, bytes, few)?,
        judged(job, fault, few),
    )
}

/// A job's patches, one after the other, up to the first that is refused.
fn patches(
    job: &Job,
    fault: Fault,
    ours: &mut Ours,
    random: &mut Random,
    counts: &mut Counts,
) -> Checked {
    let mut judge = Grouping::new(job, fault);
    let mut rest = job.behind;
    for _ in 0..job.patches {
        let (patch, length) = match judge.read(rest) {
            Ok(read) => read,
            Err(number) => {
                counts.refused += 1;
                // One that is cut off is no call.
                return match grouping::given(rest) {
                    Some(given) => refused(ours, &given, MOST_EDITS, number.0),
                    None => Ok(()),
                };
            }
        };
        let given = grouping::given(rest).ok_or("a patch that is read has numbers")?;
        rest = &rest[length..];
        if patch.bound > 0 && random.chance(20) {
            refused(ours, &given, random.below(patch.bound), 16)?;
            counts.short += 1;
        }
        let room = *random.pick(&[patch.bound, MOST_EDITS]);
        match judge.resolve(&patch) {
            Ok(joined) => {
                same("resolved", ours.resolve(&given, room), Ok(joined))?;
                counts.resolved += 1;
                counts.several += usize::from(judge.groups > 1);
                counts.groups += judge.groups;
            }
            Err(number) => {
                counts.refused += 1;
                counts.out += usize::from(number.0 == 17);
                return refused(ours, &given, room, number.0);
            }
        }
    }
    Ok(())
}

fn check(
    bytes: &[u8],
    fault: Fault,
    ours: &mut Ours,
    random: &mut Random,
    counts: &mut Counts,
) -> Checked {
    for setting in SETTINGS {
        let judge = Judge::of(setting).map_err(|refused| format!("{refused:?}"))?;
        let job = match grouping::open(judge, bytes) {
            Ok(job) => job,
            Err(number) => {
                let refused = Whole::default().refused(number.0);
                same("unopened", ours.answer(setting, bytes, enough(bytes))?, refused)?;
                counts.unopened += 1;
                continue;
            }
        };
        answered(&job, bytes, setting, fault, ours, random)
            .map_err(|what| format!("setting {setting}: {what}"))?;
        same("opened", ours.open(setting, job.opening), 0)?;
        patches(&job, fault, ours, random, counts)
            .map_err(|what| format!("setting {setting}: {what}"))?;
    }
    Ok(())
}

fn main() -> Result<ExitCode, Box<dyn Error>> {
    let words: Vec<String> = std::env::args().skip(1).collect();
    let words: Vec<&str> = words.iter().map(String::as_str).collect();
    let (seed, count, fault) = match words[..] {
        [seed, count] => (seed, count, Some(Fault::None)),
        [seed, count, name] => {
            let fault = FAULTS.iter().find(|(its, _)| *its == name);
            (seed, count, fault.map(|&(_, fault)| fault))
        }
        _ => ("", "", None),
    };
    let Some(fault) = fault else {
        eprint!("{HELP}");
        return Ok(ExitCode::from(2));
    };
    let mut random = Random::new(seed.parse()?);
    let mut mixed = Generator::new(random.next(), Mode::Mixed);
    let count: usize = count.parse()?;
    let (mut ours, mut counts) = (Ours::new(), Counts::default());
    for done in 0..count {
        let job = match done % 2 {
            0 => groups::draft(&mut random).job(),
            _ => mixed.job(),
        };
        if let Err(what) = check(&job, fault, &mut ours, &mut random, &mut counts) {
            println!("job {job:?}\n{what}\nDIFFERENCE after {done} jobs");
            return Ok(ExitCode::FAILURE);
        }
    }
    let Counts {
        unopened,
        resolved,
        several,
        groups,
        refused,
        out,
        short,
    } = counts;
    println!(
        "jobs {count}, at both settings: patches resolved {resolved}, of several groups {several}, groups {groups}; refused {refused}, of these 17 {out}; 16 {short}; jobs refused before a patch {unopened}"
    );
    println!("no difference");
    Ok(ExitCode::SUCCESS)
}
