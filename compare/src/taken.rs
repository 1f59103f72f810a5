//! Holds asking and taking of our static library against request 02 g, as it is written:
//! resolving is the judge's, a patch only asked for is one that is not resolved, a take is
//! a resolving at its place, or 20 where a patch was taken or resolved since the asking.

use std::error::Error;
use std::process::ExitCode;

use judge::answer::Judge;
use judge::calls::{Call, Expected, Function, MOST_EDITS, Session};
use judge::generate::calls as generate;
use judge::random::Random;

const HELP: &str = "\
taken SEED COUNT [FAULT]
    Makes COUNT random calls of functions, resolving, asking and taking, half of these at
    each setting. Prints counts and `no difference`, or the first difference, and ends
    with 1. FAULT is one that must be found: stamp, shared or settled.
";

/// 20: taking an answer when its cache has taken one or resolved a patch since the asking.
const TAKEN_LATE: u8 = 20;
/// As many answers are kept, the last ones.
const KEPT: usize = 5;
/// What is found in a number that is not set.
const NOT_SET: u16 = 0x5a5a;

#[link(name = "calls_c", kind = "static")]
#[link(name = "asking_c", kind = "static")]
unsafe extern "C" {
    #[link_name = "parallel_moves_open_5"]
    fn parallel_moves_open(
        kept_evictions: u32,
        bytes: *const u8,
        bytes_len: usize,
        target: *mut u16,
        function: *mut u16,
        cache: *mut u16,
    ) -> u8;

    #[link_name = "parallel_moves_resolve_5"]
    fn parallel_moves_resolve(
        target: *const u16,
        function: *const u16,
        free_units: *const u32,
        free_units_len: usize,
        numbers: *const u32,
        numbers_len: usize,
        cache: *mut u16,
        list: *mut u64,
        list_len: usize,
        refusal: *mut u8,
        position: *mut u16,
        entries: *mut u16,
        writers: *mut u16,
        available: *mut u8,
        sources: *mut u8,
        edits: *mut u64,
        slots: *mut u16,
        diverted: *mut u16,
        marks: *mut u8,
        carried: *mut u16,
    ) -> usize;

    #[link_name = "parallel_moves_made_5"]
    fn parallel_moves_made(cache: *const u16) -> u16;

    #[link_name = "parallel_moves_ask_5"]
    fn parallel_moves_ask(
        target: *const u16,
        function: *const u16,
        free_units: *const u32,
        free_units_len: usize,
        numbers: *const u32,
        numbers_len: usize,
        cache: *const u16,
        list: *mut u64,
        list_len: usize,
        refusal: *mut u8,
        made: *mut u16,
        position: *mut u16,
        stamp: *mut u64,
        entries: *mut u16,
        writers: *mut u16,
        available: *mut u8,
        sources: *mut u8,
        edits: *mut u64,
        slots: *mut u16,
        diverted: *mut u16,
        marks: *mut u8,
        carried: *mut u16,
    ) -> usize;

    #[link_name = "parallel_moves_take_5"]
    fn parallel_moves_take(made: u16, stamp: u64, slots: *const u16, cache: *mut u16) -> u8;
}

/// A fault that must be found.
#[derive(Clone, Copy, PartialEq)]
enum Fault {
    None,
    /// A resolved patch does not count.
    Stamp,
    /// All answers have one table.
    Shared,
    /// An asking settles on its patch.
    Settled,
}

/// What an asking left to take.
struct Preview {
    slots: Vec<u16>,
    made: u16,
    position: u16,
    stamp: u64,
}

/// Ours, with memory that is used again from call to call.
struct Ours {
    fault: Fault,
    target: Vec<u16>,
    function: Vec<u16>,
    cache: Vec<u16>,
    list: Vec<u64>,
    entries: Vec<u16>,
    writers: Vec<u16>,
    available: Vec<u8>,
    sources: Vec<u8>,
    edits: Vec<u64>,
    slots: Vec<u16>,
    diverted: Vec<u16>,
    marks: Vec<u8>,
    carried: Vec<u16>,
}

/// A table of slots, of any content.
fn slots() -> Vec<u16> {
    vec![0xa5a5; 32_835]
}

impl Ours {
    fn new(fault: Fault) -> Self {
        let shorts = |length| vec![0xa5a5; length];
        Ours {
            fault,
            target: shorts(107_520),
            function: shorts(16_388),
            cache: shorts(65_600),
            list: vec![0; MOST_EDITS],
            entries: shorts(1541),
            writers: shorts(6657),
            available: vec![1; 512],
            sources: vec![1; 512],
            edits: vec![u64::MAX / 3; 1025],
            slots: slots(),
            diverted: shorts(12_288),
            marks: vec![0xa5; 129],
            carried: shorts(2049),
        }
    }

    fn open(&mut self, kept_evictions: u32, bytes: &[u8]) -> u8 {
        // SAFETY: each array is as long as the function says, and none lies on another.
        unsafe {
            parallel_moves_open(
                kept_evictions,
                bytes.as_ptr(),
                bytes.len(),
                self.target.as_mut_ptr(),
                self.function.as_mut_ptr(),
                self.cache.as_mut_ptr(),
            )
        }
    }

    fn made(&self) -> usize {
        // SAFETY: the cache is as long as the function says.
        unsafe { parallel_moves_made(self.cache.as_ptr()) }.into()
    }

    /// The words of the edits and the position, or the refusal.
    fn resolve(&mut self, call: &Call, room: usize) -> Result<(Vec<u64>, u16), u8> {
        let stamp = self.cache[33..37].to_vec();
        let (mut refusal, mut position) = (0x5a, NOT_SET);
        // SAFETY: each array is as long as the function says, the flags are 0 or 1, and
        // none lies on another. Target, function and cache are as `open` and the last
        // call left them, but for a fault.
        let count = unsafe {
            parallel_moves_resolve(
                self.target.as_ptr(),
                self.function.as_ptr(),
                call.free.as_ptr(),
                call.free.len(),
                call.numbers.as_ptr(),
                call.numbers.len(),
                self.cache.as_mut_ptr(),
                self.list.as_mut_ptr(),
                room.min(MOST_EDITS),
                &mut refusal,
                &mut position,
                self.entries.as_mut_ptr(),
                self.writers.as_mut_ptr(),
                self.available.as_mut_ptr(),
                self.sources.as_mut_ptr(),
                self.edits.as_mut_ptr(),
                self.slots.as_mut_ptr(),
                self.diverted.as_mut_ptr(),
                self.marks.as_mut_ptr(),
                self.carried.as_mut_ptr(),
            )
        };
        if self.fault == Fault::Stamp {
            self.cache[33..37].copy_from_slice(&stamp);
        }
        if refusal == 0 {
            Ok((self.list[..count].to_vec(), position))
        } else {
            Err(refusal)
        }
    }

    /// The words of the edits and what is to take, or the refusal.
    fn ask(&mut self, call: &Call, room: usize) -> Result<(Vec<u64>, Preview), u8> {
        let mut refusal = 0x5a;
        let mut preview = Preview {
            slots: slots(),
            made: NOT_SET,
            position: NOT_SET,
            stamp: 0,
        };
        let table = if self.fault == Fault::Shared {
            &mut self.slots
        } else {
            &mut preview.slots
        };
        // SAFETY: as in `resolve`.
        let count = unsafe {
            parallel_moves_ask(
                self.target.as_ptr(),
                self.function.as_ptr(),
                call.free.as_ptr(),
                call.free.len(),
                call.numbers.as_ptr(),
                call.numbers.len(),
                self.cache.as_ptr(),
                self.list.as_mut_ptr(),
                room.min(MOST_EDITS),
                &mut refusal,
                &mut preview.made,
                &mut preview.position,
                &mut preview.stamp,
                self.entries.as_mut_ptr(),
                self.writers.as_mut_ptr(),
                self.available.as_mut_ptr(),
                self.sources.as_mut_ptr(),
                self.edits.as_mut_ptr(),
                table.as_mut_ptr(),
                self.diverted.as_mut_ptr(),
                self.marks.as_mut_ptr(),
                self.carried.as_mut_ptr(),
            )
        };
        if refusal != 0 {
            return Err(refusal);
        }
        if self.fault == Fault::Settled {
            self.take(&preview);
        }
        Ok((self.list[..count].to_vec(), preview))
    }

    fn take(&mut self, preview: &Preview) -> u8 {
        let table = if self.fault == Fault::Shared {
            &self.slots
        } else {
            &preview.slots
        };
        // SAFETY: as in `resolve`; the preview is as `ask` left it, of this cache.
        unsafe {
            parallel_moves_take(
                preview.made,
                preview.stamp,
                table.as_ptr(),
                self.cache.as_mut_ptr(),
            )
        }
    }
}

/// An answer that can be asked to be taken.
struct Answer {
    /// How many patches were taken or resolved before it was asked for.
    when: usize,
    call: Call,
    preview: Preview,
}

/// A function on both sides.
struct Both<'a> {
    ours: &'a mut Ours,
    judge: Session<'a>,
    /// How many patches were taken or resolved.
    settled: usize,
    answers: Vec<Answer>,
}

/// Calls resolved, refused, asked for, taken, and takes refused.
#[derive(Default)]
struct Counts {
    resolved: usize,
    refused: usize,
    asked: usize,
    taken: usize,
    late: usize,
}

type Checked = Result<(), String>;

fn same<T: PartialEq + std::fmt::Debug>(what: &str, ours: T, judges: T) -> Checked {
    if ours == judges {
        Ok(())
    } else {
        Err(format!("{what}: {ours:?}, of the judge {judges:?}"))
    }
}

impl Both<'_> {
    fn resolve(&mut self, call: &Call, counts: &mut Counts) -> Checked {
        let cache = self.ours.cache.clone();
        let Expected {
            room,
            outcome,
            made,
            position,
        } = self.judge.call(call);
        let given = self.ours.resolve(call, room);
        match outcome {
            Ok(words) => {
                let expected = Ok((words, position as u16));
                same("resolved", given, expected)?;
                self.settled += 1;
                counts.resolved += 1;
            }
            Err(refused) => {
                same("resolved", given, Err(refused.0))?;
                same(
                    "the cache of a refused patch",
                    &self.ours.cache == &cache,
                    true,
                )?;
                counts.refused += 1;
            }
        }
        same("slots made", self.ours.made(), made)
    }

    fn ask(&mut self, call: &Call, counts: &mut Counts) -> Checked {
        let cache = self.ours.cache.clone();
        let before = self.ours.made();
        let Expected {
            room,
            outcome,
            made,
            position,
        } = self.judge.ask(call);
        let given = self.ours.ask(call, room);
        same("the cache of an asking", &self.ours.cache == &cache, true)?;
        same("slots made by an asking", self.ours.made(), before)?;
        match (given, outcome) {
            (Ok((words, preview)), Ok(expected)) => {
                same("asked for", words, expected)?;
                same("slots made once taken", preview.made.into(), made)?;
                same("position of an asking", preview.position.into(), position)?;
                if self.answers.len() == KEPT {
                    self.answers.remove(0);
                }
                self.answers.push(Answer {
                    when: self.settled,
                    call: call.clone(),
                    preview,
                });
                counts.asked += 1;
            }
            (Err(refusal), Err(refused)) => {
                same("asked for", refusal, refused.0)?;
                counts.refused += 1;
            }
            (Ok(_), Err(_)) => return Err("an asking: accepted by ours alone".to_owned()),
            (Err(_), Ok(_)) => return Err("an asking: accepted by the judge alone".to_owned()),
        }
        Ok(())
    }

    fn take(&mut self, at: usize, counts: &mut Counts) -> Checked {
        let cache = self.ours.cache.clone();
        let Answer {
            when,
            call,
            preview,
        } = &self.answers[at];
        let refusal = self.ours.take(preview);
        if *when != self.settled {
            same("a take that comes late", refusal, TAKEN_LATE)?;
            counts.late += 1;
            return same(
                "the cache of a refused take",
                &self.ours.cache == &cache,
                true,
            );
        }
        same("a take", refusal, 0)?;
        let expected = self.judge.call(call);
        same("a take's patch resolved", expected.outcome.is_ok(), true)?;
        self.settled += 1;
        counts.taken += 1;
        same("slots made by a take", self.ours.made(), expected.made)
    }
}

/// One function's calls, at most so many; how many were made.
fn session(
    random: &mut Random,
    ours: &mut Ours,
    most: usize,
    counts: &mut Counts,
) -> Result<usize, String> {
    let session = generate::session(random, most, &[1, 2]);
    let opening = &session.opening;
    let judge = Judge::of(opening.kept_evictions);
    let opened = Function::open(judge, &opening.bytes);
    let expected = opened.as_ref().map_or_else(|refused| refused.0, |_| 0);
    let refusal = ours.open(opening.kept_evictions, &opening.bytes);
    same("a function", refusal, expected)?;
    let Ok(function) = opened else {
        return Ok(1);
    };
    let mut both = Both {
        ours,
        judge: Session::new(&function),
        settled: 0,
        answers: Vec::new(),
    };
    let mut made = 1;
    for call in &session.calls {
        if random.chance(50) {
            both.ask(call, counts)?;
        } else {
            both.resolve(call, counts)?;
        }
        made += 1;
        while !both.answers.is_empty() && random.chance(40) {
            // The last one half the time.
            let at = both.answers.len() - 1 - random.below(2) * random.below(both.answers.len());
            both.take(at, counts)?;
            made += 1;
        }
    }
    Ok(made)
}

fn main() -> Result<ExitCode, Box<dyn Error>> {
    let words: Vec<String> = std::env::args().skip(1).collect();
    let (seed, count, fault) = match words.iter().map(String::as_str).collect::<Vec<_>>()[..] {
        [seed, count] => (seed, count, Fault::None),
        [seed, count, "stamp"] => (seed, count, Fault::Stamp),
        [seed, count, "shared"] => (seed, count, Fault::Shared),
        [seed, count, "settled"] => (seed, count, Fault::Settled),
        _ => {
            eprint!("{HELP}");
            return Ok(ExitCode::from(2));
        }
    };
    let mut random = Random::new(seed.parse()?);
    let count: usize = count.parse()?;
    let mut ours = Ours::new(fault);
    let mut counts = Counts::default();
    let mut made = 0;
    while made < count {
        match session(&mut random, &mut ours, 60, &mut counts) {
            Ok(more) => made += more,
            Err(what) => {
                println!("DIFFERENCE after {made} calls\n{what}");
                return Ok(ExitCode::FAILURE);
            }
        }
    }
    let Counts {
        resolved,
        refused,
        asked,
        taken,
        late,
    } = counts;
    println!(
        "calls {made}: resolved {resolved}, asked {asked}, taken {taken}, 20 {late}, refused {refused}"
    );
    println!("no difference");
    Ok(ExitCode::SUCCESS)
}
