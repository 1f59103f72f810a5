//! Holds the module `regalloc3` of the Rust crate against the original, through the same calls:
//! one generic function makes them of either. What the original is not given, since it would
//! panic, is held against the judge's reading of the patch.

#[path = "ported/bridge.rs"]
mod bridge;
#[path = "ported/calls.rs"]
mod calls;

use std::error::Error;
use std::fmt;
use std::process::ExitCode;

use judge::answer::{Judge, silence_panics};
use judge::calls::{Call, Function, Session};
use judge::generate::calls as generate;
use judge::random::Random;

use calls::{Calls, Fault, Original, Ours, Place};

const HELP: &str = "\
ported SEED COUNT [FAULT]
    Makes COUNT random calls that prepare a function or resolve a patch of it, of the module
    regalloc3 and of the original. Prints counts and `no difference`, or the first difference,
    and ends with 1. FAULT is one that must be found: order, free, edits, kept or size.
";

/// The original keeps one eviction.
const SETTING: u32 = 1;
/// 17: no more emergency slots may be made.
const OUT_OF_SLOTS: u8 = 17;

/// A patch as a compiler has it.
struct Patch {
    free: Vec<usize>,
    entries: Vec<Entry>,
}

#[derive(Clone, Copy)]
enum Entry {
    Move(Place, Place, usize),
    Remat(Place, usize),
}

impl Patch {
    /// The patch of a call, if the methods can give it: entries of four numbers, and of the free
    /// units those of the target, each once.
    fn of(call: &Call, units: usize) -> Option<Patch> {
        let mut free: Vec<usize> = call.free.iter().map(|&unit| unit as usize).collect();
        free.retain(|&unit| unit < units);
        free.sort_unstable();
        free.dedup();
        let entry = |numbers: &[u32]| match *numbers {
            [0, source, dest, value] => {
                let (source, dest) = (Place::of(source), Place::of(dest));
                Some(Entry::Move(source, dest, index(value)?))
            }
            [1, dest, value, _] => Some(Entry::Remat(Place::of(dest), index(value)?)),
            _ => None,
        };
        let entries: Option<Vec<Entry>> = call.numbers.chunks(4).map(entry).collect();
        Some(Patch {
            free,
            entries: entries?,
        })
    }

    /// The call that gives just this patch.
    fn call(&self) -> Call {
        let mut call = Call::default();
        call.free.extend(self.free.iter().map(|&unit| unit as u32));
        for entry in &self.entries {
            call.numbers.extend(match *entry {
                Entry::Move(source, dest, value) => [0, source.code(), dest.code(), value as u32],
                Entry::Remat(dest, value) => [1, dest.code(), value as u32, 0],
            });
        }
        call
    }
}

/// An index that the crate has a type for.
fn index(number: u32) -> Option<usize> {
    (number < 1 << 31).then_some(number as usize)
}

/// What a patch comes to: its edits, and the slots that it made with their sizes; or the
/// number of its refusal.
type Outcome = Result<(Vec<String>, Vec<(usize, u32)>), u8>;

/// The calls of a compiler, the same of either.
fn resolve(moves: &mut impl Calls, patch: &Patch) -> Outcome {
    moves.new_parallel_move();
    for entry in &patch.entries {
        match *entry {
            Entry::Move(source, dest, value) => moves.add_move(source, dest, value),
            Entry::Remat(dest, value) => moves.add_remat(dest, value),
        }
    }
    moves.resolve(|unit| patch.free.binary_search(&unit).is_ok())?;
    Ok((moves.edits(), moves.new_spillslots()))
}

/// How often each came about.
#[derive(Default)]
struct Counts {
    prepared: usize,
    not_prepared: usize,
    resolved: usize,
    refused: usize,
    edits: usize,
    slots: usize,
    left_out: usize,
}

impl fmt::Display for Counts {
    fn fmt(&self, f: &mut fmt::Formatter<'_>) -> fmt::Result {
        let Counts {
            prepared,
            not_prepared,
            ..
        } = self;
        writeln!(f, "functions {prepared} refused {not_prepared}")?;
        write!(f, "patches {} refused {}", self.resolved, self.refused)?;
        writeln!(f, " not to be given {}", self.left_out)?;
        writeln!(f, "edits {} slots made {}", self.edits, self.slots)
    }
}

fn same<T: PartialEq + fmt::Debug>(what: &str, ours: &T, other: &T) -> Result<(), String> {
    if ours == other {
        return Ok(());
    }
    Err(format!("{what}:\nours     {ours:?}\noriginal {other:?}"))
}

/// Prepares a function of ours, from its bytes or from the original's traits.
fn prepare(
    ours: &mut Ours,
    opening: &generate::Opening,
    by_traits: bool,
    counts: &mut Counts,
) -> Result<Option<Function>, String> {
    let function = Function::open(Judge::of(SETTING), &opening.bytes);
    let given = match &function {
        Ok(function) if by_traits => ours.prepare(&bridge::job(function)),
        _ => ours.prepare_bytes(&opening.bytes),
    };
    let expected = function.as_ref().map(|_| ()).map_err(|refused| refused.0);
    same("a function", &given, &expected)?;
    match function {
        Ok(_) => counts.prepared += 1,
        Err(_) => counts.not_prepared += 1,
    }
    Ok(function.ok())
}

/// A function's patches, of ours and of the original, which sees accepted ones only.
fn patches(
    ours: &mut Ours,
    function: &Function,
    calls: &[Call],
    counts: &mut Counts,
) -> Result<(), String> {
    let reader = Session::new(function);
    let mut original = Original::prepared(function);
    let mut accepted: Vec<Patch> = Vec::new();
    for call in calls {
        let Some(patch) = Patch::of(call, function.target.units) else {
            counts.left_out += 1;
            continue;
        };
        let expected = match reader.read(&patch.call()) {
            Ok(_) => resolve(&mut original, &patch),
            Err(refused) => Err(refused.0),
        };
        same("a patch", &resolve(ours, &patch), &expected)?;
        match expected {
            Ok((edits, slots)) => {
                counts.resolved += 1;
                counts.edits += edits.len();
                counts.slots += slots.len();
                accepted.push(patch);
            }
            Err(number) => {
                counts.refused += 1;
                same("edits of a refused patch", &ours.edits(), &Vec::new())?;
                if number == OUT_OF_SLOTS {
                    // It ran to its end: one that did not takes its place.
                    original = Original::prepared(function);
                    for patch in &accepted {
                        resolve(&mut original, patch).map_err(|n| format!("again: {n}"))?;
                    }
                }
            }
        }
    }
    Ok(())
}

fn run(seed: u64, count: usize, fault: Fault) -> Result<Counts, String> {
    let mut random = Random::new(seed);
    let mut ours = Ours::new(fault);
    let mut counts = Counts::default();
    let mut left = count;
    while left > 0 {
        let session = generate::session(&mut random, left, &[SETTING]);
        left -= session.count();
        for opening in &session.before {
            if opening.kept_evictions == SETTING {
                prepare(&mut ours, opening, false, &mut counts)?;
            }
        }
        let by_traits = random.chance(50);
        let prepared = prepare(&mut ours, &session.opening, by_traits, &mut counts)?;
        if let Some(function) = prepared {
            patches(&mut ours, &function, &session.calls, &mut counts)?;
        }
    }
    Ok(counts)
}

fn main() -> ExitCode {
    let arguments: Vec<String> = std::env::args().skip(1).collect();
    let arguments: Vec<&str> = arguments.iter().map(String::as_str).collect();
    let (seed, count, fault) = match arguments[..] {
        [seed, count] => (seed, count, Some(Fault::None)),
        [seed, count, fault] => (seed, count, Fault::named(fault)),
        _ => ("", "", None),
    };
    let numbers =
        || -> Result<(u64, usize), Box<dyn Error>> { Ok((seed.parse()?, count.parse()?)) };
    let (Ok((seed, count)), Some(fault)) = (numbers(), fault) else {
        eprint!("{HELP}");
        return ExitCode::from(2);
    };
    silence_panics();
    match std::panic::catch_unwind(|| run(seed, count, fault)) {
        Ok(Ok(counts)) => {
            println!("{counts}no difference");
            ExitCode::SUCCESS
        }
        Ok(Err(difference)) => {
            println!("DIFFERENCE\n{difference}");
            ExitCode::from(1)
        }
        Err(_) => {
            println!("DIFFERENCE\na panic");
            ExitCode::from(1)
        }
    }
}
