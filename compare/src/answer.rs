//! What document 01 says is printed for a job. With one kept eviction the original
//! resolves, with two the rules written a second time (request 02 i).

use std::fmt::{self, Write};
use std::panic::{self, AssertUnwindSafe};

use original::internal::parallel_moves::{Edit, ParallelMoves};
use original::output::{Allocation, AllocationKind, SpillSlot};
use original::probe::{self, Search};

use crate::number::{NAMES_NOTHING, Reader, Refused};
use crate::patch::{Entry, Patch};
use crate::plain::{OUT_OF_SLOTS, Plain, Reached, Slip};
use crate::target::Target;
use crate::values::Values;

pub const MOST_BYTES: usize = 65_536;
pub const MOST_PATCHES: usize = 1024;

/// 8: bytes left over.
pub(crate) const LEFT_OVER: Refused = Refused(8);
/// The settings: how many evictions are kept.
pub const SETTINGS: [u32; 2] = [1, 2];

/// 22: a setting other than 1 or 2.
const NO_SUCH_SETTING: Refused = Refused(22);

/// Who resolves the patches.
#[derive(Clone, Copy, Debug, PartialEq, Eq)]
pub enum Judge {
    /// The original, which keeps one eviction.
    Original,
    /// The rules written a second time, at times with a slip.
    Plain { kept_evictions: usize, slip: Slip },
}

impl Judge {
    /// The judge of a setting, or 22.
    pub fn of(kept_evictions: u32) -> Result<Judge, Refused> {
        match kept_evictions {
            1 => Ok(Judge::Original),
            _ => Judge::plain(kept_evictions, Slip::None),
        }
    }

    /// The rules written a second time, at a setting, or 22.
    pub fn plain(kept_evictions: u32, slip: Slip) -> Result<Judge, Refused> {
        match kept_evictions {
            1 | 2 => Ok(Judge::Plain {
                kept_evictions: kept_evictions as usize,
                slip,
            }),
            _ => Err(NO_SUCH_SETTING),
        }
    }
}

/// What is said of a job.
#[derive(Default)]
pub struct Answer {
    /// What is printed. A panic of the original is the last line, the word `panic`
    /// and the message.
    pub text: String,
    /// The greatest position that each resolved patch met.
    pub positions: Vec<usize>,
    /// How many bytes were read.
    pub place: usize,
    /// Of the rules written a second time.
    pub reached: Reached,
}

/// The text printed for a job at a setting.
pub fn text(kept_evictions: u32, job: &[u8]) -> String {
    answer(Judge::of(kept_evictions), job).text
}

/// What is said of a job by a judge. A setting without one is refused before the
/// job is looked at.
pub fn answer(judge: Result<Judge, Refused>, job: &[u8]) -> Answer {
    let mut answer = Answer::default();
    let mut reader = Reader::new(job);
    let outcome = panic::catch_unwind(AssertUnwindSafe(|| run(judge?, &mut reader, &mut answer)));
    let text = &mut answer.text;
    match outcome {
        Ok(Ok(())) => {}
        Ok(Err(Refused(number))) => put(text, format_args!("refused {number}\n")),
        Err(payload) => {
            let message = payload
                .downcast_ref::<String>()
                .map(String::as_str)
                .or_else(|| payload.downcast_ref::<&str>().copied())
                .unwrap_or("without a message");
            let message = message.split_whitespace().collect::<Vec<_>>().join(" ");
            put(text, format_args!("panic {message}\n"));
        }
    }
    answer.place = reader.place();
    answer
}

/// Keeps panics from being reported anywhere but in the answer.
pub fn silence_panics() {
    panic::set_hook(Box::new(|_| {}));
}

fn run(judge: Judge, reader: &mut Reader, answer: &mut Answer) -> Result<(), Refused> {
    if reader.len() > MOST_BYTES {
        return Err(NAMES_NOTHING);
    }
    let target = Target::read(reader)?;
    let values = Values::read(reader, &target)?;
    let mut resolver = Resolver::new(judge, &target, &values);

    let patch_count = reader.within(1, MOST_PATCHES)?;
    for number in 1..=patch_count {
        let patch = Patch::read(reader, &target, &values)?;
        let edits = resolver.resolve(&patch)?;
        let made = resolver.made();
        answer.positions.push(resolver.position());
        answer.reached = resolver.reached();
        put(
            &mut answer.text,
            format_args!("patch {number} edits {} made {made}\n", edits.len()),
        );
        for edit in edits {
            put_edit(&mut answer.text, edit);
        }
    }
    if reader.at_end() {
        Ok(())
    } else {
        Err(LEFT_OVER)
    }
}

/// A judge over one function.
pub(crate) enum Resolver<'a> {
    Original(Original<'a>),
    Plain(Plain<'a>),
}

impl<'a> Resolver<'a> {
    pub(crate) fn new(judge: Judge, target: &'a Target, values: &'a Values) -> Self {
        match judge {
            Judge::Original => Resolver::Original(Original::new(target, values)),
            Judge::Plain {
                kept_evictions,
                slip,
            } => Resolver::Plain(Plain::new(target, values, kept_evictions, slip)),
        }
    }

    /// The edits of a patch. The list is as long as needed, so 16 never comes.
    pub(crate) fn resolve(&mut self, patch: &Patch) -> Result<Vec<Edit>, Refused> {
        match self {
            Resolver::Original(original) => original.resolve(patch),
            Resolver::Plain(plain) => plain.resolve(patch),
        }
    }

    /// How many emergency slots were made so far.
    pub(crate) fn made(&self) -> usize {
        match self {
            Resolver::Original(original) => original.made,
            Resolver::Plain(plain) => plain.made(),
        }
    }

    /// The greatest position that the searches of the last patch met.
    pub(crate) fn position(&self) -> usize {
        match self {
            Resolver::Original(original) => original.position,
            Resolver::Plain(plain) => plain.position,
        }
    }

    fn reached(&self) -> Reached {
        match self {
            Resolver::Original(_) => Reached::new(),
            Resolver::Plain(plain) => plain.reached.clone(),
        }
    }
}

/// The original, over one function.
pub(crate) struct Original<'a> {
    target: &'a Target,
    values: &'a Values,
    moves: ParallelMoves,
    made: usize,
    position: usize,
}

impl<'a> Original<'a> {
    fn new(target: &'a Target, values: &'a Values) -> Self {
        let mut moves = ParallelMoves::new();
        moves.prepare(values, values.slots + values.emergency_limit);
        Original {
            target,
            values,
            moves,
            made: 0,
            position: 0,
        }
    }

    /// The edits of a patch. Past the limit the original is still handed slots,
    /// so that it runs to its end, and the call is then refused with 17.
    fn resolve(&mut self, patch: &Patch) -> Result<Vec<Edit>, Refused> {
        self.moves.new_parallel_move();
        for &entry in &patch.entries {
            match entry {
                Entry::Move {
                    source,
                    dest,
                    value,
                } => self
                    .moves
                    .add_move(source, dest, value, self.values, self.target),
                Entry::Remat { dest, value } => {
                    self.moves.add_remat(dest, value, self.values, self.target);
                }
            }
        }
        let made = &mut self.made;
        probe::searches();
        self.moves.resolve(
            self.target,
            self.values,
            |unit| patch.free.contains(unit),
            |_size| {
                let slot = SpillSlot::new(self.values.slots + *made);
                *made += 1;
                slot
            },
        );
        let searches = probe::searches();
        let positions = searches.iter().map(|search| self.position_of(search));
        self.position = positions.max().unwrap_or(0);
        if self.made > self.values.emergency_limit {
            return Err(OUT_OF_SLOTS);
        }
        Ok(self.moves.edits().collect())
    }

    /// Where in its class's order a search found its register, counted from 0,
    /// or the order's length where none there would do.
    fn position_of(&self, search: &Search) -> usize {
        let order = &self.target.classes[search.class].order;
        match search.found {
            None => order.len(),
            Some(found) => {
                let place = order.iter().position(|reg| reg.index() == found);
                place.expect("what is found stands in the order")
            }
        }
    }
}

/// A place as it is printed.
struct Place(Allocation);

impl fmt::Display for Place {
    fn fmt(&self, f: &mut fmt::Formatter<'_>) -> fmt::Result {
        match self.0.kind() {
            AllocationKind::PhysReg(reg) => write!(f, "r{}", reg.index()),
            AllocationKind::SpillSlot(slot) => write!(f, "s{}", slot.index()),
        }
    }
}

fn put_edit(text: &mut String, edit: Edit) {
    match edit {
        Edit::Move { to, from, value } => put(
            text,
            format_args!("M {} {} {}\n", Place(to), Place(from), value.index()),
        ),
        Edit::Rematerialize { to, value } => {
            put(text, format_args!("R {} {}\n", Place(to), value.index()));
        }
        Edit::EmergencySpill { to, from } => {
            put(text, format_args!("S s{} r{}\n", to.index(), from.index()));
        }
        Edit::EmergencyReload { to, from } => {
            put(text, format_args!("L r{} s{}\n", to.index(), from.index()));
        }
        Edit::IndirectRematerialize { .. } => {
            unreachable!("left out: the module never emits it")
        }
    }
}

fn put(text: &mut String, arguments: fmt::Arguments) {
    text.write_fmt(arguments)
        .expect("writing to a string does not fail");
}
