//! Which part of a patch is refused, and what is wrong with it, in its own words.

mod limits;

use std::error::Error;
use std::fmt;

use crate::builder::{JobBuilder, Part, RematCost};
use crate::entity::{Allocation, AllocationKind, RegUnit};
use crate::locate;
use crate::parallel_moves::ParallelMoves;
use crate::patch::{Entry, Patch};
use crate::refusal::Refusal;
use crate::writer::JobWriter;

/// A part of a patch.
#[derive(Clone, Copy, Debug, PartialEq, Eq, PartialOrd, Ord, Hash)]
#[non_exhaustive]
pub enum PatchPart {
    /// The patch as a whole.
    Patch,
    /// A unit that it calls free.
    FreeUnit(RegUnit),
    /// An entry, counted from 1.
    Entry(usize),
}

impl PatchPart {
    /// The part of the only patch of a job.
    fn of(part: Part) -> Self {
        match part {
            Part::FreeUnit(_, unit) => PatchPart::FreeUnit(unit),
            Part::Entry(_, entry) => PatchPart::Entry(entry),
            _ => PatchPart::Patch,
        }
    }
}

impl fmt::Display for PatchPart {
    fn fmt(&self, f: &mut fmt::Formatter<'_>) -> fmt::Result {
        match *self {
            PatchPart::Patch => write!(f, "the patch"),
            PatchPart::FreeUnit(unit) => write!(f, "free unit {}", unit.0),
            PatchPart::Entry(entry) => write!(f, "entry {entry}"),
        }
    }
}

/// Why a patch is refused: which part of it, by which number, and what is wrong with it.
///
/// [`ParallelMoves::explain`] makes it. The number is the library's, which is proved; the part
/// and the words are told by a second reading, which is not.
#[derive(Clone, Debug, PartialEq, Eq)]
pub struct Explanation {
    refusal: Refusal,
    part: PatchPart,
    why: Option<String>,
}

impl Explanation {
    /// The refusal.
    pub fn refusal(&self) -> Refusal {
        self.refusal
    }

    /// The part of the patch that is refused.
    #[must_use]
    pub fn part(&self) -> PatchPart {
        self.part
    }

    /// What is wrong with it, with the limit or what is missing; the words of the refusal
    /// where nothing more can be told.
    #[must_use]
    pub fn why(&self) -> &str {
        self.why.as_deref().unwrap_or(self.refusal.words())
    }
}

/// Prints the part, the number, and what is wrong.
impl fmt::Display for Explanation {
    fn fmt(&self, f: &mut fmt::Formatter<'_>) -> fmt::Result {
        let (part, number) = (self.part, self.refusal.number());
        write!(f, "{part}: refused {number}: {}", self.why())
    }
}

impl Error for Explanation {
    fn source(&self) -> Option<&(dyn Error + 'static)> {
        Some(&self.refusal)
    }
}

impl From<Explanation> for Refusal {
    fn from(explanation: Explanation) -> Self {
        explanation.refusal
    }
}

impl ParallelMoves {
    /// Why a patch is refused, which this function just refused so: which entry or free unit it
    /// is, and what is wrong with it. The function stays as it is.
    ///
    /// Of a patch that is not refused so, and of a function of nearly 65,536 bytes, it tells no
    /// more than the refusal does.
    ///
    /// ```
    /// use parallel_moves::{JobBuilder, ParallelMoves, Patch, PhysReg, RegBank, TargetBuilder};
    ///
    /// let mut job = JobBuilder::on(TargetBuilder::named("vfp").unwrap());
    /// let v0 = job.function().value(RegBank::new(0));
    /// let mut moves = ParallelMoves::open(1, &job.target_and_function().unwrap()).unwrap();
    /// // s0 to s2, and s1 to d0.
    /// let [s0, s1, s2, d0] = [0, 1, 2, 32].map(PhysReg::new);
    /// let mut patch = Patch::new();
    /// patch.move_(s0, s2, v0).move_(s1, d0, v0);
    /// let refusal = moves.resolve(&patch).unwrap_err();
    /// assert_eq!(
    ///     moves.explain(&patch, refusal).to_string(),
    ///     "entry 2: refused 9: r32 is of bank 1, and value 0 of bank 0"
    /// );
    /// ```
    pub fn explain(&self, patch: &Patch, refusal: Refusal) -> Explanation {
        let mut job = self.opening.job().clone();
        job.add_patch(patch.clone());
        let part = part_of(&job, refusal);
        let why = match refusal {
            Refusal::OutOfSlots => Some(self.out_of_slots(&job)),
            Refusal::ListTooShort => {
                let entries = patch.len();
                let enough = 8 * entries;
                Some(format!(
                    "8 words for each of its {entries} entries, {enough}, are enough"
                ))
            }
            _ => job.why(part, refusal),
        };
        Explanation {
            refusal,
            part: PatchPart::of(part),
            why,
        }
    }

    /// 17: how many there are, and may be.
    fn out_of_slots(&self, job: &JobBuilder) -> String {
        let (limit, made) = (job.function.emergency_slots, self.made());
        let kept = self.opening.kept_evictions();
        let enough = ParallelMoves::enough_slots(kept, self.opening.bytes());
        let enough = enough.map_or(String::new(), |enough| format!("; {enough} are enough"));
        format!("L is {limit}, and the function has {made} before the patch{enough}")
    }
}

/// The part at which a job of one patch is refused so; the patch, where it is not.
fn part_of(job: &JobBuilder, refusal: Refusal) -> Part {
    let mut writer = JobWriter::new();
    let numbers = job.numbers();
    // Nothing is lent: what reading takes is refused by 18.
    match writer.write_into(&numbers, &mut []) {
        Err(refused) if refused == refusal => locate::part(job, &mut writer, &numbers, refusal),
        _ => Part::Patch(1),
    }
}

impl JobBuilder {
    /// What is wrong with a part of this job that is refused so, with the limit or what is
    /// missing; none where nothing is told but the words of the refusal.
    ///
    /// [`BuildError`](crate::BuildError) and [`Location`](crate::Location) have the part.
    ///
    /// ```
    /// use parallel_moves::{JobBuilder, PhysReg, RegBank, TargetBuilder};
    ///
    /// let mut job = JobBuilder::on(TargetBuilder::named("vfp").unwrap());
    /// let v0 = job.function().value(RegBank::new(0));
    /// job.patch().move_(PhysReg::new(0), PhysReg::new(56), v0);
    /// let error = job.bytes().unwrap_err();
    /// assert_eq!(error.part().to_string(), "patch 1, entry 1");
    /// let why = job.why(error.part(), error.refusal()).unwrap();
    /// assert_eq!(why, "r56 is none of the target's 56 registers");
    /// ```
    #[must_use]
    pub fn why(&self, part: Part, refusal: Refusal) -> Option<String> {
        let patch = |number: usize| self.patches.get(number.checked_sub(1)?);
        match part {
            Part::FreeUnit(number, unit) => self.why_free_unit(patch(number)?, unit, refusal),
            Part::Entry(number, entry) => self.why_entry(patch(number)?, entry, refusal),
            _ => limits::why(self, part, refusal),
        }
    }

    fn why_free_unit(&self, patch: &Patch, unit: RegUnit, refusal: Refusal) -> Option<String> {
        let number = unit.0;
        match refusal {
            Refusal::NamesNothing => {
                let units = counted(self.target.unit_count() as usize, "unit");
                Some(format!("it is none of the target's {units}"))
            }
            Refusal::ListedTwice => {
                let twice = patch.free.iter().filter(|free| **free == unit).count() > 1;
                Some(match twice {
                    true => format!("unit {number} is listed twice"),
                    false => format!("unit {number} is listed behind a greater one"),
                })
            }
            Refusal::FreeDestination => {
                let written = |entry: &Entry| self.target.units_of(entry.dest()).contains(&unit);
                let (at, entry) = numbered(patch).find(|(_, entry)| written(entry))?;
                let dest = entry.dest();
                Some(format!("{dest}, the destination of entry {at}, has it"))
            }
            _ => None,
        }
    }

    fn why_entry(&self, patch: &Patch, at: usize, refusal: Refusal) -> Option<String> {
        if refusal == Refusal::TooManyEntries {
            let (entries, most) = (patch.len(), limits::MOST_ENTRIES);
            return Some(format!(
                "the patch has {entries} entries, and {most} are the most"
            ));
        }
        let (_, entry) = numbered(patch).nth(at.checked_sub(1)?)?;
        let value = entry.value().0;
        match refusal {
            Refusal::NamesNothing => self.names_nothing(entry),
            Refusal::ForeignBank => self.foreign_bank(entry),
            Refusal::SelfMove => Some(format!("{} is both source and destination", entry.dest())),
            Refusal::CannotRematerialize => Some(format!("value {value} cannot be rebuilt")),
            Refusal::WrittenTwice => {
                let overlaps = |other: &Entry| self.target.overlap(other.dest(), entry.dest());
                let (first, other) = numbered(patch).find(|(_, other)| overlaps(other))?;
                let what = format!("the destination of entry {first}");
                Some(self.shared(entry.dest(), other.dest(), &what))
            }
            Refusal::OverlappingSources => self.overlapping_sources(patch, at, entry),
            Refusal::EvictsDestination => self.evicts_destination(entry),
            _ => None,
        }
    }

    /// 2: the first number of an entry that names nothing.
    fn names_nothing(&self, entry: Entry) -> Option<String> {
        let places = entry.source().into_iter().chain([entry.dest()]);
        let place = places.filter_map(|place| self.no_such_place(place)).next();
        place.or_else(|| {
            let (value, values) = (entry.value().index(), self.function.values.len());
            let values_there_are = counted(values, "value");
            let none = value >= values;
            none.then(|| format!("value {value} is none of the function's {values_there_are}"))
        })
    }

    fn no_such_place(&self, place: Allocation) -> Option<String> {
        match place.kind() {
            AllocationKind::PhysReg(register) => {
                let registers = self.target.registers.len();
                let (none, there) = (
                    register.index() >= registers,
                    counted(registers, "register"),
                );
                none.then(|| format!("{place} is none of the target's {there}"))
            }
            AllocationKind::SpillSlot(slot) => {
                let slots = self.function.slots;
                let none = slot.0 >= slots;
                none.then(|| format!("{place} is no ordinary slot: N is {slots}"))
            }
        }
    }

    /// 9: the first place of an entry that is of another bank than its value.
    fn foreign_bank(&self, entry: Entry) -> Option<String> {
        let (value, of_value) = (
            entry.value().0,
            self.function.values.get(entry.value().index())?.bank,
        );
        let mut places = entry.source().into_iter().chain([entry.dest()]);
        let bank_of = |place: Allocation| match place.kind() {
            AllocationKind::PhysReg(register) => {
                Some(self.target.registers.get(register.index())?.bank)
            }
            AllocationKind::SpillSlot(_) => None,
        };
        let place = places.find(|place| bank_of(*place).is_some_and(|bank| bank != of_value))?;
        let (bank, of_value) = (bank_of(place)?.0, of_value.0);
        Some(format!(
            "{place} is of bank {bank}, and value {value} of bank {of_value}"
        ))
    }

    /// 21: the first kept move before it whose source overlaps this one's.
    fn overlapping_sources(&self, patch: &Patch, at: usize, entry: Entry) -> Option<String> {
        let source = entry.source()?;
        let mut earlier = numbered(patch).take(at - 1);
        let (first, other) = earlier.find_map(|(number, other)| {
            let place = other.source().filter(|_| !self.becomes_remat(other))?;
            let overlaps = place != source && self.target.overlap(place, source);
            overlaps.then_some((number, place))
        })?;
        let what = format!("the source of entry {first}");
        Some(self.shared(source, other, &what))
    }

    /// 14: the class, and the last of its order.
    fn evicts_destination(&self, entry: Entry) -> Option<String> {
        let value = entry.value();
        let (_, class) = self.function.values.get(value.index())?.remat?;
        let last = self.target.classes.get(class.index())?.order.last()?;
        let shared = self.shared((*last).into(), entry.dest(), "the destination");
        let (value, class) = (value.0, class.0);
        Some(format!(
            "value {value} needs a scratch of class {class}, whose order ends in {last}, and {shared}"
        ))
    }

    /// Whether a move becomes a rebuild.
    fn becomes_remat(&self, entry: Entry) -> bool {
        let info = self.function.values.get(entry.value().index());
        let Some((cost, class)) = info.and_then(|info| info.remat) else {
            return false;
        };
        let target = &self.target;
        entry.source().is_none_or(|source| target.is_memory(source))
            || cost == RematCost::CheaperThanMove && target.is_in_class(entry.dest(), class)
    }

    /// What two places that overlap have in common, where the other is such a one.
    fn shared(&self, one: Allocation, other: Allocation, what: &str) -> String {
        match self.target.common_unit(one, other) {
            Some(unit) if one != other => {
                format!("{one} shares unit {} with {other}, {what}", unit.0)
            }
            _ => format!("{one} is {what}"),
        }
    }
}

/// The entries of a patch, counted from 1.
fn numbered(patch: &Patch) -> impl Iterator<Item = (usize, Entry)> {
    (1..).zip(patch.entries())
}

/// So many of a thing.
fn counted(count: usize, thing: &str) -> String {
    match count {
        1 => format!("1 {thing}"),
        _ => format!("{count} {thing}s"),
    }
}
