//! Pictures of resolved patches.

pub(crate) mod machine;
mod page;
mod plain;

use std::cmp::Reverse;
use std::collections::{BTreeMap, BTreeSet};
use std::fmt;

use crate::builder::JobBuilder;
use crate::edit::{Edit, Edits};
use crate::entity::{Allocation, AllocationKind, PhysReg, RegUnit, SpillSlot, Value};
use crate::text::printing::entry_text;
use machine::{Machine, Sense, Word};

/// As many places that nothing happens to have rows of their own; more share one.
const MOST_QUIET_ROWS: usize = 8;

/// A resolved patch as a picture: what stands in which place at every stop of its edits.
///
/// It is printed as text for a terminal, and [`Picture::page`] makes a page of it.
///
/// ```
/// use parallel_moves::{JobBuilder, Picture, Resolver};
///
/// let bytes = std::fs::read("../examples/swap-full.job").unwrap();
/// let job = JobBuilder::from_bytes(&bytes).unwrap();
/// let answer = Resolver::new().answer(1, &bytes).unwrap();
/// let edits = answer.patches().next().unwrap().edits();
/// let picture = Picture::of("swap-full", &job, 1, edits).unwrap();
/// assert!(picture.to_string().contains("r0 | v0     | v0        | v0        | v1 +*     | v1"));
/// ```
#[derive(Clone, Debug, PartialEq, Eq)]
pub struct Picture {
    name: String,
    patch: usize,
    /// The entries, as the text of a job says them.
    entries: Vec<String>,
    edits: Vec<Edit>,
    rows: Vec<Row>,
    /// The places without a row, to which nothing happens.
    quiet: Vec<String>,
}

/// A place of a picture.
#[derive(Clone, Debug, PartialEq, Eq)]
struct Row {
    place: Place,
    /// What is to be known of the place.
    about: String,
    /// What it holds before the first edit and after each.
    cells: Vec<Cell>,
    /// What it is to hold in the end.
    wanted: String,
    /// What became of it.
    fate: String,
}

/// What a place holds at a stop.
#[derive(Clone, Debug, PartialEq, Eq)]
struct Cell {
    holds: String,
    mark: Mark,
    /// Whether the last edit wrote it.
    written: bool,
    /// Whether it is a register that is saved.
    waiting: bool,
}

/// What that is to the patch.
#[derive(Clone, Copy, Debug, PartialEq, Eq)]
enum Mark {
    /// Nothing that is needed.
    Nothing,
    /// What it held when the patch began, which it has to hold in the end.
    Live,
    /// A value that is still to be moved.
    Source,
    /// A value in its destination.
    Arrived,
    /// A value on its way.
    Scratch,
    /// What a register held that is saved.
    Saved,
}

/// What has a row.
#[derive(Clone, Copy, Debug, PartialEq, Eq, PartialOrd, Ord)]
pub(crate) enum Place {
    Register(PhysReg),
    /// One that no register of the picture has whole.
    Unit(RegUnit),
    Slot(SpillSlot),
}

impl fmt::Display for Place {
    fn fmt(&self, f: &mut fmt::Formatter<'_>) -> fmt::Result {
        match self {
            Place::Register(register) => write!(f, "{register}"),
            Place::Unit(unit) => write!(f, "u{}", unit.0),
            Place::Slot(slot) => write!(f, "{slot}"),
        }
    }
}

impl From<Allocation> for Place {
    fn from(place: Allocation) -> Self {
        match place.kind() {
            AllocationKind::PhysReg(register) => Place::Register(register),
            AllocationKind::SpillSlot(slot) => Place::Slot(slot),
        }
    }
}

/// The place that an edit writes, and the one that it reads.
fn ends(edit: Edit) -> (Place, Option<Place>) {
    match edit {
        Edit::Move { to, from, .. } => (to.into(), Some(from.into())),
        Edit::Rematerialize { to, .. } => (to.into(), None),
        Edit::EmergencySpill { to, from } => (Place::Slot(to), Some(Place::Register(from))),
        Edit::EmergencyReload { to, from } => (Place::Register(to), Some(Place::Slot(from))),
    }
}

impl Picture {
    /// The picture of a patch of a job, counted from 1, with the edits that carry it out.
    /// None if the job has no such patch, or is refused for its number of units, slots or
    /// entries: there may be too many to be drawn.
    #[must_use]
    pub fn of(name: &str, job: &JobBuilder, patch: usize, edits: Edits<'_>) -> Option<Picture> {
        let given = job.patches.get(patch.checked_sub(1)?)?;
        if !job.can_be_shown(given) {
            return None;
        }
        let sense = Sense::of(job, given);
        let edits: Vec<Edit> = edits.iter().collect();
        let (places, quiet) = places(&sense, &edits);
        let mut stops = vec![Machine::new(&sense)];
        for &edit in &edits {
            let mut next = stops[stops.len() - 1].clone();
            next.step(&sense, edit);
            stops.push(next);
        }
        let rows = places
            .into_iter()
            .map(|place| row(&sense, &stops, &edits, place))
            .collect();
        Some(Picture {
            name: name.to_owned(),
            patch,
            entries: given.entries.iter().copied().map(entry_text).collect(),
            edits,
            rows,
            quiet,
        })
    }
}

/// The places that have rows, and the names of those that share one: nothing happens to
/// these. Registers with a unit in common stand together.
fn places(sense: &Sense<'_>, edits: &[Edit]) -> (Vec<Place>, Vec<String>) {
    let ends = edits.iter().flat_map(|&edit| {
        let (to, from) = ends(edit);
        [Some(to), from]
    });
    let sources = sense.sources.keys().chain(&sense.not_read);
    let entries = sources.chain(sense.dests.keys()).copied();
    let busy: BTreeSet<Place> = ends.flatten().chain(entries).collect();
    let units = busy.iter().flat_map(|place| sense.units(place));
    let mut covered: BTreeSet<RegUnit> = units.copied().collect();
    let mut quiet = Vec::new();
    let registers = (0..sense.job.target.registers.len()).map(|r| Place::Register(PhysReg::new(r)));
    let single = (0..sense.job.target.unit_count()).map(|unit| Place::Unit(RegUnit(unit)));
    for place in registers.chain(single) {
        let units = sense.units(&place);
        if !units.is_empty() && units.iter().all(|unit| !covered.contains(unit)) {
            covered.extend(units);
            quiet.push(place);
        }
    }
    let slots = (0..sense.job.function.slots).map(|slot| Place::Slot(SpillSlot(slot)));
    quiet.extend(slots.filter(|slot| !busy.contains(slot)));
    let mut places: Vec<Place> = busy.into_iter().collect();
    let mut names = Vec::new();
    if quiet.len() <= MOST_QUIET_ROWS {
        places.extend(quiet);
    } else {
        names = quiet.iter().map(ToString::to_string).collect();
    }
    places.sort_by_key(|place| {
        let units = sense.units(place);
        let first = units.iter().min().copied();
        let is_slot = matches!(place, Place::Slot(_));
        (is_slot, first, Reverse(units.len()), *place)
    });
    (places, names)
}

/// What happens in a place.
fn row(sense: &Sense<'_>, stops: &[Machine], edits: &[Edit], place: Place) -> Row {
    let is_end = |end: Option<Place>| end.is_some_and(|end| sense.overlap(end, place));
    let writes: Vec<bool> = edits
        .iter()
        .map(|&edit| is_end(Some(ends(edit).0)))
        .collect();
    // Whether an edit after a stop reads it before one writes it.
    let mut is_read = vec![false; stops.len()];
    for (index, &edit) in edits.iter().enumerate().rev() {
        is_read[index] = is_end(ends(edit).1) || !writes[index] && is_read[index + 1];
    }
    let first = stops[0].read(sense, place);
    let mut touched = false;
    let mut cells = Vec::with_capacity(stops.len());
    for (stop, machine) in stops.iter().enumerate() {
        let written = stop > 0 && writes[stop - 1];
        touched |= written;
        let words = machine.read(sense, place);
        let mark = mark(
            sense,
            machine,
            place,
            &words,
            &first,
            touched,
            is_read[stop],
        );
        let mut saved = machine.saved.keys().copied().map(Place::Register);
        cells.push(Cell {
            holds: sense.name(&words, place),
            mark,
            written,
            waiting: saved.any(|register| sense.overlap(register, place)),
        });
    }
    Row {
        place,
        about: about(sense, place),
        cells,
        wanted: wanted(sense, first, place),
        fate: fate(sense, edits, place, touched).to_owned(),
    }
}

/// What the words that a place holds are to the patch, with those that it held first:
/// whether it was written, and will be read.
fn mark(
    sense: &Sense<'_>,
    machine: &Machine,
    place: Place,
    words: &[Word],
    first: &[Word],
    touched: bool,
    is_read: bool,
) -> Mark {
    let is_saved = |slot: &SpillSlot| Place::Slot(*slot) == place;
    let is_of_value = |word: &Word| matches!(word, Word::Of(..));
    let is_live = |word: &Word| matches!(word, Word::OfUnit(_) | Word::OfSlot(_));
    let stays = |(word, first): (&Word, &Word)| is_live(word) && word == first;
    let arrives = |value: &Value| touched && words == sense.content(*value);
    if machine.saved.values().any(is_saved) {
        Mark::Saved
    } else if sense.dests.get(&place).is_some_and(arrives) {
        Mark::Arrived
    } else if words.iter().any(is_of_value) && words == first {
        Mark::Source
    } else if is_read && sense.is_value(words) {
        Mark::Scratch
    } else if words.iter().zip(first).any(stays) {
        Mark::Live
    } else {
        Mark::Nothing
    }
}

/// What is to be known of a place.
fn about(sense: &Sense<'_>, place: Place) -> String {
    match place {
        Place::Slot(slot) if slot.0 >= sense.job.function.slots => "emergency".to_owned(),
        Place::Slot(_) => "slot".to_owned(),
        Place::Unit(_) => "unit".to_owned(),
        Place::Register(register) => {
            let units = sense.units(&place);
            let memory = match sense.is_memory(place) {
                true => "memory, ",
                false => "",
            };
            match units {
                [unit] if unit.0 == register.0 => memory.trim_end_matches(", ").to_owned(),
                [unit] => format!("{memory}unit {}", unit.0),
                units => {
                    let numbers: Vec<String> =
                        units.iter().map(|unit| unit.0.to_string()).collect();
                    format!("{memory}units {}", numbers.join(" "))
                }
            }
        }
    }
}

/// What a place has to hold in the end, which held these words first.
fn wanted(sense: &Sense<'_>, mut words: Vec<Word>, place: Place) -> String {
    if let Some(&value) = sense.dests.get(&place) {
        return sense.name(&sense.content(value), place);
    }
    // A unit that is free, or a destination's, may hold anything.
    let is_any = |unit: &RegUnit| {
        let mut dests = sense.dests.keys();
        sense.free.contains(unit) || dests.any(|dest| sense.units(dest).contains(unit))
    };
    let is_memory = sense.is_memory(place);
    let units = sense.units(&place);
    for (index, word) in words.iter_mut().enumerate() {
        let unit = units.get(if is_memory { 0 } else { index });
        if unit.is_some_and(is_any) {
            *word = Word::Nothing;
        }
    }
    match sense.is_needed(&words) {
        true => sense.name(&words, place),
        false => "any".to_owned(),
    }
}

/// What became of a place.
fn fate(sense: &Sense<'_>, edits: &[Edit], place: Place, touched: bool) -> &'static str {
    let saved = edits.iter().any(|edit| match *edit {
        Edit::EmergencySpill { from, .. } => Place::Register(from) == place,
        _ => false,
    });
    let is_emergency = matches!(place, Place::Slot(slot) if slot.0 >= sense.job.function.slots);
    let is_source = sense.sources.contains_key(&place);
    let mut units = sense.units(&place).iter();
    let is_free = units.any(|unit| sense.free.contains(unit));
    if sense.dests.contains_key(&place) {
        "destination"
    } else if saved {
        "saved and loaded back"
    } else if is_emergency {
        "emergency slot"
    } else {
        match (is_source, is_free, touched) {
            (true, _, true) => "source, written over",
            (true, _, false) => "source, untouched",
            (false, true, true) => "free, written over",
            (false, true, false) => "free, untouched",
            (false, false, true) => "written over",
            (false, false, false) => "live, untouched",
        }
    }
}

/// Something of places.
type Places<T> = BTreeMap<Place, T>;
