//! Request 02 k as it is written: a judge answers a job with each patch replaced by its
//! groups, and their edits are joined.

use original::output::{Allocation, AllocationKind};
use original::reginfo::RegUnitSet;

use crate::answer::{Judge, MOST_BYTES, MOST_PATCHES, Resolver};
use crate::calls::{Function, word};
use crate::number::{NAMES_NOTHING, Reader, Refused};
use crate::patch::{Entry, MOST_ENTRIES, Patch};
use crate::target::Target;
use crate::values::Values;

/// A fault that must be found.
#[derive(Clone, Copy, PartialEq, Eq, Debug)]
pub enum Fault {
    None,
    /// Only units of destinations tie entries.
    Destinations,
    /// A group's own sources are not free for it either.
    OwnSources,
    /// What others link in a chain is not tied.
    NoChain,
    /// Groups go in the order of their last entry.
    LastEntry,
}

/// The faults by name.
pub const FAULTS: [(&str, Fault); 4] = [
    ("destinations", Fault::Destinations),
    ("own-sources", Fault::OwnSources),
    ("no-chain", Fault::NoChain),
    ("last-entry", Fault::LastEntry),
];

/// The unit of slot 0; those below are the registers'.
const FIRST_SLOT_UNIT: usize = 512;

fn units(place: Allocation, target: &Target) -> Vec<usize> {
    match place.kind() {
        AllocationKind::PhysReg(reg) => {
            let units = &target.register(reg).units;
            units.iter().map(|unit| unit.index()).collect()
        }
        AllocationKind::SpillSlot(slot) => vec![FIRST_SLOT_UNIT + slot.index()],
    }
}

/// The units of an entry's source, and of its destination.
fn units_of(entry: &Entry, target: &Target) -> (Vec<usize>, Vec<usize>) {
    match *entry {
        Entry::Move { source, dest, .. } => (units(source, target), units(dest, target)),
        Entry::Remat { dest, .. } => (Vec::new(), units(dest, target)),
    }
}

/// The groups of a patch, in the order of their first entry, each as a patch alone.
fn groups(patch: &Patch, target: &Target, fault: Fault) -> Vec<Patch> {
    let entries = &patch.entries;
    let sources_and_dests: Vec<_> = entries.iter().map(|e| units_of(e, target)).collect();
    let tied = |one: usize, other: usize| {
        let all = |index: usize| {
            let (sources, dests) = &sources_and_dests[index];
            let sources = sources.iter().filter(|_| fault != Fault::Destinations);
            sources.chain(dests)
        };
        all(one).any(|unit| all(other).any(|its| its == unit))
    };
    let mut grouped = vec![false; entries.len()];
    let mut groups = Vec::new();
    for first in 0..entries.len() {
        if grouped[first] {
            continue;
        }
        // It, and what is tied to one of the group, until no more comes.
        let (mut group, mut next) = (vec![first], 0);
        grouped[first] = true;
        while next < group.len() {
            for other in 0..entries.len() {
                if !grouped[other] && tied(group[next], other) {
                    grouped[other] = true;
                    group.push(other);
                }
            }
            next = match fault {
                Fault::NoChain => group.len(),
                _ => next + 1,
            };
        }
        group.sort_unstable();
        groups.push(group);
    }
    if fault == Fault::LastEntry {
        groups.sort_by_key(|group| group.last().copied());
    }
    let alone = |group: &Vec<usize>| {
        let held = |unit: usize| {
            (0..entries.len())
                .filter(|index| fault == Fault::OwnSources || !group.contains(index))
                .any(|index| sources_and_dests[index].0.contains(&unit))
        };
        let mut free = RegUnitSet::new();
        for unit in patch.free {
            if !held(unit.index()) {
                free.insert(unit);
            }
        }
        Patch {
            free,
            entries: group.iter().map(|&index| entries[index]).collect(),
            bound: 0,
        }
    };
    groups.iter().map(alone).collect()
}

/// A job, read up to its first patch.
pub struct Job<'a> {
    function: Function,
    /// Its bytes up to the number of its patches.
    pub opening: &'a [u8],
    pub patches: usize,
    /// The bytes behind that number.
    pub behind: &'a [u8],
}

/// Reads a job up to its first patch.
pub fn open(judge: Judge, bytes: &[u8]) -> Result<Job<'_>, Refused> {
    if bytes.len() > MOST_BYTES {
        return Err(NAMES_NOTHING);
    }
    let mut reader = Reader::new(bytes);
    let target = Target::read(&mut reader)?;
    let values = Values::read(&mut reader, &target)?;
    let opening = &bytes[..reader.place()];
    let patches = reader.within(1, MOST_PATCHES)?;
    Ok(Job {
        function: Function {
            judge,
            target,
            values,
        },
        opening,
        patches,
        behind: &bytes[reader.place()..],
    })
}

/// A patch as it is given to a call: its free units, and four numbers to an entry.
#[derive(Default)]
pub struct Given {
    pub free: Vec<u32>,
    pub numbers: Vec<u32>,
}

/// The numbers of the patch that bytes begin with, unless one of them is none. Nothing is
/// tested; of entries past the 129th nothing is read.
pub fn given(bytes: &[u8]) -> Option<Given> {
    let mut reader = Reader::new(bytes);
    let mut given = Given::default();
    for _ in 0..reader.number().ok()? {
        given.free.push(reader.number().ok()?);
    }
    for entry in 0..reader.number().ok()? as usize {
        let numbers = match entry {
            MOST_ENTRIES => [0; 4],
            _ => {
                let mut next = || reader.number().ok();
                match next()? {
                    0 => [0, next()?, next()?, next()?],
                    1 => [1, next()?, next()?, 0],
                    none => [none, 0, 0, 0],
                }
            }
        };
        given.numbers.extend(numbers);
        if entry == MOST_ENTRIES || numbers[0] > 1 {
            break;
        }
    }
    Some(given)
}

/// What a patch comes to by groups.
#[derive(PartialEq, Eq, Debug)]
pub struct Joined {
    pub words: Vec<u64>,
    pub position: usize,
    /// The slots made so far.
    pub made: usize,
}

/// A judge that resolves a job's patches by groups.
pub struct Grouping<'a> {
    function: &'a Function,
    resolver: Resolver<'a>,
    fault: Fault,
    /// The groups of the last patch.
    pub groups: usize,
}

impl<'a> Grouping<'a> {
    pub fn new(job: &'a Job, fault: Fault) -> Self {
        let function = &job.function;
        Grouping {
            function,
            resolver: Resolver::new(function.judge, &function.target, &function.values),
            fault,
            groups: 0,
        }
    }

    /// Reads the patch that bytes begin with and makes every test but 16 and 17; and how
    /// many bytes it has.
    pub fn read(&self, bytes: &[u8]) -> Result<(Patch, usize), Refused> {
        let mut reader = Reader::new(bytes);
        let Function { target, values, .. } = self.function;
        let patch = Patch::read(&mut reader, target, values)?;
        Ok((patch, reader.place()))
    }

    /// Resolves a patch by groups. After 17 there are no more calls.
    pub fn resolve(&mut self, patch: &Patch) -> Result<Joined, Refused> {
        let groups = groups(patch, &self.function.target, self.fault);
        self.groups = groups.len();
        let (mut words, mut position) = (Vec::new(), 0);
        for group in &groups {
            let edits = self.resolver.resolve(group)?;
            words.extend(edits.into_iter().map(word));
            position = position.max(self.resolver.position());
        }
        Ok(Joined {
            words,
            position,
            made: self.resolver.made(),
        })
    }
}
