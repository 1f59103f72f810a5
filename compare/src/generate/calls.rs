//! Functions and calls on them, about a tenth of which are refused.

use super::accepted::{self, BIG, EVICTIONS, Flavour, MEMORY, PATCHES, REMAT, SHARED, SMALL};
use super::patches::PatchMaker;
use super::refused;
use crate::calls::{Call, Room};
use crate::draft::{Draft, Patch};
use crate::random::Random;

/// A function as it is opened.
#[derive(Clone)]
pub struct Opening {
    pub kept_evictions: u32,
    /// The target and the function.
    pub bytes: Vec<u8>,
}

/// A function and calls on it.
#[derive(Clone)]
pub struct Session {
    /// Functions that are opened before it; some are refused.
    pub before: Vec<Opening>,
    pub opening: Opening,
    pub calls: Vec<Call>,
}

/// Settings other than 1 and 2, some of them equal to these in their low bits.
pub const NO_SETTINGS: [u32; 8] = [0, 3, 4, 257, 258, 65_537, 65_538, u32::MAX];

impl Session {
    /// How many functions are opened and patches given.
    pub fn count(&self) -> usize {
        self.before.len() + 1 + self.calls.len()
    }
}

/// How often a flavour is taken, in a hundred.
const FLAVOURS: [(&Flavour, usize); 7] = [
    (&SMALL, 25),
    (&EVICTIONS, 15),
    (&SHARED, 15),
    (&MEMORY, 15),
    (&REMAT, 15),
    (&PATCHES, 13),
    (&BIG, 2),
];

/// The most calls of a function.
const MOST_CALLS: usize = 60;

/// A session of at most `most` calls, which is not 0, at one of the settings.
pub fn session(random: &mut Random, most: usize, settings: &[u32]) -> Session {
    let kept_evictions = *random.pick(settings);
    let flavour = any_flavour(random);
    let mut draft = accepted::draft(random, flavour);
    let evicting = if random.chance(25) {
        refused::patch_that_evicts(random, &mut draft)
    } else {
        None
    };
    let few_slots = random.chance(6);
    if few_slots {
        draft.emergency_limit = random.below(3);
    }

    let mut session = Session {
        before: Vec::new(),
        opening: Opening {
            kept_evictions,
            bytes: draft.opening(),
        },
        calls: Vec::new(),
    };
    if most > 2 && random.chance(40) {
        session
            .before
            .push(spoiled_opening(random, &draft, kept_evictions));
    }
    let least = if few_slots { 1 } else { 5 };
    let count = random.within(least, if few_slots { 12 } else { MOST_CALLS });
    for _ in 0..count.min(most - session.before.len() - 1) {
        session
            .calls
            .push(call(random, &draft, flavour, evicting.as_ref()));
    }
    session
}

fn any_flavour(random: &mut Random) -> &'static Flavour {
    let mut left = random.below(100);
    for (flavour, share) in FLAVOURS {
        if left < share {
            return flavour;
        }
        left -= share;
    }
    &SMALL
}

/// A target and a function that are mostly refused: cut off, changed, or with
/// something left over; at times, some of these and others, by 22.
fn spoiled_opening(random: &mut Random, draft: &Draft, kept_evictions: u32) -> Opening {
    let mut opening = Opening {
        kept_evictions,
        bytes: draft.opening(),
    };
    if random.chance(15) {
        opening.kept_evictions = *random.pick(&NO_SETTINGS);
        if random.chance(50) {
            return opening;
        }
    }
    let bytes = &mut opening.bytes;
    match random.below(4) {
        0 => bytes.truncate(random.below(bytes.len())),
        1 => bytes.extend((0..random.within(1, 4)).map(|_| 1)),
        2 => {
            let at = random.below(bytes.len());
            bytes[at] = random.below(256) as u8;
        }
        _ => {
            let job = refused::spoil(random, draft.clone());
            *bytes = job[..job.len().min(bytes.len())].to_vec();
        }
    }
    opening
}

/// A call, mostly one to be accepted.
fn call(random: &mut Random, draft: &Draft, flavour: &Flavour, evicting: Option<&Patch>) -> Call {
    let patch = PatchMaker::new(random, draft, flavour).make();
    // Not all that are spoiled are refused in the end, and 17 comes besides.
    if random.below(1000) >= 90 {
        let mut call = given(&patch);
        if random.chance(25) {
            call.room = Room::Bound;
        }
        return call;
    }
    match random.below(13) {
        0 => free_unit_of_nothing(random, draft, &patch),
        1 | 2 => free_units_not_rising(random, draft, &patch),
        3 => number_of_nothing(random, draft, &patch),
        4 => numbers_left_over(random, &patch),
        5 | 6 => {
            let mut call = given(&patch);
            call.room = Room::Short(random.below(1 << 16));
            call
        }
        7 if evicting.is_some() => evicting.map_or_else(Call::default, |patch| given(patch)),
        kind => {
            let number = match kind {
                8 => *random.pick(&[9, 10]),
                9 => *random.pick(&[11, 15]),
                10 => 12,
                11 => 21,
                _ => 13,
            };
            given(&refused::spoil_patch(random, draft, patch, number))
        }
    }
}

/// A patch as numbers.
fn given(patch: &Patch) -> Call {
    let mut call = Call::default();
    call.free.extend(patch.free.iter().map(|&unit| unit as u32));
    for entry in &patch.entries {
        let (dest, value) = (entry.dest.code() as u32, entry.value as u32);
        call.numbers.extend(match entry.source {
            Some(source) => [0, source.code() as u32, dest, value],
            None => [1, dest, value, 0],
        });
    }
    call
}

/// 2.
fn free_unit_of_nothing(random: &mut Random, draft: &Draft, patch: &Patch) -> Call {
    let mut call = given(patch);
    let units = draft.target.units as u32;
    let unit = *random.pick(&[units, units + 1, 512, 513, u32::MAX]);
    let at = random.within(0, call.free.len());
    call.free.insert(at, unit);
    call
}

/// 3: a unit twice, or one before a lower one.
fn free_units_not_rising(random: &mut Random, draft: &Draft, patch: &Patch) -> Call {
    let mut call = given(patch);
    if call.free.is_empty() {
        call.free.push(random.below(draft.target.units) as u32);
    }
    let from = random.below(call.free.len());
    let unit = call.free[from];
    let lower = random.below(unit as usize + 1) as u32;
    call.free.insert(from + 1, *random.pick(&[unit, lower]));
    call
}

/// 2: another first number, or a place or value that names nothing.
fn number_of_nothing(random: &mut Random, draft: &Draft, patch: &Patch) -> Call {
    let mut call = given(patch);
    if call.numbers.is_empty() {
        call.numbers.extend([random.within(2, 5) as u32, 0, 0, 0]);
        return call;
    }
    let at = random.below(call.numbers.len());
    let slot = 2 * draft.slots;
    let register = 2 * draft.target.registers.len() + 1;
    let past = match at % 4 {
        0 => random.within(2, 4),
        _ => *random.pick(&[slot, register, draft.values.len(), 1 << 20]),
    };
    call.numbers[at] = if random.chance(10) {
        u32::MAX
    } else {
        past as u32
    };
    call
}

/// 2: one to three numbers too many.
fn numbers_left_over(random: &mut Random, patch: &Patch) -> Call {
    let mut call = given(patch);
    let more = random.within(1, 3);
    call.numbers
        .extend((0..more).map(|_| random.below(4) as u32));
    call
}
