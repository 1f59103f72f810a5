//! Random jobs, decided by a seed.

mod accepted;
pub mod calls;
mod damaged;
mod fans;
pub mod groups;
pub mod limits;
mod patches;
mod refused;
mod targets;

use accepted::{BIG, EVICTIONS, Flavour, MEMORY, PATCHES, REMAT, SHARED, SMALL};

use crate::random::Random;

/// What sort of jobs to make.
#[derive(Clone, Copy, PartialEq, Eq, Debug)]
pub enum Mode {
    Mixed,
    Small,
    Big,
    Shared,
    Memory,
    Remat,
    Patches,
    Evictions,
    Fans,
    Refused,
    Limits,
    Damaged,
}

/// The modes by name, with what they are.
pub const MODES: [(&str, Mode, &str); 12] = [
    ("mixed", Mode::Mixed, "all of the others"),
    (
        "small",
        Mode::Small,
        "few registers and entries, dense cycles",
    ),
    ("big", Mode::Big, "many registers, up to 128 entries"),
    (
        "shared",
        Mode::Shared,
        "registers that share units, the shipped target among them",
    ),
    ("memory", Mode::Memory, "memory registers and many slots"),
    (
        "remat",
        Mode::Remat,
        "values that can be rebuilt, often with scratch",
    ),
    ("patches", Mode::Patches, "many patches in a function"),
    (
        "evictions",
        Mode::Evictions,
        "slots moved between, of one bank and another in turn, hardly a unit free",
    ),
    (
        "fans",
        Mode::Fans,
        "many values diverted at once, each to an emergency slot",
    ),
    (
        "refused",
        Mode::Refused,
        "each number of the table at each place, at times several at once",
    ),
    ("limits", Mode::Limits, "at each limit and one past it"),
    (
        "damaged",
        Mode::Damaged,
        "good jobs with bytes changed, cut or moved, and noise",
    ),
];

/// How often `mixed` takes each mode, in so many as these come to.
const MIX: [(Mode, usize); 11] = [
    (Mode::Small, 22),
    (Mode::Big, 3),
    (Mode::Shared, 16),
    (Mode::Memory, 10),
    (Mode::Remat, 12),
    (Mode::Patches, 4),
    (Mode::Evictions, 8),
    (Mode::Fans, 1),
    (Mode::Refused, 20),
    (Mode::Limits, 3),
    (Mode::Damaged, 10),
];

/// The jobs that a seed decides, one after the other.
pub struct Generator {
    random: Random,
    mode: Mode,
}

impl Generator {
    pub fn new(seed: u64, mode: Mode) -> Self {
        Generator {
            random: Random::new(seed),
            mode,
        }
    }

    /// The next job.
    pub fn job(&mut self) -> Vec<u8> {
        let random = &mut self.random;
        let mode = match self.mode {
            Mode::Mixed => mixed(random),
            mode => mode,
        };
        match mode {
            Mode::Refused => {
                let flavour = any_flavour(random);
                let draft = accepted::draft(random, flavour);
                refused::spoil(random, draft)
            }
            Mode::Fans => fans::draft(random).job(),
            Mode::Limits => limits::job(random),
            Mode::Damaged if random.chance(3) => damaged::noise(random),
            Mode::Damaged => {
                let flavour = any_flavour(random);
                let job = accepted::draft(random, flavour).job();
                let other = accepted::draft(random, &SMALL).job();
                damaged::damage(random, job, &other)
            }
            _ => accepted::draft(random, flavour(mode)).job(),
        }
    }
}

fn mixed(random: &mut Random) -> Mode {
    let mut left = random.below(MIX.iter().map(|(_, share)| share).sum());
    for (mode, share) in MIX {
        if left < share {
            return mode;
        }
        left -= share;
    }
    Mode::Small
}

fn flavour(mode: Mode) -> &'static Flavour {
    match mode {
        Mode::Big => &BIG,
        Mode::Shared => &SHARED,
        Mode::Memory => &MEMORY,
        Mode::Remat => &REMAT,
        Mode::Patches => &PATCHES,
        Mode::Evictions => &EVICTIONS,
        _ => &SMALL,
    }
}

fn any_flavour(random: &mut Random) -> &'static Flavour {
    let flavours = [&SMALL, &SMALL, &SHARED, &MEMORY, &REMAT, &EVICTIONS];
    random.pick::<&Flavour>(&flavours)
}
