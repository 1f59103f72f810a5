//! Jobs that are mostly accepted.

use super::patches::PatchMaker;
use super::targets;
use crate::draft::Draft;
use crate::random::Random;

/// Least and most.
type Range = (usize, usize);

/// What sort of jobs to make.
pub struct Flavour {
    pub banks: Range,
    /// Registers of each bank.
    pub registers: Range,
    /// Chance that a bank's registers have several, shared units.
    pub wide: usize,
    /// Chance that a register is memory.
    pub memory: usize,
    pub values: Range,
    /// Chance that a value can be rebuilt.
    pub remat: usize,
    pub slots: Range,
    /// Chance that a place is a slot.
    pub slot_places: usize,
    pub patches: Range,
    pub entries: Range,
    /// Chance of the shipped target.
    pub shipped: usize,
    /// Whether registers are to be evicted again and again: hardly a unit is free,
    /// slots are moved between, of one bank and another in turn, many classes have
    /// no slots and share members, and few slots may be made.
    pub evicting: bool,
}

pub const SMALL: Flavour = Flavour {
    banks: (1, 2),
    registers: (2, 5),
    wide: 45,
    memory: 10,
    values: (1, 6),
    remat: 20,
    slots: (0, 4),
    slot_places: 15,
    patches: (1, 3),
    entries: (1, 7),
    shipped: 0,
    evicting: false,
};

pub const BIG: Flavour = Flavour {
    banks: (1, 4),
    registers: (20, 120),
    wide: 40,
    memory: 8,
    values: (20, 200),
    remat: 15,
    slots: (0, 200),
    slot_places: 25,
    patches: (1, 2),
    entries: (50, 128),
    shipped: 5,
    evicting: false,
};

pub const SHARED: Flavour = Flavour {
    banks: (2, 4),
    registers: (3, 9),
    wide: 85,
    memory: 5,
    values: (2, 16),
    remat: 10,
    slots: (0, 4),
    slot_places: 10,
    patches: (1, 4),
    entries: (2, 20),
    shipped: 20,
    evicting: false,
};

pub const MEMORY: Flavour = Flavour {
    banks: (1, 3),
    registers: (2, 8),
    wide: 45,
    memory: 45,
    values: (1, 10),
    remat: 20,
    slots: (2, 10),
    slot_places: 50,
    patches: (1, 4),
    entries: (1, 14),
    shipped: 0,
    evicting: false,
};

pub const REMAT: Flavour = Flavour {
    banks: (1, 3),
    registers: (2, 8),
    wide: 45,
    memory: 25,
    values: (2, 12),
    remat: 85,
    slots: (1, 8),
    slot_places: 35,
    patches: (1, 4),
    entries: (1, 14),
    shipped: 3,
    evicting: false,
};

pub const PATCHES: Flavour = Flavour {
    banks: (1, 3),
    registers: (2, 6),
    wide: 45,
    memory: 15,
    values: (2, 12),
    remat: 30,
    slots: (0, 6),
    slot_places: 25,
    patches: (8, 60),
    entries: (0, 9),
    shipped: 2,
    evicting: false,
};

pub const EVICTIONS: Flavour = Flavour {
    banks: (2, 4),
    registers: (1, 5),
    wide: 60,
    memory: 10,
    values: (3, 14),
    remat: 40,
    slots: (4, 24),
    slot_places: 75,
    patches: (1, 4),
    entries: (2, 18),
    shipped: 1,
    evicting: true,
};

/// A random draft.
pub fn draft(random: &mut Random, flavour: &Flavour) -> Draft {
    let target = if random.chance(flavour.shipped) {
        targets::shipped()
    } else {
        targets::random(random, flavour)
    };
    let remat = match flavour.evicting {
        true => *random.pick(&[5, 40, 40, 90]),
        false => flavour.remat,
    };
    let values = targets::values(random, &target, flavour.values, remat);
    let mut draft = Draft {
        target,
        values,
        slots: random.range(flavour.slots),
        emergency_limit: if random.chance(if flavour.evicting { 80 } else { 95 }) {
            random.within(100, 2048)
        } else {
            random.below(4)
        },
        patches: Vec::new(),
    };
    for _ in 0..random.range(flavour.patches) {
        let patch = PatchMaker::new(random, &draft, flavour).make();
        draft.patches.push(patch);
    }
    draft
}
