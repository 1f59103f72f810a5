//! The jobs that are timed, decided by a seed: on a small target, on the
//! shipped one and on one with 512 units, with few, some or many entries.

use crate::draft::{Bank, Class, Draft, Patch, Register, Target};
use crate::generate::accepted::Flavour;
use crate::generate::patches::PatchMaker;
use crate::generate::targets;
use crate::random::Random;
use crate::theirs::{Memory, timed_original_job};

/// How many jobs a row has, and how many patches each of them.
pub const JOBS: usize = 20;
pub const PATCHES: usize = 12;

/// Of all of them the most emergency slots that a function may have.
pub const LIMIT: usize = 2048;

pub struct Row {
    pub target: &'static str,
    pub size: &'static str,
    pub jobs: Vec<Draft>,
}

impl Row {
    fn patches(&self) -> impl Iterator<Item = &Patch> {
        self.jobs.iter().flat_map(|job| &job.patches)
    }

    /// How many patches there are.
    pub fn count(&self) -> usize {
        self.patches().count()
    }

    /// How many entries a patch has, on average.
    pub fn entries(&self) -> f64 {
        let entries: usize = self.patches().map(|patch| patch.entries.len()).sum();
        entries as f64 / self.count() as f64
    }
}

/// Few registers and entries; the generator's `small`, with slots enough where
/// a patch has more entries than registers.
fn small(entries: (usize, usize)) -> Flavour {
    let many = entries.1 > 15;
    Flavour {
        banks: (1, 2),
        registers: (2, 5),
        wide: 45,
        memory: 10,
        values: if many { (20, 60) } else { (2, 8) },
        remat: 20,
        slots: if many { (160, 160) } else { (16, 16) },
        slot_places: if many { 60 } else { 15 },
        patches: (1, 1),
        entries,
        shipped: 0,
        evicting: false,
    }
}

/// The shipped target; the generator's `shared`, with slots enough.
fn shipped(entries: (usize, usize)) -> Flavour {
    let many = entries.1 > 15;
    Flavour {
        wide: 85,
        memory: 5,
        values: if many { (20, 200) } else { (2, 16) },
        remat: 10,
        slots: if many { (160, 160) } else { (16, 16) },
        slot_places: if many { 50 } else { 10 },
        ..small(entries)
    }
}

/// 512 units, 4,096 values and N = 4,096.
fn large(entries: (usize, usize)) -> Flavour {
    Flavour {
        values: (4096, 4096),
        remat: 15,
        slots: (4096, 4096),
        slot_places: 25,
        ..small(entries)
    }
}

/// Single units and pairs of them on the lower half of 512, fours and eights
/// on the upper half.
pub fn large_target() -> Target {
    let mut registers = Vec::new();
    let banks = [(256, 1, 0), (128, 2, 0), (64, 4, 256), (32, 8, 256)];
    for (bank, (count, width, first)) in banks.into_iter().enumerate() {
        for index in 0..count {
            let start = first + index * width;
            registers.push(Register {
                memory: false,
                bank,
                units: (start..start + width).collect(),
            });
        }
    }
    with_classes(512, registers, banks.len())
}

/// A target of registers: each bank has a class with slots and one without,
/// both of all its registers, rising; their orders leave out memory.
pub fn with_classes(units: usize, registers: Vec<Register>, banks: usize) -> Target {
    let mut target = Target {
        units,
        banks: Vec::new(),
        registers,
        classes: Vec::new(),
    };
    for bank in 0..banks {
        let members = target.registers_of(bank);
        let mut order = members.clone();
        order.retain(|&reg| !target.registers[reg].memory);
        for slots in [true, false] {
            target.classes.push(Class {
                bank,
                slots,
                members: members.clone(),
                order: order.clone(),
            });
        }
        target.banks.push(Bank {
            size_log2: bank + 2,
            top_level_class: 2 * bank,
            stack_class: 2 * bank + 1,
        });
    }
    target
}

const SIZES: [(&str, (usize, usize)); 3] = [
    ("1 to 4", (1, 4)),
    ("5 to 15", (5, 15)),
    ("16 to 128", (16, 128)),
];

/// All rows.
pub fn rows() -> Vec<Row> {
    let mut rows = Vec::new();
    for target in ["small", "shipped", "512 units"] {
        for (size, entries) in SIZES {
            let mut random = Random::new(0x50_1e5 + rows.len() as u64);
            let jobs = (0..JOBS)
                .map(|_| job(&mut random, target, entries))
                .collect();
            rows.push(Row { target, size, jobs });
        }
    }
    rows
}

fn job(random: &mut Random, target: &str, entries: (usize, usize)) -> Draft {
    let flavour = match target {
        "small" => small(entries),
        "shipped" => shipped(entries),
        _ => large(entries),
    };
    let target = match target {
        "small" => targets::random(random, &flavour),
        "shipped" => targets::shipped(),
        _ => large_target(),
    };
    let values = targets::values(random, &target, flavour.values, flavour.remat);
    let mut draft = Draft {
        target,
        values,
        slots: random.range(flavour.slots),
        emergency_limit: LIMIT,
        patches: Vec::new(),
    };
    let mut memory = Memory::new();
    while draft.patches.len() < PATCHES {
        let patch = PatchMaker::new(random, &draft, &flavour).make();
        if !(entries.0..=entries.1).contains(&patch.entries.len()) {
            continue;
        }
        draft.patches.push(patch);
        let bytes = draft.job();
        if timed_original_job(bytes.as_ptr(), bytes.len(), &mut memory) == 0 {
            draft.patches.pop();
        }
    }
    draft
}
