//! Jobs at each limit and one past it.

mod patches;
mod targets;

pub use targets::order_entries_in_few_bytes;

use super::accepted::{self, SMALL};
use crate::answer;
use crate::draft::{Bank, COST_NONE, Class, Draft, Entry, Patch, Place, Register, Target, Value};
use crate::random::Random;
use patches::{entries, free_units, one_cycle, patches, sources};
use targets::{
    argument_words, banks, classes, order_entries, registers, size, units, units_of_register,
};

/// A number is drawn below this; some kinds of jobs have several numbers.
const DRAWN: usize = 27;

/// A number of each kind.
pub const KINDS: [usize; 22] = [
    0, 1, 2, 3, 4, 5, 6, 7, 8, 9, 10, 11, 12, 13, 14, 15, 16, 18, 19, 20, 22, 23,
];

/// A job at a limit, or one past it.
pub fn job(random: &mut Random) -> Vec<u8> {
    let past = random.below(2);
    let kind = random.below(DRAWN);
    job_of(random, kind, past)
}

/// A job of a kind, at the limit if `past` is 0 and one past it if it is 1.
pub fn job_of(random: &mut Random, kind: usize, past: usize) -> Vec<u8> {
    match kind {
        0 => units(random, past),
        1 => banks(random, past),
        2 => registers(past),
        3 => units_of_register(random, past),
        4 => classes(random, past),
        5 => order_entries(random, past),
        6 => size(random, past),
        7 => values(random, past),
        8 => slots(random, past),
        9 => emergency_limit(random, past),
        10 => patches(random, past),
        11 => entries(random, past),
        12 => bytes(random, past),
        13 => bytes_left_over(random, past),
        14 => last_of_each(random, past),
        15 => count_without_limit(random),
        16 | 17 => one_cycle(random),
        18 => free_units(random, past),
        19 => least(random),
        20 | 21 => sources(random, past),
        22 => argument_words(random, past),
        _ => just_enough_slots(random, past),
    }
}

/// One bank of single registers, a class with slots and one without, each of
/// all of them, and values that cannot be rebuilt.
fn plain(registers: usize, values: usize, slots: usize) -> Draft {
    let all: Vec<usize> = (0..registers).collect();
    let class = |slots| Class {
        bank: 0,
        slots,
        members: all.clone(),
        order: all.clone(),
    };
    Draft {
        target: Target {
            units: registers,
            banks: vec![Bank {
                size_log2: 3,
                top_level_class: 0,
                stack_class: 1,
            }],
            registers: all
                .iter()
                .map(|&unit| Register {
                    memory: false,
                    bank: 0,
                    units: vec![unit],
                })
                .collect(),
            classes: vec![class(true), class(false)],
        },
        values: vec![
            Value {
                bank: 0,
                cost: COST_NONE,
                class: 0,
            };
            values
        ],
        slots,
        emergency_limit: 200,
        patches: vec![Patch::default()],
    }
}

fn entry(source: Place, dest: Place, value: usize) -> Entry {
    Entry {
        source: Some(source),
        dest,
        value,
    }
}

fn small(random: &mut Random) -> Draft {
    accepted::draft(random, &SMALL)
}

fn values(random: &mut Random, past: usize) -> Vec<u8> {
    let mut draft = plain(3, 4096 + past, 0);
    draft.patches[0].entries = vec![
        entry(Place::Register(0), Place::Register(1), 4095),
        entry(
            Place::Register(1),
            Place::Register(0),
            4094 + 2 * random.below(2),
        ),
    ];
    draft.job()
}

fn slots(random: &mut Random, past: usize) -> Vec<u8> {
    let mut draft = plain(3, 2, 4096 + past);
    draft.patches[0].entries = vec![
        entry(Place::Slot(4095), Place::Register(1), 0),
        entry(Place::Register(1), Place::Slot(4095 + random.below(2)), 1),
    ];
    draft.job()
}

fn emergency_limit(random: &mut Random, past: usize) -> Vec<u8> {
    let mut draft = small(random);
    draft.emergency_limit = 2048 + past;
    draft.job()
}

/// A job that is accepted if it is not too long.
fn bytes(random: &mut Random, past: usize) -> Vec<u8> {
    let mut draft = plain(100, 2, 0);
    let repeated = |times| Patch {
        free: Vec::new(),
        entries: vec![entry(Place::Register(0), Place::Register(1), 0); times],
    };
    // Two bytes for the patch count and for each patch, four for an entry.
    draft.patches = vec![Patch::default(); 128];
    let mut wanted = 65_536 + past - draft.job().len();
    draft.patches.clear();
    let mut left = 128;
    while left > 0 {
        // Leave to each of the rest what it can hold.
        let most = (wanted / 4).min(127);
        let least = (wanted / 4).saturating_sub(127 * (left - 1)).min(most);
        let mut patch = repeated(random.within(least, most));
        wanted -= 4 * patch.entries.len();
        left -= 1;
        if left == 0 {
            patch.free = (2..2 + wanted).collect();
        }
        draft.patches.push(patch);
    }
    draft.job()
}

fn bytes_left_over(random: &mut Random, past: usize) -> Vec<u8> {
    let mut job = small(random).job();
    job.resize(65_536 + past, random.below(256) as u8);
    job
}

/// The last value, register, slot or unit, or the one past it.
fn last_of_each(random: &mut Random, past: usize) -> Vec<u8> {
    let mut draft = plain(
        random.within(2, 200),
        random.within(1, 200),
        random.within(1, 200),
    );
    let registers = draft.target.registers.len();
    let (mut source, mut dest, mut value) = (Place::Register(0), Place::Register(1), 0);
    match random.below(6) {
        0 => value = draft.values.len() - 1 + past,
        1 => source = Place::Register(registers - 1 + past),
        2 => dest = Place::Register(registers - 1 + past),
        3 => source = Place::Slot(draft.slots - 1 + past),
        4 => dest = Place::Slot(draft.slots - 1 + past),
        _ => draft.patches[0].free = vec![registers - 1 + past],
    }
    draft.patches[0].entries = vec![entry(source, dest, value)];
    draft.job()
}

/// A count that is not tested itself, greater than what follows.
fn count_without_limit(random: &mut Random) -> Vec<u8> {
    let draft = small(random);
    let mut fields = draft.fields();
    let counts: Vec<usize> = (0..fields.len())
        .filter(|&index| fields[index].range.is_none())
        .collect();
    let field = &mut fields[*random.pick(&counts)];
    field.number = match random.below(4) {
        0 => field.number + 1,
        1 => u32::MAX,
        2 => 1 << 31,
        _ => field.number + random.within(1, 5000) as u32,
    };
    crate::draft::write(&fields)
}

/// As little as there may be of everything.
fn least(random: &mut Random) -> Vec<u8> {
    let mut draft = plain(1, random.below(2), random.below(2));
    draft.emergency_limit = random.below(2);
    if !draft.values.is_empty() && draft.slots > 0 && random.chance(70) {
        draft.patches[0].entries = vec![entry(Place::Slot(0), Place::Register(0), 0)];
    }
    draft.job()
}

/// L is what the patches need with one kept eviction or with two, or one less.
fn just_enough_slots(random: &mut Random, past: usize) -> Vec<u8> {
    let flavours = [
        &SMALL,
        &accepted::SHARED,
        &accepted::MEMORY,
        &accepted::REMAT,
        &accepted::EVICTIONS,
    ];
    let flavour = *random.pick(&flavours);
    let mut draft = accepted::draft(random, flavour);
    draft.emergency_limit = 2048;
    let kept_evictions = *random.pick(&[1, 2]);
    let text = answer::text(kept_evictions, &draft.job());
    let made = text
        .lines()
        .filter(|line| line.starts_with("patch "))
        .filter_map(|line| line.rsplit(' ').next()?.parse().ok())
        .next_back()
        .unwrap_or(0usize);
    draft.emergency_limit = made.saturating_sub(past);
    draft.job()
}
