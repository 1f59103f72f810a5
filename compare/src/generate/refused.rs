//! Jobs that are refused: good ones, spoiled so that a wanted number of
//! document 01's table comes, at a random one of the places where it can.

mod entries;
mod sources;
mod targets;

use crate::draft::{Draft, Entry, Field, Patch};
use crate::number;
use crate::random::Random;
use entries::{
    evict_destination, foreign_bank, free_destination, remat_what_cannot_be, self_move,
    too_many_entries, write_twice,
};
use sources::{add_twin, overlap_sources};
use targets::{change_width, list_twice, mix_banks, mix_memory, unfit_class};

/// The numbers that a job can be refused by, other than 16.
const NUMBERS: [u8; 17] = [1, 2, 3, 4, 5, 6, 7, 8, 9, 10, 11, 12, 13, 14, 15, 17, 21];

/// Spoils a draft for one number, or at times for two or three, and writes it.
///
/// With several the first in document 01's order is the one to come.
pub fn spoil(random: &mut Random, mut draft: Draft) -> Vec<u8> {
    let times = *random.pick(&[1, 1, 1, 1, 2, 2, 3]);
    let mut late = Vec::new();
    for _ in 0..times {
        let number = *random.pick(&NUMBERS);
        match number {
            1 | 2 | 8 => late.push(number),
            21 => {
                if random.chance(20) || !overlap_sources(random, &mut draft) {
                    add_twin(random, &mut draft);
                    overlap_sources(random, &mut draft);
                }
            }
            _ => spoil_draft(random, &mut draft, number),
        }
    }

    let mut fields = draft.fields();
    if late.contains(&2) {
        spoil_range(random, &mut fields);
    }
    let mut job = if late.contains(&1) {
        write_with_bad_number(random, &fields)
    } else {
        crate::draft::write(&fields)
    };
    if late.contains(&8) {
        for _ in 0..random.within(1, 3) {
            job.push(random.below(256) as u8);
        }
    }
    if late.contains(&2) && random.chance(1) {
        let length = random.within(65_536, 65_540);
        job.resize(length, 0);
    }
    job
}

/// Spoils a patch for one of the numbers that an entry or the units of a
/// destination can be refused by: 9 to 13, 15 and 21.
pub fn spoil_patch(random: &mut Random, draft: &Draft, patch: Patch, number: u8) -> Patch {
    let mut draft = Draft {
        patches: vec![patch],
        ..draft.clone()
    };
    spoil_draft(random, &mut draft, number);
    draft.patches.swap_remove(0)
}

/// Changes the target and a value so that a patch is refused by 14: that patch,
/// unless there is none.
pub fn patch_that_evicts(random: &mut Random, draft: &mut Draft) -> Option<Patch> {
    let before = std::mem::take(&mut draft.patches);
    evict_destination(random, draft);
    std::mem::replace(&mut draft.patches, before).pop()
}

fn spoil_draft(random: &mut Random, draft: &mut Draft, number: u8) {
    match number {
        3 => list_twice(random, draft),
        4 => change_width(random, draft),
        5 => mix_banks(random, draft),
        6 => mix_memory(random, draft),
        7 => unfit_class(random, draft),
        9 => foreign_bank(random, draft),
        10 => self_move(random, draft),
        11 => remat_what_cannot_be(random, draft),
        12 => write_twice(random, draft),
        13 => free_destination(random, draft),
        14 => evict_destination(random, draft),
        15 => too_many_entries(random, draft),
        21 => {
            overlap_sources(random, draft);
        }
        _ => draft.emergency_limit = random.below(3),
    }
}

/// 2: a number just outside its range, or far outside.
fn spoil_range(random: &mut Random, fields: &mut [Field]) {
    let tested: Vec<usize> = (0..fields.len())
        .filter(|&index| fields[index].range.is_some())
        .collect();
    let field = &mut fields[*random.pick(&tested)];
    if let Some((least, most)) = field.range {
        field.number = match random.below(6) {
            0 | 1 if least > 0 => least as u32 - 1,
            0..=3 => most as u32 + 1,
            4 => u32::MAX,
            _ => (most + random.within(1, 1 << 20)) as u32,
        };
    }
}

/// 1: a number cut off, too long, too great, or not in its shortest form.
fn write_with_bad_number(random: &mut Random, fields: &[Field]) -> Vec<u8> {
    let at = random.below(fields.len());
    let mut job = crate::draft::write(&fields[..at]);
    let mut bad = Vec::new();
    number::put(&mut bad, fields[at].number);
    let cut = match random.below(6) {
        0 => {
            bad.clear();
            true
        }
        1 => {
            bad = vec![0x80 | bad[0]; random.within(1, 5)];
            true
        }
        2 => {
            // The same number with groups of nothing on top.
            let last = bad.len() - 1;
            bad[last] |= 0x80;
            bad.extend(vec![0x80; random.below(3)]);
            bad.push(0);
            random.chance(20)
        }
        3 => {
            bad = vec![0x80; 5];
            bad.push(1);
            random.chance(20)
        }
        4 => {
            bad = vec![0x80 | bad[0], 0x80, 0x80, 0x80];
            bad.push(random.within(0x10, 0x7f) as u8);
            random.chance(20)
        }
        _ => {
            bad = vec![0xff; random.within(5, 12)];
            random.chance(50)
        }
    };
    job.extend(bad);
    if !cut {
        job.extend(crate::draft::write(&fields[at + 1..]));
    }
    job
}

/// Puts an entry at any place.
fn insert(random: &mut Random, entries: &mut Vec<Entry>, entry: Entry) {
    let at = random.within(0, entries.len());
    entries.insert(at, entry);
}
