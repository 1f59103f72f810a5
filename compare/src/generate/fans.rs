//! Jobs that need many emergency slots at once: fans of diversions. A wide register is
//! moved, and others to a unit of the one before and units of their own, a chain; every
//! other unit of these sources is written by a move from a unit of the first
//! destination, a leaf. In depth all leaves close while the first move is open, so that
//! their values are diverted, and no register is to be had for them.

use std::collections::VecDeque;

use super::targets;
use crate::draft::{
    Bank, COST_BELOW_LOAD, COST_NONE, Class, Draft, Entry, Patch, Place, Register, Target, Value,
};
use crate::patch::MOST_ENTRIES;
use crate::random::Random;

const MOST_UNITS: usize = 512;
const MOST_REGISTERS: usize = 512;

/// A move of a chain: registers of bank 0.
struct Link {
    source: usize,
    dest: usize,
    /// Those units of the source that no other link writes.
    leaves: Vec<usize>,
}

/// Registers of one unit each, of a bank: of each unit at most one.
struct Leaves {
    bank: usize,
    /// On units of the first destination.
    sources: Vec<usize>,
    /// On units of the links' sources, with the link.
    dests: Vec<(usize, usize)>,
}

struct Maker<'a> {
    random: &'a mut Random,
    target: Target,
    links: Vec<Link>,
    leaves: Vec<Leaves>,
}

/// A random draft.
pub fn draft(random: &mut Random) -> Draft {
    let mut maker = Maker {
        random,
        target: Target {
            units: 0,
            banks: Vec::new(),
            registers: Vec::new(),
            classes: Vec::new(),
        },
        links: Vec::new(),
        leaves: Vec::new(),
    };
    let units = maker.add_chain();
    maker.add_leaves(&units);
    maker.add_classes();
    maker.finish()
}

impl Maker<'_> {
    fn register(&mut self, bank: usize, units: Vec<usize>) -> usize {
        self.target.registers.push(Register {
            memory: false,
            bank,
            units,
        });
        self.target.registers.len() - 1
    }

    /// Some units that nothing has yet.
    fn new_units(&mut self, count: usize) -> Vec<usize> {
        let first = self.target.units;
        self.target.units += count;
        (first..first + count).collect()
    }

    /// Adds the links: the units of the first destination that no link reads.
    fn add_chain(&mut self) -> Vec<usize> {
        let width = *self.random.pick(&[2, 3, 4, 6, 8, 8, 8]);
        let wanted = match width {
            8 => self.random.within(4, 18),
            _ => self.random.within(2, 20),
        };
        // Chance that a link's source has a unit of an earlier destination, so that
        // its own value is diverted too.
        let diverted = *self.random.pick(&[0, 0, 40, 100]);
        let first_dest = self.new_units(width);
        let first_source = self.new_units(width);
        let dest = self.register(0, first_dest.clone());
        let source = self.register(0, first_source.clone());
        self.links.push(Link {
            source,
            dest,
            leaves: first_source,
        });
        // Units of the destinations so far that no source has: those of the first
        // one, and those of the others, the earliest first.
        let mut spare = first_dest;
        let mut more_spare = VecDeque::new();
        while self.links.len() < wanted && self.target.units + 2 * width <= MOST_UNITS {
            let mut units = Vec::new();
            if self.random.chance(diverted) {
                // One unit of the first destination stays for leaves.
                if spare.len() > 1 {
                    units.extend(spare.pop());
                } else {
                    units.extend(more_spare.pop_front());
                }
            }
            let own = self.new_units(width - units.len());
            units.extend(&own);
            if self.random.chance(30) {
                self.random.shuffle(&mut units);
            }
            let before = self.links.last_mut().expect("the first is there");
            let mut written = vec![before.leaves.remove(0)];
            let new = self.new_units(width - 1);
            written.extend(&new);
            more_spare.extend(new);
            let source = self.register(0, units);
            let dest = self.register(0, written);
            self.links.push(Link {
                source,
                dest,
                leaves: own,
            });
        }
        spare
    }

    /// Adds up to three banks of leaves.
    fn add_leaves(&mut self, sources: &[usize]) {
        let under: Vec<(usize, usize)> = (0..self.links.len())
            .flat_map(|link| {
                self.links[link]
                    .leaves
                    .iter()
                    .map(move |&unit| (link, unit))
            })
            .collect();
        for bank in 1..=self.random.within(1, 3) {
            let room = MOST_REGISTERS - self.target.registers.len() - 8;
            if room < under.len() + sources.len() {
                return;
            }
            let sources = sources
                .iter()
                .map(|&unit| self.register(bank, vec![unit]))
                .collect();
            let dests = under
                .iter()
                .map(|&(link, unit)| (link, self.register(bank, vec![unit])))
                .collect();
            self.leaves.push(Leaves {
                bank,
                sources,
                dests,
            });
        }
    }

    /// Adds banks and classes, one bank more at times: hardly one has a register to be
    /// had for a diversion.
    fn add_classes(&mut self) {
        let banks = 1 + self.leaves.len();
        let more = self.random.below(3);
        for bank in banks..banks + more {
            let unit = self.random.below(self.target.units);
            self.register(bank, vec![unit]);
        }
        let sizes = [3, 3, 4, 5].map(|size| (size + self.random.below(2)) % 32);
        let usable = *self.random.pick(&[0, 0, 0, 20]);
        for bank in 0..banks + more {
            let all = self.target.registers_of(bank);
            let order = match self.random.chance(usable) {
                true => vec![*self.random.pick(&all)],
                false => Vec::new(),
            };
            let last = match self.leaves.iter().find(|leaves| leaves.bank == bank) {
                Some(leaves) if self.random.chance(50) => leaves.sources[0],
                _ => *self.random.pick(&all),
            };
            self.target.banks.push(Bank {
                size_log2: *self.random.pick(&sizes),
                top_level_class: 2 * bank,
                stack_class: 2 * bank + 1,
            });
            for (slots, members) in [(true, order), (false, vec![last])] {
                self.target.classes.push(Class {
                    bank,
                    slots,
                    order: members.clone(),
                    members,
                });
            }
        }
    }

    /// Adds values, slots and patches.
    fn finish(self) -> Draft {
        let Maker {
            random,
            target,
            links,
            leaves,
        } = self;
        let mut draft = Draft {
            values: Vec::new(),
            slots: random.below(6),
            emergency_limit: *random.pick(&[0, 60, 100, 112, 129, 130, 260, 390, 2048]),
            patches: Vec::new(),
            target,
        };
        if random.chance(20) {
            draft.values = targets::values(random, &draft.target, (1, 4), 30);
        }
        let mut values = Vec::new();
        for bank in 0..=leaves.len() {
            values.push(draft.values.len());
            let count = if bank == 0 { links.len() } else { MOST_ENTRIES };
            draft.values.extend((0..count).map(|_| Value {
                bank,
                cost: COST_NONE,
                class: 0,
            }));
        }
        // One of each bank that is rebuilt by the class without slots.
        let first_remat = draft.values.len();
        for bank in 0..=leaves.len() {
            draft.values.push(Value {
                bank,
                cost: COST_BELOW_LOAD,
                class: 2 * bank + 1,
            });
        }
        for _ in 0..random.within(1, 4) {
            let patch = patch(random, &draft, &links, &leaves, &values, first_remat);
            draft.patches.push(patch);
        }
        draft
    }
}

/// A patch: the chain or a part of it, leaves of one bank or more, and at times what
/// evicts registers besides.
fn patch(
    random: &mut Random,
    draft: &Draft,
    links: &[Link],
    leaves: &[Leaves],
    values: &[usize],
    first_remat: usize,
) -> Patch {
    let mut patch = Patch::default();
    let length = match random.chance(60) {
        true => links.len(),
        false => random.within(1, links.len()),
    };
    // Into ordinary slots: they are written once.
    let mut slots: Vec<usize> = (0..draft.slots).collect();
    random.shuffle(&mut slots);
    let evicting = if random.chance(40) {
        random.below(4)
    } else {
        0
    };
    for (index, link) in links[..length].iter().enumerate() {
        patch.entries.push(Entry {
            source: Some(Place::Register(link.source)),
            dest: Place::Register(link.dest),
            value: values[0] + index,
        });
    }
    let most = MOST_ENTRIES - evicting;
    let joined = *random.pick(&[0, 0, 0, 10]);
    let left_out = *random.pick(&[0, 0, 0, 30]);
    // A unit of the first destination is read as of one bank only.
    let banks: Vec<usize> = (0..leaves[0].sources.len())
        .map(|_| random.below(leaves.len()))
        .collect();
    let sources = random.within(1, banks.len());
    for number in 0..leaves[0].dests.len() {
        let at = random.below(sources);
        let leaves = &leaves[banks[at]];
        let (link, dest) = leaves.dests[number];
        if link >= length || patch.entries.len() >= most || random.chance(left_out) {
            continue;
        }
        let value = match random.chance(joined) {
            true => random.below(number + 1),
            false => number,
        };
        patch.entries.push(Entry {
            source: Some(Place::Register(leaves.sources[at])),
            dest: Place::Register(dest),
            value: values[leaves.bank] + value.min(MOST_ENTRIES - 1),
        });
    }
    for _ in 0..evicting {
        let bank = random.below(values.len());
        let Some(slot) = slots.pop() else {
            break;
        };
        // A rebuild comes before all moves, a move from a slot after them.
        let remat = random.chance(60);
        let source = (draft.slots - 1 != slot).then_some(Place::Slot(draft.slots - 1));
        if !remat && source.is_none() {
            continue;
        }
        patch.entries.push(Entry {
            source: if remat { None } else { source },
            dest: Place::Slot(slot),
            value: if remat {
                first_remat + bank
            } else {
                values[bank]
            },
        });
    }
    if random.chance(15) {
        random.shuffle(&mut patch.entries);
    }
    if random.chance(20) {
        let unit = random.below(draft.target.units);
        let written = |entry: &Entry| draft.target.any_unit(entry.dest, |u| u == unit);
        if !patch.entries.iter().any(written) {
            patch.free.push(unit);
        }
    }
    patch
}
