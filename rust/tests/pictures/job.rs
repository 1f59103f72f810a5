//! What a job says, read from its bytes.

use crate::common::machine::{Place, Register};

/// What a job says, read here from its bytes.
pub struct Job {
    pub registers: Vec<Register>,
    /// Whether a class includes slots, and its members.
    pub classes: Vec<(bool, Vec<u32>)>,
    pub slots: u32,
    /// A value's bank, and the cost and class of its rebuild.
    pub values: Vec<(usize, Option<(u32, usize)>)>,
    pub patches: Vec<Patch>,
}

pub struct Patch {
    pub free: Vec<u32>,
    /// Source, if it is a move, destination and value.
    pub entries: Vec<(Option<Place>, Place, u32)>,
}

fn place(code: u32) -> Place {
    match code % 2 {
        1 => Place::Register((code / 2) as u16),
        _ => Place::Slot((code / 2) as u16),
    }
}

impl Job {
    /// Of an accepted job.
    pub fn of(bytes: &[u8]) -> Job {
        let mut rest = bytes.iter();
        let mut next = || {
            let (mut number, mut shift) = (0, 0);
            loop {
                let byte = u32::from(*rest.next().unwrap());
                number |= (byte % 128) << shift;
                shift += 7;
                if byte < 128 {
                    return number;
                }
            }
        };
        let _units = next();
        for _ in 0..next() {
            let _bank = [next(), next(), next()];
        }
        let registers = (0..next()).map(|_| Register {
            memory: next() == 1,
            bank: next() as usize,
            units: (0..next()).map(|_| next() as usize).collect(),
        });
        let registers = registers.collect();
        let classes = (0..next()).map(|_| {
            let _bank = next();
            let class = (next() == 1, (0..next()).map(|_| next()).collect());
            for _ in 0..next() {
                next();
            }
            class
        });
        let classes = classes.collect();
        let [values, slots, _most] = [next(), next(), next()];
        let values = (0..values).map(|_| {
            let bank = next() as usize;
            let cost = next();
            (bank, (cost > 0).then(|| (cost, next() as usize)))
        });
        let values = values.collect();
        let patches = (0..next()).map(|_| Patch {
            free: (0..next()).map(|_| next()).collect(),
            entries: (0..next())
                .map(|_| match next() {
                    0 => (Some(place(next())), place(next()), next()),
                    _ => (None, place(next()), next()),
                })
                .collect(),
        });
        let patches = patches.collect();
        Job {
            registers,
            classes,
            slots,
            values,
            patches,
        }
    }

    fn is_memory(&self, place: Place) -> bool {
        match place {
            Place::Register(r) => self.registers[usize::from(r)].memory,
            Place::Slot(_) => true,
        }
    }

    pub fn units(&self, place: Place) -> &[usize] {
        match place {
            Place::Register(r) => &self.registers[usize::from(r)].units,
            Place::Slot(_) => &[],
        }
    }

    pub fn overlap(&self, one: Place, other: Place) -> bool {
        let units = self.units(other);
        one == other || self.units(one).iter().any(|unit| units.contains(unit))
    }

    /// Whether a move of a value is kept, and does not become a rebuild.
    pub fn is_kept(&self, source: Place, dest: Place, value: u32) -> bool {
        let Some((cost, class)) = self.values[value as usize].1 else {
            return true;
        };
        let (slots, members) = &self.classes[class];
        let is_in_class = match dest {
            Place::Register(r) => members.contains(&u32::from(r)),
            Place::Slot(_) => *slots,
        };
        !(self.is_memory(source) || cost == 1 && is_in_class)
    }
}
