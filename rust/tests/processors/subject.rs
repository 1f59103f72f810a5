//! The two processors as the tests see them: what a target's registers are, and how contents lie in a state.

use std::ops::Range;

use parallel_moves::{Class, Edit, PhysReg, RegBank, SpillSlot, TargetBuilder};

use crate::common::machine::{Machine, Place, Register};
use crate::formula::lower::{Frame, arm, x86_64};
use crate::formula::processor::{self, Processor};

/// What lies before and behind a frame in a state, and is watched.
const GUARD: usize = 64;

/// A class of a target, as far as rebuilding goes.
pub struct Members {
    pub bank: usize,
    pub slots: bool,
    pub members: Range<u16>,
}

pub struct Subject {
    pub processor: &'static Processor,
    pub target: TargetBuilder,
    pub registers: Vec<Register>,
    /// How many units the registers of each bank have.
    pub widths: &'static [usize],
    /// The classes that values are rebuilt by, by number.
    pub classes: Vec<(usize, Members)>,
    /// How many units lie in registers, and the words of four bytes of each.
    pub units: usize,
    unit_words: usize,
    /// What lies below the slots: the argument words.
    pub below: usize,
    pub bytes: fn(PhysReg) -> usize,
    pub lower: fn(Edit, &Frame, &[Vec<u32>]) -> Vec<String>,
    /// The name and text of the file that has `run`, the jump to its end, how a remark begins and how a pointer
    /// is written.
    pub run: (&'static str, &'static str),
    pub done: &'static str,
    pub remark: char,
    pub pointer: &'static str,
    pub head: &'static str,
}

fn register(bank: usize, units: Range<usize>) -> Register {
    let units = units.collect();
    Register {
        memory: false,
        bank,
        units,
    }
}

impl Subject {
    /// The shipped target. Values are rebuilt by its classes without slots.
    pub fn arm() -> Self {
        let of = |bank: usize, count: usize, width: usize| {
            (0..count).map(move |i| register(bank, i * width..(i + 1) * width))
        };
        let class = |bank: usize, members| {
            (
                2 * bank + 1,
                Members {
                    bank,
                    slots: false,
                    members,
                },
            )
        };
        Subject {
            processor: &processor::ARM,
            target: TargetBuilder::named("shipped").unwrap(),
            registers: of(0, 32, 1)
                .chain(of(1, 16, 2))
                .chain(of(2, 8, 4))
                .collect(),
            widths: &[1, 2, 4],
            classes: vec![class(0, 0..32), class(1, 32..48), class(2, 48..56)],
            units: 32,
            unit_words: 1,
            below: 0,
            bytes: arm::bytes,
            lower: arm::lower,
            run: ("run.s", include_str!("run-arm.s")),
            done: "b done",
            remark: '@',
            pointer: ".word",
            head: ".syntax unified\n.fpu neon\n.arm\n.text\n",
        }
    }

    /// The target of `examples/lower.rs`, with two more classes to rebuild by: they have few registers, so that
    /// many a rebuild needs a scratch.
    pub fn x86_64() -> Self {
        let mut target = x86_64::target();
        let of = |members: Range<usize>| Class::of(&members.map(PhysReg::new).collect::<Vec<_>>());
        target.class(of(0..4).of_bank(RegBank::new(0)));
        target.class(of(18..20).with_slots().of_bank(RegBank::new(1)));
        let xmm = (0..16).map(|i| register(0, 2 * i..2 * i + 1));
        let ymm = (0..16).map(|i| register(1, 2 * i..2 * i + 2));
        let word = |unit| Register {
            memory: true,
            ..register(0, unit..unit + 1)
        };
        let class = |bank, slots, members| Members {
            bank,
            slots,
            members,
        };
        Subject {
            processor: &processor::X86_64,
            target,
            registers: xmm.chain(ymm).chain((32..36).map(word)).collect(),
            widths: &[1, 2],
            classes: vec![
                (1, class(0, false, 0..16)),
                (2, class(1, true, 16..32)),
                (3, class(1, false, 16..32)),
                (4, class(0, false, 0..4)),
                (5, class(1, true, 18..20)),
            ],
            units: 32,
            unit_words: 4,
            below: x86_64::BELOW,
            bytes: x86_64::bytes,
            lower: x86_64::lower,
            run: ("run.s", include_str!("run-x86-64.s")),
            done: "jmp done",
            remark: '#',
            pointer: ".quad",
            head: ".intel_syntax noprefix\n.text\n",
        }
    }

    /// The constants that edits load from memory.
    pub fn pool<'a>(&self, constants: impl IntoIterator<Item = &'a Vec<u32>>) -> Vec<String> {
        match self.unit_words {
            1 => Vec::new(),
            _ => x86_64::pool(constants.into_iter().filter(|words| !words.is_empty())),
        }
    }

    /// The units of a place that is no slot.
    pub fn units_of(&self, place: Place) -> &[usize] {
        match place {
            Place::Register(register) => &self.registers[usize::from(register)].units,
            Place::Slot(_) => &[],
        }
    }

    pub fn unit_bytes(&self) -> usize {
        4 * self.unit_words
    }

    /// What a word of the machine is on the processor. Units there are larger: their parts are different from
    /// each other, but say the word.
    pub fn words(&self, words: &[u32]) -> Vec<u32> {
        let parts = |&word: &u32| {
            (0..self.unit_words as u32)
                .map(move |part| word.wrapping_add(part.wrapping_mul(0x9e37_79b9)))
        };
        words.iter().flat_map(parts).collect()
    }

    pub fn stack_pointer_at(&self) -> usize {
        self.units * self.unit_bytes() + GUARD
    }

    /// The bytes of a state whose frame has so many.
    pub fn state_bytes(&self, frame: usize) -> usize {
        (self.stack_pointer_at() + frame + GUARD).next_multiple_of(64)
    }

    /// Where so many words of the machine lie that a place holds. The units of a register follow each other.
    pub fn range(&self, frame: &Frame, place: Place, words: usize) -> Range<usize> {
        let start = match place {
            Place::Slot(slot) => {
                self.stack_pointer_at() + frame.offset(SpillSlot::new(slot.into()))
            }
            Place::Register(register) => {
                let Register { memory, units, .. } = &self.registers[usize::from(register)];
                match memory {
                    true => self.stack_pointer_at() + self.unit_bytes() * (units[0] - self.units),
                    false => units[0] * self.unit_bytes(),
                }
            }
        };
        start..start + words * self.unit_bytes()
    }

    /// The bytes of words of the machine.
    pub fn content(&self, words: &[u32]) -> Vec<u8> {
        self.words(words)
            .into_iter()
            .flat_map(u32::to_le_bytes)
            .collect()
    }

    /// What a machine holds, written over a state.
    pub fn state(&self, machine: &Machine, frame: &Frame, noise: &[u8]) -> Vec<u8> {
        let mut state = noise.to_vec();
        let registers = self.content(&machine.units[..self.units]);
        state[..registers.len()].copy_from_slice(&registers);
        let slots = machine.slots.keys().map(|&slot| Place::Slot(slot));
        for place in self.memory_registers().chain(slots) {
            let words = machine.read(place);
            state[self.range(frame, place, words.len())].copy_from_slice(&self.content(&words));
        }
        state
    }

    pub fn memory_registers(&self) -> impl Iterator<Item = Place> + '_ {
        let numbered = (0..).zip(&self.registers);
        numbered
            .filter(|(_, register)| register.memory)
            .map(|(number, _)| Place::Register(number))
    }
}
