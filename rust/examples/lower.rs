//! Turns edits into assembly, for two processors: the page that a compiler copies.
//!
//! `arm` is for the shipped target, whose registers are ARM's VFP and NEON ones; `x86_64` is for a target
//! made by words, whose registers are the xmm and the ymm ones. What both make of random patches is
//! assembled and run by `rust/tests/processors.rs`.
//!
//! `cargo run --release --example lower -- arm` prints an edge of a function, so does `-- x86-64`.

use std::cmp::Reverse;
use std::env;
use std::error::Error;
use std::process::ExitCode;

use parallel_moves::{
    AllocationKind as Place, Edit, JobBuilder, ParallelMoves, Patch, PhysReg, RegBank, RegClass,
    RematCost, SpillSlot, TargetBuilder, Value,
};

/// Where the slots of a function lie: their offsets from the stack pointer.
pub struct Frame {
    offsets: Vec<usize>,
    /// How far the stack pointer goes down for it.
    pub bytes: usize,
}

impl Frame {
    /// Slots of these sizes, above `below` bytes that are no slot's. The widest lie lowest, so that each is
    /// aligned to its own size where `below` and the frame are aligned to the widest.
    pub fn new(below: usize, sizes: &[usize]) -> Self {
        let mut by_size: Vec<usize> = (0..sizes.len()).collect();
        by_size.sort_by_key(|&slot| Reverse(sizes[slot]));
        let mut offsets = vec![0; sizes.len()];
        let mut bytes = below;
        for slot in by_size {
            offsets[slot] = bytes;
            bytes += sizes[slot];
        }
        Frame { offsets, bytes }
    }

    /// Where a slot lies, ordinary or not.
    pub fn offset(&self, slot: SpillSlot) -> usize {
        self.offsets[slot.index()]
    }
}

/// The bytes of all slots. The ordinary ones, which come first, are the compiler's own; an emergency slot
/// has the size of what the edits copy to it or rebuild in it, of all patches of the function together.
pub fn slot_sizes(
    ordinary: &[usize],
    edits: &[Edit],
    bytes: impl Fn(PhysReg) -> usize,
    constants: &[Vec<u32>],
) -> Vec<usize> {
    let mut sizes = ordinary.to_vec();
    for &edit in edits {
        let (slot, size) = match step(edit) {
            Step::Copy(Place::SpillSlot(slot), Place::PhysReg(register))
            | Step::Copy(Place::PhysReg(register), Place::SpillSlot(slot)) => {
                (slot.index(), bytes(register))
            }
            Step::Rebuild(Place::SpillSlot(slot), value) => {
                (slot.index(), 4 * constants[value.index()].len())
            }
            _ => continue,
        };
        sizes.resize(sizes.len().max(slot + 1), 0);
        sizes[slot] = sizes[slot].max(size);
    }
    sizes
}

/// What a processor does for an edit: saving and loading back are copies, as a move is.
enum Step {
    /// To, from. One of them is a register: no edit goes from memory to memory.
    Copy(Place, Place),
    Rebuild(Place, Value),
}

fn step(edit: Edit) -> Step {
    match edit {
        Edit::Move { to, from, .. } => Step::Copy(to.kind(), from.kind()),
        Edit::EmergencySpill { to, from } => Step::Copy(Place::SpillSlot(to), Place::PhysReg(from)),
        Edit::EmergencyReload { to, from } => {
            Step::Copy(Place::PhysReg(to), Place::SpillSlot(from))
        }
        Edit::Rematerialize { to, value } => Step::Rebuild(to.kind(), value),
    }
}

/// ARM's VFP and NEON. The units are the s registers, of a word each: d0 is s0 and s1, q0 is d0 and d1.
pub mod arm {
    use super::{Edit, Frame, PhysReg, Place, Step, step};

    /// vldr and vstr reach so many bytes.
    const REACH: usize = 1020;

    /// Its letter, number and bytes: 0 to 31 are s0 to s31, 32 to 47 d0 to d15, 48 to 55 q0 to q7.
    fn name(register: PhysReg) -> (char, usize, usize) {
        match register.index() {
            index @ 0..32 => ('s', index, 4),
            index @ 32..48 => ('d', index - 32, 8),
            index => ('q', index - 48, 16),
        }
    }

    /// The bytes of a register, and of a slot that is made for its bank.
    pub fn bytes(register: PhysReg) -> usize {
        name(register).2
    }

    /// The instructions of an edit. `constants` has the words of each value that can be rebuilt, the lowest
    /// first. ip is overwritten: it is a core register, so that no value lies there.
    pub fn lower(edit: Edit, frame: &Frame, constants: &[Vec<u32>]) -> Vec<String> {
        use Place::{PhysReg as Register, SpillSlot as Slot};
        match step(edit) {
            Step::Copy(Register(to), Register(from)) => vec![between(to, from)],
            Step::Copy(Register(to), Slot(from)) => memory("vldr", to, frame.offset(from)),
            Step::Copy(Slot(to), Register(from)) => memory("vstr", from, frame.offset(to)),
            Step::Rebuild(Register(to), value) => rebuild(to, &constants[value.index()]),
            // A store takes no constant: let values be rebuilt by the classes 1, 3 and 5, without slots.
            _ => unreachable!("{edit}: both places, or the place of a rebuild, are memory"),
        }
    }

    /// Both are of one bank. A vmov copies the bits, whatever number they are.
    fn between(to: PhysReg, from: PhysReg) -> String {
        let ((letter, to, _), (_, from, _)) = (name(to), name(from));
        let what = if letter == 's' { "vmov.f32" } else { "vmov" };
        format!("{what} {letter}{to}, {letter}{from}")
    }

    /// Loads or stores a register: a q register by its halves, since vldr and vstr know none. A slot out of
    /// reach is addressed through ip.
    fn memory(what: &str, register: PhysReg, offset: usize) -> Vec<String> {
        let (mut lines, mut base, mut offset) = (Vec::new(), "sp", offset);
        if offset + bytes(register) > REACH {
            lines = word_in_ip(offset as u32);
            lines.push("add ip, sp, ip".to_owned());
            (base, offset) = ("ip", 0);
        }
        let names = match name(register) {
            ('q', number, _) => vec![('d', 2 * number), ('d', 2 * number + 1)],
            (letter, number, _) => vec![(letter, number)],
        };
        for ((letter, number), at) in names.into_iter().zip((offset..).step_by(8)) {
            lines.push(format!("{what} {letter}{number}, [{base}, #{at}]"));
        }
        lines
    }

    /// Each unit is an s register, and gets its word.
    fn rebuild(to: PhysReg, words: &[u32]) -> Vec<String> {
        let first = name(to).1 * words.len();
        let in_unit =
            |(unit, &word)| [word_in_ip(word), vec![format!("vmov s{unit}, ip")]].concat();
        (first..).zip(words).flat_map(in_unit).collect()
    }

    fn word_in_ip(word: u32) -> Vec<String> {
        let (high, low) = (word >> 16, word & 0xffff);
        vec![format!("movw ip, #{low}"), format!("movt ip, #{high}")]
    }
}

/// x86-64's xmm and ymm registers, and argument words on the stack.
pub mod x86_64 {
    use std::collections::BTreeSet;

    use super::{Edit, Frame, PhysReg, Place, Step, step};
    use parallel_moves::{Class, TargetBuilder};

    /// How many argument words lie at the stack pointer, below the slots, for the functions that are called.
    const ARGUMENTS: usize = 4;
    /// What they take.
    pub const BELOW: usize = 16 * ARGUMENTS;

    /// Registers 0 to 15 are xmm0 to xmm15, 16 to 31 ymm0 to ymm15, 32 to 35 the argument words, each of
    /// which holds what an xmm register does. Bank 0 has classes 0 and 1, bank 1 classes 2 and 3.
    ///
    /// ymm i has the units 2 i and 2 i + 1, and xmm i is the first of them. The high half alone is no register:
    /// it has no name, so that no value lies in it alone. But it is a unit, and where xmm i is written it keeps
    /// what it holds: `lower` writes xmm i by instructions that leave it. What a processor has above a ymm
    /// register is no part of this target.
    pub fn target() -> TargetBuilder {
        let mut target = TargetBuilder::default();
        let narrow = target.bank(4);
        let mut xmm: Vec<PhysReg> = (0..16).map(|i| target.register(&[2 * i])).collect();
        let wide = target.bank(5);
        let ymm: Vec<PhysReg> = (0..16)
            .map(|i| target.register(&[2 * i, 2 * i + 1]))
            .collect();
        target.of_bank(narrow);
        let order = xmm.clone();
        xmm.extend((0..ARGUMENTS as u32).map(|i| target.memory_register(32 + i)));
        let top = target.class(Class::of(&xmm).in_order(&order).with_slots());
        let stack = target.class(Class::of(&order));
        target
            .top_level_class(narrow, top)
            .stack_class(narrow, stack);
        // The last of an order is saved where nothing is available. These are xmm15 and ymm0, which do not
        // overlap, so that both can be saved at the same time.
        let order: Vec<PhysReg> = ymm.iter().rev().copied().collect();
        target.of_bank(wide);
        let top = target.class(Class::of(&order).with_slots());
        let stack = target.class(Class::of(&order));
        target.top_level_class(wide, top).stack_class(wide, stack);
        target
    }

    /// The bytes of a register, and of a slot that is made for its bank.
    pub fn bytes(register: PhysReg) -> usize {
        match register.index() {
            16..32 => 32,
            _ => 16,
        }
    }

    /// The name of a register, or an address so many bytes into a place in memory.
    fn operand(place: Place, frame: &Frame, into: usize) -> String {
        match place {
            Place::SpillSlot(slot) => format!("[rsp + {}]", frame.offset(slot) + into),
            Place::PhysReg(register) => match register.index() {
                index @ 0..16 => format!("xmm{index}"),
                index @ 16..32 => format!("ymm{}", index - 16),
                index => format!("[rsp + {}]", 16 * (index - 32) + into),
            },
        }
    }

    /// An xmm register is written by movups, of SSE, which leaves the high half of its ymm register as it is;
    /// vmovups, of AVX, would clear it. On some processors movups then waits for what the high half holds:
    /// that is the price of keeping it. Neither asks for an alignment.
    fn copy(to: &str, from: &str) -> String {
        let wide = to.starts_with("ymm") || from.starts_with("ymm");
        let what = if wide { "vmovups" } else { "movups" };
        format!("{what} {to}, {from}")
    }

    /// The instructions of an edit, in Intel's syntax. `constants` has the words of each value that can be
    /// rebuilt, the lowest first: a register loads them from the pool, memory is given them word by word.
    pub fn lower(edit: Edit, frame: &Frame, constants: &[Vec<u32>]) -> Vec<String> {
        match step(edit) {
            Step::Copy(to, from) => vec![copy(&operand(to, frame, 0), &operand(from, frame, 0))],
            Step::Rebuild(to, value) => {
                let (words, whole) = (&constants[value.index()], operand(to, frame, 0));
                if !whole.starts_with('[') {
                    return vec![copy(&whole, &format!("[rip + {}]", label(words)))];
                }
                let parts = words.iter().zip((0..).step_by(4));
                let store =
                    |(word, into)| format!("mov dword ptr {}, {word}", operand(to, frame, into));
                parts.map(store).collect()
            }
        }
    }

    /// A constant's label says its words, so that the pool has equal ones once.
    fn label(words: &[u32]) -> String {
        let words: Vec<String> = words.iter().map(|word| format!("{word:x}")).collect();
        format!(".Lconstant_{}", words.join("_"))
    }

    /// The lines of the pool, to stand once in a file. It is read only: no patch writes what an R reads.
    pub fn pool<'a>(constants: impl IntoIterator<Item = &'a Vec<u32>>) -> Vec<String> {
        let once: BTreeSet<&Vec<u32>> = constants.into_iter().collect();
        let mut lines = vec![".section .rodata".to_owned()];
        for words in once {
            let numbers: Vec<String> = words.iter().map(u32::to_string).collect();
            lines.push(format!("{}: .long {}", label(words), numbers.join(", ")));
        }
        lines
    }
}

/// The edits of an edge: the first two registers of a bank change their contents, slot 0 goes to slot 1, and
/// a constant to slot 2. No register is free.
fn edge(
    target: TargetBuilder,
    bank: RegBank,
    stack: RegClass,
    first: usize,
) -> Result<Vec<Edit>, Box<dyn Error>> {
    let mut job = JobBuilder::on(target);
    let function = job.function();
    let [a, b, c] = [(); 3].map(|()| function.value(bank));
    let constant = function.remat_value(bank, RematCost::CheaperThanLoad, stack);
    let [s0, s1, s2] = [(); 3].map(|()| function.slot());
    let [r0, r1] = [first, first + 1].map(PhysReg::new);
    let mut patch = Patch::new();
    patch
        .move_(r0, r1, a)
        .move_(r1, r0, b)
        .move_(s0, s1, c)
        .remat(s2, constant);
    let mut moves = ParallelMoves::open(1, &job.target_and_function()?)?;
    Ok(moves.resolve(&patch)?.iter().collect())
}

/// The instructions of edits, each behind the edit as a remark.
pub fn listing(remark: char, edits: &[Edit], lower: impl Fn(Edit) -> Vec<String>) -> String {
    let mut text = String::new();
    for &edit in edits {
        text += &format!("    {remark} {edit}\n");
        for line in lower(edit) {
            text += &format!("    {line}\n");
        }
    }
    text
}

/// An edge of doubles on ARM, where 1.5 is rebuilt.
///
/// # Errors
///
/// What the library refuses; nothing, where this is right.
pub fn arm_page() -> Result<String, Box<dyn Error>> {
    let target = TargetBuilder::named("shipped").ok_or("there is no such target")?;
    let edits = edge(target, RegBank::new(1), RegClass::new(3), 32)?;
    let constants = [vec![], vec![], vec![], vec![0, 0x3ff8_0000]];
    let frame = Frame::new(0, &slot_sizes(&[8; 3], &edits, arm::bytes, &constants));
    let lines = listing('@', &edits, |edit| arm::lower(edit, &frame, &constants));
    Ok(format!("    @ a frame of {} bytes\n{lines}", frame.bytes))
}

/// An edge of ymm registers on x86-64, where four doubles 1.5 are rebuilt.
///
/// # Errors
///
/// What the library refuses; nothing, where this is right.
pub fn x86_64_page() -> Result<String, Box<dyn Error>> {
    let edits = edge(x86_64::target(), RegBank::new(1), RegClass::new(3), 16)?;
    let constants = [vec![], vec![], vec![], [0, 0x3ff8_0000].repeat(4)];
    let sizes = slot_sizes(&[32; 3], &edits, x86_64::bytes, &constants);
    let frame = Frame::new(x86_64::BELOW, &sizes);
    let lines = listing('#', &edits, |edit| x86_64::lower(edit, &frame, &constants));
    let pool = x86_64::pool(&constants[3..]).join("\n");
    Ok(format!(
        "    # a frame of {} bytes\n{lines}{pool}\n",
        frame.bytes
    ))
}

fn main() -> ExitCode {
    let page = match env::args().nth(1).as_deref() {
        Some("arm") => arm_page(),
        Some("x86-64") => x86_64_page(),
        _ => Err("usage: lower arm | x86-64".into()),
    };
    match page {
        Ok(page) => {
            print!("{page}");
            ExitCode::SUCCESS
        }
        Err(error) => {
            eprintln!("{error}");
            ExitCode::from(2)
        }
    }
}
