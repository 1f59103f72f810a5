//! Jobs built in the words of the trade.

mod function;
mod named;
mod part;
mod target;

use crate::locate;
use crate::patch::Patch;
use crate::writer::JobWriter;
pub(crate) use function::ValueInfo;
pub use function::{FunctionBuilder, RematCost};
pub use part::{BuildError, Part};
pub(crate) use target::{Bank, Register};
pub use target::{Class, TargetBuilder};

/// What an empty patch adds to the bytes of a target and a function: a patch count, and
/// no free units and entries.
const EMPTY_PATCH: usize = 3;

/// A job under construction: a target, a function over it and its patches.
///
/// It makes all counts, and numbers what is added from 0 on. Nothing is tested before
/// the job is written by [`JobBuilder::bytes`], which says what is wrong and where.
/// The example is the job `swap-full` of `docs/JOB.md`:
///
/// ```
/// use parallel_moves::{Class, JobBuilder, Resolver};
///
/// let mut job = JobBuilder::new();
///
/// // One bank, whose emergency slots have 2^3 bytes, and three registers of a unit each.
/// let target = job.target();
/// let bank = target.bank(3);
/// let [r0, r1, r2] = [0, 1, 2].map(|unit| target.register(&[unit]));
/// let top = target.class(Class::of(&[r0, r1, r2]).with_slots());
/// let stack = target.class(Class::of(&[r0, r1, r2]));
/// target.top_level_class(bank, top);
/// target.stack_class(bank, stack);
///
/// // Two values and no slots, of which one may be made.
/// let function = job.function();
/// let [v0, v1] = [(); 2].map(|()| function.value(bank));
/// function.emergency_slots(1);
///
/// // Registers 0 and 1 change their contents, and no other may be touched.
/// job.patch().move_(r0, r1, v0).move_(r1, r0, v1);
///
/// let bytes = job.bytes().unwrap();
/// assert_eq!(bytes.len(), 57);
/// let answer = Resolver::new().answer(1, &bytes).unwrap();
/// let edits: Vec<String> = answer.patches().flatten().map(|edit| edit.to_string()).collect();
/// assert_eq!(edits, ["M s0 r1 1", "M r1 r0 0", "M r0 s0 1"]);
/// ```
///
/// [`ParallelMoves`](crate::ParallelMoves) is opened with the target and the function
/// alone, and then given patches of its own:
///
/// ```
/// # use parallel_moves::{Class, JobBuilder, ParallelMoves, Patch};
/// # let mut job = JobBuilder::new();
/// # let target = job.target();
/// # let bank = target.bank(3);
/// # let r0 = target.register(&[0]);
/// # let r1 = target.register(&[1]);
/// # let top = target.class(Class::of(&[r0, r1]).with_slots());
/// # let stack = target.class(Class::of(&[r0, r1]));
/// # target.top_level_class(bank, top);
/// # target.stack_class(bank, stack);
/// # let v0 = job.function().value(bank);
/// let mut moves = ParallelMoves::open(1, &job.target_and_function().unwrap()).unwrap();
/// let mut patch = Patch::new();
/// patch.move_(r0, r1, v0);
/// assert_eq!(moves.resolve(&patch).unwrap().iter().next().unwrap().to_string(), "M r1 r0 0");
/// ```
#[derive(Clone, Debug, Default, PartialEq, Eq)]
pub struct JobBuilder {
    pub(crate) target: TargetBuilder,
    pub(crate) function: FunctionBuilder,
    pub(crate) patches: Vec<Patch>,
}

impl JobBuilder {
    /// A job without a bank, register, class, value, slot or patch.
    #[must_use]
    pub fn new() -> Self {
        JobBuilder::default()
    }

    /// A job on a target, without a value, slot or patch.
    #[must_use]
    pub fn on(target: TargetBuilder) -> Self {
        JobBuilder {
            target,
            ..JobBuilder::default()
        }
    }

    /// The job's target.
    pub fn target(&mut self) -> &mut TargetBuilder {
        &mut self.target
    }

    /// The job's function.
    pub fn function(&mut self) -> &mut FunctionBuilder {
        &mut self.function
    }

    /// Begins one more patch, without free units and entries.
    pub fn patch(&mut self) -> &mut Patch {
        self.add_patch(Patch::empty())
    }

    /// Adds a patch.
    pub fn add_patch(&mut self, patch: Patch) -> &mut Patch {
        self.patches.push(patch);
        self.patches.last_mut().expect("one was just added")
    }

    /// How many patches were begun.
    #[must_use]
    pub fn patches(&self) -> usize {
        self.patches.len()
    }

    /// The numbers of the job, in their order.
    #[must_use]
    pub fn numbers(&self) -> Vec<u32> {
        let mut numbers = Vec::new();
        self.each_number(|number, _| numbers.push(number));
        numbers
    }

    /// The bytes of the job.
    ///
    /// # Errors
    ///
    /// What reading the job to its end would refuse, and where. 16, 17 and 18 never
    /// come.
    pub fn bytes(&self) -> Result<Vec<u8>, BuildError> {
        let mut writer = JobWriter::new();
        let numbers = self.numbers();
        writer.write(&numbers).map_err(|refusal| BuildError {
            refusal,
            part: locate::part(self, &mut writer, &numbers, refusal),
        })
    }

    /// The bytes of the target and the function alone, for
    /// [`ParallelMoves::open`](crate::ParallelMoves::open). The patches are left aside.
    ///
    /// # Errors
    ///
    /// What opening them would refuse, and where. They are written with an empty patch
    /// behind them, which is then cut off: 2 comes from 65,534 bytes on.
    pub fn target_and_function(&self) -> Result<Vec<u8>, BuildError> {
        let alone = JobBuilder {
            target: self.target.clone(),
            function: self.function.clone(),
            patches: vec![Patch::empty()],
        };
        let mut bytes = alone.bytes()?;
        bytes.truncate(bytes.len() - EMPTY_PATCH);
        Ok(bytes)
    }

    /// Whether there are no more units, slots and entries than a job may have, so that what
    /// stands in each place can be told: a number of four bytes says of billions.
    pub(crate) fn can_be_shown(&self, patch: &Patch) -> bool {
        self.target.unit_count() <= 512 && self.function.slots <= 4096 && patch.entries.len() <= 128
    }

    /// Gives each number of the job in turn, with the part that it says something of.
    pub(crate) fn each_number(&self, mut put: impl FnMut(u32, Part)) {
        self.target.each_number(&mut put);
        self.function.each_number(&mut put);
        each_number_of(&self.patches, put);
    }
}

/// Gives each number of patches in turn, their count first.
pub(crate) fn each_number_of(patches: &[Patch], mut put: impl FnMut(u32, Part)) {
    put(count(patches.len()), Part::Patches);
    for (patch, number) in patches.iter().zip(1..) {
        put(count(patch.free.len()), Part::Patch(number));
        for &unit in &patch.free {
            put(unit.0, Part::FreeUnit(number, unit));
        }
        put(count(patch.entries.len()), Part::Patch(number));
        for (&[kind, first, second, third], entry) in patch.entries.iter().zip(1..) {
            for number_of_it in [kind, first, second] {
                put(number_of_it, Part::Entry(number, entry));
            }
            if kind == 0 {
                put(third, Part::Entry(number, entry));
            }
        }
    }
}

/// The length of a list as a number of a job.
fn count(length: usize) -> u32 {
    u32::try_from(length).unwrap_or(u32::MAX)
}
