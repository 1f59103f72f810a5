//! Parallel moves over registers that share units, resolved in-process.
//!
//! Where two paths of a program join, a compiler must carry values from the
//! places that one path left them in to the places that the other expects, all
//! at once. [`ParallelMoves`] is opened for a function over a target and
//! answers each [`Patch`] of such moves with the [`Edits`] that carry it out in
//! order, or with a [`Refusal`], which [`ParallelMoves::explain`] explains:
//!
//! ```
//! use parallel_moves::{JobBuilder, ParallelMoves, Patch, PhysReg, Refusal, RegBank, TargetBuilder};
//!
//! # fn main() -> Result<(), Refusal> {
//! // ARM's VFP: registers 32 to 47 are d0 to d15, of two units each.
//! let mut job = JobBuilder::on(TargetBuilder::named("vfp").expect("it is shipped"));
//! let doubles = RegBank::new(1);
//! let [a, b] = [(); 2].map(|()| job.function().value(doubles));
//! let mut moves = ParallelMoves::open(1, &job.target_and_function()?)?;
//!
//! // d0 and d1 change their contents; nothing is needed of what d2, with the units 4 and 5,
//! // holds.
//! let [d0, d1] = [32, 33].map(PhysReg::new);
//! let mut patch = Patch::new();
//! patch.move_(d0, d1, a).move_(d1, d0, b).free(&[4, 5]);
//! let edits: Vec<String> = moves.resolve(&patch)?.iter().map(|edit| edit.to_string()).collect();
//! assert_eq!(edits, ["M r34 r33 1", "M r33 r32 0", "M r32 r34 1"]);
//! # Ok(())
//! # }
//! ```
//!
//! A [`JobBuilder`] describes a target of your own and a function in the words of the trade,
//! and says which register, class, value or entry is refused. Whoever comes from regalloc3 finds
//! its method names in [`regalloc3`], and what becomes of the rest in `docs/PORTING.md`.
//!
//! A [`Resolver`] does the same with a whole job,
//! which is a target, a function and its patches as bytes. [`ParallelMoves::preview`] shows
//! a patch's edits before [`ParallelMoves::take`] settles on them; a [`Frame`] has several
//! functions that share their emergency slots. Either is told how many
//! evictions are kept, 1 or 2: how many registers may be evicted at once. For whoever
//! lays out the frame, [`ParallelMoves::enough_slots`] says how many emergency slots
//! are enough for a function, and [`ParallelMoves::slot_size`] how large each is. With a target's
//! [`Prices`], [`ResolvedPatch::price`] and
//! [`Edits::price`] say what an edge costs, and [`cheaper()`] chooses one of two lists of
//! edits; [`ParallelMoves::open_priced`] and [`priced_job`] refuse a price that is too high when
//! the target is read. [`try_settings`] compares one and two kept evictions on patches that it
//! draws of a function. [`examine`] says whether a list of edits from elsewhere does what a patch asks, and
//! [`ParallelMoves::checked`] has that said of each patch's own edits before they are handed out.
//!
//! The bytes of a job are made by a [`JobBuilder`], by [`write()`] and [`JobWriter`] of numbers, by
//! [`ParallelMoves::write_job`] of an opened function and its patches, and by [`text`] of a readable
//! text, which it also prints of them. A [`Picture`] shows what stands
//! where at every stop of a patch, and [`Resolver::locate`] says where a job is refused. The
//! program `parallel-moves` does all this on the command line, for many jobs at once.
//!
//! Patches and entries are counted from 1, as they are printed; units, registers, slots, values,
//! classes, banks and the formulas of a frame are numbered from 0. Only [`examine`], [`examine_in`],
//! [`first_fault`] and [`Frame::examine`] count patches from 0: [`examine_numbered`] and its
//! neighbours do not.
//!
//! The work is done by a library in which every function is proved to meet its
//! contract; this crate lends it memory and takes its words apart.
//! `docs/JOB.md` of the repository says what a target, a function and a patch
//! mean and how they are written, and what the edits promise.
//!
//! # Building
//!
//! The static library is linked when a program is: from `target/staticlib` of
//! the repository, where `./build` makes its archives `parallel_moves_c`,
//! `calls_c`, `asking_c`, `groups_c`, `answer_groups_c`, `frame_c`, `job_writer_c`, `price_c`, `trying_c` and `examine_c`, or from the
//! folder that `PARALLEL_MOVES_LIB_DIR` names; outside of the repository and without that variable, from the release that
//! `pkg-config` finds as `parallel_moves`. `cargo check` and `cargo doc` do without it.
//! [`BUILD`] tells builds apart.
//! The names in the library end in the version of its interface, so that a crate with other
//! tables does not link.
//!
//! # What is asked of a caller
//!
//! Any bytes may be given as a function or a job, and any patch. A refused patch changes
//! nothing, and the next is resolved as if it had not been given. 64 KiB of stack are enough
//! for every call; the answer to a whole job was measured to take 39 KB (`bench/README.md`).
//! The library has no heap. For a whole job it is lent 499,621 bytes of tables, which a
//! [`Resolver`] keeps and uses again. Nothing else is asked.

mod answer;
mod build;
mod builder;
mod checked;
mod edit;
mod entity;
mod examine;
mod explain;
mod frame;
mod locate;
mod numbered;
mod opening;
mod parallel_moves;
mod patch;
mod picture;
mod preview;
mod price;
mod reading;
mod refusal;
pub mod regalloc3;
mod resolver;
mod sys;
#[cfg(test)]
mod tests;
pub mod text;
mod trying;
mod writer;

pub use answer::{Answer, Patches, RefusedJob, ResolvedPatch};
pub use build::BUILD;
pub use builder::{BuildError, Class, FunctionBuilder, JobBuilder, Part, RematCost, TargetBuilder};
pub use checked::{CheckError, CheckedMoves, Unconfirmed};
pub use edit::{Edit, Edits, Iter, ParseEditError};
pub use entity::{
    Allocation, AllocationKind, PhysReg, RegBank, RegClass, RegUnit, SpillSlot, Value,
};
pub use examine::{Cannot, Fault, examine, examine_all, examine_in, first_fault};
pub use explain::{Explanation, PatchPart};
pub use frame::{Formula, Frame, FramePreview};
pub use numbered::{examine_numbered, examine_numbered_in, first_fault_numbered};
pub use parallel_moves::{MOST_EDITS, ParallelMoves};
pub use patch::{Entries, Entry, Patch};
pub use picture::Picture;
pub use preview::{Preview, TakeError};
pub use price::{Choice, Edge, Prices, cheaper, choose, priced_job};
pub use reading::{Location, patch_count};
pub use refusal::{Refusal, Unnamed};
pub use resolver::Resolver;
pub use trying::{Refusals, Tally, try_settings};
pub use writer::{JobWriter, write};

/// The snippets of the repository's README and of its papers on jobs and on porting are
/// compiled with the tests.
#[cfg(doctest)]
#[doc = include_str!("../../README.md")]
#[doc = include_str!("../../docs/JOB.md")]
#[doc = include_str!("../../docs/PORTING.md")]
struct Papers;
