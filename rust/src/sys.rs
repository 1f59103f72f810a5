//! The library's functions, and the tables that they are lent: here what several
//! archives share, and in a module for each archive its functions, declared and called.
//!
//! The names end in the version of the interface: a library with other
//! parameters or lengths has other names, and does not link.
//!
//! A slice goes as a pointer and a length; an array, or one number, goes as a
//! pointer, which a reference is here.

mod asking;
mod calls;
mod examine;
mod frame;
mod groups;
mod jobs;
mod prices;
mod tries;
mod writing;

pub(crate) use asking::Pending;
pub(crate) use calls::{enough_slots, priced_job};
pub(crate) use examine::{ExamineTables, Examiner};
pub(crate) use frame::{OpenedFrame, PendingInFrame};
pub(crate) use groups::Spare;
pub(crate) use jobs::text;
pub(crate) use prices::{cheaper, price, price_edits};
pub(crate) use tries::{Tally, try_settings};
pub(crate) use writing::{WriterTables, shipped};

use std::sync::atomic::AtomicU64;

use groups::GroupTables;

/// A target, as the library keeps it.
type RegInfo = [u16; 107_520];
/// A function, as the library keeps it.
type Function = [u16; 16_388];
/// A function's emergency slots.
type EmergencySpillSlotCache = [u16; 65_600];
/// A set of register units.
type RegUnitSet = [bool; 512];
/// A patch under construction.
type Entries = [u16; 1541];
/// The writer of each unit.
type SparseMap = [u16; 6657];
/// Edits in the making, backwards.
type EditBuffer = [u64; 1025];
/// The emergency slots that a patch takes and puts back.
type Slots = [u16; 32_835];
/// The diversion of each value.
type Diversions = [u16; 12_288];
/// What an M, an R, an S and an L costs.
type Prices = [u32; 4];
/// Which moves are visited, and which open.
type States = [u8; 129];
/// The values that moves still carry.
type Carried = [u16; 2049];
/// Of each unit an entry that has it.
type Owners = [u8; 4608];
/// A number for each entry.
type Labels = [u8; 128];
/// The words of all groups.
type Joined = [u64; 1024];

/// All tables of the library.
pub(crate) struct Tables {
    target: Box<RegInfo>,
    function: Box<Function>,
    cache: Box<EmergencySpillSlotCache>,
    free: Box<RegUnitSet>,
    entries: Box<Entries>,
    writers: Box<SparseMap>,
    available: Box<RegUnitSet>,
    sources: Box<RegUnitSet>,
    edits: Box<EditBuffer>,
    slots: Box<Slots>,
    diverted: Box<Diversions>,
    marks: Box<States>,
    carried: Box<Carried>,
    /// Made at the first call by groups.
    groups: Option<GroupTables>,
    /// The greatest position that the last resolved patch met.
    position: u16,
}

impl Tables {
    pub(crate) fn new() -> Self {
        Tables {
            target: table(),
            function: table(),
            cache: table(),
            free: table(),
            entries: table(),
            writers: table(),
            available: table(),
            sources: table(),
            edits: table(),
            slots: table(),
            diverted: table(),
            marks: table(),
            carried: table(),
            groups: None,
            position: 0,
        }
    }
}

/// The tables of an opened function, and a number that no other has. Only the
/// functions of this module and of those in it reach them.
pub(crate) struct Opened(Tables, u64);

/// The number of the next function to be opened.
static NEXT: AtomicU64 = AtomicU64::new(0);

impl Opened {
    /// The tables, for another function.
    pub(crate) fn close(self) -> Tables {
        self.0
    }

    /// The greatest position that the last resolved patch met.
    pub(crate) fn position(&self) -> u16 {
        self.0.position
    }

    /// The cache, to be looked at.
    pub(crate) fn cache(&self) -> &[u16] {
        &self.0.cache[..]
    }
}

/// A table of zeros, made on the heap.
fn table<T: Copy + Default, const N: usize>() -> Box<[T; N]> {
    let table = vec![T::default(); N].into_boxed_slice();
    table.try_into().ok().expect("it has N items")
}
