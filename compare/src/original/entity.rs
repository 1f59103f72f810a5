//! Shim for `entity/mod.rs`: the parts of the original that the module needs,
//! under the names it needs them by.

#[path = "../../target/original/entity/base.rs"]
#[macro_use]
mod base;
#[path = "../../target/original/entity/compact_list.rs"]
mod compact_list;
#[path = "../../target/original/entity/primary_map.rs"]
mod primary_map;
#[path = "../../target/original/entity/secondary_map.rs"]
mod secondary_map;
#[path = "../../target/original/entity/small_set.rs"]
mod small_set;
#[path = "../../target/original/entity/sparse.rs"]
mod sparse;

pub mod iter;
pub mod packed_option;

pub use base::{EntityRange, EntityRef};
pub use compact_list::{CompactList, CompactListPool};
pub use packed_option::ReservedValue;
pub use primary_map::PrimaryMap;
pub use secondary_map::SecondaryMap;
pub use small_set::SmallEntitySet;
pub use sparse::SparseMap;
