//! The original module, unchanged, with just enough around it to stand alone.
//!
//! `../../target/original` is a copy of the `src` folder of the original that
//! `build` was given; `../../target/cut` holds what `build` cut out of two
//! larger files. Everything else here is a shim of our own: `entity` (the
//! list of its parts, `iter` and `packed_option`) and the `trace!` macro, which
//! `probe` listens to if the crate is built with `--cfg probed`.

#![no_std]
// What the original has and this program doesn't use is no concern of ours.
#![allow(dead_code, unused_imports)]

extern crate alloc;

/// Trace output is left out; the arguments are still type-checked.
#[cfg(not(probed))]
macro_rules! trace {
    ($($argument:tt)*) => {
        if false {
            let _ = format_args!($($argument)*);
        }
    };
}

/// Of the trace output only searches are heard.
#[cfg(probed)]
macro_rules! trace {
    ($($argument:tt)*) => {{
        const HEARD: bool = $crate::probe::is_heard(stringify!($($argument)*));
        if HEARD {
            $crate::probe::hear(format_args!($($argument)*));
        }
    }};
}

#[cfg(probed)]
pub mod probe;

#[macro_use]
pub mod entity;

#[path = "../../target/original/function.rs"]
pub mod function;
#[path = "../../target/original/reginfo.rs"]
pub mod reginfo;

/// `SpillSlot`, `AllocationKind` and `Allocation`.
#[path = "../../target/cut/output.rs"]
pub mod output;

#[path = "../../target/original/allocation_unit.rs"]
mod allocation_unit;

/// The module itself, and `Edit`.
pub mod internal;
