//! Stands in for ours where the static library is to be done without: the same
//! functions, with the rules written a second time behind them, and faults that must
//! be found. Without one it is those rules that are held against the original, at
//! setting 1.
//!
//! The environment's `STUB_FAULT` names the fault, if there is to be one.

#[path = "stub/answers.rs"]
mod answers;
#[path = "stub/calls.rs"]
mod calls;
#[path = "stub/faults.rs"]
mod faults;
#[path = "stub/prices.rs"]
mod prices;
#[path = "stub/trying.rs"]
mod trying;
#[path = "stub/writing.rs"]
mod writing;
