//! The L that frame layout should plan with (request 02 j), by a reading of our own:
//! "129 times the number of different slot sizes among its banks", and with two kept
//! evictions "130 stands for 129". A function's banks are those of its values.

use std::collections::BTreeSet;

use original::function::{Function as _, Value};

use crate::answer::Judge;
use crate::calls::Function;
use crate::number::Refused;

/// What is counted otherwise on purpose, to see that it is found.
#[derive(Clone, Copy, Debug, Default, PartialEq, Eq)]
pub enum Miscount {
    #[default]
    None,
    /// Banks of one size count each.
    Banks,
    /// The sizes of all banks of the target count.
    Target,
    /// 129 stands for 130.
    OneKept,
}

/// The L to plan with for the function that the bytes are, with its target and any L;
/// or what they are refused by, 22 first.
pub fn enough_slots(kept_evictions: u32, bytes: &[u8]) -> Result<usize, Refused> {
    miscounted(kept_evictions, bytes, Miscount::None)
}

/// The same, at times counted otherwise.
pub fn miscounted(
    kept_evictions: u32,
    bytes: &[u8],
    miscount: Miscount,
) -> Result<usize, Refused> {
    let Function { target, values, .. } = Function::open(Judge::of(kept_evictions), bytes)?;
    let mut banks: BTreeSet<usize> = (0..values.num_values())
        .map(|value| values.value_bank(Value::new(value)).index())
        .collect();
    if miscount == Miscount::Target {
        banks = (0..target.banks.len()).collect();
    }
    let sizes: BTreeSet<u32> = banks.iter().map(|&b| target.banks[b].size_log2).collect();
    let count = match miscount {
        Miscount::Banks => banks.len(),
        _ => sizes.len(),
    };
    let for_each = match (kept_evictions, miscount) {
        (1, _) | (_, Miscount::OneKept) => 129,
        _ => 130,
    };
    Ok(for_each * count)
}
