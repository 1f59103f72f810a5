//! Both settings tried on drawn patches.

use std::slice;

use judge::number::{NOT_A_NUMBER, Refused};
use judge::reading::beginning;
use judge::tries;

use crate::faults::fault;

/// # Safety
/// As the library's.
#[unsafe(export_name = "parallel_moves_try_5")]
pub unsafe extern "C" fn parallel_moves_try(
    job: *const u8,
    job_len: usize,
    prices: &[u32; 4],
    seed: u32,
    patches: u32,
    one: &mut [u64; 263],
    two: &mut [u64; 263],
    _target: *mut u16,
    _function: *mut u16,
    _cache: *mut u16,
    _entries: *mut u16,
    _writers: *mut u16,
    _available: *mut u8,
    _sources: *mut u8,
    _edits: *mut u64,
    _slots: *mut u16,
    _diverted: *mut u16,
    _marks: *mut u8,
    _carried: *mut u16,
) -> u8 {
    let mut job = unsafe { slice::from_raw_parts(job, job_len) };
    let function = beginning(job);
    let is_alone = function == Some(job);
    if fault() == "try-unread" {
        job = function.unwrap_or(job);
    }
    let asked = tries::Asked {
        seed: seed.into(),
        patches: patches.into(),
        prices: prices.map(u64::from),
    };
    let mut tried = tries::tried(asked, job).map(|tried| tried.counts);
    if fault() == "try-alone" && is_alone && tried.is_ok() {
        tried = Err(NOT_A_NUMBER);
    }
    let one_patch = tries::Asked {
        patches: 1,
        ..asked
    };
    let late = match (fault(), &tried) {
        ("try-price", Err(Refused(19))) => tries::Asked {
            prices: [0; 4],
            ..asked
        },
        _ => one_patch,
    };
    let is_late = match fault() {
        "try-price" => matches!(tried, Err(Refused(19))),
        "try-patches" => !(1..=1024).contains(&patches),
        _ => false,
    };
    if is_late && let Err(refused) = tries::tried(late, job) {
        tried = Err(refused);
    }
    let counts = match tried {
        Ok(counts) => counts,
        Err(refused) => {
            if fault() == "try-set" {
                one.fill(0);
            }
            return refused.0;
        }
    };
    for (index, tally) in [one, two].into_iter().enumerate() {
        let index = if fault() == "try-second" { 0 } else { index };
        let counts = &counts[index];
        tally[0] = counts.accepted;
        tally[1..5].copy_from_slice(&counts.edits);
        tally[5] = counts.evictions;
        tally[6] = counts.price;
        tally[7..].copy_from_slice(&counts.refusals);
        if fault() == "try-number" {
            tally[7 + 12] += tally[7 + 21];
            tally[7 + 21] = 0;
        }
    }
    0
}
