//! Jobs written from their numbers.

use std::slice;

use judge::{answer, reading};

use crate::answers::words_of;
use crate::faults::fault;

/// The number that a job is refused by when it is written, or 0, before 18.
fn write_number(bytes: &[u8]) -> u8 {
    let read = |bytes: &[u8]| reading::read(bytes).map_or_else(|refused| refused.0, |_| 0);
    let number = read(bytes);
    match (fault(), number) {
        ("write-over", _) if bytes.len() == answer::MOST_BYTES => 2,
        // What follows the first 65,536 bytes does not matter for these.
        ("write-length", 2) if bytes.len() > answer::MOST_BYTES => {
            match read(&bytes[..answer::MOST_BYTES]) {
                0 | 1 | 8 => 2,
                number => number,
            }
        }
        ("write-17", _) => match words_of(&answer::text(1, bytes), &[]) {
            (_, 17) => 17,
            _ => number,
        },
        ("write-12", 13) => 12,
        ("write-21", 21) | ("write-left", 8) => 0,
        _ => number,
    }
}

/// # Safety
/// As the library's.
#[unsafe(export_name = "parallel_moves_write_5")]
pub unsafe extern "C" fn parallel_moves_write(
    numbers: *const u32,
    numbers_len: usize,
    bytes: *mut u8,
    bytes_len: usize,
    refusal: *mut u8,
    _work: *mut u8,
    _target: *mut u16,
    _function: *mut u16,
    _available: *mut u8,
    _entries: *mut u16,
    _writers: *mut u16,
) -> usize {
    let numbers = unsafe { slice::from_raw_parts(numbers, numbers_len) };
    let lent = unsafe { slice::from_raw_parts_mut(bytes, bytes_len) };
    let job = reading::bytes(numbers);
    let mut number = write_number(&job);
    if job.len() > bytes_len && (number == 0 || fault() == "write-18") {
        number = 18;
    }
    unsafe { *refusal = number };
    if number != 0 {
        if (fault(), number) == ("write-copied", 18) {
            lent.copy_from_slice(&job[..bytes_len]);
        }
        return 0;
    }
    lent[..job.len()].copy_from_slice(&job);
    if fault() == "write-past" && job.len() < bytes_len {
        lent[job.len()] = 0;
    }
    job.len()
}
