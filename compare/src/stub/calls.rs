//! Functions opened, planned for, and resolved patch by patch.

use std::collections::HashMap;
use std::slice;
use std::sync::{Mutex, OnceLock};

use judge::answer::Judge;
use judge::calls::{Call, Function, Room, Session};
use judge::enough::{Miscount, miscounted};
use judge::number::Refused;
use judge::plain::Slip;

use crate::faults::{fault, judge};

/// The functions that are open, by the table of the target.
fn opened() -> &'static Mutex<HashMap<usize, Session<'static>>> {
    static OPENED: OnceLock<Mutex<HashMap<usize, Session<'static>>>> = OnceLock::new();
    OPENED.get_or_init(Mutex::default)
}

/// # Safety
/// As the library's.
#[unsafe(export_name = "parallel_moves_open_5")]
pub unsafe extern "C" fn parallel_moves_open(
    kept_evictions: u32,
    bytes: *const u8,
    bytes_len: usize,
    target: *mut u16,
    _function: *mut u16,
    cache: *mut u16,
) -> u8 {
    let mut bytes = unsafe { slice::from_raw_parts(bytes, bytes_len) };
    let mut judge = judge(kept_evictions);
    if fault() == "open-bytes" && judge.is_err() {
        judge = Judge::plain(1, Slip::None);
        if Function::open(judge, bytes).is_ok() {
            return 22;
        }
    }
    let function = loop {
        match Function::open(judge, bytes) {
            Ok(function) => break function,
            Err(refused) if refused.0 == 8 && fault() == "open" => {
                bytes = &bytes[..bytes.len() - 1]
            }
            Err(refused) => return refused.0,
        }
    };
    let session = Session::new(Box::leak(Box::new(function)));
    opened().lock().unwrap().insert(target as usize, session);
    unsafe { *cache = 0 };
    0
}

/// # Safety
/// As the library's.
#[unsafe(export_name = "parallel_moves_enough_slots_5")]
pub unsafe extern "C" fn parallel_moves_enough_slots(
    kept_evictions: u32,
    bytes: *const u8,
    bytes_len: usize,
    refusal: *mut u8,
    _target: *mut u16,
    _function: *mut u16,
) -> u16 {
    let bytes = unsafe { slice::from_raw_parts(bytes, bytes_len) };
    let miscount = match fault() {
        "enough-banks" => Miscount::Banks,
        "all-sizes" => Miscount::Target,
        "enough-kept" => Miscount::OneKept,
        _ => Miscount::None,
    };
    let mut found = miscounted(kept_evictions, bytes, miscount);
    match (fault(), found) {
        ("enough-bytes", Err(Refused(22))) => {
            found = miscounted(1, bytes, miscount).and(found);
        }
        ("enough-over", Err(Refused(8))) => {
            let ends = (0..bytes.len()).rev();
            let mut parts = ends.map(|end| miscounted(kept_evictions, &bytes[..end], miscount));
            found = parts.find(Result::is_ok).unwrap_or(found);
        }
        _ => {}
    }
    unsafe { *refusal = found.map_or_else(|refused| refused.0, |_| 0) };
    found.map_or(0, |enough| enough as u16)
}

/// Whether two moves of a call have equal sources and other values.
fn has_equal_sources(call: &Call) -> bool {
    let moves: Vec<&[u32]> = call.numbers.chunks(4).filter(|e| e[0] == 0).collect();
    let equal = |a: &[u32], b: &[u32]| a[1] == b[1] && a[3] != b[3];
    moves.iter().any(|a| moves.iter().any(|b| equal(a, b)))
}

/// Whether a call that is refused by 21 is so for an entry and the one before.
fn overlaps_the_last(session: &Session<'_>, call: &Call) -> bool {
    let refused = |numbers: &[u32]| {
        let part = Call {
            numbers: numbers.to_vec(),
            ..call.clone()
        };
        matches!(session.read(&part), Err(refused) if refused.0 == 21)
    };
    let end = (8..=call.numbers.len()).find(|&end| refused(&call.numbers[..end]));
    end.is_some_and(|end| refused(&call.numbers[end - 8..end]))
}

/// # Safety
/// As the library's.
#[unsafe(export_name = "parallel_moves_resolve_5")]
pub unsafe extern "C" fn parallel_moves_resolve(
    target: *const u16,
    _function: *const u16,
    free_units: *const u32,
    free_units_len: usize,
    numbers: *const u32,
    numbers_len: usize,
    cache: *mut u16,
    list: *mut u64,
    list_len: usize,
    refusal: *mut u8,
    position: *mut u16,
    _entries: *mut u16,
    _writers: *mut u16,
    _available: *mut u8,
    _sources: *mut u8,
    _edits: *mut u64,
    _slots: *mut u16,
    _diverted: *mut u16,
    _marks: *mut u8,
    _carried: *mut u16,
) -> usize {
    let call = Call {
        free: unsafe { slice::from_raw_parts(free_units, free_units_len) }.to_vec(),
        numbers: unsafe { slice::from_raw_parts(numbers, numbers_len) }.to_vec(),
        room: Room::Exact(list_len),
    };
    let mut all = opened().lock().unwrap();
    let session = all.get_mut(&(target as usize)).expect("a function is open");
    let mut expected = session.call(&call);
    match (fault(), &expected.outcome) {
        ("call-equal", Ok(_)) if has_equal_sources(&call) => expected.outcome = Err(Refused(21)),
        ("call-last", Err(Refused(21))) if !overlaps_the_last(session, &call) => {
            expected.outcome = Ok(Vec::new());
        }
        _ => {}
    }
    let lent = unsafe { slice::from_raw_parts_mut(list, list_len) };
    match expected.outcome {
        Ok(mut edits) => {
            let count = edits.len();
            match fault() {
                "call-order" if count >= 4 => edits.swap(count - 2, count - 1),
                "call-past" if count + 1 < list_len => lent[count + 1] ^= 1,
                _ => {}
            }
            lent[..count].copy_from_slice(&edits);
            let met = match (fault(), expected.position as u16) {
                ("call-met", met) if met >= 2 => met + 1,
                (_, met) => met,
            };
            unsafe {
                *refusal = 0;
                *position = met;
                *cache = expected.made as u16;
            }
            count
        }
        Err(refused) => {
            match (fault(), refused.0) {
                ("call-list", 17) if list_len > 0 => lent[list_len - 1] = 0,
                ("call-cache", 13) => unsafe { *cache.add(65_599) ^= 1 },
                ("call-told", 17) => unsafe { *position = 0 },
                _ => {}
            }
            let number = match (fault(), refused.0) {
                ("call-number", 13) => 12,
                (_, number) => number,
            };
            unsafe { *refusal = number };
            0
        }
    }
}

/// # Safety
/// As the library's.
#[unsafe(export_name = "parallel_moves_made_5")]
pub unsafe extern "C" fn parallel_moves_made(cache: *const u16) -> u16 {
    let made = unsafe { *cache };
    if fault() == "call-made" && made > 0 {
        made + 1
    } else {
        made
    }
}
