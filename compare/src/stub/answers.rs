//! Whole jobs answered, as words and as text.

use std::slice;

use judge::number::Reader;
use judge::target::{Register, Target};
use judge::{answer, words};

use crate::faults::{fault, judge};

/// The words and the refusal of a text, with the positions of its patches.
pub(super) fn words_of(text: &str, positions: &[usize]) -> (Vec<u64>, u8) {
    let mut words = Vec::new();
    let mut refusal = 0;
    let mut positions = positions.iter().map(|&position| position as u64);
    for line in text.lines() {
        let parts: Vec<&str> = line.split(' ').collect();
        let word = match parts[..] {
            ["patch", _, "edits", count, "made", made] => {
                let position = positions.next().unwrap_or(0);
                ((position * 65_536 + number(made)) * 65_536 + number(count)) * 8
            }
            ["M", to, from, value] => edit(1, code(to), code(from), number(value)),
            ["R", to, value] => edit(2, code(to), 0, number(value)),
            ["S", to, from] => edit(3, code(to), code(from), 0),
            ["L", to, from] => edit(4, code(to), code(from), 0),
            ["refused", word] => {
                refusal = number(word) as u8;
                continue;
            }
            _ => continue,
        };
        words.push(word);
    }
    (words, refusal)
}

fn number(word: &str) -> u64 {
    word.parse().unwrap_or(0)
}

fn code(place: &str) -> u64 {
    let (letter, index) = place.split_at(1);
    2 * number(index) + u64::from(letter == "r")
}

fn edit(kind: u64, to: u64, from: u64, value: u64) -> u64 {
    ((value * 16_384 + from) * 16_384 + to) * 8 + kind
}

/// Puts the fault in, if the answer is one to have it.
fn spoil(words: &mut Vec<u64>, refusal: &mut u8) {
    match (fault(), *refusal) {
        ("number", 13) => *refusal = 12,
        ("accepted", 8) | ("sources", 21) => *refusal = 0,
        _ => {}
    }
    let mut at = 0;
    let mut patch = 0;
    while at < words.len() {
        let count = (words[at] / 8 % 65_536) as usize;
        match fault() {
            "order" if count >= 4 => words.swap(at + 2, at + 3),
            "place" => {
                for word in &mut words[at + 1..=at + count] {
                    if *word % 8 == 1 && *word / 8 % 16_384 == 6 {
                        *word -= 4 * 8;
                    }
                }
            }
            "made" if patch > 0 => words[at] += 8 * 65_536,
            "position" if words[at] >> 35 >= 2 => words[at] += 1 << 35,
            "patch" if patch == 4 && at + 1 + count == words.len() => words.truncate(at),
            "words" => {
                for word in &mut words[at + 1..=at + count] {
                    if *word % 8 == 2 {
                        *word += 16_384 * 8;
                    }
                }
            }
            _ => {}
        }
        at += 1 + count;
        patch += 1;
    }
}

/// Whether those registers of a target that are such are as wide as the others of
/// their bank that are.
fn one_width(target: &Target, such: impl Fn(&Register) -> bool) -> bool {
    let differ = |a: &Register, b: &Register| a.bank == b.bank && a.units.len() != b.units.len();
    let such: Vec<&Register> = target.registers.iter().filter(|r| such(r)).collect();
    !such.iter().any(|a| such.iter().any(|b| differ(a, b)))
}

/// Another number than 4, or 4 for none, if the fault is one in the test of the
/// target and the job has such registers.
fn misjudge(job: &[u8], words: &mut Vec<u64>, refusal: &mut u8) {
    let target = Target::read_untested(&mut Reader::new(job));
    let (Ok(target), ..=answer::MOST_BYTES) = (target, job.len()) else {
        return;
    };
    match (fault(), *refusal) {
        ("one-width", _) if !one_width(&target, |_| true) => {
            words.clear();
            *refusal = 4;
        }
        ("wide-memory", 4) if one_width(&target, |r| !r.memory) => *refusal = 0,
        _ => {}
    }
}

/// How many words the patches have that there is room for.
fn whole_patches(words: &[u64], room: usize) -> usize {
    let mut at = 0;
    while at < words.len() {
        let next = at + 1 + (words[at] / 8 % 65_536) as usize;
        if next > room {
            break;
        }
        at = next;
    }
    at
}

/// # Safety
/// As the library's.
#[unsafe(export_name = "parallel_moves_answer_5")]
pub unsafe extern "C" fn parallel_moves_answer(
    kept_evictions: u32,
    job: *const u8,
    job_len: usize,
    words: *mut u64,
    words_len: usize,
    refusal: *mut u8,
    _target: *mut u16,
    _function: *mut u16,
    _cache: *mut u16,
    _free_units: *mut u8,
    _entries: *mut u16,
    _writers: *mut u16,
    _available: *mut u8,
    _sources: *mut u8,
    _edits: *mut u64,
    _slots: *mut u16,
    _diverted: *mut u16,
    _marks: *mut u8,
    _carried: *mut u16,
) -> usize {
    let job = unsafe { slice::from_raw_parts(job, job_len) };
    let answer = answer::answer(judge(kept_evictions), job);
    let (mut found, mut number) = words_of(&answer.text, &answer.positions);
    if number == 22 && fault() == "setting-last" {
        let late = answer::answer(judge(1), job);
        let refused = late.positions.is_empty() && late.text.starts_with("refused");
        number = if refused {
            words_of(&late.text, &[]).1
        } else {
            22
        };
    }
    spoil(&mut found, &mut number);
    if number != 22 {
        misjudge(job, &mut found, &mut number);
    }
    if fault() != "little-room" {
        let whole = whole_patches(&found, words_len);
        if whole < found.len() {
            number = 16;
            found.truncate(whole);
        }
    }
    let lent = unsafe { slice::from_raw_parts_mut(words, words_len) };
    found.truncate(words_len);
    lent[..found.len()].copy_from_slice(&found);
    unsafe { *refusal = number };
    found.len()
}

/// # Safety
/// As the library's.
#[unsafe(export_name = "parallel_moves_text_5")]
pub unsafe extern "C" fn parallel_moves_text(
    words: *const u64,
    words_len: usize,
    refusal: u8,
    text: *mut u8,
    text_len: usize,
) -> usize {
    let mut words = unsafe { slice::from_raw_parts(words, words_len) }.to_vec();
    if fault() == "words" {
        for word in &mut words {
            if *word % 8 == 2 {
                *word -= 16_384 * 8;
            }
        }
    }
    let mut found = words::answer(&words, refusal).map_or_else(|_| String::new(), |a| a.text);
    if fault() == "text" {
        found = found.replace("R s", "R r");
    }
    if found.len() > text_len {
        return 0;
    }
    let lent = unsafe { slice::from_raw_parts_mut(text, text_len) };
    lent[..found.len()].copy_from_slice(found.as_bytes());
    found.len()
}
