//! The cures of `docs/JOB.md`: for each number but 16 a job that it refuses, and
//! the same job cured, which is answered to its end.

mod common;

use common::{encoded, numbers};
use parallel_moves::Resolver;

/// Swap-full's target.
const THREE: &str = "3 1 3 0 1 3 0 0 1 0 0 0 1 1 0 0 1 2 2 0 1 3 0 1 2 3 0 1 2 0 0 3 0 1 2 3 0 1 2";
/// Two values that cannot be rebuilt, N = 1, L = 1.
const PLAIN: &str = "2 1 1 0 0 0 0";
/// Value 0 is rebuilt by the stack class, at the cost 2.
const REMAT: &str = "2 1 1 0 2 1 0 0";
/// Two banks of one register each, and their four classes.
const TWO_BANKS: &str =
    "2 2 3 0 1 3 2 3 2 0 0 1 0 0 1 1 1 4 0 1 1 0 1 0 0 0 1 0 1 0 1 1 1 1 1 1 1 0 1 1 1 1";
/// Pairs: r0 and r1 share unit 1. A class follows that value 0 is rebuilt by.
const PAIRS: &str =
    "5 1 4 0 1 3 0 0 2 0 1 0 0 2 1 2 0 0 2 3 4 3 0 1 3 0 1 2 3 0 1 2 0 0 3 0 1 2 3 0 1 2";
/// r0 to r2 of one unit each, r3 on units 0 and 1 and r4 on 2 and 3; value 0 for
/// the single ones, value 1 for the pairs; N = 1.
const HALVES: &str = "4 2 2 0 1 3 2 3 5 0 0 1 0 0 0 1 1 0 0 1 2 0 1 2 0 1 0 1 2 2 3 \
     4 0 1 3 0 1 2 3 0 1 2 0 0 3 0 1 2 3 0 1 2 1 1 2 3 4 2 3 4 1 0 2 3 4 2 3 4 \
     2 1 1 0 0 1 0";
/// A rebuild of value 0, cost 2 by class 2, into r1.
const INTO_R1: &str = "1 0 1 0 2 2 1 0 1 1 3 0";

/// The number that a job is refused by with so many kept evictions, or 0.
fn refusal_with(kept_evictions: u32, job: &[u8]) -> u8 {
    let answer = Resolver::new().answer(kept_evictions, job);
    answer.map_or_else(|refused| refused.refusal().number(), |_| 0)
}

fn refusal(job: &[u8]) -> u8 {
    refusal_with(1, job)
}

/// A job of parts, each in numbers.
fn job(parts: &[&str]) -> Vec<u8> {
    encoded(parts.iter().flat_map(|part| numbers(part)))
}

fn check(number: u8, refused: &[&str], cured: &[&[&str]]) {
    assert_eq!(refusal(&job(refused)), number);
    assert!(!cured.is_empty());
    for cured in cured {
        assert_eq!(refusal(&job(cured)), 0, "{number}: {cured:?}");
    }
}

#[test]
fn numbers_and_lists() {
    // A count promises more than follows.
    let one = "0 1 0 1 3 0";
    check(
        1,
        &[THREE, PLAIN, "1 0 2 0 1 3 0"],
        &[&[THREE, PLAIN, "1", one]],
    );
    // Not the shortest form.
    let cured = job(&[THREE, PLAIN, "1", one]);
    assert_eq!(refusal(&[&[131, 0], &cured[1..]].concat()), 1);
    assert_eq!(refusal(&[]), 1);
    // Slot 0 with N = 0.
    let to_slot = "1 0 1 0 1 0 0";
    check(
        2,
        &[THREE, "2 0 1 0 0 0 0", to_slot],
        &[&[THREE, PLAIN, to_slot]],
    );
    // Free units.
    check(
        3,
        &[THREE, PLAIN, "1 2 2 0 0"],
        &[&[THREE, PLAIN, "1 2 0 2 0"]],
    );
    // The patch count is too low.
    check(
        8,
        &[THREE, PLAIN, "1", one, one],
        &[&[THREE, PLAIN, "2", one, one]],
    );
}

#[test]
fn targets() {
    let rest = "0 0 0 1 0 0";
    // r1 has two units and is no memory register; then it has a bank of its own.
    check(
        4,
        &[
            "3 1 3 0 1 2 0 0 1 0 0 0 2 1 2 2 0 1 2 0 1 2 0 1 0 0 2 0 1 2 0 1",
            rest,
        ],
        &[&[
            "3 2 3 0 1 4 2 3 2 0 0 1 0 0 1 2 1 2 4 0 1 1 0 1 0 0 0 1 0 1 0 1 1 1 1 1 1 1 0 1 1 1 1",
            rest,
        ]],
    );
    // A memory register of two units beside a pair; then of one.
    check(
        4,
        &[
            "4 1 3 0 1 2 0 0 2 0 1 1 0 2 2 3 2 0 1 2 0 1 2 1 0 0 0 1 0 1 0",
            rest,
        ],
        &[&[
            "3 1 3 0 1 2 0 0 2 0 1 1 0 1 2 2 0 1 2 0 1 2 1 0 0 0 1 0 1 0",
            rest,
        ]],
    );
    // An order entry that is no member.
    check(
        5,
        &[
            "2 1 3 0 1 2 0 0 1 0 0 0 1 1 2 0 1 2 0 1 2 0 1 0 0 1 0 2 0 1",
            rest,
        ],
        &[&[
            "2 1 3 0 1 2 0 0 1 0 0 0 1 1 2 0 1 2 0 1 2 0 1 0 0 2 0 1 2 0 1",
            rest,
        ]],
    );
    // Memory register r1 on unit 0; then on unit 1.
    check(
        6,
        &[
            "2 1 3 0 1 2 0 0 1 0 1 0 1 0 2 0 1 2 0 1 1 0 0 0 1 0 1 0",
            rest,
        ],
        &[&[
            "2 1 3 0 1 2 0 0 1 0 1 0 1 1 2 0 1 2 0 1 1 0 0 0 1 0 1 0",
            rest,
        ]],
    );
    // The stack class's order ends in memory.
    check(
        7,
        &[
            "2 1 3 0 1 2 0 0 1 0 1 0 1 1 2 0 1 2 0 1 1 0 0 0 2 0 1 2 0 1",
            rest,
        ],
        &[&[
            "2 1 3 0 1 2 0 0 1 0 1 0 1 1 2 0 1 2 0 1 1 0 0 0 2 0 1 1 0",
            rest,
        ]],
    );
}

#[test]
fn entries() {
    // Value 0 of bank 0 into r1 of bank 1; then into a slot.
    check(
        9,
        &[TWO_BANKS, "1 1 1 0 0", "1 0 1 0 1 3 0"],
        &[&[TWO_BANKS, "1 1 1 0 0", "1 0 1 0 1 0 0"]],
    );
    // A rebuild class of another bank.
    check(
        9,
        &[TWO_BANKS, "1 1 1 0 2 3", "1 0 0"],
        &[&[TWO_BANKS, "1 1 1 0 2 1", "1 0 0"]],
    );
    // Left out.
    check(
        10,
        &[THREE, PLAIN, "1 0 2 0 1 1 0 0 3 5 1"],
        &[&[THREE, PLAIN, "1 0 1 0 3 5 1"]],
    );
    // A move from where it lies, or a value that can be rebuilt.
    let remat = "1 0 1 1 3 0";
    check(
        11,
        &[THREE, PLAIN, remat],
        &[&[THREE, PLAIN, "1 0 1 0 1 3 0"], &[THREE, REMAT, remat]],
    );
    // Two values into r1; then one of them into r2.
    check(
        12,
        &[THREE, PLAIN, "1 0 2 0 1 3 0 0 5 3 1"],
        &[&[THREE, PLAIN, "1 0 2 0 1 3 0 0 3 5 1"]],
    );
    // A rebuild twice, and twice a move that becomes one; then once.
    check(
        12,
        &[THREE, REMAT, "1 0 2 1 3 0 1 3 0"],
        &[&[THREE, REMAT, remat]],
    );
    check(
        12,
        &[THREE, REMAT, "1 0 2 0 0 3 0 0 0 3 0"],
        &[&[THREE, REMAT, "1 0 1 0 0 3 0"]],
    );
}

/// A pair and its half as sources.
#[test]
fn sources() {
    // r3 to r4 and r0 to r1, which r3 has; then in two patches, the pair's first,
    // or by way of slot 0.
    check(
        21,
        &[HALVES, "1 0 2 0 7 9 1 0 1 3 0"],
        &[
            &[HALVES, "2 0 1 0 7 9 1 0 1 0 1 3 0"],
            &[HALVES, "2 0 1 0 1 0 0 0 2 0 7 9 1 0 0 3 0"],
        ],
    );
    // The half before the pair; then the value lies in r2.
    check(
        21,
        &[HALVES, "1 0 2 0 1 3 0 0 7 9 1"],
        &[&[HALVES, "1 0 2 0 5 3 0 0 7 9 1"]],
    );
}

#[test]
fn patches() {
    let swap = "2 0 1 3 0 0 3 1 1";
    // Units 1 and 2; then without r1's.
    check(
        13,
        &[THREE, PLAIN, "1 2 1 2", swap],
        &[&[THREE, PLAIN, "1 1 2", swap]],
    );
    // The order ends in r0; then in r2, or r1 is a member, or slots are included.
    check(
        14,
        &[PAIRS, "0 0 2 0 2 2 2 0", INTO_R1],
        &[
            &[PAIRS, "0 0 2 0 2 2 0 2", INTO_R1],
            &[PAIRS, "0 0 3 0 1 2 2 2 0", INTO_R1],
            &[PAIRS, "0 1 2 0 2 2 2 0", INTO_R1],
        ],
    );
    // One move 129 times; then once.
    let many = "0 1 3 0 ".repeat(129);
    check(
        15,
        &[THREE, PLAIN, "1 0 129", &many],
        &[&[THREE, PLAIN, "1 0 1 0 1 3 0"]],
    );
    // L = 0; then 1, or unit 2 is free.
    check(
        17,
        &[THREE, "2 0 0 0 0 0 0 1 0", swap],
        &[
            &[THREE, "2 0 1 0 0 0 0 1 0", swap],
            &[THREE, "2 0 0 0 0 0 0 1 1 2", swap],
        ],
    );
}

/// 22: the setting is 1 or 2, whatever the job. And what two kept evictions need a
/// second slot for, one does with one.
#[test]
fn settings() {
    let swap = job(&[THREE, PLAIN, "1 0 2 0 1 3 0 0 3 1 1"]);
    for setting in [0, 3, 22, 257, 65_538, u32::MAX] {
        assert_eq!(refusal_with(setting, &swap), 22);
        assert_eq!(refusal_with(setting, &[]), 22);
    }
    assert_eq!(refusal_with(1, &swap), 0);
    assert_eq!(refusal_with(2, &swap), 0);
    let values = |limit| format!("2 4 {limit} 0 0 1 0");
    let slots = "1 0 2 0 0 2 0 0 4 6 1";
    let [less, more] = ["1", "2"].map(|limit| job(&[TWO_BANKS, &values(limit), slots]));
    assert_eq!(refusal_with(2, &less), 17);
    assert_eq!(refusal_with(1, &less), 0);
    assert_eq!(refusal_with(2, &more), 0);
}
