//! Both settings tried on drawn patches.

mod common;

use common::{encoded, jobs, numbers};
use parallel_moves::{JobBuilder, Prices, Refusal, Tally, try_settings, write};

const PRICES: Prices = Prices {
    moves: 4,
    remats: 6,
    spills: 16,
    reloads: 12,
};

/// Three banks, the last of wider registers, with N = 29, or another, and L = 2.
fn three_banks(slots: u32) -> Vec<u8> {
    let target = "10 3 3 0 1 3 2 3 4 4 5
        9 0 0 1 0 0 0 1 1 0 0 1 2 0 1 1 3 0 1 1 4 0 1 1 5 0 2 2 6 7 0 2 2 7 8 0 2 2 8 9
        7 0 1 3 0 1 2 3 0 1 2 0 0 3 0 1 2 3 0 1 2 1 1 3 3 4 5 3 3 4 5 1 0 3 3 4 5 3 3 4 5
        2 1 3 6 7 8 3 6 7 8 2 0 3 6 7 8 3 6 7 8 2 0 2 6 7 2 6 7";
    let function = format!("5 {slots} 2 0 0 1 0 2 0 2 2 6 0 1 0");
    let patch = "1 0 0";
    encoded([target, &function, patch].into_iter().flat_map(numbers))
}

fn swap_full() -> Vec<u8> {
    let found = jobs("examples")
        .into_iter()
        .find(|(name, _)| name == "swap-full");
    found.unwrap().1
}

/// Accepted, M, R, S, L and price, then refusals by number.
fn is(tally: &Tally, counts: [u64; 6], refusals: &[(u8, u64)]) {
    let [accepted, moves, remats, spills, reloads, price] = counts;
    let Tally {
        accepted: a,
        moves: m,
        remats: r,
        spills: s,
        reloads: l,
        evictions,
        price: p,
        refusals: refused,
    } = tally;
    assert_eq!([*a, *m, *r, *s, *l, *p], counts);
    assert_eq!(*evictions, reloads);
    let given: Vec<(u8, u64)> = refused
        .iter()
        .map(|(r, count)| (r.number(), count))
        .collect();
    assert_eq!(given, refusals);
    let all: u64 = refusals.iter().map(|(_, count)| count).sum();
    assert_eq!(tally.drawn(), accepted + all);
    assert_eq!(price, 4 * moves + 6 * remats + 16 * spills + 12 * reloads);
}

#[test]
fn three_banks_from_seed_7() {
    let [one, two] = try_settings(&three_banks(29), PRICES, 7, 300).unwrap();
    is(&one, [291, 2042, 489, 387, 387, 21_938], &[(9, 1267)]);
    is(
        &two,
        [184, 1275, 234, 191, 191, 11_852],
        &[(9, 1555), (17, 158)],
    );
    assert_eq!(two.refused(Refusal::OutOfSlots), 158);
    assert_eq!(two.refused(Refusal::SelfMove), 0);
}

#[test]
fn three_banks_from_seed_1() {
    let [one, two] = try_settings(&three_banks(29), PRICES, 1, 300).unwrap();
    is(&one, [157, 954, 199, 173, 173, 9_854], &[(9, 1909)]);
    is(
        &two,
        [147, 875, 199, 139, 139, 8_586],
        &[(9, 1947), (17, 12)],
    );
}

/// Without 21 there would be 28 accepted.
#[test]
fn overlapping_sources_are_refused() {
    let [one, two] = try_settings(&three_banks(13), PRICES, 7, 300).unwrap();
    is(&one, [9, 15, 36, 0, 0, 276], &[(9, 2636), (21, 19)]);
    assert_eq!(one, two);
}

/// One patch of ten entries, of which the first is a move from r2 to r2; it is drawn to its
/// end, and the next one, `M r0 r1 1`, is accepted.
#[test]
fn drawn_whole() {
    let [one, two] = try_settings(&swap_full(), PRICES, 0, 1).unwrap();
    is(&one, [1, 1, 0, 0, 0, 4], &[(10, 1)]);
    assert_eq!(one, two);
    let [one, two] = try_settings(&swap_full(), PRICES, 0, 1024).unwrap();
    is(&one, [1, 1, 0, 0, 0, 4], &[(10, 7547), (12, 1661)]);
    assert_eq!(one, two);
}

/// All counts are 0 without values, and nothing is drawn.
#[test]
fn without_values() {
    let job = encoded(numbers(
        "3 1 3 0 1 3 0 0 1 0 0 0 1 1 0 0 1 2 2 0 1 3 0 1 2 3 0 1 2 0 0 3 0 1 2 3 0 1 2 0 5 1 1 0 0",
    ));
    let [one, two] = try_settings(&job, PRICES, 7, 1024).unwrap();
    is(&one, [0; 6], &[]);
    assert_eq!(one, two);
    assert_eq!(one.drawn(), 0);
}

/// 2 for the patch count comes first; 19 after 7 and before the function's first number.
#[test]
fn refusals() {
    let refusal = |job: &[u8], prices, patches| {
        let refused = try_settings(job, prices, 7, patches);
        refused.map_or_else(Refusal::number, |_| 0)
    };
    let too_dear = Prices {
        reloads: 65_536,
        ..PRICES
    };
    let dearest = Prices {
        moves: 65_535,
        remats: 65_535,
        spills: 65_535,
        reloads: 65_535,
    };
    let job = swap_full();
    for patches in [0, 1025, 65_536, u32::MAX] {
        assert_eq!(refusal(&job, PRICES, patches), 2);
        assert_eq!(refusal(&[], too_dear, patches), 2);
    }
    assert_eq!(refusal(&[], too_dear, 1), 1);
    assert_eq!(refusal(&job, too_dear, 1), 19);
    assert_eq!(refusal(&job, dearest, 1024), 0);
    // Its target, its function and what follows them.
    let (target, function) = (&job[..39], &job[..46]);
    assert_eq!(refusal(target, too_dear, 1), 19);
    assert_eq!(refusal(target, dearest, 1), 1);
    assert_eq!(refusal(&job[..38], too_dear, 1), 1);
    assert_eq!(refusal(&job[..45], dearest, 1), 1);
    assert_eq!(refusal(function, too_dear, 1), 19);
    assert_eq!(refusal(function, dearest, 1), 0);
    assert_eq!(refusal(&job[..47], dearest, 1), 1);
    // A top-level class without slots.
    let mut unfit = job.clone();
    assert_eq!(unfit[20], 1);
    unfit[20] = 0;
    assert_eq!(refusal(&unfit, PRICES, 1), 7);
    assert_eq!(refusal(&unfit, too_dear, 1), 7);
    // A bank that there is not, of the first value.
    let mut nowhere = job.clone();
    nowhere[42] = 9;
    assert_eq!(refusal(&nowhere, PRICES, 1), 2);
    assert_eq!(refusal(&nowhere, too_dear, 1), 19);
    // Each price has its range.
    for index in 0..4 {
        let mut prices = [0; 4];
        prices[index] = 65_536;
        let [moves, remats, spills, reloads] = prices;
        let prices = Prices {
            moves,
            remats,
            spills,
            reloads,
        };
        assert_eq!(refusal(&job, prices, 1), 19);
    }
}

/// A target and a function alone are tried as a whole job of them is, whatever its patches.
#[test]
fn function_alone() {
    let job = swap_full();
    let whole = try_settings(&job, PRICES, 3, 50).unwrap();
    let empty = [1, 0, 0];
    for behind in [&[][..], &empty, &[&[2, 0, 0][..], &job[47..]].concat()] {
        let job = [&job[..46], behind].concat();
        assert_eq!(try_settings(&job, PRICES, 3, 50).as_ref(), Ok(&whole));
    }
    for slots in [13, 29] {
        // Behind the function one patch without entries.
        let job = three_banks(slots);
        let (function, patch) = job.split_at(job.len() - 3);
        assert_eq!(patch, empty);
        let whole = try_settings(&job, PRICES, 7, 300);
        assert_eq!(try_settings(function, PRICES, 7, 300), whole);
        assert!(whole.unwrap()[0].drawn() > 300);
    }
}

/// The patches of a job are read to its end as the writer reads them, and not resolved: in the
/// later of two every number but 16 and 17 comes.
#[test]
fn patches_are_read() {
    let tried = |function: &[u8], behind: &str| {
        let job = [function, &encoded(numbers(behind))].concat();
        let written = JobBuilder::from_bytes(&job).map(|job| write(&job.numbers()));
        let tried = try_settings(&job, PRICES, 3, 50).map_err(Refusal::number);
        // The writer gives the same, where the bytes are numbers.
        if let Ok(written) = written {
            let written = written.map(drop).map_err(Refusal::number);
            assert_eq!(tried.clone().map(drop), written, "{behind}");
        }
        tried.map_or_else(|number| number, |_| 0)
    };
    let job = swap_full();
    let function = &job[..46];
    assert_eq!(tried(function, "0"), 2);
    assert_eq!(tried(function, "1025"), 2);
    assert_eq!(tried(function, "1024"), 1);
    assert_eq!(tried(function, "1 0 0 0"), 8);
    let second = |patch: &str| tried(function, &format!("2 0 2 0 1 3 0 0 3 1 1 {patch}"));
    for (patch, number) in [
        ("0 0", 0),
        ("0 1 0 1 3", 1),
        ("1 3 0", 2),
        ("0 1 2 1 3 0", 2),
        ("2 1 1 0", 3),
        ("0 1 0 1 1 0", 10),
        ("0 1 1 3 0", 11),
        ("0 2 0 1 3 0 0 5 3 1", 12),
        ("1 1 1 0 1 3 0", 13),
        ("0 0 0", 8),
    ] {
        assert_eq!(second(patch), number, "{patch}");
    }
    let many = format!("0 129 {}", "0 1 3 0 ".repeat(129));
    assert_eq!(second(&many), 15);
    // L = 0: the swap would get 17 when it is resolved, and the second patch is read.
    let no_slot = [&job[..41], &[0], &job[42..46]].concat();
    assert_eq!(tried(&no_slot, "1 0 2 0 1 3 0 0 3 1 1"), 0);
    assert_eq!(tried(&no_slot, "2 0 2 0 1 3 0 0 3 1 1 0 1 0 1 1 0"), 10);
    // r0 and r1 have a unit in common, and r0 is the last that the value's class can evict: 14.
    let ends_in_r0 = "5 1 4 0 1 3 0 0 2 0 1 0 0 2 1 2 0 0 2 3 4 3 0 1 3 0 1 2 3 0 1 2 \
         0 0 3 0 1 2 3 0 1 2 0 0 2 0 2 2 2 0 1 0 1 0 2 2";
    let ends_in_r0 = encoded(numbers(ends_in_r0));
    assert_eq!(tried(&ends_in_r0, "2 0 0 0 1 1 3 0"), 14);
    assert_eq!(tried(&ends_in_r0, "2 0 0 0 1 1 5 0"), 0);
    // Two banks: 9 for a register of the other, and 21 for a pair and its half.
    let banks = three_banks(29);
    let banks = &banks[..banks.len() - 3];
    assert_eq!(tried(banks, "2 0 0 0 1 0 1 7 0"), 9);
    assert_eq!(tried(banks, "2 0 0 0 2 0 13 0 2 0 15 2 2"), 21);
}

/// The shipped target, with N = 400 and L = 16, and for each bank b three plain values, one
/// rebuilt cheaper than moved by class 2b and one cheaper than loaded by class 2b + 1.
fn shipped() -> Vec<u8> {
    let banks = [(0..32, 1), (32..48, 2), (48..56, 4)];
    let mut numbers = vec![32, 3];
    numbers.extend((0..3).flat_map(|bank| [bank + 2, 2 * bank, 2 * bank + 1]));
    numbers.push(56);
    for (bank, (registers, width)) in (0..).zip(banks.clone()) {
        for index in 0..registers.len() as u32 {
            numbers.extend([0, bank, width]);
            numbers.extend(index * width..(index + 1) * width);
        }
    }
    numbers.push(6);
    for (bank, (registers, _)) in (0..).zip(banks) {
        for includes_slots in [1, 0] {
            numbers.extend([bank, includes_slots]);
            for _ in 0..2 {
                numbers.push(registers.len() as u32);
                numbers.extend(registers.clone());
            }
        }
    }
    numbers.extend([15, 400, 16]);
    for bank in 0..3 {
        numbers.extend([bank, 0].repeat(3));
        numbers.extend([bank, 1, 2 * bank, bank, 2, 2 * bank + 1]);
    }
    // One patch, without entries.
    numbers.extend([1, 0, 0]);
    encoded(numbers)
}

/// All 200 are accepted, at both settings alike: the banks' last registers overlap.
#[test]
fn shipped_target() {
    for (seed, counts, refused) in [
        (7, [200, 1341, 393, 697, 697, 27_238], 226),
        (1, [200, 1309, 389, 677, 677, 26_526], 388),
    ] {
        let [one, two] = try_settings(&shipped(), PRICES, seed, 200).unwrap();
        is(&one, counts, &[(9, refused)]);
        assert_eq!(one, two);
    }
}
