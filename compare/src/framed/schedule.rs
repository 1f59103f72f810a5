//! Random schedules: formulas, shares, and calls in turn.

use judge::calls::{Call, Function};
use judge::generate::calls as generate;
use judge::random::Random;
use judge::sharing::{self, Frame, Given};

use crate::both::{Both, Checked, Counts, same};
use crate::ours::Ours;

/// The formulas of a schedule, and calls for each.
fn formulas(random: &mut Random) -> Vec<(Given, Vec<Call>)> {
    let count = match random.below(20) {
        0 => random.within(5, 16),
        _ => random.within(1, 4),
    };
    let mut all: Vec<(Given, Vec<Call>)> = Vec::new();
    let mut first = None;
    while all.len() < count {
        let mut session = generate::session(random, 30, &[1, 2]);
        if random.chance(2) {
            session.opening.kept_evictions = *random.pick(&generate::NO_SETTINGS);
        }
        let given = Given {
            kept_evictions: session.opening.kept_evictions,
            bytes: session.opening.bytes,
            share: 0,
        };
        let own = sharing::open_formula(&given, None)
            .ok()
            .map(|function| sharing::slots(&function));
        // Mostly of the first one's N, at times of another.
        if first.is_some() && own != first && !random.chance(1) {
            if random.chance(60) {
                continue;
            }
            let (Given { bytes, .. }, calls) = &all[0];
            let given = Given {
                kept_evictions: random.within(1, 2) as u32,
                bytes: bytes.clone(),
                share: 0,
            };
            let mut calls = calls.clone();
            random.shuffle(&mut calls);
            all.push((given, calls));
            continue;
        }
        if first.is_none() {
            first = own;
        }
        all.push((given, session.calls));
    }
    all
}

/// The limit and the shares, mostly within it.
fn shares(random: &mut Random, count: usize) -> (u32, Vec<u32>) {
    let limit = match random.below(40) {
        0 => 2049 + random.below(3) as u32,
        1 => 2048,
        _ => random.below(3 + 3 * count) as u32,
    };
    let mut left = limit.min(2048);
    let mut shares = Vec::new();
    for _ in 0..count {
        let share = random.below(left.min(4) as usize + 1) as u32;
        left -= share;
        shares.push(share);
    }
    match random.below(60) {
        0 => shares[count - 1] += left + 1,
        // A sum that starts over as a number of 16 or of 32 bits.
        1 => shares[count - 1] = 65_536 - shares[0].min(1),
        2 => shares[count - 1] = u32::MAX,
        3 => shares.clear(),
        4 => shares.resize(17, 0),
        _ => {}
    }
    random.shuffle(&mut shares);
    (limit, shares)
}

pub fn schedule(random: &mut Random, ours: &mut Ours, counts: &mut Counts) -> Checked {
    let mut given = formulas(random);
    let (limit, shares) = shares(random, given.len());
    let opened = sharing::open_frame(limit, &shares);
    let expected = opened.as_ref().map_or_else(|refused| refused.0, |()| 0);
    same("a frame", ours.open(limit, &shares), expected)?;
    if opened.is_err() {
        counts.frames += 1;
        return Ok(());
    }
    let mut functions: Vec<(Function, u32)> = Vec::new();
    for ((given, _), &share) in given.iter().zip(&shares) {
        let first = functions
            .first()
            .map(|(function, _)| sharing::slots(function));
        let opened = sharing::open_formula(given, first);
        let expected = opened.as_ref().map_or_else(|refused| refused.0, |_| 0);
        same("a formula", ours.open_formula(given), expected)?;
        let Ok(function) = opened else {
            counts.frames += 1;
            return Ok(());
        };
        functions.push((function, share));
    }
    let mut both = Both {
        ours,
        judge: Frame::new(limit, &functions),
        answers: given.iter().map(|_| Vec::new()).collect(),
    };
    loop {
        let open: Vec<usize> = (0..given.len())
            .filter(|&at| !given[at].1.is_empty())
            .collect();
        let Some(&formula) = random.pick_any(&open) else {
            return Ok(());
        };
        let call = given[formula].1.pop().expect("it has one");
        if random.chance(50) {
            both.ask(formula, &call, counts)?;
        } else {
            both.resolve(formula, &call, counts)?;
        }
        while random.chance(40) {
            let formula = random.below(given.len());
            let kept = both.answers[formula].len();
            if kept == 0 {
                break;
            }
            // The last one half the time.
            let at = kept - 1 - random.below(2) * random.below(kept);
            both.take(formula, at, counts)?;
        }
    }
}
