//! Recorded calls (`tests/calls.txt`, by `compare/calls-data`): what the judge of
//! each setting made of them, and that a refused one changes neither the list nor
//! the cache.

use std::str::SplitWhitespace;

use crate::entity::{Allocation, RegUnit, Value};
use crate::sys::Tables;
use crate::{Edit, MOST_EDITS, ParallelMoves, Patch, Preview, Prices, Refusal, TakeError};

const CALLS: &str = include_str!("../tests/calls.txt");
const DEAREST: Prices = Prices {
    moves: 65_535,
    remats: 65_535,
    spills: 65_535,
    reloads: 65_535,
};

/// A call, and what it should come to.
enum Call {
    Open {
        refusal: u8,
        enough: u16,
        kept_evictions: u32,
        bytes: Vec<u8>,
    },
    Resolve {
        refusal: u8,
        made: usize,
        position: usize,
        room: usize,
        free: Vec<u32>,
        numbers: Vec<u32>,
        words: Vec<u64>,
    },
}

fn calls() -> impl Iterator<Item = Call> {
    CALLS.lines().map(|line| {
        let mut words = line.split_whitespace();
        let kind = words.next().unwrap();
        let refusal = number(&mut words);
        let call = match kind {
            "open" => Call::Open {
                refusal,
                enough: number(&mut words),
                kept_evictions: number(&mut words),
                bytes: list(&mut words),
            },
            "call" => Call::Resolve {
                refusal,
                made: number(&mut words),
                position: number(&mut words),
                room: number(&mut words),
                free: list(&mut words),
                numbers: list(&mut words),
                words: list(&mut words),
            },
            _ => panic!("{line}"),
        };
        assert_eq!(words.next(), None);
        call
    })
}

fn number<T: std::str::FromStr<Err: std::fmt::Debug>>(words: &mut SplitWhitespace<'_>) -> T {
    words.next().unwrap().parse().unwrap()
}

fn list<T: std::str::FromStr<Err: std::fmt::Debug>>(words: &mut SplitWhitespace<'_>) -> Vec<T> {
    let count = number(words);
    (0..count).map(|_| number(words)).collect()
}

/// The patch of numbers, made with what a caller has; `None` if that cannot
/// make it.
fn patch(free: &[u32], numbers: &[u32]) -> Option<Patch> {
    let mut patch = Patch::new();
    patch.set_free_units(free.iter().map(|&unit| RegUnit(unit)));
    let place = |code| Allocation { code };
    for entry in numbers.chunks(4) {
        match *entry {
            [0, source, dest, value] => patch.add_move(place(source), place(dest), Value(value)),
            [1, dest, value, 0] => patch.add_remat(place(dest), Value(value)),
            _ => return None,
        }
    }
    Some(patch)
}

#[test]
fn recorded_calls() {
    let mut moves: Option<ParallelMoves> = None;
    let (mut all, mut refused, mut left_out) = (0, 0, 0);
    for (number, call) in calls().enumerate() {
        all += 1;
        match call {
            Call::Open {
                refusal,
                enough,
                kept_evictions,
                bytes,
            } => {
                // Functions are open while others are asked about.
                let given = ParallelMoves::enough_slots(kept_evictions, &bytes);
                let recorded = Refusal::of_number(refusal).map_or(Ok(enough), Err);
                assert_eq!(given, recorded, "call {number}");
                // Every second one with prices, which are in their range.
                let prices = (number % 2 == 0).then_some(DEAREST);
                let opened = match (moves.take(), prices) {
                    (None, None) => ParallelMoves::open(kept_evictions, &bytes),
                    (None, Some(prices)) => {
                        ParallelMoves::open_priced(kept_evictions, prices, &bytes)
                    }
                    (Some(moves), None) => moves.reopen(kept_evictions, &bytes),
                    (Some(moves), Some(prices)) => {
                        moves.reopen_priced(kept_evictions, prices, &bytes)
                    }
                };
                match opened {
                    Ok(opened) => {
                        assert_eq!(refusal, 0, "call {number}");
                        assert_eq!((opened.made(), opened.position()), (0, 0));
                        moves = Some(opened);
                    }
                    Err(given) => {
                        refused += 1;
                        assert_eq!(given.number(), refusal, "call {number}");
                    }
                }
            }
            Call::Resolve {
                refusal,
                made,
                position,
                room,
                free,
                numbers,
                words,
            } => {
                let Some(patch) = patch(&free, &numbers) else {
                    assert_eq!(refusal, 2);
                    left_out += 1;
                    continue;
                };
                let moves = moves.as_mut().unwrap();
                let cache = moves.tables.cache().to_vec();
                let last = moves.position();
                let mut lent: Vec<u64> = (0..room as u64).map(|n| !n ^ number as u64).collect();
                let before = lent.clone();
                // A list of the crate's own, where any length is enough.
                let own = room == MOST_EDITS && number % 2 == 0;
                if own {
                    moves.list.copy_from_slice(&lent);
                }
                let outcome = if own {
                    moves.resolve(&patch).map(|edits| edits.iter().collect())
                } else {
                    let edits = moves.resolve_into(&patch, &mut lent);
                    edits.map(|edits| edits.iter().collect::<Vec<_>>())
                };
                let list = if own { &moves.list[..] } else { &lent[..] };
                assert_eq!(list[..words.len()], words, "call {number}");
                assert_eq!(list[words.len()..], before[words.len()..], "call {number}");
                match outcome {
                    Ok(edits) => {
                        assert_eq!(refusal, 0, "call {number}");
                        assert_eq!(edits.len(), words.len());
                    }
                    Err(given) => {
                        refused += 1;
                        assert_eq!(given.number(), refusal, "call {number}");
                        assert_eq!(moves.tables.cache(), cache, "call {number}");
                    }
                }
                assert_eq!(moves.made(), made, "call {number}");
                let position = if refusal == 0 { position } else { last };
                assert_eq!(moves.position(), position, "call {number}");
            }
        }
    }
    assert_eq!(all, 1000);
    assert!(
        left_out < 30 && 10 * refused >= 8 * all / 10,
        "{left_out} {refused}"
    );
}

/// A function of which patches are resolved, asked for and taken in any order, and
/// the same function of which those that are resolved or taken are resolved at once.
struct Mixed {
    moves: ParallelMoves,
    plain: ParallelMoves,
    /// What is left to take: when it was asked for, the patch, and its answer.
    asked: Vec<(usize, Patch, Preview)>,
    /// How many patches were taken or resolved.
    settled: usize,
    random: u64,
}

/// How often each came about: resolved, asked for, taken, 20, 20 with an unchanged
/// number of slots.
#[derive(Debug, Default)]
struct Happened([usize; 5]);

impl Mixed {
    fn below(&mut self, n: usize) -> usize {
        self.random = self.random.wrapping_mul(6_364_136_223_846_793_005);
        self.random = self.random.wrapping_add(1_442_695_040_888_963_407);
        (self.random >> 33) as usize % n
    }

    fn resolve(&mut self, patch: &Patch) -> bool {
        let edits = |edits: crate::Edits<'_>| edits.iter().collect::<Vec<Edit>>();
        let mixed = self.moves.resolve(patch).map(edits);
        assert_eq!(mixed, self.plain.resolve(patch).map(edits));
        self.settled += usize::from(mixed.is_ok());
        mixed.is_ok()
    }

    fn ask(&mut self, patch: &Patch) -> bool {
        let cache = self.moves.tables.cache().to_vec();
        let asked = self.moves.preview(patch);
        assert_eq!(self.moves.tables.cache(), cache);
        let accepted = asked.is_ok();
        match asked {
            Ok(preview) => self.asked.push((self.settled, patch.clone(), preview)),
            // Resolving is refused alike, and leaves the function as it is.
            Err(refusal) => assert_eq!(self.plain.resolve(patch), Err(refusal)),
        }
        accepted
    }

    /// Whether it was taken.
    fn take(&mut self, at: usize) -> bool {
        let (when, patch, preview) = &self.asked[at];
        let cache = self.moves.tables.cache().to_vec();
        let taken = self.moves.take(preview);
        if *when == self.settled {
            assert_eq!(taken, Ok(()));
            let edits = self.plain.resolve(patch).unwrap();
            assert_eq!(edits, preview.edits());
            assert_eq!(self.plain.made(), preview.made());
            assert_eq!(self.plain.position(), preview.position());
            self.settled += 1;
        } else {
            assert_eq!(taken, Err(TakeError::Refused(Refusal::TakenLate)));
            assert_eq!(self.moves.tables.cache(), cache);
        }
        taken.is_ok()
    }

    fn step(&mut self, patch: &Patch, happened: &mut Happened) {
        let Happened([resolved, asked, taken, late, late_alike]) = happened;
        match self.below(4) {
            0 => *resolved += usize::from(self.resolve(patch)),
            1 | 2 => *asked += usize::from(self.ask(patch)),
            _ if self.asked.is_empty() => {}
            _ => {
                // The last ones can be taken most often.
                let count = self.asked.len().min(3);
                let at = self.asked.len() - 1 - self.below(count);
                let made = self.moves.made();
                if self.take(at) {
                    *taken += 1;
                } else {
                    *late += 1;
                    *late_alike += usize::from(self.asked[at].2.made() == made);
                }
            }
        }
        // Caches are equal to the last cell, the stamp included.
        assert_eq!(self.moves.tables.cache(), self.plain.tables.cache());
        assert_eq!(self.moves.position(), self.plain.position());
    }
}

/// 02 g: asking then taking is resolving, unless a patch was taken or resolved between.
#[test]
fn mixed_calls() {
    let mut happened = Happened::default();
    for seed in 0..4 {
        let mut mixed: Option<Mixed> = None;
        for call in calls() {
            match call {
                Call::Open {
                    refusal: 0,
                    kept_evictions,
                    bytes,
                    ..
                } => {
                    let open = || ParallelMoves::open(kept_evictions, &bytes).unwrap();
                    let mut next = Mixed {
                        moves: open(),
                        plain: open(),
                        asked: Vec::new(),
                        settled: 0,
                        random: seed,
                    };
                    if let Some((_, _, preview)) = mixed.iter().flat_map(|m| m.asked.last()).next()
                    {
                        assert_eq!(next.moves.take(preview), Err(TakeError::Other));
                    }
                    mixed = Some(next);
                }
                Call::Open { .. } => {}
                Call::Resolve { free, numbers, .. } => {
                    if let Some(patch) = patch(&free, &numbers) {
                        let mixed = mixed.as_mut().unwrap();
                        for _ in 0..2 {
                            mixed.step(&patch, &mut happened);
                        }
                    }
                }
            }
        }
    }
    let Happened(counts) = happened;
    assert!(counts.iter().all(|&count| count > 100), "{counts:?}");
}

/// Each refusal of a patch is among the recorded calls, 22 among those of functions,
/// and so are patches of functions with one kept eviction and with two.
#[test]
fn each_refusal_is_recorded() {
    let mut refusals = Vec::new();
    let (mut settings, mut kept) = ([0; 2], 0);
    for call in calls() {
        match call {
            Call::Resolve { refusal, .. } => {
                refusals.push(refusal);
                settings[kept - 1] += 1;
            }
            Call::Open {
                refusal,
                kept_evictions,
                ..
            } => {
                let is_setting = matches!(kept_evictions, 1 | 2);
                assert_eq!(refusal == 22, !is_setting);
                refusals.extend((refusal == 22).then_some(22));
                kept = kept_evictions as usize;
            }
        }
    }
    refusals.sort();
    refusals.dedup();
    assert_eq!(
        refusals,
        [0, 2, 3, 9, 10, 11, 12, 13, 14, 15, 16, 17, 21, 22]
    );
    assert!(settings.iter().all(|&count| count > 300), "{settings:?}");
}

/// A refused function gives no tables to resolve with, and what the tables held
/// before does not matter.
#[test]
fn opened_after_whole_jobs() {
    let mut tables = Tables::new();
    let mut words = vec![0; 4096];
    let _ = tables.answer(
        1,
        include_bytes!("../../examples/swap-full.job"),
        &mut words,
    );
    let Call::Open { bytes, .. } = calls()
        .find(|c| matches!(c, Call::Open { refusal: 0, .. }))
        .unwrap()
    else {
        unreachable!()
    };
    let opened = tables.open(1, &bytes).ok().unwrap();
    assert_eq!(opened.made(), 0);
    let tables = opened.close().open(2, &bytes).ok().unwrap().close();
    assert_eq!(tables.open(1, &[]).err(), Some(1));
    assert_eq!(ParallelMoves::open(2, &[]).err(), Some(Refusal::NotANumber));
    let no_setting = Some(Refusal::NoSuchSetting);
    assert_eq!(ParallelMoves::open(3, &[]).err(), no_setting);
    assert_eq!(ParallelMoves::open(0, &bytes).err(), no_setting);
}
