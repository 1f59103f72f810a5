//! Patches resolved by groups are their groups resolved one after the other, each with
//! the free units that no source of another group has; what refuses the whole patch
//! refuses it by groups, and 17 in one refuses all.

mod common;

use common::{encoded, jobs};
use parallel_moves::{
    Allocation, Answer, ParallelMoves, Patch, PhysReg, Refusal, RefusedJob, RegUnit, Resolver,
    SpillSlot, Value,
};

/// Numbers that look drawn, the same ones each time.
struct Drawn(u64);

impl Drawn {
    fn below(&mut self, n: u64) -> u64 {
        self.0 ^= self.0 << 13;
        self.0 ^= self.0 >> 7;
        self.0 ^= self.0 << 17;
        self.0 % n
    }
}

/// Twelve registers of one unit and four of two, which overlap eight of them; slots of two sizes are one bank's
/// each. Eight values of the first bank and four of the second, the last of each rebuilt.
fn bytes(limit: u8) -> Vec<u8> {
    let mut bytes = vec![12, 2, 3, 0, 1, 4, 2, 3, 16];
    for unit in 0..12 {
        bytes.extend([0, 0, 1, unit]);
    }
    for pair in 0..4 {
        bytes.extend([0, 1, 2, 2 * pair, 2 * pair + 1]);
    }
    let first: Vec<u8> = (0..12).collect();
    let second: Vec<u8> = (12..16).collect();
    bytes.push(4);
    for (bank, slots, members) in [
        (0, 1, &first),
        (0, 0, &first),
        (1, 1, &second),
        (1, 0, &second),
    ] {
        bytes.extend([bank, slots, members.len() as u8]);
        bytes.extend(members);
        bytes.push(members.len() as u8);
        bytes.extend(members);
    }
    bytes.extend([12, 6, limit]);
    for value in 0..12 {
        let bank = u8::from(value >= 8);
        match value {
            7 => bytes.extend([0, 1, 1]),
            11 => bytes.extend([1, 2, 3]),
            _ => bytes.extend([bank, 0]),
        }
    }
    bytes
}

/// Units of a place: slot s is unit 512 + s.
fn units(place: u32) -> Vec<u32> {
    match place {
        0..12 => vec![place],
        12..16 => vec![2 * (place - 12), 2 * (place - 12) + 1],
        _ => vec![512 + place],
    }
}

fn allocation(place: u32) -> Allocation {
    if place < 16 {
        Allocation::reg(PhysReg::new(place as usize))
    } else {
        Allocation::spillslot(SpillSlot::new((place - 16) as usize))
    }
}

/// A source, unless it is a rebuild, a destination and a value.
type Entry = (Option<u32>, u32, usize);

fn patch_of(free: &[u32], entries: &[Entry]) -> Patch {
    let mut patch = Patch::new();
    for &unit in free {
        patch.add_free_unit(RegUnit::new(unit as usize));
    }
    for &(source, dest, value) in entries {
        match source {
            Some(source) => patch.add_move(allocation(source), allocation(dest), Value::new(value)),
            None => patch.add_remat(allocation(dest), Value::new(value)),
        }
    }
    patch
}

/// The groups, each with its free units.
fn groups(free: &[u32], entries: &[Entry]) -> Vec<Patch> {
    let all: Vec<Vec<u32>> = entries
        .iter()
        .map(|&(source, dest, _)| source.into_iter().chain([dest]).flat_map(units).collect())
        .collect();
    let mut label: Vec<usize> = (0..entries.len()).collect();
    for _ in 0..entries.len() {
        for i in 0..entries.len() {
            for j in 0..entries.len() {
                if all[i].iter().any(|unit| all[j].contains(unit)) {
                    label[i] = label[i].min(label[j]);
                }
            }
        }
    }
    let first = (0..entries.len()).filter(|&g| label[g] == g);
    first
        .map(|g| {
            let held = |unit: &u32| {
                (0..entries.len())
                    .filter(|&i| label[i] != g)
                    .filter_map(|i| entries[i].0)
                    .any(|source| units(source).contains(unit))
            };
            let free: Vec<u32> = free.iter().copied().filter(|unit| !held(unit)).collect();
            let own: Vec<Entry> = (0..entries.len())
                .filter(|&i| label[i] == g)
                .map(|i| entries[i])
                .collect();
            patch_of(&free, &own)
        })
        .collect()
}

fn texts(edits: Result<parallel_moves::Edits<'_>, Refusal>) -> Result<Vec<String>, Refusal> {
    edits.map(|edits| edits.iter().map(|edit| edit.to_string()).collect())
}

#[test]
fn groups_one_after_the_other() {
    let mut drawn = Drawn(0x9e37_79b9_7f4a_7c15);
    let (mut several, mut refused, mut out) = (0, 0, 0);
    for function in 0..400 {
        let bytes = bytes((function % 5) as u8);
        let open = || ParallelMoves::open(1 + function % 2, &bytes).unwrap();
        let (mut grouped, mut parts) = (open(), open());
        for _ in 0..25 {
            let entries: Vec<Entry> = (0..drawn.below(9))
                .map(|_| {
                    let bank = drawn.below(4) == 0;
                    let place = |drawn: &mut Drawn| match (drawn.below(5), bank) {
                        (0, _) => 16 + drawn.below(6) as u32,
                        (_, false) => drawn.below(12) as u32,
                        (_, true) => 12 + drawn.below(4) as u32,
                    };
                    let source = (drawn.below(8) != 0).then(|| place(&mut drawn));
                    let dest = place(&mut drawn);
                    let value = if source.is_none() {
                        7 + 4 * usize::from(bank)
                    } else {
                        usize::from(bank) * 8 + drawn.below(4) as usize
                    };
                    (source, dest, value)
                })
                .collect();
            let free: Vec<u32> = (0..12).filter(|_| drawn.below(6) == 0).collect();
            let before = grouped.made();
            let got = texts(grouped.resolve_by_groups(&patch_of(&free, &entries)));
            // The whole patch's tests, whatever L is.
            let tested = ParallelMoves::open(1, &self::bytes(40))
                .unwrap()
                .resolve(&patch_of(&free, &entries))
                .err();
            if let Some(number) = tested {
                assert_eq!(got, Err(number), "{free:?} {entries:?}");
                refused += 1;
                continue;
            }
            let all = groups(&free, &entries);
            several += usize::from(all.len() > 1);
            let mut joined = Ok(Vec::new());
            for patch in &all {
                match (&mut joined, texts(parts.resolve(patch))) {
                    (Ok(joined), Ok(edits)) => joined.extend(edits),
                    (Ok(_), Err(refusal)) => joined = Err(refusal),
                    (Err(_), _) => {}
                }
                if joined.is_err() {
                    break;
                }
            }
            assert_eq!(got, joined, "{free:?} {entries:?}");
            if got.is_err() {
                out += 1;
                assert_eq!(grouped.made(), before);
                break;
            }
            assert_eq!(grouped.made(), parts.made());
        }
    }
    println!("{several} of several groups, {refused} refused, {out} out of slots");
    assert!(several > 500 && refused > 500 && out > 20);
}

/// Numbers of a job, taken one after the other.
struct Numbers {
    all: Vec<u32>,
    next: usize,
}

impl Numbers {
    /// Of bytes that are numbers in their shortest form.
    fn of(bytes: &[u8]) -> Numbers {
        let (mut all, mut number, mut shift) = (Vec::new(), 0, 0);
        for &byte in bytes {
            number |= u32::from(byte % 128) << shift;
            shift += 7;
            if byte < 128 {
                all.push(number);
                (number, shift) = (0, 0);
            }
        }
        Numbers { all, next: 0 }
    }

    fn take(&mut self) -> u32 {
        self.next += 1;
        self.all[self.next - 1]
    }

    /// As many as the next one says.
    fn list(&mut self) -> Vec<u32> {
        (0..self.take()).map(|_| self.take()).collect()
    }
}

/// An accepted job with each patch replaced by its groups, and how many each has.
fn parted(bytes: &[u8]) -> (Vec<u8>, Vec<usize>) {
    let mut numbers = Numbers::of(bytes);
    numbers.take();
    for _ in 0..3 * numbers.take() {
        numbers.take();
    }
    let registers: Vec<Vec<u32>> = (0..numbers.take())
        .map(|_| {
            let _memory_and_bank = [numbers.take(), numbers.take()];
            numbers.list()
        })
        .collect();
    for _ in 0..numbers.take() {
        let _bank_and_slots = [numbers.take(), numbers.take()];
        let _members_and_order = [numbers.list(), numbers.list()];
    }
    let values = numbers.take();
    let _slots = [numbers.take(), numbers.take()];
    for _ in 0..values {
        numbers.take();
        if numbers.take() > 0 {
            numbers.take();
        }
    }
    let mut parts = numbers.all[..numbers.next].to_vec();
    let count = parts.len();
    parts.push(0);
    let mut groups = Vec::new();
    for _ in 0..numbers.take() {
        let free = numbers.list();
        let entries: Vec<Vec<u32>> = (0..numbers.take())
            .map(|_| {
                let kind = numbers.take();
                let rest = (0..3 - kind).map(|_| numbers.take());
                [kind].into_iter().chain(rest).collect()
            })
            .collect();
        let units = |place: u32| match place % 2 {
            1 => registers[place as usize / 2].clone(),
            _ => vec![512 + place / 2],
        };
        let places = |entry: &[u32]| match entry[0] {
            0 => (units(entry[1]), units(entry[2])),
            _ => (Vec::new(), units(entry[1])),
        };
        let mut left: Vec<usize> = (0..entries.len()).collect();
        groups.push(0);
        while !left.is_empty() {
            let mut own = vec![left.remove(0)];
            let mut held: Vec<u32> = Vec::new();
            loop {
                held.extend(own.iter().flat_map(|&i| {
                    let (source, dest) = places(&entries[i]);
                    [source, dest].concat()
                }));
                let (more, rest): (Vec<_>, Vec<_>) = left.into_iter().partition(|&i| {
                    let (source, dest) = places(&entries[i]);
                    source.iter().chain(&dest).any(|unit| held.contains(unit))
                });
                left = rest;
                if more.is_empty() {
                    break;
                }
                own.extend(more);
            }
            own.sort_unstable();
            let others = (0..entries.len()).filter(|i| !own.contains(i));
            let spared: Vec<u32> = others.flat_map(|i| places(&entries[i]).0).collect();
            let free = free.iter().filter(|unit| !spared.contains(unit)).copied();
            let free: Vec<u32> = free.collect();
            parts.push(free.len() as u32);
            parts.extend(free);
            parts.push(own.len() as u32);
            parts.extend(own.iter().flat_map(|&i| &entries[i]));
            *groups.last_mut().unwrap() += 1;
        }
        // A job has a patch at least.
        if entries.is_empty() {
            parts.extend([0, 0]);
            *groups.last_mut().unwrap() = 1;
        }
    }
    parts[count] = groups.iter().sum::<usize>() as u32;
    (encoded(parts), groups)
}

/// The words of each patch, its slots made and position behind them.
fn patches(answer: &Answer) -> Vec<(Vec<u64>, usize, usize)> {
    let patches = answer.patches();
    let of = |patch: parallel_moves::ResolvedPatch<'_>| {
        let words = patch.edits().words().to_vec();
        (words, patch.made(), patch.position())
    };
    patches.map(of).collect()
}

fn refusal(answered: &Result<Answer, RefusedJob>) -> Option<Refusal> {
    answered.as_ref().err().map(RefusedJob::refusal)
}

fn before(answered: &Result<Answer, RefusedJob>) -> &Answer {
    answered.as_ref().unwrap_or_else(|refused| refused.before())
}

/// A whole job by groups is the job of its groups, joined.
#[test]
fn whole_jobs() {
    let (mut joined, mut several) = (0, 0);
    let mut resolver = Resolver::new();
    for folder in ["examples", "examples/pictures", "compare/trials"] {
        for (name, job) in jobs(folder) {
            for kept in [0, 1, 2] {
                let whole = resolver.answer(kept, &job);
                let by_groups = resolver.answer_by_groups(kept, &job);
                if let Some(number) = refusal(&whole).filter(|&n| n != Refusal::OutOfSlots) {
                    if refusal(&by_groups) != Some(Refusal::OutOfSlots) {
                        assert_eq!(refusal(&by_groups), Some(number), "{name}");
                        let count = before(&whole).patches().count();
                        assert_eq!(before(&by_groups).patches().count(), count, "{name}");
                    }
                    continue;
                }
                let (parts, groups) = parted(&job);
                if groups.iter().sum::<usize>() > 1024 {
                    continue;
                }
                let parts = resolver.answer(kept, &parts);
                assert_eq!(refusal(&by_groups), refusal(&parts), "{name}");
                let answered = patches(before(&parts));
                let mut rest = &answered[..];
                for (patch, &groups) in patches(before(&by_groups)).iter().zip(&groups) {
                    let (own, others) = rest.split_at(groups);
                    rest = others;
                    let words: Vec<u64> = own.iter().flat_map(|part| part.0.clone()).collect();
                    let position = own.iter().map(|part| part.2).max().unwrap();
                    assert_eq!(*patch, (words, own[groups - 1].1, position), "{name}");
                    joined += 1;
                    several += usize::from(groups > 1);
                }
                // What is left was resolved of a patch that got 17.
                let done = before(&by_groups).patches().count();
                assert!(rest.is_empty() || rest.len() < groups[done], "{name}");
            }
        }
    }
    assert!(joined > 200 && several > 60, "{joined} {several}");
}

/// Bytes that are no job, or another, are refused by groups as they are whole: 17 alone may
/// come to one and not to the other.
#[test]
fn whole_jobs_refused() {
    let mut resolver = Resolver::new();
    let mut numbers = std::collections::BTreeMap::new();
    for folder in ["examples", "examples/pictures"] {
        for (name, job) in jobs(folder) {
            let mut given: Vec<Vec<u8>> = (0..job.len()).map(|end| job[..end].to_vec()).collect();
            for at in 0..job.len() {
                for byte in [0, 1, 2, 3, 5, 127, 128, 255] {
                    let mut changed = job.clone();
                    changed[at] = byte;
                    given.push(changed);
                }
            }
            given.push([&job[..], &[0]].concat());
            for bytes in given {
                let whole = resolver.answer(1, &bytes);
                let by_groups = resolver.answer_by_groups(1, &bytes);
                let both = [refusal(&whole), refusal(&by_groups)];
                if both.contains(&Some(Refusal::OutOfSlots)) {
                    continue;
                }
                assert_eq!(both[0], both[1], "{name}: {bytes:?}");
                let counts = [&whole, &by_groups].map(|one| before(one).patches().count());
                assert_eq!(counts[0], counts[1], "{name}: {bytes:?}");
                *numbers.entry(both[0].map(Refusal::number)).or_insert(0) += 1;
            }
        }
    }
    println!("{numbers:?}");
    for number in [1, 2, 3, 8, 9, 10, 12] {
        assert!(numbers.contains_key(&Some(number)), "{number}");
    }
}
