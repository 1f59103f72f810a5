//! Jobs written from their numbers: what is written and refused, and that no other byte
//! is touched.

mod common;

use common::{encoded, generated, jobs, numbers};
use parallel_moves::{
    Allocation, JobWriter, ParallelMoves, Patch, PhysReg, Refusal, RegUnit, Resolver, SpillSlot,
    Value, write,
};

/// Swap-full's target.
const THREE: &str = "3 1 3 0 1 3 0 0 1 0 0 0 1 1 0 0 1 2 2 0 1 3 0 1 2 3 0 1 2 0 0 3 0 1 2 3 0 1 2";
/// Its function.
const TWO_VALUES: &str = "2 0 1 0 0 0 0";
const SWAP: &str = "0 2 0 1 3 0 0 3 1 1";
/// r0 to r5 are units 0 to 5 of bank 0; r6 = 0,1, r7 = 2,3 and r8 = 4,5 of bank 1; v0 and
/// v1 of bank 0, v2 of bank 1, v3 of bank 0 rebuilt; N = L = 2.
const DOUBLED: &str = "6 2 2 0 1 3 2 3 9 0 0 1 0 0 0 1 1 0 0 1 2 0 0 1 3 0 0 1 4 0 0 1 5 \
     0 1 2 0 1 0 1 2 2 3 0 1 2 4 5 \
     4 0 1 6 0 1 2 3 4 5 6 0 1 2 3 4 5 0 0 6 0 1 2 3 4 5 6 0 1 2 3 4 5 \
     1 1 3 6 7 8 3 6 7 8 1 0 3 6 7 8 3 6 7 8 4 2 2 0 0 0 0 1 0 0 1 0";

fn all(parts: &[&str]) -> Vec<u32> {
    parts.iter().flat_map(|part| numbers(part)).collect()
}

/// The number that numbers are refused by, or 0 if they are written as they are.
fn outcome(numbers: &[u32]) -> u8 {
    match write(numbers) {
        Ok(bytes) => {
            assert_eq!(bytes, encoded(numbers.iter().copied()));
            0
        }
        Err(refusal) => refusal.number(),
    }
}

/// What a lent byte is before the call.
fn unwritten(at: usize) -> u8 {
    (at % 251) as u8 ^ 0xa5
}

/// Writes into so many lent bytes, and sees that the others are left alone, and all if the
/// job is refused.
fn with_room(writer: &mut JobWriter, numbers: &[u32], room: usize) -> Result<usize, u8> {
    let mut bytes: Vec<u8> = (0..room + 40).map(unwritten).collect();
    let written = writer.write_into(numbers, &mut bytes[..room]);
    let count = written.unwrap_or(0);
    assert!(count <= room);
    assert_eq!(bytes[..count], encoded(numbers.iter().copied())[..count]);
    for (at, &byte) in bytes.iter().enumerate().skip(count) {
        assert_eq!(byte, unwritten(at), "byte {at} of {room}, {count} written");
    }
    written.map_err(Refusal::number)
}

#[test]
fn swap_full_and_its_room() {
    let (_, job) = jobs("examples")
        .into_iter()
        .find(|(name, _)| name == "swap-full")
        .unwrap();
    let numbers = all(&[THREE, TWO_VALUES, "1", SWAP]);
    assert_eq!(write(&numbers), Ok(job));
    let mut writer = JobWriter::new();
    for room in [57, 58, 100, 65_536, 70_000] {
        assert_eq!(with_room(&mut writer, &numbers, room), Ok(57));
    }
    for room in [0, 1, 28, 56] {
        assert_eq!(with_room(&mut writer, &numbers, room), Err(18));
    }
    // One number fewer, and one more.
    assert_eq!(outcome(&numbers[..56]), 1);
    assert_eq!(outcome(&[&numbers[..], &[0]].concat()), 8);
    for end in 0..57 {
        assert_eq!(with_room(&mut writer, &numbers[..end], 57), Err(1));
    }
}

/// The number is the reader's: as the numbers are read, and to the job's end.
#[test]
fn the_readers_number() {
    // r0 lists unit 0 twice and class 0 has bank 9: 3 comes first.
    let twice = THREE.replacen("3 0 0 1 0", "3 0 0 2 0 0", 1);
    let twice = twice.replacen("2 0 1 3 0 1 2", "2 9 1 3 0 1 2", 1);
    let numbers = all(&[&twice, TWO_VALUES, "1", SWAP]);
    assert_eq!(numbers.len(), 58);
    assert_eq!(outcome(&numbers), 3);
    // Class 0 alone: 2.
    let foreign = THREE.replacen("2 0 1 3 0 1 2", "2 9 1 3 0 1 2", 1);
    assert_eq!(outcome(&all(&[&foreign, TWO_VALUES, "1", SWAP])), 2);

    // L = 0: resolving says 17, reading goes on. Patch 2 sends r0 and r2 to r1.
    let no_slot = "2 0 0 0 0 0 0";
    let swap = all(&[THREE, no_slot, "1", SWAP]);
    assert_eq!(outcome(&swap), 0);
    let both = all(&[THREE, no_slot, "2", SWAP, "0 2 0 1 3 0 0 5 3 1"]);
    assert_eq!(outcome(&both), 12);
    let mut resolver = Resolver::new();
    for numbers in [swap, both] {
        let refused = resolver.answer(1, &encoded(numbers)).unwrap_err();
        assert_eq!(refused.refusal(), Refusal::OutOfSlots);
    }

    // 13, 14 and 21 are the reader's too.
    let free = "1 4 2 0 13 15 2 0 1 9 0";
    assert_eq!(outcome(&all(&[DOUBLED, "1", free])), 21);
    assert_eq!(outcome(&all(&[DOUBLED, "1", "1 4 1 0 1 9 0"])), 13);
    let ends_in_r0 = "5 1 4 0 1 3 0 0 2 0 1 0 0 2 1 2 0 0 2 3 4 3 0 1 3 0 1 2 3 0 1 2 \
         0 0 3 0 1 2 3 0 1 2 0 0 2 0 2 2 2 0";
    assert_eq!(outcome(&all(&[ends_in_r0, "1 0 1 0 2 2 1 0 1 1 3 0"])), 14);
}

/// Entries that reading drops, or that become rebuilds, are written as they are given.
#[test]
fn each_entry_is_written() {
    let twice = all(&[THREE, TWO_VALUES, "1 0 2 0 1 3 0 0 1 3 0"]);
    assert_eq!(outcome(&twice), 0);
    assert_eq!(write(&twice).unwrap().len(), 57);
    let remat = all(&[THREE, "1 1 0 0 2 1", "1 0 2 0 0 3 0 1 5 0"]);
    assert_eq!(outcome(&remat), 0);
}

/// Numbers from 128 on, in their shortest form.
#[test]
fn long_numbers() {
    let numbers = all(&[THREE, "1 300 0 0 0", "1 0 1 0 1 400 0"]);
    let bytes = write(&numbers).unwrap();
    assert_eq!(bytes.len(), numbers.len() + 2);
    assert_eq!(bytes[40..42], [172, 2]);
    assert_eq!(bytes[bytes.len() - 3..], [144, 3, 0]);
    for number in [
        127,
        128,
        16_383,
        16_384,
        1 << 21,
        (1 << 28) - 1,
        1 << 28,
        u32::MAX,
    ] {
        // A count of members is not tested itself, so 1 comes from the missing ones.
        let beginning = [1, 1, 3, 0, 1, 1, 0, 0, 1, 0, 2, 0, 1, number];
        assert_eq!(outcome(&beginning), 1);
    }
    assert_eq!(outcome(&[u32::MAX; 20_000]), 2);
}

/// 127 patches with one move 128 times each, which are 65,451 bytes with their opening and
/// a patch count of two.
fn many(patches: u32, first: &str, rest: &str) -> Vec<u32> {
    let patch = format!("0 128 {}", "0 1 3 0 ".repeat(128));
    let mut numbers = all(&[THREE, "1 0 1 0 0"]);
    numbers.push(patches);
    numbers.extend(all(&[&patch.replacen("0 1 3 0", first, 1)]));
    for _ in 1..127 {
        numbers.extend(all(&[&patch]));
    }
    numbers.extend(all(&[rest]));
    numbers
}

#[test]
fn the_longest_job() {
    let twenty = format!("0 0 1 2 20 {}", "0 1 3 0 ".repeat(20));
    let longest = many(129, "0 1 3 0", &twenty);
    let bytes = write(&longest).unwrap();
    assert_eq!(bytes.len(), 65_536);
    assert_eq!(outcome(&longest), 0);
    let answer = Resolver::new().answer(1, &bytes).unwrap();
    assert_eq!(answer.patches().count(), 129);
    let mut writer = JobWriter::new();
    assert_eq!(with_room(&mut writer, &longest, 65_536), Ok(65_536));
    assert_eq!(with_room(&mut writer, &longest, 65_535), Err(18));

    // r1 to r1 in patch 1.
    assert_eq!(outcome(&many(129, "0 3 3 0", &twenty)), 10);
    // One byte more, and 2 before all else, also before 18.
    let one_more = many(128, "0 3 3 0", &format!("0 21 {}", "0 1 3 0 ".repeat(21)));
    assert_eq!(encoded(one_more.iter().copied()).len(), 65_537);
    assert_eq!(outcome(&one_more), 2);
    assert_eq!(with_room(&mut writer, &one_more, 0), Err(2));
    assert_eq!(with_room(&mut writer, &one_more, 70_000), Err(2));
}

/// The patches that numbers are, their count first; none where they cannot be told apart, or
/// something is left over.
fn patches(numbers: &[u32]) -> Option<Vec<Patch>> {
    let mut rest = numbers.iter().copied();
    let place = |code: u32| match code % 2 {
        0 => Allocation::spillslot(SpillSlot::new(code as usize / 2)),
        _ => Allocation::reg(PhysReg::new(code as usize / 2)),
    };
    let value = |number: u32| Value::new(number as usize);
    let mut patches = Vec::new();
    for _ in 0..rest.next()? {
        let mut patch = Patch::new();
        let mut free = Vec::new();
        for _ in 0..rest.next()? {
            free.push(RegUnit::new(rest.next()? as usize));
        }
        // As they are listed, also where that is refused.
        patch.set_free_units(free);
        for _ in 0..rest.next()? {
            match (rest.next()?, rest.next()?, rest.next()?) {
                (0, source, dest) => {
                    patch.add_move(place(source), place(dest), value(rest.next()?));
                }
                (1, dest, of) => patch.add_remat(place(dest), value(of)),
                _ => return None,
            }
        }
        patches.push(patch);
    }
    rest.next().is_none().then_some(patches)
}

/// A job written of its opened function and its patches: none where it has no such; else its
/// bytes, or the number of the refusal.
fn of_opened(writer: &mut JobWriter, job: &[u8]) -> Option<Result<Vec<u8>, Refusal>> {
    let numbers = decoded(job)?;
    let bytes = |count: usize| encoded(numbers[..count].iter().copied());
    // Cut off before the function's end, and left over behind it.
    let counts: Vec<usize> = (0..=numbers.len()).collect();
    let function = *counts.get(counts.partition_point(|&count| {
        let opened = ParallelMoves::open(1, &bytes(count));
        opened.err() == Some(Refusal::NotANumber)
    }))?;
    let moves = ParallelMoves::open(2, &bytes(function)).ok()?;
    let patches = patches(&numbers[function..])?;
    let written = writer.write_job(&moves, &patches);
    assert_eq!(moves.write_job(&patches), written);
    Some(written)
}

/// Of an opened function each example has its very bytes, or the reader's number.
#[test]
fn of_opened_functions() {
    let mut writer = JobWriter::new();
    let (mut same, mut refused) = (0, 0);
    for (name, job) in jobs("examples").into_iter().chain(jobs("compare/trials")) {
        let Some(written) = of_opened(&mut writer, &job) else {
            continue;
        };
        let numbers = decoded(&job).unwrap();
        assert_eq!(written, write(&numbers), "{name}");
        match written {
            Ok(bytes) => {
                assert_eq!(bytes, job, "{name}");
                same += 1;
            }
            Err(_) => refused += 1,
        }
    }
    assert!(same > 60 && refused > 10, "{same} {refused}");
    let examples = jobs("examples");
    let written = examples.iter().map(|(_, job)| of_opened(&mut writer, job));
    let expected = examples.iter().map(|(_, job)| Some(Ok(job.clone())));
    assert!(written.eq(expected));
}

/// What the function has resolved, or how it was opened, is no matter; and it stays as it was.
#[test]
fn of_a_function_in_use() {
    let job = write(&all(&[THREE, TWO_VALUES, "1", SWAP])).unwrap();
    let mut moves = ParallelMoves::open(1, &job[..46]).unwrap();
    let swap = patches(&all(&["1", SWAP])).unwrap();
    for made in [0, 1, 1] {
        assert_eq!(moves.made(), made);
        assert_eq!(moves.write_job(&swap).as_ref(), Ok(&job));
        let edits: Vec<String> = moves
            .resolve(&swap[0])
            .unwrap()
            .iter()
            .map(|e| e.to_string())
            .collect();
        assert_eq!(edits, ["M s0 r1 1", "M r1 r0 0", "M r0 s0 1"]);
    }
    // None, as many as there may be, and one more.
    let repeated = |count| vec![swap[0].clone(); count];
    let longest = moves.write_job(&repeated(1024));
    assert_eq!(longest.map(|job| job.len()), Ok(46 + 2 + 1024 * 10));
    for count in [0, 1025] {
        let written = moves.write_job(&repeated(count));
        assert_eq!(written, Err(Refusal::NamesNothing));
    }
}

/// A writer that has written other jobs writes as a new one does.
#[test]
fn used_again() {
    let mut used = JobWriter::new();
    for (name, job) in jobs("compare/trials") {
        let Some(numbers) = decoded(&job) else {
            continue;
        };
        assert_eq!(used.write(&numbers), write(&numbers), "{name}");
    }
}

/// The numbers of bytes; `None` if they are none.
fn decoded(job: &[u8]) -> Option<Vec<u32>> {
    let mut numbers = Vec::new();
    for group in job.split_inclusive(|&byte| byte < 128) {
        let number = group.iter().rev().try_fold(0_u64, |number, &byte| {
            (number << 7 < 1 << 35).then_some((number << 7) + u64::from(byte % 128))
        })?;
        numbers.push(u32::try_from(number).ok()?);
    }
    (encoded(numbers.iter().copied()) == job).then_some(numbers)
}

/// Generated jobs are written as they are, or refused by the number that they are answered
/// with, unless that is 17.
#[test]
fn generated_jobs() {
    let mut resolver = Resolver::new();
    let mut writer = JobWriter::new();
    let mut counts = [0; 23];
    for (seed, mode) in (300..).zip(["small", "remat", "patches", "refused", "limits", "damaged"]) {
        let Some(jobs) = generated(seed, 1500, mode) else {
            return;
        };
        for job in jobs {
            let Some(numbers) = decoded(&job) else {
                continue;
            };
            let answer = resolver.answer(1, &job);
            let number = answer.map_or_else(|refused| refused.refusal().number(), |_| 0);
            counts[usize::from(number)] += 1;
            let expected = match number {
                0 => Ok(job.len()),
                number => Err(number),
            };
            for room in [job.len(), job.len() + 9] {
                let written = with_room(&mut writer, &numbers, room);
                assert!(written == expected || number == 17, "{written:?} {number}");
                assert!(!matches!(written, Err(16..=18)));
            }
            if let (0, Some(room)) = (number, job.len().checked_sub(1)) {
                assert_eq!(with_room(&mut writer, &numbers, room), Err(18));
            }
        }
    }
    let met: Vec<usize> = (0..23).filter(|&number| counts[number] > 0).collect();
    assert!((0..=15).chain([17, 21]).eq(met), "{counts:?}");
    assert!(counts[0] > 4000 && counts[17] > 20, "{counts:?}");
}
