//! Our own lists, examined: of random patches over several targets, at both settings, plain, by
//! groups, asked for and in frames, every one gets a yes; checked patches are answered as
//! unchecked ones; and what is said of a patch of an opened function is what is said of it in a
//! job, of lists that were changed and of patches that are refused, too.

mod common;

use std::collections::HashMap;

use common::machine::Place;
use parallel_moves::{
    Allocation, CheckError, CheckedMoves, Class, Formula, Frame, JobBuilder, ParallelMoves, Patch,
    PhysReg, Refusal, RegBank, RematCost, SpillSlot, TargetBuilder, Value, examine, examine_all,
    examine_in,
};

/// Numbers that look drawn, the same ones each time.
struct Drawn(u64);

impl Drawn {
    fn below(&mut self, n: usize) -> usize {
        self.0 ^= self.0 << 13;
        self.0 ^= self.0 >> 7;
        self.0 ^= self.0 << 17;
        (self.0 >> 11) as usize % n
    }
}

const SLOTS: u16 = 6;

/// A target and a function, and what a patch may name of them.
struct Model {
    name: &'static str,
    job: JobBuilder,
    units: u32,
    /// Bank and units of each register.
    registers: Vec<(usize, Vec<u32>)>,
    /// Bank of each value, and whether it can be rebuilt.
    values: Vec<(usize, bool)>,
}

impl Model {
    /// A target with as many emergency slots as are always enough, and others by `limit`.
    fn opening(&self, limit: u32) -> Vec<u8> {
        let mut job = self.job.clone();
        job.function().slots(SLOTS.into()).emergency_slots(limit);
        job.target_and_function().unwrap()
    }

    fn units(&self, place: Place) -> Vec<u32> {
        match place {
            Place::Register(r) => self.registers[usize::from(r)].1.clone(),
            Place::Slot(s) => vec![512 + u32::from(s)],
        }
    }

    /// A place of a bank: one in three is a slot.
    fn place(&self, bank: usize, draw: &mut Drawn) -> Place {
        if draw.below(3) == 0 {
            return Place::Slot(draw.below(SLOTS.into()) as u16);
        }
        loop {
            let r = draw.below(self.registers.len());
            if self.registers[r].0 == bank {
                return Place::Register(r as u16);
            }
        }
    }

    /// A patch of up to `most` entries, whose sources are equal or disjoint and whose
    /// destinations are disjoint. It may be refused all the same.
    fn patch(&self, most: usize, draw: &mut Drawn) -> Patch {
        let mut patch = Patch::new();
        let mut held: HashMap<u32, (u32, usize)> = HashMap::new();
        let mut written: Vec<u32> = Vec::new();
        for _ in 0..=draw.below(most) {
            let value = draw.below(self.values.len());
            let (bank, can_rebuild) = self.values[value];
            let (source, dest) = (self.place(bank, draw), self.place(bank, draw));
            let is_written = |unit: &u32| written.contains(unit);
            let units = self.units(dest);
            if source == dest || units.iter().any(is_written) {
                continue;
            }
            if can_rebuild && draw.below(3) == 0 {
                patch.add_remat(allocation(dest), Value::new(value));
            } else {
                let mine = (source.code(), value);
                let other = |unit: &u32| held.get(unit).is_some_and(|held| *held != mine);
                if self.units(source).iter().any(other) {
                    continue;
                }
                held.extend(self.units(source).into_iter().map(|unit| (unit, mine)));
                patch.add_move(allocation(source), allocation(dest), Value::new(value));
            }
            written.extend(units);
        }
        let free = (0..self.units).filter(|unit| !written.contains(unit) && draw.below(8) == 0);
        patch.free(&free.collect::<Vec<u32>>());
        patch
    }
}

fn allocation(place: Place) -> Allocation {
    match place {
        Place::Register(r) => Allocation::reg(PhysReg::new(r.into())),
        Place::Slot(s) => Allocation::spillslot(SpillSlot::new(s.into())),
    }
}

/// A bank: the size of its slots, the units of its registers, and those of its memory registers.
type Bank = (u32, Vec<Vec<u32>>, Vec<u32>);

/// A target of banks. Of its values some can be rebuilt, by half of a bank's registers.
fn model(name: &'static str, banks: &[Bank]) -> Model {
    let mut target = TargetBuilder::default();
    let (mut registers, mut halves) = (Vec::new(), Vec::new());
    for (index, (size, of_units, memory)) in banks.iter().enumerate() {
        let bank = target.bank(*size);
        let plain: Vec<PhysReg> = of_units
            .iter()
            .map(|units| target.register(units))
            .collect();
        let words: Vec<PhysReg> = memory
            .iter()
            .map(|&unit| target.memory_register(unit))
            .collect();
        registers.extend(of_units.iter().map(|units| (index, units.clone())));
        registers.extend(memory.iter().map(|&unit| (index, vec![unit])));
        let all = [&plain[..], &words[..]].concat();
        let top = target.class(Class::of(&all).in_order(&plain).with_slots());
        let stack = target.class(Class::of(&plain));
        halves.push(target.class(Class::of(&plain[plain.len() / 2..])));
        target.top_level_class(bank, top);
        target.stack_class(bank, stack);
    }
    let of_unit = registers.iter().flat_map(|(_, units)| units).max().unwrap();
    with_values(name, target, *of_unit + 1, registers, &halves)
}

/// With four values of each bank, of which two can be rebuilt by a class.
fn with_values(
    name: &'static str,
    target: TargetBuilder,
    units: u32,
    registers: Vec<(usize, Vec<u32>)>,
    classes: &[parallel_moves::RegClass],
) -> Model {
    let mut job = JobBuilder::on(target);
    let mut values = Vec::new();
    for (index, class) in classes.iter().enumerate() {
        let bank = RegBank::new(index);
        let function = job.function();
        function.value(bank);
        function.value(bank);
        function.remat_value(bank, RematCost::CheaperThanMove, *class);
        function.remat_value(bank, RematCost::CheaperThanLoad, *class);
        values.extend([false, false, true, true].map(|can| (index, can)));
    }
    Model {
        name,
        job,
        units,
        registers,
        values,
    }
}

fn runs(count: u32, width: u32) -> Vec<Vec<u32>> {
    let run = |index| (index * width..(index + 1) * width).collect();
    (0..count).map(run).collect()
}

fn models() -> Vec<Model> {
    let shipped = TargetBuilder::named("shipped").unwrap();
    let mut registers = Vec::new();
    for (bank, width) in [1, 2, 4].into_iter().enumerate() {
        registers.extend(
            runs(32 / width, width)
                .into_iter()
                .map(|units| (bank, units)),
        );
    }
    // Its classes are, bank by bank, one with slots and one without.
    let classes = [1, 3, 5].map(parallel_moves::RegClass::new);
    vec![
        with_values("shipped", shipped, 32, registers, &classes),
        model("three registers", &[(3, runs(3, 1), vec![])]),
        model(
            "registers and pairs",
            &[(3, runs(8, 1), vec![]), (4, runs(4, 2), vec![])],
        ),
        model("argument words", &[(3, runs(5, 1), vec![5, 6, 7])]),
        model(
            "wide, with argument words",
            &[(5, runs(4, 8), vec![40, 41]), (3, runs(6, 4), vec![])],
        ),
    ]
}

/// How many patches of each target, setting and way.
const PATCHES: usize = 150;

/// The edits of a patch as words.
fn words(edits: Result<parallel_moves::Edits<'_>, Refusal>) -> Option<Vec<u64>> {
    edits.ok().map(|edits| edits.words().to_vec())
}

#[test]
fn each_gets_a_yes() {
    let mut draw = Drawn(0x9e37_79b9_7f4a_7c15);
    for model in models() {
        for kept in [1, 2] {
            let mut moves = ParallelMoves::open(kept, &model.opening(300)).unwrap();
            let (mut accepted, mut edits) = (0, 0);
            for number in 0..PATCHES {
                let patch = model.patch(24, &mut draw);
                let list = match number % 3 {
                    0 => words(moves.resolve(&patch)),
                    1 => words(moves.resolve_by_groups(&patch)),
                    _ => moves.preview(&patch).ok().map(|preview| {
                        moves.take(&preview).unwrap();
                        preview.edits().words().to_vec()
                    }),
                };
                let Some(list) = list else { continue };
                assert_eq!(
                    moves.examine(&patch, &list),
                    Ok(true),
                    "{}: {patch:?}",
                    model.name
                );
                accepted += 1;
                edits += list.len();
            }
            let name = model.name;
            assert!(accepted > PATCHES / 2, "{name}: {accepted}");
            assert!(edits > 4 * accepted, "{name}: {edits} edits of {accepted}");
        }
    }
}

#[test]
fn each_in_a_frame_too() {
    let mut draw = Drawn(0x2545_f491_4f6c_dd1d);
    for model in models() {
        let bytes = model.opening(0);
        let formula = |kept_evictions, share| Formula {
            kept_evictions,
            target_and_function: &bytes,
            share,
        };
        let mut frame = Frame::open(40, &[formula(1, 12), formula(2, 12), formula(1, 0)]).unwrap();
        assert_eq!((frame.ordinary_slots(), frame.limit()), (SLOTS.into(), 40));
        let (mut accepted, mut most) = (0, 0);
        for number in 0..PATCHES {
            let patch = model.patch(16, &mut draw);
            let formula = draw.below(3);
            let list = match number % 3 {
                0 => words(frame.resolve(formula, &patch)),
                1 => words(frame.resolve_by_groups(formula, &patch)),
                _ => frame.preview(formula, &patch).ok().map(|preview| {
                    frame.take(&preview).unwrap();
                    preview.edits().words().to_vec()
                }),
            };
            let Some(list) = list else { continue };
            let said = frame.examine_patch(formula, &patch, &list);
            assert_eq!(said, Ok(true), "{}: {patch:?}", model.name);
            accepted += 1;
            most = most.max(frame.made(0).max(frame.made(1)));
        }
        let total = frame.made(0) + frame.made(1) + frame.made(2);
        assert_eq!(frame.total(), total);
        let name = model.name;
        assert!(accepted > PATCHES / 2, "{name}: {accepted}");
        assert!(most > 0 && total > most, "{name}: {most} of {total}");
    }
}

/// A list with something changed.
fn changed(list: &[u64], draw: &mut Drawn) -> Vec<u64> {
    let mut list = list.to_vec();
    let at = draw.below(list.len().max(1));
    match draw.below(5) {
        0 => {}
        1 if !list.is_empty() => drop(list.remove(at)),
        2 if at + 1 < list.len() => list.swap(at, at + 1),
        3 if !list.is_empty() => list[at] ^= 1 << draw.below(64),
        _ => list.push(draw.below(1 << 20) as u64),
    }
    list
}

/// A patch of the same opening with an entry more, drawn without care: most are refused.
fn careless(model: &Model, patch: &Patch, draw: &mut Drawn) -> Patch {
    let mut patch = patch.clone();
    let value = draw.below(model.values.len() + 1);
    let bank = model.values.get(value).map_or(0, |value| value.0);
    let [from, to] = [(); 2].map(|()| allocation(model.place(bank, draw)));
    match draw.below(3) {
        0 => patch.add_remat(to, Value::new(value)),
        1 => patch.add_free_unit(parallel_moves::RegUnit::new(draw.below(48))),
        _ => patch.add_move(from, to, Value::new(value)),
    }
    patch
}

/// What is said of a list for a patch of an opened function and of a formula is what is said of
/// it for the same patch in a job, and for all patches of a job at once.
#[test]
fn as_in_a_job() {
    let mut draw = Drawn(0x1234_5678_9abc_def1);
    let mut said = [0; 4];
    for model in models() {
        let bytes = model.opening(20);
        let mut moves = ParallelMoves::open(1, &bytes).unwrap();
        let formula = Formula {
            kept_evictions: 1,
            target_and_function: &bytes,
            share: 0,
        };
        let frame = Frame::open(33, &[formula]).unwrap();
        for _ in 0..PATCHES {
            let mut patch = model.patch(8, &mut draw);
            let list = words(moves.resolve(&patch)).unwrap_or_default();
            if draw.below(3) == 0 {
                patch = careless(&model, &patch, &mut draw);
            }
            let list = changed(&list, &mut draw);
            let job = job_of(&bytes, &[&patch]);
            let alone = moves.examine(&patch, &list);
            assert_eq!(alone, examine(&job, 0, &list), "{}: {patch:?}", model.name);
            assert_eq!(
                frame.examine_patch(0, &patch, &list),
                examine_in(33, &job, 0, &list)
            );
            said[match alone {
                Ok(true) => 0,
                Ok(false) => 1,
                Err(Refusal::NoSuchEdit) => 2,
                Err(_) => 3,
            }] += 1;
        }
    }
    assert!(said.iter().all(|&count| count > 40), "{said:?}");
}

/// The bytes of a job with these patches, accepted or not.
fn job_of(opening: &[u8], patches: &[&Patch]) -> Vec<u8> {
    let mut job = JobBuilder::new();
    for patch in patches {
        job.add_patch((*patch).clone());
    }
    // An empty target and function are seven numbers.
    let numbers = job.numbers().split_off(7);
    [opening, &common::encoded(numbers)].concat()
}

#[test]
fn all_patches_in_one_pass() {
    let mut draw = Drawn(0x0fed_cba9_8765_4321);
    let mut said = [0; 4];
    for model in models() {
        for round in 0..12 {
            let bytes = model.opening(20);
            let mut moves = ParallelMoves::open(1, &bytes).unwrap();
            let (mut patches, mut lists) = (Vec::new(), Vec::new());
            for _ in 0..8 {
                let mut patch = model.patch(8, &mut draw);
                let list = words(moves.resolve(&patch)).unwrap_or_default();
                if round % 2 == 0 && draw.below(8) == 0 {
                    patch = careless(&model, &patch, &mut draw);
                }
                lists.push(changed(&list, &mut draw));
                patches.push(patch);
            }
            let mut job = job_of(&bytes, &patches.iter().collect::<Vec<_>>());
            if round % 3 == 0 {
                // Cut off, or with something left over.
                let length = job.len() - draw.below(3) + 1;
                job.resize(length, 0);
            }
            // One list more than there are patches.
            lists.push(Vec::new());
            let each: Vec<_> = (0..)
                .zip(&lists)
                .map(|(k, list)| examine(&job, k, list))
                .collect();
            let all = examine_all(&job, lists.iter().map(|list| &list[..]));
            assert_eq!(all, each, "{}", model.name);
            for one in all {
                said[match one {
                    Ok(true) => 0,
                    Ok(false) => 1,
                    Err(Refusal::NoSuchEdit) => 2,
                    Err(_) => 3,
                }] += 1;
            }
        }
    }
    assert!(said.iter().all(|&count| count > 20), "{said:?}");
    let two: [&[u64]; 2] = [&[], &[]];
    assert_eq!(examine_all(&[], two), [Err(Refusal::NotANumber); 2]);
}

/// Checked, they are answered as unchecked: edits, slots, position and refusals.
#[test]
fn checked_as_unchecked() {
    let mut draw = Drawn(0x0123_4567_89ab_cdef);
    let mut earlier: Option<CheckedMoves> = None;
    for model in models() {
        for kept in [1, 2] {
            let bytes = model.opening(6);
            let open = || ParallelMoves::open(kept, &bytes).unwrap();
            let mut plain = open();
            let mut checked = match earlier.take() {
                Some(earlier) => earlier.reopen(kept, &bytes).unwrap(),
                None => open().checked(true),
            };
            let mut off = open().checked(false);
            let mut refused = 0;
            for number in 0..PATCHES {
                let patch = model.patch(16, &mut draw);
                let room = draw.below(60);
                let (expected, got, other) = match number % 3 {
                    0 => (
                        plain.resolve(&patch).map(|e| e.words().to_vec()),
                        checked.resolve(&patch).map(|e| e.words().to_vec()),
                        off.resolve(&patch).map(|e| e.words().to_vec()),
                    ),
                    1 => (
                        plain.resolve_by_groups(&patch).map(|e| e.words().to_vec()),
                        checked
                            .resolve_by_groups(&patch)
                            .map(|e| e.words().to_vec()),
                        off.resolve_by_groups(&patch).map(|e| e.words().to_vec()),
                    ),
                    _ => {
                        let mut lists = [[7; 60]; 3];
                        let [one, two, three] = &mut lists;
                        let results = (
                            plain
                                .resolve_into(&patch, &mut one[..room])
                                .map(|e| e.words().to_vec()),
                            checked
                                .resolve_into(&patch, &mut two[..room])
                                .map(|e| e.words().to_vec()),
                            off.resolve_into(&patch, &mut three[..room])
                                .map(|e| e.words().to_vec()),
                        );
                        assert_eq!((lists[0], lists[0]), (lists[1], lists[2]));
                        results
                    }
                };
                let expected = expected.map_err(CheckError::Refused);
                refused += usize::from(expected.is_err());
                assert_eq!(got, expected, "{}: {patch:?}", model.name);
                assert_eq!(other, expected);
                let state = (plain.made(), plain.position());
                assert_eq!((checked.made(), checked.position()), state);
                assert_eq!((off.made(), off.position()), state);
            }
            assert_eq!(checked.given(), PATCHES);
            earlier = Some(checked);
            assert!(
                refused > 5 && refused < PATCHES,
                "{}: {refused}",
                model.name
            );
        }
    }
}

/// A thread with a small stack can check, and what is checked goes between threads.
#[test]
fn small_stack() {
    let model = &models()[2];
    let mut moves = ParallelMoves::open(2, &model.opening(300))
        .unwrap()
        .checked(true);
    let patch = model.patch(24, &mut Drawn(7));
    let thread = std::thread::Builder::new().stack_size(64 * 1024);
    let counts = thread.spawn(move || {
        let whole = moves.resolve(&patch).unwrap().len();
        (
            whole,
            moves.resolve_by_groups(&patch).unwrap().len(),
            patch.len(),
        )
    });
    let (whole, by_groups, entries) = counts.unwrap().join().unwrap();
    assert!(entries > 3 && whole >= entries && by_groups >= entries);
}
