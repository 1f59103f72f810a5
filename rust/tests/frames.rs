//! Functions that share a frame: request 02 l on the target of swap-full, whose three registers
//! hold what they must keep.

use parallel_moves::{
    Allocation, Edits, Formula, Frame, FramePreview, ParallelMoves, Patch, PhysReg, Refusal,
    RegUnit, SpillSlot, TakeError, Value,
};

/// Two values and so many ordinary slots.
fn function(slots: u8) -> Vec<u8> {
    vec![
        3, 1, 3, 0, 1, 3, 0, 0, 1, 0, 0, 0, 1, 1, 0, 0, 1, 2, 2, // units, bank, registers
        0, 1, 3, 0, 1, 2, 3, 0, 1, 2, 0, 0, 3, 0, 1, 2, 3, 0, 1, 2, // classes
        2, slots, 0, 0, 0, 0, 0, // values and slots; L is 0
    ]
}

fn formula(bytes: &[u8], share: u32) -> Formula<'_> {
    Formula {
        kept_evictions: 1,
        target_and_function: bytes,
        share,
    }
}

/// Two formulas with so many ordinary slots, the limit and the shares.
fn two(slots: u8, limit: u32, first: u32, second: u32) -> Frame {
    let bytes = function(slots);
    Frame::open(limit, &[formula(&bytes, first), formula(&bytes, second)]).unwrap()
}

fn reg(index: usize) -> Allocation {
    Allocation::reg(PhysReg::new(index))
}

fn slot(index: usize) -> Allocation {
    Allocation::spillslot(SpillSlot::new(index))
}

fn patch(moves: &[(Allocation, Allocation)]) -> Patch {
    let mut patch = Patch::new();
    for (value, &(source, dest)) in moves.iter().enumerate() {
        patch.add_move(source, dest, Value::new(value));
    }
    patch
}

fn swap() -> Patch {
    patch(&[(reg(0), reg(1)), (reg(1), reg(0))])
}

fn chain() -> Patch {
    patch(&[(reg(0), reg(1)), (reg(1), reg(2))])
}

/// Two slots exchanged, which needs two more.
fn exchanged() -> Patch {
    patch(&[(slot(0), slot(1)), (slot(1), slot(0))])
}

/// A call of a formula: the slot that swap's edits go by, and the slots made; or the refusal.
fn by(frame: &mut Frame, formula: usize, patch: &Patch) -> Result<(String, usize), Refusal> {
    let first = frame
        .resolve(formula, patch)?
        .iter()
        .next()
        .map_or_else(String::new, |edit| edit.to_string());
    Ok((first, frame.made(formula)))
}

fn slot_made(s: usize, made: usize) -> Result<(String, usize), Refusal> {
    Ok((format!("M s{s} r1 1"), made))
}

fn asked(preview: &FramePreview) -> (String, usize) {
    let first = preview.edits().iter().next();
    (
        first.map_or_else(String::new, |edit| edit.to_string()),
        preview.made(),
    )
}

const OUT: Result<(String, usize), Refusal> = Err(Refusal::OutOfSlots);
const LATE: Result<(), TakeError> = Err(TakeError::Refused(Refusal::TakenLate));

#[test]
fn a_promised_slot_is_kept() {
    let mut frame = two(0, 1, 1, 0);
    assert_eq!(by(&mut frame, 1, &swap()), OUT);
    assert_eq!(by(&mut frame, 0, &swap()), slot_made(0, 1));
    assert_eq!(by(&mut frame, 1, &swap()), OUT);
}

#[test]
fn numbers_come_from_one_counter() {
    let mut frame = two(0, 2, 0, 0);
    assert_eq!(by(&mut frame, 0, &swap()), slot_made(0, 1));
    assert_eq!(by(&mut frame, 1, &swap()), slot_made(1, 1));
    assert_eq!(by(&mut frame, 0, &swap()), slot_made(0, 1));
}

#[test]
fn a_refused_patch_leaves_counter_and_counts() {
    let mut frame = two(2, 2, 1, 1);
    assert_eq!(by(&mut frame, 0, &exchanged()), OUT);
    assert_eq!(frame.made(0), 0);
    assert_eq!(by(&mut frame, 0, &swap()), slot_made(2, 1));
    assert_eq!(by(&mut frame, 1, &swap()), slot_made(3, 1));
}

#[test]
fn above_the_share_while_the_others_lack_is_left() {
    let mut frame = two(2, 3, 1, 1);
    assert_eq!(by(&mut frame, 0, &exchanged()), Ok(("S s3 r2".into(), 2)));
    assert_eq!(by(&mut frame, 1, &exchanged()), OUT);
    assert_eq!(by(&mut frame, 1, &swap()), slot_made(4, 1));
}

#[test]
fn a_refused_asking_says_so() {
    let mut frame = two(0, 1, 1, 0);
    let preview = |frame: &mut Frame, formula| frame.preview(formula, &swap()).map(|it| asked(&it));
    assert_eq!(preview(&mut frame, 1), OUT);
    assert_eq!(preview(&mut frame, 0), Ok(("M s0 r1 1".into(), 1)));
    assert_eq!(by(&mut frame, 0, &swap()), slot_made(0, 1));
    assert_eq!(preview(&mut frame, 1), OUT);
}

#[test]
fn takes_heed_the_counter() {
    let mut frame = two(0, 2, 0, 0);
    let first = frame.preview(0, &swap()).unwrap();
    assert_eq!(asked(&first), ("M s0 r1 1".into(), 1));
    assert_eq!(by(&mut frame, 1, &swap()), slot_made(0, 1));
    assert_eq!(frame.take(&first), LATE);
    let second = frame.preview(0, &swap()).unwrap();
    assert_eq!(asked(&second), ("M s1 r1 1".into(), 1));
    assert_eq!(frame.take(&second), Ok(()));
    assert_eq!((frame.made(0), frame.made(1)), (1, 1));
    // Its formula has taken one since.
    assert_eq!(frame.take(&second), LATE);

    // Also where the answer makes no slot.
    let mut frame = two(0, 2, 0, 0);
    let chained = frame.preview(0, &chain()).unwrap();
    assert_eq!(chained.made(), 0);
    assert_eq!(by(&mut frame, 1, &swap()), slot_made(0, 1));
    assert_eq!(frame.take(&chained), LATE);

    // Not where the others resolved without making one.
    let mut frame = two(0, 2, 0, 0);
    assert_eq!(by(&mut frame, 1, &swap()), slot_made(0, 1));
    let asked = frame.preview(0, &swap()).unwrap();
    assert_eq!(by(&mut frame, 1, &swap()), slot_made(0, 1));
    assert_eq!(frame.take(&asked), Ok(()));
    assert_eq!(frame.position(0), 3);

    // Of another frame.
    assert_eq!(two(0, 2, 0, 0).take(&asked), Err(TakeError::Other));
}

#[test]
fn what_is_refused_of_a_frame() {
    let bytes = function(0);
    let other = function(1);
    let open = |limit, formulas: &[Formula<'_>]| Frame::open(limit, formulas).map(|_| ());
    let setting = Formula {
        kept_evictions: 3,
        ..formula(&bytes, 2)
    };
    assert_eq!(open(3, &[]), Err(Refusal::NamesNothing));
    assert_eq!(
        open(0, &[formula(&bytes, 0); 17]),
        Err(Refusal::NamesNothing)
    );
    assert_eq!(
        open(2049, &[formula(&bytes, 2050)]),
        Err(Refusal::NamesNothing)
    );
    // Shares above the limit before the first one's setting, however large.
    assert_eq!(
        open(2, &[setting, formula(&bytes, 1)]),
        Err(Refusal::SharesAboveLimit)
    );
    assert_eq!(
        open(2, &[formula(&bytes, u32::MAX), formula(&bytes, 1)]),
        Err(Refusal::SharesAboveLimit)
    );
    assert_eq!(
        open(3, &[setting, formula(&bytes, 1)]),
        Err(Refusal::NoSuchSetting)
    );
    // Another N, also where the job ends behind it.
    let cut = &other[..other.len() - 5];
    for bytes_of_other in [&other[..], cut] {
        assert_eq!(
            open(3, &[formula(&bytes, 2), formula(bytes_of_other, 1)]),
            Err(Refusal::NamesNothing)
        );
    }
    assert_eq!(open(3, &[formula(cut, 2)]), Err(Refusal::NotANumber));
    assert_eq!(open(0, &[formula(&bytes, 0); 16]), Ok(()));
}

/// Four registers, four values, two ordinary slots, and an L for a function alone.
fn four(limit: u8) -> Vec<u8> {
    vec![
        4, 1, 3, 0, 1, 4, 0, 0, 1, 0, 0, 0, 1, 1, 0, 0, 1, 2, 0, 0, 1,
        3, // units, bank, registers
        2, 0, 1, 4, 0, 1, 2, 3, 4, 0, 1, 2, 3, 0, 0, 4, 0, 1, 2, 3, 4, 0, 1, 2, 3, // classes
        4, 2, limit, 0, 0, 0, 0, 0, 0, 0, 0, // values and slots
    ]
}

/// The edits, with slots from 2 on renamed to where they stand among a formula's own.
fn texts(
    edits: Result<Edits<'_>, Refusal>,
    own: impl Fn(usize) -> usize,
) -> Result<Vec<String>, Refusal> {
    let renamed = |word: &str| match word.strip_prefix('s').map(|s| s.parse::<usize>().unwrap()) {
        Some(slot) if slot >= 2 => format!("s{}", 2 + own(slot - 2)),
        _ => word.to_owned(),
    };
    let text = |edit: String| edit.split(' ').map(renamed).collect::<Vec<_>>().join(" ");
    edits.map(|edits| edits.iter().map(|edit| text(edit.to_string())).collect())
}

#[test]
fn by_groups_one_share_for_all() {
    let bytes = four(0);
    let exchanged = [(slot(0), slot(1)), (slot(1), slot(0))];
    let swapped = [(reg(0), reg(1)), (reg(1), reg(0))];
    // The slot that the first group is done with is the second one's.
    let mut frame = Frame::open(2, &[formula(&bytes, 2)]).unwrap();
    let handed_on = patch(&[exchanged, swapped].concat());
    let edits = texts(frame.resolve_by_groups(0, &handed_on), |slot| slot).unwrap();
    let expected = "S s3 r3, M r3 s1 1, M s2 r3 1, M r3 s0 0, M s1 r3 0, M r3 s2 1, M s0 r3 1, \
                    L r3 s3, M s3 r1 3, M r1 r0 2, M r0 s3 3";
    assert_eq!(edits.join(", "), expected);
    assert_eq!(frame.made(0), 2);

    // The second one needs more than the share: the first one's slot is not made either, and what
    // was asked for before can be taken.
    let mut frame = Frame::open(2, &[formula(&bytes, 1), formula(&bytes, 1)]).unwrap();
    let asked = frame.preview(0, &patch(&swapped)).unwrap();
    let later = patch(&[swapped, exchanged].concat());
    let refused = frame.resolve_by_groups(0, &later).map(|edits| edits.len());
    assert_eq!(refused, Err(Refusal::OutOfSlots));
    assert_eq!((frame.made(0), frame.made(1)), (0, 0));
    assert_eq!(frame.take(&asked), Ok(()));
    assert_eq!(frame.made(0), 1);

    // A patch without entries counts as one.
    let asked = frame.preview(0, &patch(&swapped)).unwrap();
    let none = frame.resolve_by_groups(0, &Patch::new());
    assert_eq!(none.map(|edits| edits.len()), Ok(0));
    assert_eq!(frame.take(&asked), LATE);
}

/// With a limit that is the sum of the shares each formula has its share, as an L of its own.
#[test]
fn by_groups_as_alone() {
    let mut state = 0x9e37_79b9_7f4a_7c15_u64;
    let mut below = |n: u64| {
        state ^= state << 13;
        state ^= state >> 7;
        state ^= state << 17;
        (state % n) as usize
    };
    let (mut out, mut later) = (0, 0);
    for _ in 0..300 {
        let shares = [below(4), below(4)];
        let bytes = four(0);
        let formulas = shares.map(|share| formula(&bytes, share as u32));
        let mut frame = Frame::open((shares[0] + shares[1]) as u32, &formulas).unwrap();
        let mut alone = shares.map(|share| ParallelMoves::open(1, &four(share as u8)).unwrap());
        // The slots that each has made, by the frame's numbers.
        let mut own = [Vec::new(), Vec::new()];
        for _ in 0..20 {
            let i = below(2);
            let mut patch = Patch::new();
            for unit in (0..4).filter(|_| below(8) == 0).collect::<Vec<_>>() {
                patch.add_free_unit(RegUnit::new(unit));
            }
            let mut shuffled = || {
                let mut places = [reg(0), reg(1), reg(2), reg(3), slot(0), slot(1)];
                for at in 1..6 {
                    places.swap(at, below(at as u64 + 1));
                }
                places
            };
            let moves = shuffled().into_iter().zip(shuffled());
            for (value, (source, dest)) in moves.take(below(5)).enumerate() {
                patch.add_move(source, dest, Value::new(value));
            }
            let grouped = below(4) != 0;
            let before = frame.made(0) + frame.made(1);
            let owned = own[i].len();
            let place = |slot: usize| match own[i].iter().position(|&made| made == slot) {
                Some(at) => at,
                None => owned + slot - before,
            };
            let (got, expected) = if grouped {
                (
                    texts(frame.resolve_by_groups(i, &patch), place),
                    texts(alone[i].resolve_by_groups(&patch), |slot| slot),
                )
            } else {
                (
                    texts(frame.resolve(i, &patch), place),
                    texts(alone[i].resolve(&patch), |slot| slot),
                )
            };
            assert_eq!(got, expected, "{patch:?}");
            assert_eq!(frame.made(i), alone[i].made());
            assert_eq!(frame.position(i), alone[i].position());
            let after = frame.made(0) + frame.made(1);
            assert!(got.is_ok() || after == before);
            out += usize::from(grouped && got == Err(Refusal::OutOfSlots));
            later += usize::from(grouped && after > before && before > owned);
            own[i].extend(before..after);
        }
    }
    assert!(out > 100 && later > 20, "{out} {later}");
}
