//! Patches asked for and taken: request 02 g on the target of swap-full, whose three
//! registers hold what they must keep.

use parallel_moves::{
    Allocation, ParallelMoves, Patch, PhysReg, Preview, Refusal, SpillSlot, TakeError, Value,
};

const LATE: Result<(), TakeError> = Err(TakeError::Refused(Refusal::TakenLate));

/// Two values, so many ordinary slots, and one emergency slot that may be made.
fn open(slots: u8) -> ParallelMoves {
    let bytes = [
        3, 1, 3, 0, 1, 3, 0, 0, 1, 0, 0, 0, 1, 1, 0, 0, 1, 2, 2, // units, bank, registers
        0, 1, 3, 0, 1, 2, 3, 0, 1, 2, 0, 0, 3, 0, 1, 2, 3, 0, 1, 2, // classes
        2, slots, 1, 0, 0, 0, 0, // values and slots
    ];
    ParallelMoves::open(1, &bytes).unwrap()
}

fn reg(index: usize) -> Allocation {
    Allocation::reg(PhysReg::new(index))
}

fn slot(index: usize) -> Allocation {
    Allocation::spillslot(SpillSlot::new(index))
}

fn patch(moves: &[(Allocation, Allocation)]) -> Patch {
    let mut patch = Patch::new();
    for (value, &(source, dest)) in moves.iter().enumerate() {
        patch.add_move(source, dest, Value::new(value));
    }
    patch
}

fn swap() -> Patch {
    patch(&[(reg(0), reg(1)), (reg(1), reg(0))])
}

/// Edits, slots made and position.
fn shown(preview: &Preview) -> (Vec<String>, usize, usize) {
    let edits = preview.edits().iter().map(|edit| edit.to_string());
    (edits.collect(), preview.made(), preview.position())
}

/// What swap comes to with a slot made.
fn by_slot(s: usize) -> (Vec<String>, usize, usize) {
    let edits = [
        format!("M s{s} r1 1"),
        "M r1 r0 0".into(),
        format!("M r0 s{s} 1"),
    ];
    (edits.into(), 1, 3)
}

#[test]
fn one_of_two_answers_is_taken_and_once() {
    let mut moves = open(0);
    let [first, second] = [(); 2].map(|()| moves.preview(&swap()).unwrap());
    assert_eq!(shown(&first), by_slot(0));
    assert_eq!(shown(&second), by_slot(0));
    assert_eq!((moves.made(), moves.position()), (0, 0));
    assert_eq!(moves.take(&first), Ok(()));
    assert_eq!((moves.made(), moves.position()), (1, 3));
    assert_eq!(moves.take(&second), LATE);
    assert_eq!(moves.take(&first), LATE);
    // The slot is taken again.
    assert_eq!(shown(&moves.preview(&swap()).unwrap()), by_slot(0));
}

/// A patch without entries leaves the slots as they are, and counts all the same.
#[test]
fn every_resolved_patch_counts() {
    let mut moves = open(0);
    let preview = moves.preview(&swap()).unwrap();
    assert_eq!(moves.resolve(&patch(&[])).unwrap().len(), 0);
    assert_eq!(moves.take(&preview), LATE);
    assert_eq!((moves.made(), moves.position()), (0, 0));
    // So does one that is taken.
    let [none, other] = [patch(&[]), swap()].map(|patch| moves.preview(&patch).unwrap());
    assert_eq!(moves.take(&none), Ok(()));
    assert_eq!(moves.take(&other), LATE);
    assert_eq!(moves.made(), 0);
}

#[test]
fn a_refused_patch_does_not_count() {
    let mut moves = open(0);
    let preview = moves.preview(&swap()).unwrap();
    let overlapping = patch(&[(reg(0), reg(1)), (reg(2), reg(1))]);
    assert_eq!(moves.resolve(&overlapping), Err(Refusal::WrittenTwice));
    assert_eq!(moves.take(&preview), Ok(()));
    assert_eq!((moves.made(), moves.position()), (1, 3));
}

/// A refused asking leaves nothing to take, and earlier answers good.
#[test]
fn a_refused_asking_leaves_nothing() {
    let mut moves = open(2);
    let preview = moves.preview(&swap()).unwrap();
    assert_eq!(shown(&preview), by_slot(2));
    let exchanged = patch(&[(slot(0), slot(1)), (slot(1), slot(0))]);
    assert_eq!(moves.preview(&exchanged).err(), Some(Refusal::OutOfSlots));
    assert_eq!(moves.resolve(&exchanged), Err(Refusal::OutOfSlots));
    assert_eq!(moves.take(&preview), Ok(()));
    assert_eq!(moves.made(), 1);
}

/// Another function's preview changes nothing, nor does one of the function that was open
/// before.
#[test]
fn previews_have_their_function() {
    let [mut one, mut two] = [open(0), open(0)];
    let preview = one.preview(&swap()).unwrap();
    assert_eq!(two.take(&preview), Err(TakeError::Other));
    assert_eq!((two.made(), two.position()), (0, 0));
    let bytes = include_bytes!("../../examples/swap-full.job");
    let mut again = one.reopen(1, &bytes[..bytes.len() - 11]).unwrap();
    assert_eq!(again.take(&preview), Err(TakeError::Other));
    assert_eq!(again.made(), 0);
    let told = TakeError::Other.to_string();
    assert_eq!(told, "the preview is another function's");
    let late = TakeError::Refused(Refusal::TakenLate).to_string();
    assert_eq!(late, Refusal::TakenLate.to_string());
}
