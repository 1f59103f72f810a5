//! A library made wrong. This program has functions of its own by which patches are asked for,
//! taken and resolved by groups, and jobs answered: the linker takes them in place of the
//! library's. They resolve as the library does and then, where they are told to, exchange two
//! edits, spoil one, or refuse to take. Checked patches are then not confirmed, and change
//! nothing; unchecked ones go unseen.

#[allow(dead_code)]
#[path = "../src/bin/parallel-moves/command.rs"]
mod command;
mod common;
#[allow(dead_code)]
#[path = "../src/bin/parallel-moves/given.rs"]
mod given;
#[allow(dead_code)]
#[path = "../src/bin/parallel-moves/jobs.rs"]
mod jobs;
#[allow(dead_code)]
#[path = "../src/bin/parallel-moves/resolve.rs"]
mod resolve;

use std::cell::{Cell, RefCell};
use std::slice;

use common::many_swaps;
use parallel_moves::{
    CheckError, CheckedMoves, ParallelMoves, Patch, PhysReg, Refusal, Resolver, Unconfirmed, Value,
};

const CACHE: usize = 65_600;
/// So many edits more than were made: no list has room for them.
const TOO_MANY: usize = 2000;

/// What is done to a patch.
#[derive(Clone, Copy, PartialEq, Eq, Debug)]
enum Fault {
    None,
    Exchanged,
    Spoiled,
    TooMany,
    NotTaken,
}

thread_local! {
    static FAULT: Cell<Fault> = const { Cell::new(Fault::None) };
    /// The cache that the last asking makes.
    static ASKED: RefCell<Vec<u16>> = const { RefCell::new(Vec::new()) };
}

unsafe extern "C" {
    fn parallel_moves_resolve_5(
        target: *const u16,
        function: *const u16,
        free: *const u32,
        free_length: usize,
        numbers: *const u32,
        numbers_length: usize,
        cache: *mut u16,
        list: *mut u64,
        list_length: usize,
        refusal: *mut u8,
        position: *mut u16,
        entries: *mut u16,
        writers: *mut u16,
        available: *mut bool,
        sources: *mut bool,
        edits: *mut u64,
        slots: *mut u16,
        diverted: *mut u16,
        marks: *mut u8,
        carried: *mut u16,
    ) -> usize;
    fn parallel_moves_made_5(cache: *const u16) -> u16;
    fn parallel_moves_answer_groups_5(
        kept_evictions: u32,
        job: *const u8,
        job_length: usize,
        words: *mut u64,
        words_length: usize,
        refusal: *mut u8,
        target: *mut u16,
        function: *mut u16,
        cache: *mut u16,
        free: *mut bool,
        entries: *mut u16,
        writers: *mut u16,
        available: *mut bool,
        sources: *mut bool,
        edits: *mut u64,
        slots: *mut u16,
        diverted: *mut u16,
        marks: *mut u8,
        carried: *mut u16,
        owners: *mut u8,
        labels: *mut u8,
        next: *mut u8,
        common: *mut bool,
        work: *mut u16,
        joined: *mut u64,
        numbers: *mut u32,
    ) -> usize;
}

/// Does the fault to the edits that were made.
fn spoil(list: &mut [u64], count: usize) -> usize {
    match FAULT.get() {
        Fault::Exchanged if count > 1 => list.swap(0, 1),
        Fault::Spoiled if count > 0 => list[0] += 1 << 63,
        Fault::TooMany => return count + TOO_MANY,
        _ => {}
    }
    count
}

#[unsafe(no_mangle)]
unsafe extern "C" fn parallel_moves_ask_5(
    target: *const u16,
    function: *const u16,
    free: *const u32,
    free_length: usize,
    numbers: *const u32,
    numbers_length: usize,
    cache: *const u16,
    list: *mut u64,
    list_length: usize,
    refusal: *mut u8,
    made: *mut u16,
    position: *mut u16,
    _stamp: *mut u64,
    entries: *mut u16,
    writers: *mut u16,
    available: *mut bool,
    sources: *mut bool,
    edits: *mut u64,
    slots: *mut u16,
    diverted: *mut u16,
    marks: *mut u8,
    carried: *mut u16,
) -> usize {
    // SAFETY: the crate lends what the library asks for, and this is given on as it is but for
    // the cache, of which a copy is.
    unsafe {
        let mut copy = slice::from_raw_parts(cache, CACHE).to_vec();
        let count = parallel_moves_resolve_5(
            target,
            function,
            free,
            free_length,
            numbers,
            numbers_length,
            copy.as_mut_ptr(),
            list,
            list_length,
            refusal,
            position,
            entries,
            writers,
            available,
            sources,
            edits,
            slots,
            diverted,
            marks,
            carried,
        );
        *made = parallel_moves_made_5(copy.as_ptr());
        ASKED.replace(copy);
        spoil(slice::from_raw_parts_mut(list, list_length), count)
    }
}

#[unsafe(no_mangle)]
unsafe extern "C" fn parallel_moves_take_5(
    _made: u16,
    _stamp: u64,
    _slots: *const u16,
    cache: *mut u16,
) -> u8 {
    if FAULT.get() == Fault::NotTaken {
        return 20;
    }
    // SAFETY: the crate lends a cache.
    let cache = unsafe { slice::from_raw_parts_mut(cache, CACHE) };
    ASKED.with_borrow(|asked| cache.copy_from_slice(asked));
    0
}

#[unsafe(no_mangle)]
unsafe extern "C" fn parallel_moves_resolve_groups_5(
    target: *const u16,
    function: *const u16,
    free: *const u32,
    free_length: usize,
    numbers: *const u32,
    numbers_length: usize,
    cache: *mut u16,
    list: *mut u64,
    list_length: usize,
    refusal: *mut u8,
    position: *mut u16,
    _units: *mut bool,
    entries: *mut u16,
    writers: *mut u16,
    available: *mut bool,
    sources: *mut bool,
    edits: *mut u64,
    slots: *mut u16,
    diverted: *mut u16,
    marks: *mut u8,
    carried: *mut u16,
    _owners: *mut u8,
    _labels: *mut u8,
    _next: *mut u8,
    _common: *mut bool,
    _work: *mut u16,
    _joined: *mut u64,
) -> usize {
    // SAFETY: as in asking; the patch has one group.
    unsafe {
        let count = parallel_moves_resolve_5(
            target,
            function,
            free,
            free_length,
            numbers,
            numbers_length,
            cache,
            list,
            list_length,
            refusal,
            position,
            entries,
            writers,
            available,
            sources,
            edits,
            slots,
            diverted,
            marks,
            carried,
        );
        spoil(slice::from_raw_parts_mut(list, list_length), count)
    }
}

/// The patch of a job whose edits are spoiled, from 1, where each has a head and three.
const SPOILED_PATCH: usize = 700;

#[unsafe(no_mangle)]
unsafe extern "C" fn parallel_moves_answer_5(
    kept_evictions: u32,
    job: *const u8,
    job_length: usize,
    words: *mut u64,
    words_length: usize,
    refusal: *mut u8,
    target: *mut u16,
    function: *mut u16,
    cache: *mut u16,
    free: *mut bool,
    entries: *mut u16,
    writers: *mut u16,
    available: *mut bool,
    sources: *mut bool,
    edits: *mut u64,
    slots: *mut u16,
    diverted: *mut u16,
    marks: *mut u8,
    carried: *mut u16,
) -> usize {
    let (mut owners, mut labels, mut next) = (vec![0; 4608], vec![0; 128], vec![0; 128]);
    let (mut common, mut work) = (vec![false; 512], vec![0; CACHE]);
    let (mut joined, mut numbers) = (vec![0; 1024], vec![0; 512]);
    // SAFETY: the crate lends what the library asks for, and this is given on as it is. By groups
    // it is lent some tables more, which are as long as it has them. The patches of the job that
    // is given have one group each.
    unsafe {
        let count = parallel_moves_answer_groups_5(
            kept_evictions,
            job,
            job_length,
            words,
            words_length,
            refusal,
            target,
            function,
            cache,
            free,
            entries,
            writers,
            available,
            sources,
            edits,
            slots,
            diverted,
            marks,
            carried,
            owners.as_mut_ptr(),
            labels.as_mut_ptr(),
            next.as_mut_ptr(),
            common.as_mut_ptr(),
            work.as_mut_ptr(),
            joined.as_mut_ptr(),
            numbers.as_mut_ptr(),
        );
        let words = slice::from_raw_parts_mut(words, words_length);
        if let Some(patch) = words.get_mut(4 * SPOILED_PATCH - 3..4 * SPOILED_PATCH) {
            spoil(patch, 3);
        }
        count
    }
}

/// It stands beside the answering in the library, and is not called here.
#[unsafe(no_mangle)]
extern "C" fn parallel_moves_text_5(
    _words: *const u64,
    _words_length: usize,
    _refusal: u8,
    _text: *mut u8,
    _text_length: usize,
) -> usize {
    0
}

/// Three registers, two values and no slots, of which one may be made.
fn open() -> ParallelMoves {
    let bytes = [
        3, 1, 3, 0, 1, 3, 0, 0, 1, 0, 0, 0, 1, 1, 0, 0, 1, 2, 2, // units, bank, registers
        0, 1, 3, 0, 1, 2, 3, 0, 1, 2, 0, 0, 3, 0, 1, 2, 3, 0, 1, 2, // classes
        2, 0, 1, 0, 0, 0, 0, // values and slots
    ];
    ParallelMoves::open(1, &bytes).unwrap()
}

fn swap() -> Patch {
    let [r0, r1] = [0, 1].map(PhysReg::new);
    let mut patch = Patch::new();
    patch
        .move_(r0, r1, Value::new(0))
        .move_(r1, r0, Value::new(1));
    patch
}

/// What swap comes to, one way or another: its edits, or why there are none.
fn swapped(moves: &mut CheckedMoves, by_groups: bool) -> Result<Vec<String>, CheckError> {
    let edits = match by_groups {
        true => moves.resolve_by_groups(&swap()),
        false => moves.resolve(&swap()),
    };
    edits.map(|edits| edits.iter().map(|edit| edit.to_string()).collect())
}

fn unconfirmed(result: Result<Vec<String>, CheckError>) -> Unconfirmed {
    match result {
        Err(CheckError::Unconfirmed(unconfirmed)) => unconfirmed,
        other => panic!("{other:?}"),
    }
}

const RIGHT: [&str; 3] = ["M s0 r1 1", "M r1 r0 0", "M r0 s0 1"];

#[test]
fn a_fault_is_seen_and_named() {
    for by_groups in [false, true] {
        let mut moves = open().checked(true);
        let mut number = 0;
        for fault in [Fault::Exchanged, Fault::Spoiled, Fault::Exchanged] {
            FAULT.set(fault);
            number += 1;
            let said = unconfirmed(swapped(&mut moves, by_groups));
            assert_eq!(said.patch(), number);
            let refusal = (fault == Fault::Spoiled).then_some(Refusal::NoSuchEdit);
            assert_eq!(said.refusal(), refusal);
            assert_eq!(said.words().len(), 3);
            let words = said.to_string();
            assert!(words.starts_with(&format!("patch {number}: ")), "{words}");
            // The function is as it was.
            assert_eq!((moves.made(), moves.position()), (0, 0), "{fault:?}");
        }
        // As if none had been given.
        FAULT.set(Fault::None);
        assert_eq!(swapped(&mut moves, by_groups).unwrap(), RIGHT);
        assert_eq!((moves.made(), moves.position(), moves.given()), (1, 3, 4));
        // A later one leaves what was made before it.
        FAULT.set(Fault::Exchanged);
        assert_eq!(unconfirmed(swapped(&mut moves, by_groups)).patch(), 5);
        assert_eq!((moves.made(), moves.position()), (1, 3));
    }
}

/// More edits than there is room for, and an answer that is not taken.
#[test]
fn other_faults() {
    let mut moves = open().checked(true);
    FAULT.set(Fault::NotTaken);
    let said = unconfirmed(swapped(&mut moves, false));
    assert_eq!(said.refusal(), Some(Refusal::TakenLate));
    assert_eq!(moves.made(), 0);
    FAULT.set(Fault::TooMany);
    let mut list = [7; 16];
    let error = moves.resolve_into(&swap(), &mut list).unwrap_err();
    assert!(matches!(error, CheckError::Unconfirmed(said) if said.patch() == 2));
    assert_eq!((list, moves.made()), ([7; 16], 0));
    for by_groups in [false, true] {
        let said = unconfirmed(swapped(&mut moves, by_groups));
        assert_eq!((said.words().len(), said.refusal()), (0, None));
        assert_eq!(moves.made(), 0);
    }
    FAULT.set(Fault::None);
    assert_eq!(swapped(&mut moves, false).unwrap(), RIGHT);
}

#[test]
fn the_list_stays() {
    let mut moves = open().checked(true);
    let mut list = [7; 16];
    FAULT.set(Fault::Exchanged);
    assert!(moves.resolve_into(&swap(), &mut list).is_err());
    assert_eq!(list, [7; 16]);
    FAULT.set(Fault::None);
    assert_eq!(moves.resolve_into(&swap(), &mut list).unwrap().len(), 3);
    assert_eq!(list[3..], [7; 13]);
}

/// Without the check nobody sees it: the faults are faults.
#[test]
fn unchecked_it_goes_unseen() {
    FAULT.set(Fault::Exchanged);
    let mut moves = open().checked(false);
    let edits = swapped(&mut moves, true).unwrap();
    assert_eq!(edits, [RIGHT[1], RIGHT[0], RIGHT[2]]);
    let mut moves = open();
    let preview = moves.preview(&swap()).unwrap();
    assert_eq!(moves.examine(&swap(), preview.edits().words()), Ok(false));
    assert_eq!(moves.take(&preview), Ok(()));
}

/// Of a whole job the patch is named, too.
#[test]
fn of_a_job() {
    let job = many_swaps();
    let mut resolver = Resolver::new();
    for (fault, refusal) in [
        (Fault::Exchanged, None),
        (Fault::Spoiled, Some(Refusal::NoSuchEdit)),
    ] {
        FAULT.set(fault);
        let said = resolver.answer(1, &job).unwrap().confirm(&job).unwrap_err();
        assert_eq!((said.patch(), said.refusal()), (SPOILED_PATCH, refusal));
    }
    FAULT.set(Fault::None);
    assert_eq!(resolver.answer(1, &job).unwrap().confirm(&job), Ok(()));
}

/// What the command's files need of its `main.rs`.
fn print(_result: &[u8]) -> Result<(), command::Failure> {
    Ok(())
}

fn say(_what: &str) {}

/// `parallel-moves resolve --check` prints nothing of the job, names the patch, and ends with
/// the status of something that went wrong.
#[test]
fn of_the_command() {
    FAULT.set(Fault::Exchanged);
    let given = given::Given::read(&resolve::COMMAND, &["--check".into()]);
    let command::Run::Each(each) = resolve::COMMAND.run else {
        panic!("it is for each job");
    };
    let given = given.unwrap_or_else(|failure| panic!("{}", failure.what()));
    let outcome = (each.run)(&given, &mut Resolver::new(), &many_swaps());
    let (printed, said) = command::parted(outcome);
    let said = said.expect("it is not confirmed");
    assert!(printed.is_empty());
    assert_eq!(said.status(), 2);
    let words = said.what();
    assert!(
        words.starts_with(&format!("patch {SPOILED_PATCH}: ")),
        "{words}"
    );
}
