//! Lists of edits examined: the design's trials, where a no first goes wrong, and every answer
//! beside brute force.

#[path = "examine/brute.rs"]
mod brute;

use parallel_moves::{Refusal, Resolver, examine, examine_in, first_fault, text};

/// Three registers and their classes; then what follows.
fn three(rest: &str) -> Vec<u8> {
    let text = format!(
        "units 3\nbank b0 slots 2^3 top-level c0 stack c1\nregister r0 bank b0 units 0\n\
         register r1 bank b0 units 1\nregister r2 bank b0 units 2\n\
         class c0 bank b0 with-slots members r0 r1 r2 order r0 r1 r2\n\
         class c1 bank b0 members r0 r1 r2 order r0 r1 r2\n{rest}"
    );
    text::to_bytes(&text).unwrap()
}

fn code(place: &str) -> u64 {
    let number: u64 = place[1..].parse().unwrap();
    if place.starts_with('r') {
        number * 2 + 1
    } else {
        number * 2
    }
}

/// The word of an edit as it is printed.
fn word(edit: &str) -> u64 {
    let parts: Vec<&str> = edit.split(' ').collect();
    let value = |at: usize| parts[at].parse::<u64>().unwrap();
    let (kind, to, from, value) = match parts[0] {
        "M" => (1, code(parts[1]), code(parts[2]), value(3)),
        "R" => (2, code(parts[1]), 0, value(2)),
        "S" => (3, code(parts[1]), code(parts[2]), 0),
        _ => (4, code(parts[1]), code(parts[2]), 0),
    };
    ((value * 16_384 + from) * 16_384 + to) * 8 + kind
}

fn words(list: &str) -> Vec<u64> {
    list.split(", ")
        .filter(|edit| !edit.is_empty())
        .map(word)
        .collect()
}

fn plain(slots: u32, limit: u32, patch: &str) -> Vec<u8> {
    three(&format!(
        "slots {slots}\nemergency-slots {limit}\nvalue v0 bank b0\nvalue v1 bank b0\npatch 1{patch}"
    ))
}

const SWAP: &str = "\n  move v0 from r0 to r1\n  move v1 from r1 to r0\n";
const ONE: &str = "\n  move v0 from r0 to r1\n";

#[test]
fn trials() {
    let swap = plain(0, 1, SWAP);
    let says = |job: &[u8], list: &str| examine(job, 0, &words(list));
    assert_eq!(says(&swap, "M s0 r1 1, M r1 r0 0, M r0 s0 1"), Ok(true));
    assert_eq!(says(&swap, "S s0 r1, M r1 r0 0, L r0 s0"), Ok(true));
    // A register left waiting counts by its own words.
    let through = "S s0 r2, M r2 r1 1, M r1 r0 0, M r0 r2 1";
    assert_eq!(says(&swap, through), Ok(false));
    assert_eq!(says(&swap, &format!("{through}, L r2 s0")), Ok(true));
    // Values with one source have one content, also in a chain.
    let equal = plain(0, 1, "\n  move v0 from r0 to r1\n  move v1 from r0 to r2\n");
    assert_eq!(says(&equal, "M r1 r0 0, M r2 r1 0"), Ok(true));
    let chain = "\n  move v0 from r0 to s0\n  move v1 from r1 to s1\n  move v1 from r0 to s2\n";
    assert_eq!(
        says(&plain(3, 1, chain), "M s0 r1 0, M s1 r0 1, M s2 r1 1"),
        Ok(true)
    );
    let apart = "\n  move v0 from r0 to s0\n  move v1 from r1 to s1\n";
    assert_eq!(says(&plain(2, 1, apart), "M s0 r1 0, M s1 r0 1"), Ok(false));
    // A slot that is no kept source may hold a list of any length.
    let free = plain(1, 1, &format!(" free 2{ONE}"));
    assert_eq!(says(&free, "M r2 s0 0, M r1 r0 0"), Ok(false));
    let one = plain(1, 1, ONE);
    assert_eq!(says(&one, "M r1 r0 0, S s0 r2"), Ok(false));
    assert_eq!(says(&one, "M r1 r0 0, S s1 r2"), Ok(true));
    assert_eq!(says(&one, "M r1 r0 0, S s2 r2"), Err(Refusal::NoSuchEdit));
    // In a shared frame N plus its limit counts.
    assert_eq!(
        examine_in(2, &one, 0, &words("M r1 r0 0, S s2 r2")),
        Ok(true)
    );
    assert_eq!(examine_in(2049, &[], 9, &[]), Err(Refusal::NamesNothing));
    assert_eq!(says(&one, "R r1 0"), Ok(false));
    // 24 comes before the answer, the patch's number before 24, the job's before that.
    assert_eq!(says(&one, "R r1 0, M r1 r3 0"), Err(Refusal::NoSuchEdit));
    // The same patch with unit 1 free, which the text would not say.
    let mut thirteen = swap.clone();
    let free_count = thirteen.len() - 10;
    thirteen.splice(free_count..=free_count, [1, 1]);
    assert_eq!(says(&thirteen, "S s1 r0"), Err(Refusal::FreeDestination));
    assert_eq!(examine(&swap, 1, &[0]), Err(Refusal::NamesNothing));
    assert_eq!(examine(&[], 0, &[0]), Err(Refusal::NotANumber));
    // A word is an edit only if it is that edit's word.
    let good = word("M r1 r0 0");
    assert_eq!(examine(&one, 0, &[good]), Ok(true));
    for wrong in [
        good - 1,
        good + 4,
        good + (1 << 43),
        good + (1 << 63),
        word("S s1 r0") + (1 << 31),
        word("R r1 0") + (1 << 17),
        word("M r1 r0 2"),
        u64::MAX,
    ] {
        assert_eq!(
            examine(&one, 0, &[wrong]),
            Err(Refusal::NoSuchEdit),
            "{wrong}"
        );
    }
}

/// The patches before the one that is examined are tested and not resolved: each number of theirs
/// comes first, 13 and 14 too, and 17 does not.
#[test]
fn behind_another_patch() {
    let swap = plain(0, 1, SWAP);
    // The patch count and the patch, of 11 bytes; all numbers are below 128.
    let (opening, patch) = swap.split_at(swap.len() - 11);
    let ours = words("M s0 r1 1, M r1 r0 0, M r0 s0 1");
    let says = |opening: &[u8], first: &[u8], list: &[u64]| {
        let job = [opening, &[2], first, &patch[1..]].concat();
        let alone = examine_in(1, &job, 1, list);
        let whole = examine(&job, 1, list);
        assert_eq!(whole, alone);
        // The same patch examined itself has the same number.
        if let Err(refusal) = whole {
            assert_eq!(examine(&job, 0, list), Err(refusal));
        }
        whole
    };
    let first = &patch[1..];
    assert_eq!(says(opening, first, &ours), Ok(true));
    assert_eq!(says(opening, first, &ours[1..]), Ok(false));
    // Units 1 and 2 are free, and r1 is a destination.
    let free = |unit| [&[1, unit], &first[1..]].concat();
    assert_eq!(says(opening, &free(2), &ours), Ok(true));
    assert_eq!(
        says(opening, &free(1), &ours),
        Err(Refusal::FreeDestination)
    );
    assert_eq!(says(opening, &free(1), &[0]), Err(Refusal::FreeDestination));
    assert_eq!(
        says(opening, &[0, 1, 0, 1, 1, 0], &ours),
        Err(Refusal::SelfMove)
    );
    // Without an emergency slot the swap would get 17.
    let no_slot = plain(0, 0, SWAP);
    assert!(Resolver::new().answer(1, &no_slot).is_err());
    let through = words("M r2 r1 1, M r1 r0 0, M r0 r2 1");
    assert_eq!(says(&no_slot[..46], first, &through), Ok(false));
    // r0 and r1 have a unit in common, and a value is rebuilt by a class of r0 and r2 that ends
    // in r0: in r1 it cannot be.
    let rebuilt = |first: &str| {
        let text = format!(
            "units 5\nbank b0 slots 2^4 top-level c0 stack c1\nregister r0 bank b0 units 0 1\n\
             register r1 bank b0 units 1 2\nregister r2 bank b0 units 3 4\n\
             class c0 bank b0 with-slots members r0 r1 r2 order r0 r1 r2\n\
             class c1 bank b0 members r0 r1 r2 order r0 r1 r2\n\
             class c2 bank b0 members r0 r2 order r2 r0\nslots 0\nemergency-slots 1\n\
             value v0 bank b0 rebuilt cheaper-than-load by c2\npatch 1\n  rebuild v0 in {first}\n\
             patch 2\n  rebuild v0 in r2\n"
        );
        let mut job = text::to_bytes(&text.replace("in r1", "in r0")).unwrap();
        // The text would not say it: the destination of the first patch.
        let dest = job.len() - 7;
        job[dest] = code(first) as u8;
        job
    };
    let list = words("R r2 0");
    assert_eq!(examine(&rebuilt("r0"), 1, &list), Ok(true));
    let refused = Err(Refusal::EvictsDestination);
    assert_eq!(examine(&rebuilt("r1"), 0, &list), refused);
    assert_eq!(examine(&rebuilt("r1"), 1, &list), refused);
    assert_eq!(examine_in(1, &rebuilt("r1"), 1, &[0]), refused);
}

/// The tables of half a megabyte are on the heap: a thread with a small stack can examine, also
/// in a build that leaves every temporary where it is.
#[test]
fn small_stack() {
    let swap = plain(0, 1, SWAP);
    let list = words("M s0 r1 1, M r1 r0 0, M r0 s0 1");
    let thread = std::thread::Builder::new().stack_size(64 * 1024);
    let examined = thread.spawn(move || {
        let whole = examine(&swap, 0, &list);
        (whole, examine_in(1, &swap, 0, &list[1..]))
    });
    assert_eq!(examined.unwrap().join().unwrap(), (Ok(true), Ok(false)));
}

/// Where a list first goes wrong, printed.
fn fault(job: &[u8], list: &str) -> String {
    assert_eq!(examine(job, 0, &words(list)), Ok(false), "{list}");
    let fault = first_fault(job, 0, &words(list));
    fault.map_or_else(String::new, |fault| fault.to_string())
}

#[test]
fn faults() {
    let swap = plain(0, 1, SWAP);
    assert_eq!(
        fault(&swap, "S s0 r2, M r2 r1 1, M r1 r0 0, M r0 r2 1"),
        "in the end unit 2, of r2, does not hold what it began with"
    );
    assert_eq!(fault(&swap, ""), "in the end r1 does not hold value 0");
    let slots = plain(2, 1, "\n  move v0 from r0 to s0\n  move v1 from r1 to s1\n");
    assert_eq!(
        fault(&slots, "M s0 r1 0, M s1 r0 1"),
        "in the end s0 does not hold value 0"
    );
    assert_eq!(
        fault(&slots, "M s0 r0 0, M s1 s0 1"),
        "edit 2, `M s1 s0 1`, cannot be done: both places are memory"
    );
    let one = plain(1, 1, ONE);
    assert_eq!(
        fault(&one, "M r1 r0 0, S s0 r2"),
        "in the end s0 does not hold what it began with"
    );
    assert_eq!(
        fault(&one, "M r1 r0 0, L r1 s1"),
        "edit 2, `L r1 s1`, cannot be done: what is read may have any number of words"
    );
    assert_eq!(
        fault(&one, "R r1 0"),
        "edit 1, `R r1 0`, cannot be done: the value cannot be rebuilt"
    );
    // Values with one source have one content, also in a chain.
    let chain = "\n  move v0 from r0 to s0\n  move v1 from r1 to s1\n  move v1 from r0 to s2\n";
    assert_eq!(
        fault(&plain(3, 1, chain), "M s0 r1 0, M s1 r0 1, M s2 r2 1"),
        "in the end s2 does not hold value 1"
    );
    // An argument word: an unknown list travels.
    let text = text::from_bytes(&plain(2, 0, &format!(" free 2{ONE}"))).unwrap();
    let text = text
        .replace("units 3\n", "units 4\n")
        .replace(" free 2", " free 3")
        .replace(
            "\nclass c0",
            "\nregister r3 bank b0 memory units 3\nclass c0",
        );
    let word = text::to_bytes(&text).unwrap();
    let parked = "L r3 s0, S s0 r2, M r2 r0 0, M r1 r2 0, L r2 s0, S s0 r3";
    assert_eq!(examine(&word, 0, &words(parked)), Ok(true));
    assert_eq!(first_fault(&word, 0, &words(parked)), None);
    assert_eq!(
        fault(&word, "M r1 r0 0, L r3 s0, S s1 r3"),
        "in the end s1 does not hold what it began with"
    );
    assert_eq!(
        fault(&word, "M r1 r0 0, M r2 r3 0"),
        "edit 2, `M r2 r3 0`, cannot be done: what is read may have any number of words"
    );
    let taken = text::to_bytes(&text.replace(" free 3", "")).unwrap();
    assert_eq!(
        fault(&taken, parked),
        "in the end unit 3, of r3, does not hold what it began with"
    );
    // A register of two units beside those of one.
    let wide = text::to_bytes(
        "units 3\nbank b0 slots 2^3 top-level c0 stack c1\n\
         bank b1 slots 2^3 top-level c2 stack c3\nregister r0 bank b0 units 0\n\
         register r1 bank b1 units 1 2\nclass c0 bank b0 with-slots members r0 order r0\n\
         class c1 bank b0 members r0 order r0\nclass c2 bank b1 with-slots members r1 order r1\n\
         class c3 bank b1 members r1 order r1\nslots 1\nemergency-slots 1\nvalue v0 bank b0\n\
         value v1 bank b1 rebuilt cheaper-than-load by c3\npatch 1\n  move v1 from r1 to s0\n",
    )
    .unwrap();
    assert_eq!(
        fault(&wide, "M s0 r1 1, M r0 s0 1"),
        "edit 2, `M r0 s0 1`, cannot be done: 2 words are read, and the register has 1 unit"
    );
    assert_eq!(
        fault(&wide, "M r1 r0 0"),
        "edit 1, `M r1 r0 0`, cannot be done: 1 word is read, and the register has 2 units"
    );
    assert_eq!(
        fault(&wide, "R s0 1"),
        "edit 1, `R s0 1`, cannot be done: the value cannot be rebuilt there"
    );
    // A word that is no edit, and a patch that there is not.
    assert_eq!(first_fault(&one, 0, &[0]), None);
    assert_eq!(first_fault(&one, 0, &[8 + (1 << 63)]), None);
    assert_eq!(first_fault(&one, 1, &[]), None);
    assert_eq!(first_fault(&[], 0, &[]), None);
}
