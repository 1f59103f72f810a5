//! The faults, and the judge that has them.

use std::sync::OnceLock;

use judge::answer::Judge;
use judge::number::Refused;
use judge::plain::Slip;

/// The faults, each in some answers only.
const FAULTS: [&str; 74] = [
    "order",        // two edits change places in a patch with four or more
    "place",        // a copy into slot 3 goes to slot 1
    "made",         // a slot too many is counted from the second patch on
    "position",     // a position from 2 on is one too high
    "patch",        // of five patches and more, the last has no answer
    "number",       // 12 for 13
    "accepted",     // bytes left over are accepted
    "sources",      // 21 is not given
    "one-width",    // 4 is document 01's: an argument word is as wide as its bank
    "wide-memory",  // 4 is not given for memory registers of several units
    "text",         // the text of rebuilds is wrong, their words are right
    "words",        // the words of rebuilds are wrong, their text is right
    "little-room",  // no heed is paid to the room that there is
    "setting",      // settings are looked at by their lowest byte
    "setting-last", // 22 comes after the tests of the job
    "one-kept",     // at setting 2 one eviction is kept
    "newer-first",  // and so on: the slips of the rule for kept evictions
    "oldest-reused",
    "by-use",
    "older-too",
    "newer-for-room",
    "overlap-unheeded",
    "one-for-a-place",
    "slot-first",
    "open",         // a function with bytes left over is opened
    "call-number",  // 12 for 13
    "call-order",   // the last two of four edits and more change places
    "call-made",    // a slot too many is counted
    "call-met",     // a position from 2 on is one too high
    "call-told",    // a call refused by 17 tells a position
    "call-list",    // a call refused by 17 writes a word of the list
    "call-cache",   // a call refused by 13 changes the cache
    "call-past",    // a word past the edits is written
    "call-equal",   // 21 is given for equal sources of two values
    "call-last",    // 21 is given only if the entry before is the one overlapped
    "open-setting", // a function is opened at setting 3, as at 2
    "open-bytes",   // 22 comes after the tests of the target and the function
    "call-kept",    // at setting 2 one eviction is kept
    "size-up",      // a diversion's slot is put back one size up
    "not-put-back", // an evicted register's slot is not put back
    "other-size",   // where its stack is empty, a slot is taken from another
    "few-slots",    // a hundred slots are made at most
    "enough-banks", // of the L to plan with: banks of one size count each
    "all-sizes",    // the sizes of all banks of the target count
    "enough-kept",  // it is 129 for each size at setting 2 too
    "enough-over",  // bytes left over are accepted
    "enough-bytes", // 22 comes after the tests of the target and the function
    "write-over",   // of writing: 65,536 bytes are too many
    "write-length", // 2 for the length comes after the numbers of reading
    "write-17",     // 17 is given, as resolving gives it
    "write-12",     // 12 for 13
    "write-21",     // 21 is not given
    "write-left",   // numbers left over are accepted
    "write-18",     // 18 comes before the numbers of reading
    "write-copied", // the bytes that there is room for are written before 18 is given
    "write-past",   // a byte past the job is written
    "price-reload", // of prices: a reload costs what a save does
    "price-range",  // 65,536 is taken for a price
    "price-runs",   // run counts up to 2^28 are taken
    "price-single", // the product is that of single precision
    "price-head",   // a head costs what a move does
    "price-set",    // a refused asking sets the total
    "price-order",  // 2 comes before 19
    "price-number", // the patch behind the last is the last
    "cheaper-tie",  // of two lists: the second where both cost the same
    "cheaper-same", // 19 is not given where one list is the other
    "cheaper-head", // a head costs what a move does
    "try-second",   // of trying: with two kept evictions the counts are those with one
    "try-number",   // patches refused by 21 count as refused by 12
    "try-price",    // 19 comes after the tests of the function
    "try-patches",  // 2 for the patch count comes after the tests of the job
    "try-set",      // a refused asking clears the counts
    "try-alone",    // a function alone is refused by 1
    "try-unread",   // what stands behind a function is not read
];

/// The judge that stands behind the library's place.
pub(super) fn judge(kept_evictions: u32) -> Result<Judge, Refused> {
    let slip = match fault() {
        "newer-first" => Slip::NewerFirst,
        "oldest-reused" => Slip::OldestReused,
        "by-use" => Slip::ByUse,
        "older-too" => Slip::OlderToo,
        "newer-for-room" => Slip::NewerForRoom,
        "overlap-unheeded" => Slip::OverlapUnheeded,
        "one-for-a-place" => Slip::OneForAPlace,
        "slot-first" => Slip::SlotFirst,
        "size-up" => Slip::SizeUp,
        "not-put-back" => Slip::NotPutBack,
        "other-size" => Slip::OtherSize,
        "few-slots" => Slip::FewSlots,
        _ => Slip::None,
    };
    let kept_evictions = match (fault(), kept_evictions) {
        ("one-kept" | "call-kept", 2) => 1,
        ("open-setting", 3) => 2,
        ("setting", _) => kept_evictions % 256,
        _ => kept_evictions,
    };
    Judge::plain(kept_evictions, slip)
}

pub(super) fn fault() -> &'static str {
    static FAULT: OnceLock<&str> = OnceLock::new();
    FAULT.get_or_init(|| match std::env::var("STUB_FAULT") {
        Err(_) => "",
        Ok(wanted) => FAULTS
            .into_iter()
            .find(|fault| *fault == wanted)
            .unwrap_or_else(|| {
                eprintln!("stub: no fault {wanted}");
                std::process::exit(2)
            }),
    })
}
