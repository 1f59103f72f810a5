//! How many instructions each side executes, counted by callgrind, which counts
//! inside of the `timed_` functions only and writes a part at each request.

use std::arch::asm;
use std::collections::BTreeMap;
use std::ffi::CString;
use std::fs;

use crate::growth;
use crate::jobs::{self, PATCHES, Row};
use crate::ours::{timed_ours_job, timed_ours_patch};
use crate::pairs::{Memory, Pair};
use crate::theirs::{timed_original_job, timed_original_patch};
use crate::times::HEAD;

/// Callgrind's request to write what was counted since the last one.
const DUMP_STATS_AT: u64 = 0x4354_0003;

/// Ends a part of the counts. Outside of valgrind it does nothing.
fn end_part(name: &str) {
    let name = CString::new(name).expect("a name without a zero");
    let request = [DUMP_STATS_AT, name.as_ptr() as u64, 0, 0, 0, 0];
    // SAFETY: the instructions change nothing, unless valgrind takes them.
    unsafe {
        asm!(
            "rol rdi, 3",
            "rol rdi, 13",
            "rol rdi, 61",
            "rol rdi, 51",
            "xchg rbx, rbx",
            in("rax") request.as_ptr(),
            inout("rdx") 0u64 => _,
        );
    }
}

/// The rows of the times, and those of the growth with fewest and most entries.
fn rows() -> Vec<Row> {
    let mut rows = jobs::rows();
    rows.extend(growth::rows());
    rows
}

/// Runs each row, side and kind as a part of its own.
pub fn count() {
    let mut memory = Memory::new();
    for (index, row) in rows().iter().enumerate() {
        let mut pairs: Vec<Pair> = row.jobs.iter().map(Pair::open).collect();
        for pair in &mut pairs {
            pair.compare_job(&mut memory);
            for _ in 0..3 {
                pair.compare(&mut memory);
            }
        }
        for kind in ["patch", "job"] {
            end_part("rest");
            for pair in &mut pairs {
                count_ours(pair, &mut memory, kind);
            }
            end_part(&format!("{index} {kind} ours"));
            for pair in &mut pairs {
                count_theirs(pair, &mut memory, kind);
            }
            end_part(&format!("{index} {kind} original"));
        }
    }
}

fn count_ours(pair: &mut Pair, memory: &mut Memory, kind: &str) {
    let (job, memory) = (&mut pair.ours, &mut memory.ours);
    if kind == "job" {
        timed_ours_job(job.bytes.as_ptr(), job.bytes.len(), memory);
        return;
    }
    for patch in 0..pair.patches {
        timed_ours_patch(job, memory, patch);
    }
}

fn count_theirs(pair: &mut Pair, memory: &mut Memory, kind: &str) {
    let (job, memory) = (&mut pair.theirs, &mut memory.theirs);
    if kind == "job" {
        timed_original_job(pair.ours.bytes.as_ptr(), pair.ours.bytes.len(), memory);
        return;
    }
    for patch in 0..pair.patches {
        timed_original_patch(job, memory, patch);
    }
}

/// Prints the table of the parts in a folder.
pub fn print(folder: &str) {
    let mut counts = BTreeMap::new();
    for entry in fs::read_dir(folder).expect("a folder of counts") {
        let path = entry.expect("a file of counts").path();
        let text = fs::read_to_string(&path).expect("a file of counts");
        let mut name = None;
        let mut total = None;
        for line in text.lines() {
            if let Some(rest) = line.strip_prefix("desc: Trigger: Client Request: ") {
                name = Some(rest.to_string());
            } else if let Some(rest) = line.strip_prefix("summary: ") {
                total = rest.split(' ').next().and_then(|word| word.parse().ok());
            }
        }
        if let (Some(name), Some(total)) = (name, total) {
            counts.insert(name, (total, path));
        }
    }
    println!(
        "Instructions, on average; of a patch, and of a job (those of the first nine rows have {PATCHES} patches, the others one).\n"
    );
    println!("{HEAD}");
    for (index, row) in rows().iter().enumerate() {
        let kinds = [("patch", row.count()), ("job", row.jobs.len())];
        let cells = kinds.map(|(kind, calls)| {
            let of = |side: &str| {
                let (total, _): &(f64, _) = &counts[&format!("{index} {kind} {side}")];
                total / calls as f64
            };
            let (ours, theirs) = (of("ours"), of("original"));
            format!("{theirs:.0} | {ours:.0} | {:.2}", ours / theirs)
        });
        println!(
            "| {} | {} | {:.1} | {} |",
            row.target,
            row.size,
            row.entries(),
            cells.join(" | ")
        );
    }
    println!("\nThe parts, for callgrind_annotate:");
    for (name, (_, path)) in counts {
        if name != "rest" {
            println!("    {name}: {}", path.display());
        }
    }
}
