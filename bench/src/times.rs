//! The table of times.

use crate::jobs::{self, PATCHES};
use crate::pairs::{Memory, Pair, Taken, time_jobs, time_patches};
use crate::time::{Clock, median, part};

pub const HEAD: &str = "| target | entries | on average | adding and resolving: original | ours | ratio | whole job: original | ours | ratio |
|---|---|---|---|---|---|---|---|---|";

pub fn print() {
    let clock = Clock::new();
    println!("Nanoseconds, medians; of a patch, and of a job of {PATCHES} patches.");
    println!(
        "A timed call that does nothing takes {:.0}, subtracted.\n",
        clock.overhead()
    );
    println!("{HEAD}");
    let mut memory = Memory::new();
    let mut spread = Vec::new();
    for row in jobs::rows() {
        let mut pairs: Vec<Pair> = row.jobs.iter().map(Pair::open).collect();
        for pair in &mut pairs {
            pair.compare_job(&mut memory);
            for _ in 0..3 {
                pair.compare(&mut memory);
            }
        }
        let patches = time_patches(&clock, &mut pairs, &mut memory, 101);
        let jobs = time_jobs(&clock, &pairs, &mut memory, 51);
        for pair in &mut pairs {
            pair.compare(&mut memory);
        }
        println!(
            "| {} | {} | {:.1} | {} | {} |",
            row.target,
            row.size,
            row.entries(),
            cells(&patches),
            cells(&jobs)
        );
        spread.push((row.target, row.size, [patches, jobs]));
    }
    println!(
        "\nRatios patch by patch (job by job): a tenth are below the first, half below the second, nine tenths below the third.\n"
    );
    println!("| target | entries | adding and resolving | whole job |\n|---|---|---|---|");
    for (target, size, taken) in spread {
        let [patches, jobs] = taken.map(|taken| ratios(&taken));
        println!("| {target} | {size} | {patches} | {jobs} |");
    }
}

fn cells(taken: &[Taken]) -> String {
    let ours = median(taken.iter().map(|taken| taken.ours).collect());
    let theirs = median(taken.iter().map(|taken| taken.theirs).collect());
    format!("{theirs:.0} | {ours:.0} | {:.2}", ours / theirs)
}

fn ratios(taken: &[Taken]) -> String {
    let at = |percent| part(taken.iter().map(|taken| taken.ratio()).collect(), percent);
    format!("{:.2}, {:.2}, {:.2}", at(10), at(50), at(90))
}
