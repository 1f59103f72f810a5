//! `parallel-moves try`.

use parallel_moves::{Refusal, Resolver, Tally, try_settings};

use crate::command::{Command, Each, Outcome, Run, located, refused};
use crate::given::{Given, Opt, PRICES};
use crate::jobs::Kind;

const SEED: Opt = Opt {
    name: "--seed",
    value: "SEED",
    needed: true,
    about: "where the draws start, a number below 2^32",
};

const PATCHES: Opt = Opt {
    name: "--patches",
    value: "P",
    needed: true,
    about: "how many are drawn, 1 to 1024",
};

pub const COMMAND: Command = Command {
    name: "try",
    words: "--seed SEED --patches P --prices M,R,S,L [JOB..]",
    options: &[SEED, PATCHES, PRICES],
    about: &[
        "Draws patches of a job's function from a seed, and prints what becomes of them",
        "with one kept eviction and with two, as the program `try_settings` does. JOB may",
        "end behind its function; else its own patches are read, and not resolved.",
    ],
    run: Run::Each(Each {
        kind: Kind::Job,
        writes: "tries",
        run,
    }),
};

fn run(given: &Given, resolver: &mut Resolver, job: &[u8]) -> Outcome {
    let seed = given.number(&SEED, u64::MAX);
    let patches = given.number(&PATCHES, 0);
    let prices = given.prices()?;
    let seed = u32::try_from(seed).map_err(|_| Refusal::NamesNothing)?;
    let tallies = try_settings(job, prices, seed, patches).map_err(|refusal| {
        refused(match refusal {
            Refusal::OutsidePrice => given.outside(&PRICES, refusal),
            _ => located(resolver, 1, job, refusal),
        })
    })?;
    Ok(format!("seed {seed} patches {patches}\n{}", rows(&tallies)).into_bytes())
}

/// The rows of the table that `try_settings` prints.
fn rows(tallies: &[Tally; 2]) -> String {
    let mut rows = String::new();
    let mut row = |label: &str, counts: [u64; 2]| {
        let [one, two] = counts;
        rows += &format!("{label:12}{one:12}{two:12}\n");
    };
    let each = |count: fn(&Tally) -> u64| [count(&tallies[0]), count(&tallies[1])];
    row("kept", [1, 2]);
    row("accepted", each(|tally| tally.accepted));
    row("M", each(|tally| tally.moves));
    row("R", each(|tally| tally.remats));
    row("S", each(|tally| tally.spills));
    row("L", each(|tally| tally.reloads));
    row("evictions", each(|tally| tally.evictions));
    row("price", each(|tally| tally.price));
    let all = tallies.iter().flat_map(|tally| tally.refusals.iter());
    let mut refusals: Vec<Refusal> = all.map(|(refusal, _)| refusal).collect();
    refusals.sort_by_key(|refusal| refusal.number());
    refusals.dedup();
    for refusal in refusals {
        let label = format!("refused {}", refusal.number());
        row(&label, [0, 1].map(|at: usize| tallies[at].refused(refusal)));
    }
    rows
}
