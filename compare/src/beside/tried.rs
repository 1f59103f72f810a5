//! One job's function, on which both settings are tried by the judge and by ours (request
//! 02 n).

use std::panic;

use judge::number::Refused;
use judge::prices;
use judge::random::Random;
use judge::reading::beginning;
use judge::tries::{self, Asked, Counts};

use crate::compare::{Difference, Outcome};
use crate::ours::{NOT_TALLIED, Ours, TALLY};

/// Compares what is counted of patches that are drawn, with a seed, a count of patches and
/// prices that the seed decides, in range and not. Of one job in eight the function is given
/// alone.
pub fn compare(ours: &mut Ours, job: &[u8], seed: u64) -> Result<Outcome, Box<Difference>> {
    let mut random = Random::new(seed);
    let asked = asked(&mut random);
    let job = match random.below(8) {
        0 => beginning(job).unwrap_or(job),
        _ => job,
    };
    let wrong = |what: String| {
        Box::new(Difference {
            what: format!("{asked:?}: {what}"),
            judged: String::new(),
            printed: String::new(),
            decoded: String::new(),
        })
    };
    let judged = panic::catch_unwind(|| tries::tried(asked, job).map(|tried| tried.counts));
    let judged = judged.map_err(|_| wrong("the original panics".to_owned()))?;
    let (given, refusal) = ours.try_settings(job, asked);
    let (cells, number) = match &judged {
        Ok(counts) => ([0, 1].map(|at: usize| cells(&counts[at])), 0),
        Err(Refused(number)) => ([[NOT_TALLIED; TALLY]; 2], *number),
    };
    if refusal != number {
        return Err(wrong(format!("refusal {refusal}, of the judge {number}")));
    }
    for (setting, (given, judged)) in (1..).zip(given.iter().zip(&cells)) {
        if let Some(at) = (0..TALLY).find(|&at| given[at] != judged[at]) {
            return Err(wrong(format!(
                "cell {at} at setting {setting} is {}, of the judge {}",
                given[at], judged[at]
            )));
        }
    }
    let counts = judged.unwrap_or_default();
    let edits = counts.iter().flat_map(|counts| counts.edits);
    Ok(Outcome {
        refusal,
        patches: counts.iter().map(|counts| counts.accepted).sum(),
        edits: edits.sum(),
        text: String::new(),
        reached: Default::default(),
        slots_by_size: None,
        priced: None,
    })
}

fn asked(random: &mut Random) -> Asked {
    let seed = match random.below(8) {
        0 => random.below(3) as u32,
        1 => u32::MAX,
        _ => random.next() as u32,
    };
    let patches = match random.below(40) {
        0 => *random.pick(&[0, 1025, 65_537, u64::from(u32::MAX)]),
        1 => random.within(20, 200) as u64,
        _ => random.within(1, 12) as u64,
    };
    Asked {
        seed: seed.into(),
        patches,
        prices: prices::Asked::random(random).prices.map(u64::from),
    }
}

/// Counts as ours has them.
fn cells(counts: &Counts) -> [u64; TALLY] {
    let mut cells = [0; TALLY];
    cells[0] = counts.accepted;
    cells[1..5].copy_from_slice(&counts.edits);
    cells[5] = counts.evictions;
    cells[6] = counts.price;
    cells[7..].copy_from_slice(&counts.refusals);
    cells
}
