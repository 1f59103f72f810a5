//! One job's patches, what ours says that they cost (request 02 e), and which of two of
//! them costs less (02 f).

use std::ops::Range;

use judge::number::Refused;
use judge::prices::{self, Asked, Edge, totals};
use judge::random::Random;

use crate::compare::{self, Difference, Outcome, Way};
use crate::ours::{self, Ours};

/// What was asked about patches.
#[derive(Clone, Default)]
pub struct Priced {
    /// Records given.
    pub edges: u64,
    /// Askings refused by 19, and by 2.
    pub refused: [u64; 2],
    /// The greatest product.
    pub most: u128,
    /// The first list chosen, the second, and neither; and how often both cost the same.
    pub chosen: [u64; 3],
    pub ties: u64,
}

impl Priced {
    pub fn add_all(&mut self, other: &Priced) {
        self.edges += other.edges;
        self.refused[0] += other.refused[0];
        self.refused[1] += other.refused[1];
        self.most = self.most.max(other.most);
        for (count, other) in self.chosen.iter_mut().zip(other.chosen) {
            *count += other;
        }
        self.ties += other.ties;
    }

    fn add(&mut self, judged: Result<Edge, Refused>) {
        match judged {
            Ok(edge) => {
                self.edges += 1;
                self.most = self.most.max(edge.product);
            }
            Err(Refused(19)) => self.refused[0] += 1,
            Err(_) => self.refused[1] += 1,
        }
    }
}

/// Compares the answers to a job at a setting, and then what each of its patches costs,
/// and one before and one behind them, with prices and a run count that the seed
/// decides.
pub fn compare(
    ours: &mut Ours,
    kept_evictions: u32,
    job: &[u8],
    way: Way,
    seed: u64,
) -> Result<Outcome, Box<Difference>> {
    let mut outcome = compare::compare(ours, kept_evictions, job, way)?;
    let (count, _) = ours.answer(kept_evictions, job, None);
    let wrong = |what| {
        Box::new(Difference {
            what,
            judged: outcome.text.clone(),
            printed: outcome.text.clone(),
            decoded: outcome.text.clone(),
        })
    };
    let mut priced = Priced::default();
    let mut random = Random::new(seed);
    for _ in 0..3 {
        let asked = Asked::random(&mut random);
        let totals = totals(&outcome.text, asked.prices);
        let lists = prices(ours, count, &totals, asked, &mut priced).map_err(wrong)?;
        choices(ours, count, &lists, &totals, asked, &mut priced).map_err(wrong)?;
    }
    outcome.priced = Some(priced);
    Ok(outcome)
}

/// Asks for the price of each patch of the last answer, of an answer's words and of
/// edits alone: where the edits of each stand.
fn prices(
    ours: &mut Ours,
    count: usize,
    totals: &[u128],
    asked: Asked,
    priced: &mut Priced,
) -> Result<Vec<Range<usize>>, String> {
    let mut at = 0;
    let mut lists = Vec::new();
    for patch in 0..=totals.len() + 1 {
        let judged = asked.edge(totals, patch);
        let given = ours.price(count, patch, asked);
        same(given, judged).map_err(|what| format!("of patch {patch}, {asked:?}: {what}"))?;
        priced.add(judged);
        if patch == 0 || patch > totals.len() {
            continue;
        }
        let words = ours.words(count).ok_or("fewer words")?;
        let edits = (words[at] / 8 % 65_536) as usize;
        let given = ours.price_edits(at + 1, edits, asked);
        same(given, judged).map_err(|what| format!("of edits of {patch}, {asked:?}: {what}"))?;
        lists.push(at + 1..at + 1 + edits);
        at += 1 + edits;
    }
    Ok(lists)
}

/// Has each patch of the last answer chosen or not beside the next, and beside all words
/// of the answer, whose heads cost nothing.
fn choices(
    ours: &mut Ours,
    count: usize,
    lists: &[Range<usize>],
    totals: &[u128],
    asked: Asked,
    priced: &mut Priced,
) -> Result<(), String> {
    let mut all: Vec<(Range<usize>, u128)> =
        lists.iter().cloned().zip(totals.iter().copied()).collect();
    all.push((0..count, totals.iter().sum()));
    for pair in all
        .windows(2)
        .chain([&[all[all.len() - 1].clone(), all[0].clone()][..]])
    {
        for [(first, cost), (second, other)] in [[&pair[0], &pair[1]], [&pair[1], &pair[0]]] {
            let judged = prices::cheaper(&asked, [first.len(), second.len()], [*cost, *other]);
            let given = ours.cheaper(first.clone(), second.clone(), asked);
            if given != judged {
                return Err(format!(
                    "of words {first:?} and {second:?}, {asked:?}: {given} costs less, of the \
                     judge {judged}"
                ));
            }
            priced.chosen[usize::from(judged.min(3)) - 1] += 1;
            priced.ties += u64::from(judged < 3 && cost == other && first != second);
        }
    }
    Ok(())
}

/// Whether ours' record is the judge's, each number exact, or both are refused and ours
/// sets nothing.
fn same(given: ours::Record, judged: Result<Edge, Refused>) -> Result<(), String> {
    let is_same = match judged {
        Err(Refused(number)) => given == ours::Record::untouched(number),
        Ok(Edge {
            total,
            runs,
            product,
        }) => {
            given.refusal == 0
                && u128::from(given.total) == total
                && is_whole(given.runs, runs)
                && is_whole(given.product, product)
        }
    };
    match is_same {
        true => Ok(()),
        false => Err(format!("{given:?}, of the judge {judged:?}")),
    }
}

/// Whether a float is this whole number, and no other, with a sign that is not minus.
fn is_whole(float: f64, number: u128) -> bool {
    float.is_finite() && float.is_sign_positive() && float.fract() == 0.0 && float as u128 == number
}
