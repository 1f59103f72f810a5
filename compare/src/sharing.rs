//! Formulas that share a frame, as request 02 l is written: over the rules written a second time,
//! which are asked at each slot whether the formula may make it.

use crate::answer::Judge;
use crate::calls::{Call, Function, LIST_TOO_SHORT, Session, word};
use crate::number::{NAMES_NOTHING, Refused};
use crate::plain::{Part, Plain, Slip};

/// 20: taking an answer too late.
const TAKEN_LATE: Refused = Refused(20);
/// 23: shares above the limit.
const SHARES_ABOVE: Refused = Refused(23);
/// "1 to 16 formulas".
const MOST_FORMULAS: usize = 16;
/// "A common limit of 0 to 2,048 slots".
const MOST_SLOTS: u64 = 2048;

/// A formula as it is given: its setting, its target and function, and its share.
#[derive(Clone)]
pub struct Given {
    pub kept_evictions: u32,
    pub bytes: Vec<u8>,
    pub share: u32,
}

/// What is tested before the first job.
///
/// # Errors
///
/// "Else 2 for either, tested first"; "23, shares above the limit, tested next".
pub fn open_frame(limit: u32, shares: &[u32]) -> Result<(), Refused> {
    if shares.is_empty() || shares.len() > MOST_FORMULAS || u64::from(limit) > MOST_SLOTS {
        return Err(NAMES_NOTHING);
    }
    if shares.iter().map(|&share| u64::from(share)).sum::<u64>() > u64::from(limit) {
        return Err(SHARES_ABOVE);
    }
    Ok(())
}

/// Opens one formula; `first` is the first one's N.
///
/// # Errors
///
/// 22 for its setting, then its job's numbers; another N is 2, when it is read.
pub fn open_formula(given: &Given, first: Option<usize>) -> Result<Function, Refused> {
    Function::open_with(Judge::plain(given.kept_evictions, Slip::None), &given.bytes, first)
}

/// A function's N.
pub fn slots(function: &Function) -> usize {
    function.values.slots
}

/// What a call comes to: the length of the lent list, the words of the edits and the position, and
/// how many slots the formula itself has made then.
pub struct Expected {
    pub room: usize,
    pub outcome: Result<(Vec<u64>, usize), Refused>,
    pub made: usize,
}

/// What an asking leaves to take.
#[derive(Clone)]
pub struct Asked {
    call: Call,
    settled: usize,
    counter: usize,
}

struct Formula<'a> {
    reads: Session<'a>,
    plain: Plain<'a>,
    share: usize,
    /// How many patches it took or resolved.
    settled: usize,
}

/// A frame and its formulas.
pub struct Frame<'a> {
    limit: usize,
    counter: usize,
    formulas: Vec<Formula<'a>>,
}

impl<'a> Frame<'a> {
    pub fn new(limit: u32, formulas: &'a [(Function, u32)]) -> Self {
        let formulas = formulas.iter().map(|(function, share)| {
            let Judge::Plain { kept_evictions, slip } = function.judge else {
                unreachable!("formulas are judged by the rules written a second time");
            };
            Formula {
                reads: Session::new(function),
                plain: Plain::new(&function.target, &function.values, kept_evictions, slip),
                share: *share as usize,
                settled: 0,
            }
        });
        Frame {
            limit: limit as usize,
            counter: 0,
            formulas: formulas.collect(),
        }
    }

    /// How many slots a formula has made.
    pub fn made(&self, formula: usize) -> usize {
        self.formulas[formula].plain.made()
    }

    fn part(&self, of: usize) -> Part {
        let lacks = |formula: &Formula| formula.share.saturating_sub(formula.plain.made());
        let others = self.formulas.iter().enumerate().filter(|&(at, _)| at != of);
        Part {
            counter: self.counter,
            share: self.formulas[of].share,
            others_lack: others.map(|(_, formula)| lacks(formula)).sum(),
            limit: self.limit,
        }
    }

    fn call(&mut self, of: usize, call: &Call, asked: bool) -> (Expected, usize) {
        let part = self.part(of);
        let mut counter = self.counter;
        let formula = &mut self.formulas[of];
        let patch = formula.reads.read(call);
        let room = call.room.length(patch.as_ref().map_or(0, |patch| patch.bound));
        let outcome = patch.and_then(|patch| {
            if room < patch.bound {
                return Err(LIST_TOO_SHORT);
            }
            let (edits, after) = formula.plain.resolve_in(part, &patch, asked)?;
            counter = after;
            let words = edits.into_iter().map(word).collect();
            Ok((words, formula.plain.position))
        });
        let made = match asked {
            true => formula.plain.made() + (counter - self.counter),
            false => formula.plain.made(),
        };
        (Expected { room, outcome, made }, counter)
    }

    pub fn resolve(&mut self, of: usize, call: &Call) -> Expected {
        let (expected, counter) = self.call(of, call, false);
        if expected.outcome.is_ok() {
            self.counter = counter;
            self.formulas[of].settled += 1;
        }
        expected
    }

    pub fn ask(&mut self, of: usize, call: &Call) -> (Expected, Asked) {
        let asked = Asked {
            call: call.clone(),
            settled: self.formulas[of].settled,
            counter: self.counter,
        };
        (self.call(of, call, true).0, asked)
    }

    /// Takes what was asked for, or 20: where the formula took or resolved a patch since, or "also
    /// where another formula made a slot since the asking".
    ///
    /// # Errors
    ///
    /// 20.
    pub fn take(&mut self, of: usize, asked: &Asked) -> Result<Expected, Refused> {
        if asked.settled != self.formulas[of].settled || asked.counter != self.counter {
            return Err(TAKEN_LATE);
        }
        Ok(self.resolve(of, &asked.call.clone()))
    }
}
